/* The elements of which the second reader's types are made. */
#ifndef ELEMENTS_H
#define ELEMENTS_H

#include "reference.h"

/* Octets that are left to be read. */
struct octets {
    const uint8_t *at;
    size_t left;
};

#define TRY(call)                     \
    do {                              \
        uint32_t tried = (call);      \
        if (tried != PKCS1_OK)        \
            return tried;             \
    } while (0)

/* All that is left. */
struct pkcs1_bytes all(struct octets from);

/* Whether nothing is left. */
uint32_t at_end(struct octets from);

/* An encoding, or one with this tag. */
uint32_t any(struct octets *from, uint8_t *tag, struct octets *contents);
uint32_t tagged(struct octets *from, uint8_t tag, struct octets *contents);
bool begins_with(struct octets from, uint8_t tag);

/* An INTEGER from 0 on, without its sign octet, and one below 256. */
uint32_t number(struct octets *from, struct pkcs1_bytes *read);
uint32_t octet(struct octets *from, uint8_t *read);
uint32_t identifier(struct octets *from, struct pkcs1_bytes *read);

/* Whether both have the same octets, and at the same place if `want` stands in the input. */
bool same(struct pkcs1_bytes got, struct pkcs1_bytes want, struct pkcs1_bytes input);
bool same_algorithm(const struct pkcs1_algorithm *got, const struct pkcs1_algorithm *want, struct pkcs1_bytes input);
bool same_mask_gen(const struct pkcs1_mask_gen *got, const struct pkcs1_mask_gen *want, struct pkcs1_bytes input);

#endif
