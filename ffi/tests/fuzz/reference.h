/* A second reader, written from the standards and from the order of faults in docs/USING.md, and from nothing of the
 * library. It is slow and plain. */
#ifndef REFERENCE_H
#define REFERENCE_H

#include "../test.h"

/* Reads as read_row does. After an error what `v` holds means nothing. What a default has points into the library. */
uint32_t reference(const char *kind, const uint8_t *der, size_t len, union value *v);

/* Whether these octets encode other primes, one behind the other, how many they are, and the first of them. */
bool reads_primes(const uint8_t *list, size_t len, struct pkcs1_other_prime *primes, size_t room, size_t *count);

bool is_tag(uint8_t octet);
bool is_identifier(const uint8_t *data, size_t len);

/* Whether both are of one value, and point to the same places if those are in the input. */
bool same_value(const char *kind, const union value *got, const union value *want, struct pkcs1_bytes input);

#endif
