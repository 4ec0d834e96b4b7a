/* What seam.py takes as given: the words of ffi/proof/pkcs1.acsl.h of which nothing else is known there. */
#ifndef TERMS_H
#define TERMS_H

#include "kinds.h"
#include "pkcs1_c.h"
#include "test.h"
#include <string.h>

/* Long enough for each sum of lengths, and below 0. */
__extension__ typedef __int128 integer;

/* A copy of octets. */
typedef struct octets {
    const uint8_t *data;
    size_t len;
} octets;

/* A value: how it was made, and of what. */
typedef const struct made *value;
struct part {
    octets octets;
    value value;
    integer integer;
};
struct made {
    const char *maker;
    size_t count;
    const struct part *parts;
};
value make(const char *maker, size_t count, const struct part *parts);
struct part part_of_octets(octets of);
struct part part_of_value(value of);
struct part part_of_integer(integer of);
bool equal_octets(octets left, octets right);
bool equal_value(value left, value right);

/* Memory that is free again behind the call, and how many calls there were. */
void *taken(size_t size);
extern unsigned long calls;
void begin_call(const char *call);
void end_call(void);

#define HOLDS(clause, condition) ((condition) ? (void)0 : fails(clause, #condition))
_Noreturn void fails(const char *clause, const char *condition);
void *copy(const void *from, size_t size);
/* Only the first octets may be assigned. */
void unchanged(const char *name, const void *now, const void *before, integer assigned, size_t size);
uint8_t octet_at(const void *place);
const void *at(const void *base, integer offset);
/* So many octets that end where no memory is behind them. Of those that are far none may be written. */
const void *before_end(size_t size);
bool is_far(const void *place);
bool is_there(const void *place, integer size);
bool are_apart(const void *left, integer left_size, const void *right, integer right_size);

/* What the axioms are tried with: states of a small memory, places in it, and numbers. */
enum { STATES = 4, SOME = 4 };
void enter(int state);
const uint8_t *some_uint8_ts(int which);
const struct pkcs1_other_prime *some_pkcs1_other_primes(int which);
struct pkcs1_private_key some_pkcs1_private_key(int which);
integer some_integer(int which);
struct pkcs1_other_prime some_pkcs1_other_prime(void);
extern const struct pkcs1_bytes another;
void try_axioms(void);

/* The encoding of a value in the fewest octets, or why there is none. */
struct written {
    uint32_t status;
    octets octets;
};
struct written write_value(integer kind, value of);

#endif
