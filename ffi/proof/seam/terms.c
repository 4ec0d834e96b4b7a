/* The memory, values and equalities of terms.h. */
#define _DEFAULT_SOURCE
#include "terms.h"
#include <sys/mman.h>

/* A one with zeros behind it, which nobody writes, so that no copy is needed: a number of over 4294967295 octets. The
 * page behind them may not be read. */
enum { PAGE = 65536 };
static void add_far_number(const uint8_t *octets, size_t len);
static const size_t far_len = ((size_t)1 << 32) + PAGE;
static uint8_t *far;

static void map_octets(void) {
    far = mmap(NULL, far_len + PAGE, PROT_READ | PROT_WRITE, MAP_PRIVATE | MAP_ANONYMOUS | MAP_NORESERVE, -1, 0);
    if (far == MAP_FAILED || mprotect(far + far_len, PAGE, PROT_NONE) != 0)
        abort();
    far[0] = 1;
    add_far_number(far, far_len);
}

bool is_far(const void *place) {
    return far != NULL && (uintptr_t)place - (uintptr_t)far < far_len;
}

const void *before_end(size_t size) {
    return far + far_len - size;
}

static struct block {
    _Alignas(integer) struct block *next;
} *blocks;
static const char *called;
unsigned long calls = 1;

void *taken(size_t size) {
    struct block *made = malloc(sizeof *made + size);
    if (made == NULL)
        abort();
    made->next = blocks;
    blocks = made;
    return made + 1;
}

void begin_call(const char *call) {
    static bool tried;
    called = "no call";
    if (!tried) {
        tried = true;
        map_octets();
        try_axioms();
    }
    called = call;
}

void end_call(void) {
    calls++;
    while (blocks != NULL) {
        struct block *next = blocks->next;
        free(blocks);
        blocks = next;
    }
}

void fails(const char *clause, const char *condition) {
    fprintf(stderr, "seam: %s: %s fails: %.300s\n", called, clause, condition);
    abort();
}

void *copy(const void *from, size_t size) {
    void *made = taken(size);
    return size > 0 && from != NULL ? memcpy(made, from, size) : made;
}

void unchanged(const char *name, const void *now, const void *before, integer assigned, size_t size) {
    size_t kept = assigned > 0 ? (size_t)assigned : 0;
    if (kept < size && memcmp((const uint8_t *)now + kept, (const uint8_t *)before + kept, size - kept) != 0)
        fails("assigns", name);
}

uint8_t octet_at(const void *place) {
    return *(const uint8_t *)place;
}

const void *at(const void *base, integer offset) {
    return (const void *)((uintptr_t)base + (uintptr_t)offset);
}

bool is_there(const void *place, integer size) {
    if (size <= 0)
        return true;
    if (place == NULL || (is_far(place) && (uintptr_t)place - (uintptr_t)far + (size_t)size > far_len))
        return false;
    const volatile uint8_t *octets = place;
    return octets[0] + octets[(size_t)size - 1] >= 0;
}

bool are_apart(const void *left, integer left_size, const void *right, integer right_size) {
    integer from = (integer)(uintptr_t)left, other = (integer)(uintptr_t)right;
    return left_size <= 0 || right_size <= 0 || from + left_size <= other || other + right_size <= from;
}

value make(const char *maker, size_t count, const struct part *parts) {
    struct made *made = taken(sizeof *made);
    made->maker = maker;
    made->count = count;
    made->parts = copy(parts, count * sizeof *parts);
    return made;
}

struct part part_of_octets(octets of) {
    return (struct part){of, NULL, 0};
}

struct part part_of_value(value of) {
    return (struct part){{NULL, 0}, of, 0};
}

struct part part_of_integer(integer of) {
    return (struct part){{NULL, 0}, NULL, of};
}

bool equal_octets(octets left, octets right) {
    bool alike = left.len == 0 || left.data == right.data;
    return left.len == right.len && (alike || memcmp(left.data, right.data, left.len) == 0);
}

static bool equal_part(const struct part *left, const struct part *right) {
    if (left->value != NULL || right->value != NULL)
        return left->value != NULL && right->value != NULL && equal_value(left->value, right->value);
    return left->integer == right->integer && equal_octets(left->octets, right->octets);
}

bool equal_value(value left, value right) {
    if (strcmp(left->maker, right->maker) != 0 || left->count != right->count)
        return false;
    for (size_t i = 0; i < left->count; i++)
        if (!equal_part(&left->parts[i], &right->parts[i]))
            return false;
    return true;
}

/* ---- What the axioms are tried with ---- */

const struct pkcs1_bytes another = {(const uint8_t *)"another", 7};

#define NUMBER(text) {(const uint8_t *)(text), sizeof (text) - 1}
static struct memory {
    uint8_t octets[2 * SOME];
    struct pkcs1_other_prime primes[2 * SOME];
} now, states[STATES] = {
    {{1, 2, 3, 3, 2, 1}, {{NUMBER("\3"), NUMBER("\5"), NUMBER("\7")}, {NUMBER("\1"), NUMBER("\1"), NUMBER("\1")}}},
    {{1, 2, 9, 3, 2, 1}, {{NUMBER("\3"), NUMBER("\5"), NUMBER("\x0b")}, {NUMBER("\1"), NUMBER(""), NUMBER("\1")}}},
    {{1, 2, 3, 3, 2, 1}, {{NUMBER("\3"), NUMBER("\5"), NUMBER("")}, {NUMBER("\1"), NUMBER("\1"), NUMBER("\1")}}},
    {{8, 2, 9, 3, 2, 1}, {{NUMBER(""), NUMBER("\5"), NUMBER("\7")}, {NUMBER("\1"), NUMBER("\1"), NUMBER("\1")}}},
};

/* In one state a number of the first prime is empty, and a later one too long. */
static void add_far_number(const uint8_t *octets, size_t len) {
    states[3].primes[0].coefficient = (struct pkcs1_bytes){octets, len};
}

void enter(int state) {
    now = states[state];
}

const uint8_t *some_uint8_ts(int which) {
    return now.octets + which;
}

const struct pkcs1_other_prime *some_pkcs1_other_primes(int which) {
    return now.primes + which;
}

struct pkcs1_other_prime some_pkcs1_other_prime(void) {
    return states[0].primes[0];
}

struct pkcs1_private_key some_pkcs1_private_key(int which) {
    static const struct pkcs1_bytes number = NUMBER("\3"), none = NUMBER("");
    struct pkcs1_private_key key = {number, number, number, number, number, number, number, number, 0};
    key.other_primes = which == 1;
    if (which == 2)
        key.coefficient = none;
    if (which == 3)
        key.modulus = none;
    return key;
}

integer some_integer(int which) {
    return which;
}
