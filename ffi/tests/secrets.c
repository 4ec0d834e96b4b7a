/* What the calls do with the secret numbers of private keys. Not secret are their lengths, and which first octets are
 * 128 or more, as the lengths of their encodings show it.
 *
 *     secrets KEYS traces                   leaves anything of them a trace elsewhere than in `out`? The calls are made
 *                                           twice, with keys that differ in each octet of a secret number behind the
 *                                           first. Stack, registers and what is filled have to be the same.
 *     valgrind secrets KEYS path            does the path depend on them? The same octets are undefined, and memcheck
 *                                           tells each branch and each address that depends on them.
 *     valgrind --tool=callgrind secrets KEYS first_octets
 *                                           dumps how many instructions the calls take with other first octets.
 *
 * KEYS is the folder of the keys that OpenSSL made, ffi/tests/keys. Linked with --wrap for memcpy and memmove. */
#include "painted.h"
#include "pkcs1.h"
#include "test.h"
#include <string.h>
#include <valgrind/callgrind.h>
#include <valgrind/memcheck.h>

enum { ROOM = 2048, OTHERS = 1 };

/* A private key, in a container or alone, and where the calls write it. */
static const char *name;
static bool in_container;
static uint8_t der[ROOM], out[ROOM];
static size_t der_len;

/* What else they fill. */
struct filled {
    struct pkcs1_private_key_info info;
    struct pkcs1_private_key key;
    struct pkcs1_other_prime others[OTHERS];
    size_t len;
};
static struct filled filled_in;

/* The C library's own may leave octets in registers. No octet is ever in one here. */
void *__wrap_memcpy(void *to, const void *from, size_t len);
void *__wrap_memmove(void *to, const void *from, size_t len);
void *__wrap_memcpy(void *to, const void *from, size_t len) {
    void *at = to;
    __asm__ volatile("rep movsb" : "+D"(at), "+S"(from), "+c"(len) : : "memory");
    return to;
}
void *__wrap_memmove(void *to, const void *from, size_t len) {
    uint8_t *at = (uint8_t *)to + len - 1;
    const uint8_t *old = (const uint8_t *)from + len - 1;
    if ((uintptr_t)to <= (uintptr_t)from)
        return __wrap_memcpy(to, from, len);
    __asm__ volatile("std\n rep movsb\n cld" : "+D"(at), "+S"(old), "+c"(len) : : "memory");
    return to;
}

static uint32_t decode(size_t len) {
    struct filled *to = &filled_in;
    return in_container ? pkcs1_private_key_info_decode(der, len, &to->info, &to->key, to->others, OTHERS)
                        : pkcs1_private_key_decode(der, len, &to->key, to->others, OTHERS);
}
static uint32_t encode(size_t room) {
    struct filled *of = &filled_in;
    return in_container ? pkcs1_private_key_info_encode(&of->info, out, room, &of->len)
                        : pkcs1_private_key_encode(&of->key, of->others, of->key.other_primes, out, room, &of->len);
}

/* What is done to the octets of a number behind the first. */
static void invert(uint8_t *octets, size_t len) {
    for (size_t i = 0; i < len; i++)
        octets[i] = (uint8_t)~octets[i];
}
static void hide(uint8_t *octets, size_t len) {
    VALGRIND_MAKE_MEM_UNDEFINED(octets, len);
}
static void show(uint8_t *octets, size_t len) {
    VALGRIND_MAKE_MEM_DEFINED(octets, len);
}
static void count(uint8_t *octets, size_t len) {
    static const uint8_t firsts[2][4] = {{1, 2, 64, 127}, {128, 129, 192, 255}};
    uint8_t *first = octets - 1, was = *first;
    (void)len;
    for (size_t i = 0; i < 4; i++) {
        *first = firsts[was >= 128][i];
        CALLGRIND_ZERO_STATS;
        CALLGRIND_TOGGLE_COLLECT;
        uint32_t status = decode(der_len) | encode(sizeof out);
        CALLGRIND_TOGGLE_COLLECT;
        CALLGRIND_DUMP_STATS_AT(name);
        CHECK(status == PKCS1_OK && memcmp(out, der, der_len) == 0);
    }
    *first = was;
}
/* Does this to each secret number in `der`. */
static void to_secrets(const struct filled *places, void (*change)(uint8_t *octets, size_t len)) {
    const struct pkcs1_private_key *key = &places->key;
    const struct pkcs1_other_prime *other = places->others;
    const struct pkcs1_bytes numbers[] = {key->private_exponent, key->prime1, key->prime2, key->exponent1,
                                          key->exponent2, key->coefficient, other->prime, other->exponent,
                                          other->coefficient};
    for (size_t i = 0; i < (key->other_primes > 0 ? 9 : 6); i++) {
        CHECK(numbers[i].len > 64);
        change(der + (numbers[i].data - der) + 1, numbers[i].len - 1);
    }
}

/* Makes the call twice, with keys that differ. All that it leaves is the same. */
static void leaves_nothing(const struct filled *places, uint32_t (*call)(size_t size), size_t size, uint32_t want) {
    static struct left left, left_first;
    static struct filled filled_first;
    const struct filled before = filled_in;
    for (size_t i = 0; i < 2; i++) {
        filled_in = before;
        CHECK(on_painted_stack(&left, (void (*)(void))call, (const uint64_t[6]){size}) == want);
        CHECK(call == decode || want != PKCS1_OK || memcmp(out, der, der_len) == 0);
        to_secrets(places, invert);
        if (i == 0)
            left_first = left, filled_first = filled_in;
    }
    CHECK(memcmp(&filled_in, &filled_first, sizeof filled_in) == 0);
    CHECK(memcmp(&left, &left_first, sizeof left) == 0);
}
static void try_traces(const struct filled *places) {
    leaves_nothing(places, decode, der_len, PKCS1_OK);
    leaves_nothing(places, decode, der_len - 1, PKCS1_INCOMPLETE);
    leaves_nothing(places, encode, sizeof out, PKCS1_OK);
    leaves_nothing(places, encode, der_len - 1, PKCS1_NO_ROOM);
}

/* The status and what is filled are defined too: they would depend on the octets, else. */
static void try_path(const struct filled *places) {
    to_secrets(places, hide);
    CHECK(decode(der_len) == PKCS1_OK && VALGRIND_CHECK_MEM_IS_DEFINED(&filled_in.key, sizeof filled_in.key) == 0);
    CHECK(encode(sizeof out) == PKCS1_OK && filled_in.len == der_len);
    to_secrets(places, show);
    show(out, der_len);
    CHECK(memcmp(out, der, der_len) == 0);
}

static void try_first_octets(const struct filled *places) {
    to_secrets(places, count);
}

static void try_key(const char *keys, void (*tried)(const struct filled *places)) {
    char path[4096];
    snprintf(path, sizeof path, "%s/%s", keys, name);
    FILE *file = fopen(path, "rb");
    CHECK(file != NULL);
    der_len = fread(der, 1, sizeof der, file);
    fclose(file);
    in_container = strncmp(name, "p8", 2) == 0;
    CHECK(decode(der_len) == PKCS1_OK);
    const struct filled places = filled_in;
    tried(&places);
}

int main(int argc, char **argv) {
    static const char *const names[] = {"priv2.der", "priv3.der", "p8_2.der", "p8_3.der"};
    static const struct { const char *word; void (*tried)(const struct filled *places); } tests[] = {
        {"traces", try_traces}, {"path", try_path}, {"first_octets", try_first_octets}};
    size_t test = 0;
    CHECK(argc == 3);
    while (test < 2 && strcmp(tests[test].word, argv[2]) != 0)
        test++;
    CHECK(test == 0 || RUNNING_ON_VALGRIND);
    for (size_t i = 0; i < sizeof names / sizeof names[0]; i++) {
        name = names[i];
        try_key(argv[1], tests[test].tried);
    }
    return 0;
}
