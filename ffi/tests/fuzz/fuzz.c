/* A target for libFuzzer: the first octet of an input chooses a decoder, which reads the others. What it returns and
 * fills is what the reference reads, its pointers lie where they stand in the input, and what is written again is the
 * shortest encoding. The input ends where no octet can be read, and so does what is written to. */
#define _DEFAULT_SOURCE
#include "pkcs1_c.h"
#include "reference.h"
#include <string.h>
#include <sys/mman.h>

enum { MOST = 1 << 16, PAGE = 1 << 16 };
static struct pkcs1_bytes input;

int LLVMFuzzerTestOneInput(const uint8_t *data, size_t size);

#define HOLDS(c)                                                               \
    do {                                                                       \
        if (!(c)) {                                                            \
            fprintf(stderr, "%s:%d: %s: %s\n", __FILE__, __LINE__, kind, #c); \
            abort();                                                           \
        }                                                                      \
    } while (0)

/* So many octets, behind which none can be read or written. */
static uint8_t *at_the_end(uint8_t **area, size_t len) {
    if (*area == NULL) {
        *area = mmap(NULL, MOST + PAGE, PROT_READ | PROT_WRITE, MAP_PRIVATE | MAP_ANONYMOUS, -1, 0);
        if (*area == MAP_FAILED || mprotect(*area + MOST, PAGE, PROT_NONE) != 0)
            abort();
    }
    return *area + MOST - len;
}

/* Written with too little room, then with just enough: the same octets, but for parameters with explicit defaults. */
static void write_again(const char *kind, const union value *value) {
    static uint8_t *area;
    bool may_be_longer = strncmp(kind, "pss", 3) == 0 || strncmp(kind, "oaep", 4) == 0;
    size_t need = 0, len = 0;
    HOLDS(write_row(kind, value, NULL, 0, &need) == PKCS1_NO_ROOM && need <= input.len);
    uint8_t *out = at_the_end(&area, need);
    memset(out, 0x5a, need);
    HOLDS(write_row(kind, value, out + 1, need - 1, &len) == PKCS1_NO_ROOM && len == need && out[1] == 0x5a);
    HOLDS(write_row(kind, value, out, need, &len) == PKCS1_OK && len == need);
    if (!may_be_longer || strstr(kind, "-strict") != NULL)
        HOLDS(need == input.len && memcmp(out, input.data, need) == 0);
}

/* Asks what can be asked of parameters. The answers are looked at behind the proved calls. */
static void ask(const char *kind, const union value *value) {
    struct pkcs1_bytes label;
    const struct pkcs1_bytes *hash = &value->pss.hash.oid;
    union value other = *value;
    if (strncmp(kind, "pss", 3) == 0) {
        other.pss.hash = value->pss.mask_gen.hash;
        pkcs1_pss_is(&value->pss, hash);
        pkcs1_algorithm_is_same_hash(&value->pss.hash, &other.pss.hash);
        pkcs1_pss_means_same(&value->pss, &other.pss);
    } else if (strncmp(kind, "oaep", 4) == 0) {
        other.oaep.mask_gen.hash = value->oaep.hash;
        if (pkcs1_oaep_label(&value->oaep, &label))
            pkcs1_oaep_is(&value->oaep, hash);
        pkcs1_oaep_means_same(&value->oaep, &other.oaep);
    } else {
        pkcs1_bit_len(value->key.modulus);
    }
}

/* The input taken for a list of primes, with room behind them. */
static void place(void) {
    enum { ROOM = 5 };
    const struct pkcs1_bytes none = {(const uint8_t *)"", 0};
    struct pkcs1_other_prime others[ROOM];
    for (size_t i = 0; i < ROOM; i++)
        others[i] = (struct pkcs1_other_prime){none, none, none};
    pkcs1_c_other_primes(input.data, input.len, others, ROOM);
}

int LLVMFuzzerTestOneInput(const uint8_t *data, size_t size) {
    static uint8_t *area;
    static const union value untouched;
    if (size == 0 || size > MOST)
        return 0;
    const char *kind = kinds[data[0] % KINDS];
    uint8_t *der = at_the_end(&area, size - 1);
    union value got, want;
    memcpy(der, data + 1, size - 1);
    input.data = der;
    input.len = size - 1;
    memset(&got, 0, sizeof got);
    memset(&want, 0, sizeof want);
    uint32_t status = read_row(kind, der, size - 1, &got), expected = reference(kind, der, size - 1, &want);
    if (status != expected)
        fprintf(stderr, "%s: status %u, and the reference %u\n", kind, (unsigned)status, (unsigned)expected);
    HOLDS(status == expected);
    place();
    if (status != PKCS1_OK) {
        HOLDS(memcmp(&got, &untouched, sizeof got) == 0);
        return 0;
    }
    HOLDS(same_value(kind, &got, &want, input));
    ask(kind, &got);
    if (strcmp(kind, "priv") != 0 || got.priv.key.other_primes <= LISTED)
        write_again(kind, &got);
    return 0;
}
