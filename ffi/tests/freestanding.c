/* A program of libpkcs1.a and this alone, without a C library: the four functions that the library asks for, and every
 * kind of call. It ends with 0, or with the line of a check that fails. On WebAssembly `tested` is called for that. */
#include <pkcs1.h>

#define CHECK(c) do { if (!(c)) return __LINE__; } while (0)
#ifdef __x86_64__
__asm__(".globl _start\n_start: andq $-16, %rsp\n call tested\n movl %eax, %edi\n movl $60, %eax\n syscall\n");
#elif defined __arm__
__asm__(".syntax unified\n.thumb\n.thumb_func\n.globl _start\n_start: bl tested\n movs r7, #1\n svc #0\n");
#elif defined __aarch64__
__asm__(".globl _start\n_start: bl tested\n mov x8, #93\n svc #0\n");
#endif

void *memmove(void *to, const void *from, size_t len);
void *memcpy(void *to, const void *from, size_t len);
void *memset(void *to, int octet, size_t len);
int memcmp(const void *left, const void *right, size_t len);
int bcmp(const void *left, const void *right, size_t len); /* clang calls it in place of memcmp */
int tested(void);

void *memmove(void *to, const void *from, size_t len) {
    volatile uint8_t *at = to; /* else a compiler may see that this is memmove, and call it */
    const uint8_t *old = from;
    bool is_behind = (uintptr_t)to > (uintptr_t)from;
    for (size_t i = 0; i < len; i++)
        at[is_behind ? len - 1 - i : i] = old[is_behind ? len - 1 - i : i];
    return to;
}
void *memcpy(void *to, const void *from, size_t len) { return memmove(to, from, len); }
void *memset(void *to, int octet, size_t len) {
    for (volatile uint8_t *at = to; len > 0; at++, len--)
        *at = (uint8_t)octet;
    return to;
}
int memcmp(const void *left, const void *right, size_t len) {
    const uint8_t *a = left, *b = right;
    for (; len > 0 && *a == *b; len--)
        a++, b++;
    return len > 0 ? *a - *b : 0;
}
int bcmp(const void *left, const void *right, size_t len) { return memcmp(left, right, len); }

static struct pkcs1_bytes one = {(const uint8_t *)"\1", 1};
static uint8_t out[256], again[256], wrapped[256];

static int keys(size_t count) {
    struct pkcs1_private_key key = {one, one, one, one, one, one, one, one, count}, read, inner;
    struct pkcs1_other_prime others[3] = {{one, one, one}, {one, one, one}, {one, one, one}}, placed[3];
    struct pkcs1_private_key_info info = {{out, 0}, true, one};
    struct pkcs1_public_key half = {one, one};
    size_t len;
    CHECK(pkcs1_private_key_encode(&key, others, count, NULL, 0, &info.private_key.len) == PKCS1_NO_ROOM);
    CHECK(pkcs1_private_key_encode(&key, others, count, out, sizeof out, &info.private_key.len) == PKCS1_OK);
    CHECK(pkcs1_private_key_decode(out, info.private_key.len, &read, placed, 3) == PKCS1_OK);
    CHECK(read.other_primes == count);
    CHECK(pkcs1_private_key_encode(&read, placed, count, again, sizeof again, &len) == PKCS1_OK);
    CHECK(len == info.private_key.len && memcmp(again, out, len) == 0);
    CHECK(pkcs1_private_key_info_encode(&info, wrapped, sizeof wrapped, &len) == PKCS1_OK);
    CHECK(pkcs1_private_key_info_decode(wrapped, len, &info, &inner, placed, 3) == PKCS1_OK);
    CHECK(inner.other_primes == count);
    CHECK(pkcs1_private_key_info_decode(wrapped, len - 1, &info, &inner, placed, 3) == PKCS1_INCOMPLETE);
    key.coefficient.len = 0;
    CHECK(pkcs1_private_key_encode(&key, others, count, out, sizeof out, &len) == PKCS1_LENGTH);
    CHECK(pkcs1_private_key_encode(&key, others, count + 1, out, sizeof out, &len) == PKCS1_OTHER_PRIMES);
    CHECK(pkcs1_public_key_encode(&half, out, sizeof out, &len) == PKCS1_OK);
    CHECK(pkcs1_public_key_decode(out, len, &half) == PKCS1_OK && pkcs1_bit_len(half.modulus) == 1);
    return 0;
}

static int params(void) {
    struct pkcs1_pss_params pss;
    struct pkcs1_oaep_params oaep;
    size_t len;
    pkcs1_pss_params_init(&pss, &pkcs1_oid_sha256, 32);
    CHECK(pkcs1_pss_params_encode(&pss, out, sizeof out, &len) == PKCS1_OK);
    CHECK(pkcs1_pss_params_decode_strict(out, len, &pss) == PKCS1_OK && pkcs1_pss_is(&pss, &pkcs1_oid_sha256));
    CHECK(pkcs1_algorithm_is(&pss.hash, &pkcs1_oid_sha256) && pkcs1_oid_equal(&pss.mask_gen.oid, &pkcs1_oid_mgf1));
    CHECK(pkcs1_algorithm_is_same_hash(&pss.hash, &pss.mask_gen.hash) && pkcs1_pss_means_same(&pss, &pss));
    CHECK(pkcs1_pss_algorithm_decode(out, len, &pss) == PKCS1_TAG_UNEXPECTED);
    pkcs1_oaep_params_init(&oaep, &pkcs1_oid_sha512, one.data, one.len);
    CHECK(pkcs1_oaep_algorithm_encode(&oaep, out, sizeof out, &len) == PKCS1_OK);
    CHECK(pkcs1_oaep_algorithm_decode(out, len, &oaep) == PKCS1_OK && pkcs1_oaep_is(&oaep, &pkcs1_oid_sha512));
    CHECK(pkcs1_oaep_means_same(&oaep, &oaep));
    CHECK(pkcs1_oaep_label(&oaep, &one) && one.len == 1 && *one.data == 1 && *pkcs1_strerror(PKCS1_OK) == 'n');
    return 0;
}

__attribute__((used)) int tested(void) {
    static const size_t counts[] = {0, 1, 3};
    int line = params();
    for (size_t i = 0; i < 3 && line == 0; i++)
        line = keys(counts[i]);
    return line;
}
