/* Linked with --wrap between test.c and the calls of pkcs1.h. Prints the most octets of stack that a call took which
 * decodes, and that one took which encodes. */
#include "painted.h"
#include "test.h"

static struct left left;
static size_t most_to_decode, most_to_encode;

/* Defines what is called in place of `call`. */
#define WRAP(most, call, parameters, ...)                                                                             \
    uint32_t __real_##call parameters;                                                                                \
    uint32_t __wrap_##call parameters;                                                                                \
    uint32_t __wrap_##call parameters {                                                                               \
        const uint64_t arguments[6] = {__VA_ARGS__};                                                                  \
        uint32_t status = on_painted_stack(&left, (void (*)(void))__real_##call, arguments);                          \
        if (stack_taken(&left) > most)                                                                                \
            most = stack_taken(&left);                                                                                \
        return status;                                                                                                \
    }
#define AT(pointer) (uintptr_t)(pointer)
#define DECODE(word, kind, call, type, part)                                                                          \
    WRAP(most_to_decode, pkcs1_##call, (const uint8_t *der, size_t der_len, struct pkcs1_##type *read), AT(der),      \
         der_len, AT(read))
#define ENCODE(word, call, type, part)                                                                                \
    WRAP(most_to_encode, pkcs1_##call,                                                                                \
         (const struct pkcs1_##type *given, uint8_t *out, size_t room, size_t *len), AT(given), AT(out), room, AT(len))

DECODERS(DECODE)
ENCODERS(ENCODE)
WRAP(most_to_decode, pkcs1_private_key_decode,
     (const uint8_t *der, size_t der_len, struct pkcs1_private_key *key, struct pkcs1_other_prime *others,
      size_t others_room),
     AT(der), der_len, AT(key), AT(others), others_room)
WRAP(most_to_encode, pkcs1_private_key_encode,
     (const struct pkcs1_private_key *key, const struct pkcs1_other_prime *others, size_t others_len, uint8_t *out,
      size_t room, size_t *len),
     AT(key), AT(others), others_len, AT(out), room, AT(len))
WRAP(most_to_decode, pkcs1_private_key_info_decode,
     (const uint8_t *der, size_t der_len, struct pkcs1_private_key_info *info, struct pkcs1_private_key *key,
      struct pkcs1_other_prime *others, size_t others_room),
     AT(der), der_len, AT(info), AT(key), AT(others), others_room)

__attribute__((destructor)) static void told(void) {
    printf("stack %zu %zu\n", most_to_decode, most_to_encode);
}
