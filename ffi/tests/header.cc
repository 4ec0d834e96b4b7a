// The header compiles as C++ too.
#include "pkcs1.h"
#include <cstddef>

int main() {
    pkcs1_public_key key, zeros{};
    std::size_t len = 0;
    if (pkcs1_public_key_decode(nullptr, 0, &key) != PKCS1_INCOMPLETE)
        return 1;
    if (pkcs1_public_key_encode(&zeros, nullptr, 0, &len) != PKCS1_LENGTH)
        return 1;
    pkcs1_pss_params params;
    pkcs1_pss_params_init(&params, &pkcs1_oid_sha256, 32);
    return pkcs1_pss_params_encode(&params, nullptr, 0, &len) == PKCS1_NO_ROOM && len == 54 ? 0 : 1;
}
