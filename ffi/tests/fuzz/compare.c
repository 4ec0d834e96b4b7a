#include "elements.h"
#include <string.h>

bool same(struct pkcs1_bytes got, struct pkcs1_bytes want, struct pkcs1_bytes input) {
    uintptr_t before = (uintptr_t)want.data - (uintptr_t)input.data;
    if (got.data == NULL || got.len != want.len || (got.len > 0 && memcmp(got.data, want.data, got.len) != 0))
        return false;
    return before > input.len || got.data == want.data;
}

bool same_algorithm(const struct pkcs1_algorithm *got, const struct pkcs1_algorithm *want,
                    struct pkcs1_bytes input) {
    return same(got->oid, want->oid, input) && got->has_parameters == want->has_parameters && got->tag == want->tag &&
           same(got->parameters, want->parameters, input);
}

bool same_mask_gen(const struct pkcs1_mask_gen *got, const struct pkcs1_mask_gen *want, struct pkcs1_bytes input) {
    return same(got->oid, want->oid, input) && got->has_hash == want->has_hash &&
           same_algorithm(&got->hash, &want->hash, input);
}

bool same_value(const char *kind, const union value *got, const union value *want, struct pkcs1_bytes input) {
    bool is_info = strcmp(kind, "info") == 0;
    const struct pkcs1_bytes *field;
    if (strcmp(kind, "priv") == 0 && got->priv.key.other_primes != want->priv.key.other_primes)
        return false;
    for (size_t i = 0, j = 0; (field = next_field(kind, want, &i)) != NULL;)
        if (!same(*next_field(kind, got, &j), *field, input))
            return false;
    if (is_info && got->priv.info.has_attributes != want->priv.info.has_attributes)
        return false;
    if (strncmp(kind, "pss", 3) == 0)
        return same_algorithm(&got->pss.hash, &want->pss.hash, input) &&
               same_mask_gen(&got->pss.mask_gen, &want->pss.mask_gen, input) &&
               got->pss.salt_len == want->pss.salt_len && got->pss.trailer_field == want->pss.trailer_field;
    if (strncmp(kind, "oaep", 4) == 0)
        return same_algorithm(&got->oaep.hash, &want->oaep.hash, input) &&
               same_mask_gen(&got->oaep.mask_gen, &want->oaep.mask_gen, input) &&
               same_algorithm(&got->oaep.p_source, &want->oaep.p_source, input);
    return !is_info || same_value("priv", got, want, input);
}
