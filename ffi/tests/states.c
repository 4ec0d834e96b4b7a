/* Tests the calls of pkcs1.h on parameters in each state that a caller may give. What stands after a false flag was never
 * set, so that valgrind reports it if it is read, or holds other octets than 0: no call does anything else then. */
#include "test.h"
#include <string.h>

static const struct pkcs1_bytes null = {NULL, 0}, empty = {(const uint8_t *)"", 0}, one = {(const uint8_t *)"\1", 1};

/* What the parameters of an algorithm may be. Those of a hash function are the first three. */
enum parameters { ABSENT, EMPTY, EMPTY_AT_NULL, OF_ANOTHER_TAG, TOO_LONG, STATES };

/* What is given: two hash functions, and a mask generation function. */
struct given {
    const struct pkcs1_bytes *hash, *mask_gen, *mask_hash;
    enum parameters parameters, mask_parameters;
    bool has_hash;
};
enum { GIVEN = 2 * 2 * 2 * STATES * STATES * 2 };

/* Takes one of so many choices from the number. */
static size_t choice(size_t *number, size_t count) {
    size_t taken = *number % count;
    *number /= count;
    return taken;
}

/* The given of this number. */
static struct given given(size_t number) {
    static const struct pkcs1_bytes *const hashes[] = {&pkcs1_oid_sha256, &pkcs1_oid_sha384};
    static const struct pkcs1_bytes *const mask_gens[] = {&pkcs1_oid_mgf1, &pkcs1_oid_p_specified};
    struct given it;
    it.hash = hashes[choice(&number, 2)];
    it.mask_gen = mask_gens[choice(&number, 2)];
    it.mask_hash = hashes[choice(&number, 2)];
    it.parameters = (enum parameters)choice(&number, STATES);
    it.mask_parameters = (enum parameters)choice(&number, STATES);
    it.has_hash = choice(&number, 2) == 1;
    return it;
}

/* Whether both places use the hash function, by what RFC 8017 says of them. */
static bool uses(const struct given *it, const struct pkcs1_bytes *hash) {
    return it->hash == hash && it->parameters <= EMPTY_AT_NULL && it->mask_gen == &pkcs1_oid_mgf1 && it->has_hash &&
           it->mask_hash == hash && it->mask_parameters <= EMPTY_AT_NULL;
}

static void put_algorithm(struct pkcs1_algorithm *to, const struct pkcs1_bytes *oid, enum parameters parameters) {
    to->oid = *oid;
    to->has_parameters = parameters != ABSENT;
    if (parameters == ABSENT)
        return;
    to->tag = parameters == OF_ANOTHER_TAG ? 4 : 5;
    to->parameters = parameters == TOO_LONG ? one : parameters == EMPTY_AT_NULL ? null : empty;
}

static void put_both(const struct given *it, struct pkcs1_algorithm *hash, struct pkcs1_mask_gen *mask_gen) {
    put_algorithm(hash, it->hash, it->parameters);
    mask_gen->oid = *it->mask_gen;
    mask_gen->has_hash = it->has_hash;
    if (it->has_hash)
        put_algorithm(&mask_gen->hash, it->mask_hash, it->mask_parameters);
}

/* Parameters in fresh room, of which each octet that nobody sets is 0xa5 or, if that is what is asked for, unset. */
static union value *made(const char *kind, const struct given *it, bool unset) {
    union value *value = unset ? malloc(sizeof *value) : filled(sizeof *value);
    CHECK(value != NULL);
    if (strcmp(kind, "pss") == 0) {
        put_both(it, &value->pss.hash, &value->pss.mask_gen);
        value->pss.salt_len = 32;
        value->pss.trailer_field = 1;
    } else {
        put_both(it, &value->oaep.hash, &value->oaep.mask_gen);
        put_algorithm(&value->oaep.p_source, &pkcs1_oid_p_specified, it->mask_parameters);
    }
    return value;
}

/* Both are written as the same octets. */
static void written_alike(const char *kind, const union value *left, const union value *right) {
    uint8_t out[128], other[128];
    size_t len = 0, other_len = 0;
    CHECK(write_row(kind, left, out, sizeof out, &len) == PKCS1_OK && len > 0);
    CHECK(write_row(kind, right, other, sizeof other, &other_len) == PKCS1_OK && other_len == len);
    CHECK(memcmp(out, other, len) == 0);
}

static void try_pss(const struct given *it) {
    union value *unset = made("pss", it, true), *other = made("pss", it, false);
    CHECK(pkcs1_pss_is(&unset->pss, &pkcs1_oid_sha256) == uses(it, &pkcs1_oid_sha256));
    CHECK(pkcs1_pss_is(&other->pss, &pkcs1_oid_sha384) == uses(it, &pkcs1_oid_sha384));
    CHECK(pkcs1_algorithm_is(&unset->pss.hash, it->hash) == (it->parameters <= EMPTY_AT_NULL));
    CHECK(pkcs1_algorithm_is_same_hash(&unset->pss.hash, &other->pss.hash));
    CHECK(pkcs1_pss_means_same(&unset->pss, &other->pss));
    written_alike("pss", unset, other);
    written_alike("pss-algorithm", unset, other);
    free(unset);
    free(other);
}

static void try_oaep(const struct given *it) {
    union value *unset = made("oaep", it, true), *other = made("oaep", it, false);
    struct pkcs1_bytes label;
    CHECK(pkcs1_oaep_is(&unset->oaep, &pkcs1_oid_sha256) == uses(it, &pkcs1_oid_sha256));
    CHECK(pkcs1_oaep_is(&other->oaep, &pkcs1_oid_sha384) == uses(it, &pkcs1_oid_sha384));
    CHECK(pkcs1_oaep_means_same(&unset->oaep, &other->oaep));
    CHECK(pkcs1_oaep_label(&unset->oaep, &label) == (it->mask_parameters == OF_ANOTHER_TAG));
    written_alike("oaep", unset, other);
    written_alike("oaep-algorithm", unset, other);
    free(unset);
    free(other);
}

/* A container without attributes. */
static void try_container(void) {
    static const uint8_t key[] = {0x30, 27, 2, 1, 0, 2, 1, 1, 2, 1, 2, 2, 1, 3, 2, 1, 4, 2, 1, 5, 2, 1, 6, 2, 1, 7, 2, 1, 8};
    union value *unset = malloc(sizeof *unset), *other = filled(sizeof *other);
    CHECK(unset != NULL);
    unset->priv.info.private_key = other->priv.info.private_key = (struct pkcs1_bytes){key, sizeof key};
    unset->priv.info.has_attributes = other->priv.info.has_attributes = false;
    written_alike("info", unset, other);
    free(unset);
    free(other);
}

int main(void) {
    for (size_t i = 0; i < GIVEN; i++) {
        struct given it = given(i);
        try_pss(&it);
        try_oaep(&it);
    }
    try_container();
    puts("states: ok");
    return 0;
}
