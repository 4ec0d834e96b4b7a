/* The worked rows whose word is a kind. Decoding has the status that follows from a row, and the second reader's, which
 * reads the same values at the same places. An error leaves the struct unchanged, as does each beginning of what is
 * accepted. An accepted value is encoded again, as the row says. It is also encoded with too little room and with more,
 * and with each of its fields empty. The rows that ask whether two values mean the same, too. */
#include "fuzz/reference.h"
#include <string.h>

/* Octets that no row has more of. */
enum { LONGEST = 2048 };

const char *const kinds[KINDS] = {
    "pub", "priv", "info", "pss", "pss-strict", "pss-algorithm", "pss-algorithm-strict", "oaep", "oaep-strict",
    "oaep-algorithm", "oaep-algorithm-strict"};

/* What the text of an error has, besides a tag, and its status. */
static const struct { const char *text; uint32_t status; } errors[] = {
    {"the input ends too early", PKCS1_INCOMPLETE}, {"the length is indefinite", PKCS1_INDEFINITE_LENGTH},
    {"have a wrong length", PKCS1_LENGTH}, {"are not in shortest form", PKCS1_NONCANONICAL},
    {"the object identifier is malformed", PKCS1_OID_MALFORMED},
    {"the object identifier is another one", PKCS1_OID_UNKNOWN}, {"a length passes the limit", PKCS1_OVERFLOW},
    {"the length is not in shortest form", PKCS1_OVERLENGTH},
    {"the algorithm parameters are missing", PKCS1_PARAMETERS_MISSING}, {" was expected", PKCS1_TAG_UNEXPECTED},
    {"the tag octet ", PKCS1_TAG_UNKNOWN}, {"bytes follow the value", PKCS1_TRAILING_DATA},
    {" is not allowed", PKCS1_VALUE}};

void *filled(size_t n) {
    void *made = malloc(n);
    CHECK(made != NULL);
    return memset(made, 0xa5, n);
}

/* The status that follows from what a row says. Of a container that is accepted, it may say that its key is refused. */
static uint32_t status_of(const char *text) {
    const char *refused = strstr(text, "refused: ");
    uint32_t status = PKCS1_OK;
    for (size_t i = 0; refused != NULL && i < sizeof errors / sizeof errors[0]; i++) {
        if (strstr(refused, errors[i].text) == NULL)
            continue;
        CHECK(status == PKCS1_OK);
        status = errors[i].status;
    }
    CHECK(refused == NULL || status != PKCS1_OK);
    return status;
}

uint32_t read_row(const char *kind, const uint8_t *der, size_t len, union value *v) {
#define READ(word, number, call, type, part) \
    if (strcmp(kind, word) == 0) return pkcs1_##call(der, len, &v->part);
    DECODERS(READ)
    if (strcmp(kind, "priv") == 0) return pkcs1_private_key_decode(der, len, &v->priv.key, v->priv.others, LISTED);
    CHECK(strcmp(kind, "info") == 0);
    return pkcs1_private_key_info_decode(der, len, &v->priv.info, &v->priv.key, v->priv.others, LISTED);
}

uint32_t write_row(const char *kind, const union value *v, uint8_t *out, size_t room, size_t *len) {
#define WRITE(word, call, type, part) \
    if (strncmp(kind, word, strlen(word)) == 0) return pkcs1_##call(&v->part, out, room, len);
    ENCODERS(WRITE)
    CHECK(strcmp(kind, "priv") == 0);
    return pkcs1_private_key_encode(&v->priv.key, v->priv.others, v->priv.key.other_primes, out, room, len);
}

/* The fields of octets: how their kinds begin, where they stand, and the status if one that isn't empty is. */
#define FIELD(kind, field, status) {kind, offsetof(union value, field), status}
#define NUMBER(kind, field) FIELD(kind, field, PKCS1_LENGTH)
#define OTHER(part) NUMBER("priv", part.prime), NUMBER("priv", part.exponent), NUMBER("priv", part.coefficient)
#define IDENTIFIER(kind, field) FIELD(kind, field, PKCS1_OID_MALFORMED)
#define ALGORITHM(kind, part) IDENTIFIER(kind, part.oid), FIELD(kind, part.parameters, PKCS1_OK)
#define MASK_GEN(kind, part) IDENTIFIER(kind, part.oid), ALGORITHM(kind, part.hash)
static const struct { const char *kind; size_t at; uint32_t status; } fields[] = {
    NUMBER("pub", key.modulus), NUMBER("pub", key.public_exponent),
    NUMBER("priv", priv.key.modulus), NUMBER("priv", priv.key.public_exponent),
    NUMBER("priv", priv.key.private_exponent), NUMBER("priv", priv.key.prime1), NUMBER("priv", priv.key.prime2),
    NUMBER("priv", priv.key.exponent1), NUMBER("priv", priv.key.exponent2), NUMBER("priv", priv.key.coefficient),
    OTHER(priv.others[0]), OTHER(priv.others[1]), OTHER(priv.others[2]), OTHER(priv.others[3]),
    FIELD("info", priv.info.private_key, PKCS1_INCOMPLETE), FIELD("info", priv.info.attributes, PKCS1_OK),
    ALGORITHM("pss", pss.hash), MASK_GEN("pss", pss.mask_gen),
    ALGORITHM("oaep", oaep.hash), MASK_GEN("oaep", oaep.mask_gen), ALGORITHM("oaep", oaep.p_source)};
enum { FIELDS = sizeof fields / sizeof fields[0] };

/* Whether the value has the field. Of other primes it has those that the key has. */
static bool has_field(const char *kind, const union value *value, size_t i) {
    size_t others = offsetof(union value, priv.others), at = fields[i].at;
    return strncmp(kind, fields[i].kind, strlen(fields[i].kind)) == 0 &&
           (at < others || (at - others) / sizeof value->priv.others[0] < value->priv.key.other_primes);
}

struct pkcs1_bytes *next_field(const char *kind, const union value *value, size_t *i) {
    while (*i < FIELDS && !has_field(kind, value, *i))
        ++*i;
    return *i < FIELDS ? (void *)((uint8_t *)value + fields[(*i)++].at) : NULL;
}

/* Each field in turn null with length 0. */
static void try_empty_fields(const char *kind, union value *value) {
    struct pkcs1_bytes *field, before;
    for (size_t i = 0, len; (field = next_field(kind, value, &i)) != NULL; *field = before) {
        uint32_t want = field->len == 0 ? PKCS1_OK : fields[i - 1].status;
        uint8_t out[LONGEST];
        before = *field;
        *field = (struct pkcs1_bytes){NULL, 0};
        CHECK(write_row(kind, value, out, sizeof out, &len) == want);
    }
}

/* Too little room, as much as is needed, and where a size has more than 32 bits, so much that these can't tell it. That
 * isn't there, so WATCHED leaves it out. Nothing is written behind the encoding, and nothing at all if there is too
 * little room. */
static void try_rooms(const char *kind, union value *value, const uint8_t *want, size_t need) {
#ifdef WATCHED
    const size_t many = 0;
#else
    const size_t many = SIZE_MAX / UINT32_MAX - 1;
#endif
    const size_t rooms[] = {0, 1, need - 1, need, need + 1, many, many + need - 1};
    for (size_t i = 0; i < sizeof rooms / sizeof rooms[0]; i++) {
        uint8_t *out = filled(need + 1), *untouched = filled(need + 1);
        size_t len = 77;
        if (rooms[i] < need) {
            CHECK(write_row(kind, value, out, rooms[i], &len) == PKCS1_NO_ROOM && len == need);
            CHECK(memcmp(out, untouched, need + 1) == 0);
        } else {
            CHECK(write_row(kind, value, out, rooms[i], &len) == PKCS1_OK && len == need);
            CHECK(memcmp(out, want, need) == 0 && out[need] == untouched[need]);
        }
        free(out);
        free(untouched);
    }
}

/* The octets of these digits, up to what is no digit, at the end of what was allocated. The caller frees them. */
static uint8_t *octets_of(const char *digits, size_t *len) {
    size_t count = strspn(digits, "0123456789abcdefABCDEF");
    uint8_t *octets = filled(count / 2 + (count == 0));
    CHECK(count % 2 == 0);
    for (*len = 0; *len < count / 2; ++*len) {
        unsigned octet;
        CHECK(sscanf(digits + 2 * *len, "%2x", &octet) == 1);
        octets[*len] = (uint8_t)octet;
    }
    return octets;
}

/* Each beginning is rejected, and leaves what would be filled. */
static void try_beginnings(const char *kind, const uint8_t *der, size_t len) {
    union value *value = filled(sizeof *value), *old = filled(sizeof *old);
    for (size_t n = 0; n < len; n++) {
        uint8_t *cut = filled(n + 1); /* at its end: valgrind sees a read behind it */
        memcpy(cut + 1, der, n);
        CHECK(read_row(kind, cut + 1, n, value) != PKCS1_OK && memcmp(value, old, sizeof *value) == 0);
        free(cut);
    }
    free(value);
    free(old);
}

/* The label is what the source has. */
static void try_label(const struct pkcs1_oaep_params *params) {
    const struct pkcs1_bytes *source = &params->p_source.parameters;
    struct pkcs1_bytes label;
    CHECK(!pkcs1_oaep_label(params, &label) || (label.data == source->data && label.len == source->len));
}

/* An accepted value is written as these octets. */
static void try_writing(const char *kind, union value *value, const uint8_t *want, size_t want_len) {
    uint8_t out[LONGEST];
    size_t len = 0, need = 0;
    CHECK(write_row(kind, value, NULL, 0, &need) == PKCS1_NO_ROOM && need == want_len);
    CHECK(write_row(kind, value, out, sizeof out, &len) == PKCS1_OK && len == want_len);
    CHECK(memcmp(out, want, want_len) == 0);
    try_rooms(kind, value, want, want_len);
}

static void try_row(const char *kind, const char *digits, const char *text) {
    size_t len, again_len;
    const char *other = strstr(text, " again=");
    uint8_t *der = octets_of(digits, &len), *again = octets_of(other ? other + 7 : digits, &again_len);
    union value *value = filled(sizeof *value), *old = filled(sizeof *old), want;
    CHECK(read_row(kind, NULL, 0, value) == PKCS1_INCOMPLETE);
    uint32_t status = read_row(kind, der, len, value);
    if (status != status_of(text)) {
        fprintf(stderr, "%s %s: %s\n", kind, digits, pkcs1_strerror(status));
        exit(1);
    }
    CHECK(reference(kind, der, len, &want) == status);
    if (status != PKCS1_OK) {
        CHECK(memcmp(value, old, sizeof *value) == 0);
    } else {
        CHECK(same_value(kind, value, &want, (struct pkcs1_bytes){der, len}));
        if (strncmp(kind, "oaep", 4) == 0)
            try_label(&value->oaep);
        if (len <= 160)
            try_beginnings(kind, der, len);
        /* More primes than are listed can't be written. */
        if (strcmp(kind, "priv") != 0 || value->priv.key.other_primes <= LISTED) {
            try_writing(kind, value, again, again_len);
            try_empty_fields(kind, value);
        }
    }
    free(der);
    free(again);
    free(value);
    free(old);
}

static bool means_same(const char *word, const union value *left, const union value *right) {
    if (strcmp(word, "same-hash") == 0) return pkcs1_algorithm_is_same_hash(&left->pss.hash, &right->pss.hash);
    if (strcmp(word, "pss-means-same") == 0) return pkcs1_pss_means_same(&left->pss, &right->pss);
    return pkcs1_oaep_means_same(&left->oaep, &right->oaep);
}

/* Reads one of the two. An algorithm identifier of a hash function is read as the only field of parameters. */
static bool is_read(const char *word, const uint8_t *der, size_t len, union value *value, uint8_t *params) {
    if (strcmp(word, "same-hash") != 0)
        return read_row(word[0] == 'p' ? "pss" : "oaep", der, len, value) == PKCS1_OK;
    const uint8_t front[] = {0x30, (uint8_t)(len + 2), 0xa0, (uint8_t)len};
    CHECK(len < 0x7e);
    memcpy(params, front, sizeof front);
    memcpy(params + sizeof front, der, len);
    return read_row("pss", params, sizeof front + len, value) == PKCS1_OK;
}

/* Whether two that are read mean the same, asked in either order. */
static void try_question(const char *word, const char *digits, const char *text) {
    const char *next = strchr(digits, ' ');
    CHECK(next != NULL);
    size_t len, other_len;
    uint8_t *der = octets_of(digits, &len), *other_der = octets_of(next + 1, &other_len);
    uint8_t params[0x80], other_params[0x80];
    union value value, other;
    bool are_read = is_read(word, der, len, &value, params) && is_read(word, other_der, other_len, &other, other_params);
    bool want = strncmp(text, "yes", 3) == 0;
    CHECK(are_read == (want || strncmp(text, "no", 2) == 0));
    CHECK(!are_read || means_same(word, &value, &other) == want);
    CHECK(!are_read || means_same(word, &other, &value) == want);
    free(der);
    free(other_der);
}

static bool is_question(const char *word) {
    return strcmp(word, "same-hash") == 0 || strcmp(word, "pss-means-same") == 0 || strcmp(word, "oaep-means-same") == 0;
}

static bool is_kind(const char *word) {
    for (size_t i = 0; i < KINDS; i++)
        if (strcmp(word, kinds[i]) == 0)
            return true;
    return false;
}

void try_rows(const char *path) {
    static char line[8 * LONGEST];
    FILE *file = fopen(path, "r");
    CHECK(file != NULL);
    int count = 0, questions = 0;
    while (fgets(line, sizeof line, file) != NULL) {
        char *digits = strchr(line, ' '), *text = strstr(line, " = ");
        CHECK(strchr(line, '\n') != NULL);
        if (line[0] == '#' || digits == NULL || text == NULL)
            continue;
        *digits = *text = '\0';
        if (is_question(line)) {
            try_question(line, digits + 1, text + 3);
            questions++;
        } else if (is_kind(line)) {
            try_row(line, digits + 1, text + 3);
            count++;
        }
    }
    fclose(file);
    CHECK(count > 350 && questions > 40);
}
