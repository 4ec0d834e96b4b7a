/* Writes values, after the standards and the order of faults in docs/USING.md, and after nothing of the library. */
#include "reference.h"
#include "terms.h"

struct buffer {
    uint8_t *data;
    size_t len, room;
};

static void put(struct buffer *to, const void *from, size_t len) {
    if (to->len + len > to->room) {
        uint8_t *more = taken(to->room = 2 * (to->len + len));
        if (to->len > 0)
            memcpy(more, to->data, to->len);
        to->data = more;
    }
    if (len > 0)
        memcpy(to->data + to->len, from, len);
    to->len += len;
}

static void put_octet(struct buffer *to, size_t octet) {
    put(to, &(uint8_t){(uint8_t)octet}, 1);
}

/* X.690 8.1, 10.1 */
static void put_encoding(struct buffer *to, size_t tag, const void *contents, size_t len) {
    unsigned more = 0;
    for (size_t rest = len; len >= 0x80 && rest > 0; rest >>= 8)
        more++;
    put_octet(to, tag);
    put_octet(to, more > 0 ? 0x80 | more : len);
    while (more-- > 0)
        put_octet(to, len >> 8 * more & 0xff);
    put(to, contents, len);
}

static void put_whole(struct buffer *to, size_t tag, const struct buffer *contents) {
    put_encoding(to, tag, contents->data, contents->len);
}

/* X.690 8.3 */
static uint32_t put_number(struct buffer *to, octets number) {
    struct buffer contents = {0};
    if (number.len == 0)
        return PKCS1_LENGTH;
    while (number.len > 1 && number.data[0] == 0)
        number.data++, number.len--;
    if (number.len > 0xffffffff)
        return PKCS1_OVERFLOW;
    if (number.data[0] >= 0x80)
        put_octet(&contents, 0);
    put(&contents, number.data, number.len);
    put_whole(to, 2, &contents);
    return PKCS1_OK;
}

static uint32_t put_numbers(struct buffer *to, value of, size_t count) {
    uint32_t status = PKCS1_OK;
    for (size_t i = 0; status == PKCS1_OK && i < count; i++)
        status = put_number(to, of->parts[i].octets);
    return status;
}

/* RFC 8017 A.1.2, behind the version. */
static uint32_t put_private_key(struct buffer *to, value key, value others) {
    struct buffer list = {0};
    if (key->parts[8].integer != (integer)others->count)
        return PKCS1_OTHER_PRIMES;
    put_encoding(to, 2, others->count > 0 ? "\1" : "\0", 1);
    uint32_t status = put_numbers(to, key, 8);
    for (size_t i = 0; status == PKCS1_OK && i < others->count; i++) {
        struct buffer other = {0};
        status = put_numbers(&other, others->parts[i].value, 3);
        put_whole(&list, 0x30, &other);
    }
    if (others->count > 0)
        put_whole(to, 0x30, &list);
    return status;
}

/* RFC 5208 5: of a key that can be read. */
static uint32_t put_container(struct buffer *to, value container) {
    static const uint8_t front[] = {2, 1, 0, 0x30, 13, 6, 9, 0x2a, 0x86, 0x48, 0x86, 0xf7, 13, 1, 1, 1, 5, 0};
    octets key = container->parts[0].octets;
    union value read;
    uint32_t status = reference("priv", key.data, key.len, &read);
    put(to, front, sizeof front);
    put_encoding(to, 4, key.data, key.len);
    if (container->count > 1)
        put_encoding(to, 0xa0, container->parts[1].octets.data, container->parts[1].octets.len);
    return status;
}

static uint32_t put_identifier(struct buffer *to, octets oid) {
    put_encoding(to, 6, oid.data, oid.len);
    return is_identifier(oid.data, oid.len) ? PKCS1_OK : PKCS1_OID_MALFORMED;
}

static uint32_t put_algorithm(struct buffer *to, value algorithm) {
    struct buffer contents = {0};
    uint32_t status = put_identifier(&contents, algorithm->parts[0].octets);
    if (status == PKCS1_OK && strcmp(algorithm->maker, "algorithm_with") == 0) {
        integer tag = algorithm->parts[1].integer;
        status = is_tag((uint8_t)tag) ? PKCS1_OK : PKCS1_TAG_UNKNOWN;
        put_encoding(&contents, (size_t)tag, algorithm->parts[2].octets.data, algorithm->parts[2].octets.len);
    }
    put_whole(to, 0x30, &contents);
    return status;
}

static uint32_t put_mask_gen(struct buffer *to, value mask_gen) {
    struct buffer contents = {0};
    uint32_t status = put_identifier(&contents, mask_gen->parts[0].octets);
    if (status == PKCS1_OK && mask_gen->count > 1)
        status = put_algorithm(&contents, mask_gen->parts[1].value);
    put_whole(to, 0x30, &contents);
    return status;
}

/* A field, unless these octets are its default. */
static void put_field(struct buffer *to, size_t tag, const struct buffer *field, const void *usual, size_t len) {
    if (field->len != len || memcmp(field->data, usual, len) != 0)
        put_whole(to, tag, field);
}

/* The defaults: SHA-1 with NULL, MGF1 with it, an empty label, and 20. */
static const uint8_t sha1[] = {0x30, 9, 6, 5, 0x2b, 14, 3, 2, 26, 5, 0};
static const uint8_t mgf1[] = {0x30, 22, 6, 9, 0x2a, 0x86, 0x48, 0x86, 0xf7, 13, 1, 1, 8,
                               0x30, 9,  6, 5, 0x2b, 14,   3,    2,    26,   5,  0};
static const uint8_t no_label[] = {0x30, 13, 6, 9, 0x2a, 0x86, 0x48, 0x86, 0xf7, 13, 1, 1, 9, 4, 0};
static const uint8_t twenty[] = {2, 1, 20};

/* RFC 8017 A.2.1, A.2.3 */
static uint32_t put_params(struct buffer *to, value params) {
    struct buffer hash = {0}, mask_gen = {0}, third = {0}, contents = {0};
    uint32_t status = put_algorithm(&hash, params->parts[0].value);
    if (status == PKCS1_OK)
        status = put_mask_gen(&mask_gen, params->parts[1].value);
    if (status != PKCS1_OK)
        return status;
    put_field(&contents, 0xa0, &hash, sha1, sizeof sha1);
    put_field(&contents, 0xa1, &mask_gen, mgf1, sizeof mgf1);
    if (strcmp(params->maker, "oaep_params") == 0) {
        status = put_algorithm(&third, params->parts[2].value);
        put_field(&contents, 0xa2, &third, no_label, sizeof no_label);
    } else {
        uint8_t salt = (uint8_t)params->parts[2].integer;
        status = put_number(&third, (octets){&salt, 1});
        put_field(&contents, 0xa2, &third, twenty, sizeof twenty);
        if (params->parts[3].integer != 1)
            status = PKCS1_VALUE;
    }
    put_whole(to, 0x30, &contents);
    return status;
}

static const uint8_t rsassa_pss[] = {0x2a, 0x86, 0x48, 0x86, 0xf7, 13, 1, 1, 10};
static const uint8_t rsaes_oaep[] = {0x2a, 0x86, 0x48, 0x86, 0xf7, 13, 1, 1, 7};

static uint32_t put_value(struct buffer *to, integer kind, value of) {
    struct buffer contents = {0};
    uint32_t status;
    switch (kind) {
    case PUBLIC_KEY:
        status = put_numbers(&contents, of, 2);
        break;
    case PRIVATE_KEY:
        HOLDS("a key with its other primes", of->count == 2 && of->parts[0].value != NULL);
        status = put_private_key(&contents, of->parts[0].value, of->parts[1].value);
        break;
    case PRIVATE_KEY_INFO:
        status = put_container(&contents, of);
        break;
    case PSS_PARAMS:
    case OAEP_PARAMS:
        return put_params(to, of);
    default:
        put_encoding(&contents, 6, kind == PSS_ALGORITHM ? rsassa_pss : rsaes_oaep, sizeof rsassa_pss);
        status = put_params(&contents, of);
    }
    put_whole(to, 0x30, &contents);
    return status;
}

struct written write_value(integer kind, value of) {
    struct buffer whole = {0};
    struct written made = {put_value(&whole, kind, of), {whole.data, whole.len}};
    return made;
}
