/* What the words of ffi/proof/pkcs1.acsl.h mean of which nothing else is known there. What is read is what the proved
 * call reads of a copy of the octets that lies elsewhere, in another struct, with the places that it points to moved
 * back. It must be what the second reader reads. What is written is what the second writer writes. */
#include "reference.h"
#include "terms.h"

#define DECLARED(word, kind, call, type, part) \
    uint32_t __real_pkcs1_c_##call(const uint8_t *der, size_t der_len, struct pkcs1_##type *filled);
DECODERS(DECLARED)
uint32_t __real_pkcs1_c_private_key_decode(const uint8_t *der, size_t der_len, struct pkcs1_private_key *key,
                                           struct pkcs1_bytes *listed);
uint32_t __real_pkcs1_c_private_key_info_decode(const uint8_t *der, size_t der_len, struct pkcs1_private_key_info *info,
                                                struct pkcs1_private_key *key, struct pkcs1_bytes *listed);
void __real_pkcs1_c_status_text(uint32_t status, struct pkcs1_bytes *text);
void __real_pkcs1_c_version(struct pkcs1_bytes *text);

octets octets_of(const uint8_t *data, integer len) {
    size_t size = len > 0 ? (size_t)len : 0;
    return (octets){is_far(data) ? data : copy(data, size), size};
}

bool of_library(const uint8_t *data, integer len) {
    extern const char __executable_start, edata;
    return (const char *)data >= &__executable_start && (const char *)data + (size_t)len <= &edata;
}

/* ---- Reading ---- */

integer status_of(integer kind, octets encoding) {
    union value read;
    return reference(kinds[kind], encoding.data, encoding.len, &read);
}

#define READ(word, kind, call, type, part) \
    case kind: return __real_pkcs1_c_##call(from.data, from.len, &read->part);
static uint32_t read_by_call(integer kind, octets from, union value *read) {
    switch (kind) {
    DECODERS(READ)
    case PRIVATE_KEY:
        return __real_pkcs1_c_private_key_decode(from.data, from.len, &read->priv.key, &read->priv.listed);
    default:
        return __real_pkcs1_c_private_key_info_decode(from.data, from.len, &read->priv.info, &read->priv.key,
                                                      &read->priv.listed);
    }
}

typedef void change(struct pkcs1_bytes *bytes, octets from, const uint8_t *to);

static void spoil(struct pkcs1_bytes *bytes, octets from, const uint8_t *to) {
    (void)from, (void)to;
    *bytes = another;
}

/* Where it is in the input, if it is in the copy. */
static void move(struct pkcs1_bytes *bytes, octets from, const uint8_t *to) {
    uintptr_t before = (uintptr_t)bytes->data - (uintptr_t)from.data;
    if (before <= from.len)
        bytes->data = (const uint8_t *)((uintptr_t)to + before);
}

static void each_field(integer kind, union value *value, change *change, octets from, const uint8_t *to) {
    struct pkcs1_bytes *field;
    for (size_t i = 0; (field = next_field(kinds[kind], value, &i)) != NULL;)
        change(field, from, to);
    if (kind == PRIVATE_KEY_INFO)
        each_field(PRIVATE_KEY, value, change, from, to);
    if (kind == PRIVATE_KEY)
        change(&value->priv.listed, from, to);
}

/* All that is filled. Before, each flag is set. */
static union value read_of(integer kind, const uint8_t *der, octets encoding) {
    struct pkcs1_bytes input = {encoding.data, encoding.len};
    union value read, want;
    size_t count;
    memset(&read, 1, sizeof read);
    memset(&want, 0, sizeof want);
    each_field(kind, &read, spoil, encoding, der);
    if (read_by_call(kind, encoding, &read) == PKCS1_OK) {
        if (kind == PRIVATE_KEY || kind == PRIVATE_KEY_INFO)
            reads_primes(read.priv.listed.data, read.priv.listed.len, read.priv.others, LISTED, &count);
        HOLDS("the second reader", reference(kinds[kind], encoding.data, encoding.len, &want) == PKCS1_OK);
        HOLDS("the second reader", same_value(kinds[kind], &read, &want, input));
    }
    each_field(kind, &read, move, encoding, der);
    return read;
}

#define PART(name, type, part)                                                   \
    struct type name##_of(integer kind, const uint8_t *der, octets encoding) {   \
        return read_of(kind, der, encoding).part;                                \
    }
PART(public_key, pkcs1_public_key, key)
PART(private_key, pkcs1_private_key, priv.key)
PART(info, pkcs1_private_key_info, priv.info)
PART(listed, pkcs1_bytes, priv.listed)
PART(pss, pkcs1_pss_params, pss)
PART(oaep, pkcs1_oaep_params, oaep)

/* The primes that octets encode: those that were asked for last are kept until the call ends. */
static const struct primes {
    unsigned long call;
    octets listed;
    bool are_primes;
    size_t count;
    struct pkcs1_other_prime *primes;
} *primes_in(octets listed) {
    static struct primes last;
    if (last.call == calls && last.listed.data == listed.data && last.listed.len == listed.len)
        return &last;
    last = (struct primes){calls, listed, false, 0, NULL};
    last.are_primes = reads_primes(listed.data, listed.len, NULL, 0, &last.count);
    last.primes = taken(last.count * sizeof *last.primes);
    reads_primes(listed.data, listed.len, last.primes, last.count, &last.count);
    return &last;
}

integer count_of(octets listed) {
    return primes_in(listed)->are_primes ? (integer)primes_in(listed)->count : 0;
}

bool lists_primes(octets listed) {
    return primes_in(listed)->are_primes;
}

struct pkcs1_other_prime other_of(const uint8_t *listed, octets encodings, integer i) {
    struct pkcs1_other_prime prime = {another, another, another};
    if (i < count_of(encodings))
        prime = primes_in(encodings)->primes[i];
    for (size_t at = 0; at < 3; at++)
        move(&prime.prime + at, encodings, listed);
    return prime;
}

/* ---- Writing ---- */

integer write_status(integer kind, value v, integer room) {
    struct written made = write_value(kind, v);
    return made.status == PKCS1_OK && room < (integer)made.octets.len ? PKCS1_NO_ROOM : made.status;
}

integer written_len(integer kind, value v) {
    return (integer)write_value(kind, v).octets.len;
}

integer written_octet(integer kind, value v, integer i) {
    static value last;
    static unsigned long call;
    static struct written made;
    if (last != v || call != calls)
        made = write_value(kind, v);
    last = v;
    call = calls;
    return made.octets.data[(size_t)i];
}

/* ---- Questions ---- */

integer bit_len_of(octets number) {
    while (number.len > 0 && number.data[0] == 0)
        number.data++, number.len--;
    integer bits = (integer)number.len * 8;
    for (unsigned octet = 0x80; number.len > 0 && octet > number.data[0]; octet >>= 1)
        bits--;
    return number.len > 0xffffffff ? (integer)UINT64_MAX : bits;
}

static bool is_with(value algorithm) {
    return algorithm->count > 1;
}

static bool is(octets oid, struct pkcs1_bytes constant) {
    return equal_octets(oid, (octets){constant.data, constant.len});
}

static bool is_null_or_absent(value algorithm) {
    return !is_with(algorithm) || (algorithm->parts[1].integer == 5 && algorithm->parts[2].octets.len == 0);
}

bool is_hash(value algorithm, octets oid) {
    return equal_octets(algorithm->parts[0].octets, oid) && is_null_or_absent(algorithm);
}

bool uses_hash(value hash, value mask_gen, octets oid) {
    return is_hash(hash, oid) && is(mask_gen->parts[0].octets, pkcs1_oid_mgf1) && is_with(mask_gen) &&
           is_hash(mask_gen->parts[1].value, oid);
}

bool are_same_hash(value left, value right) {
    return equal_value(left, right) || (is_null_or_absent(right) && is_hash(left, right->parts[0].octets));
}

/* The hash functions and the mask generation functions, with which parameters begin, mean the same. */
static bool begin_alike(value left, value right) {
    value mask = left->parts[1].value, other = right->parts[1].value;
    bool same_mask = is_with(mask) && is_with(other)
        ? equal_octets(mask->parts[0].octets, other->parts[0].octets) &&
            are_same_hash(mask->parts[1].value, other->parts[1].value)
        : equal_value(mask, other);
    return are_same_hash(left->parts[0].value, right->parts[0].value) && same_mask;
}

bool are_same_pss(value left, value right) {
    return begin_alike(left, right) && left->parts[2].integer == right->parts[2].integer &&
           left->parts[3].integer == right->parts[3].integer;
}

bool are_same_oaep(value left, value right) {
    return begin_alike(left, right) && equal_value(left->parts[2].value, right->parts[2].value);
}

bool has_label(value p_source) {
    return is(p_source->parts[0].octets, pkcs1_oid_p_specified) && is_with(p_source) && p_source->parts[1].integer == 4;
}

const uint8_t *text_of(integer status) {
    struct pkcs1_bytes text = another;
    __real_pkcs1_c_status_text((uint32_t)status, &text);
    return text.data;
}

const uint8_t *version_text(void) {
    struct pkcs1_bytes text = another;
    __real_pkcs1_c_version(&text);
    return text.data;
}

/* ---- Other primes ---- */

static struct part seen(struct pkcs1_bytes number) {
    return part_of_octets(octets_of(number.data, (integer)number.len));
}

value others_seen(const struct pkcs1_other_prime *o, integer n) {
    struct part *others = taken((size_t)(n > 0 ? n : 0) * sizeof *others);
    for (integer i = 0; i < n; i++) {
        struct part numbers[] = {seen(o[i].prime), seen(o[i].exponent), seen(o[i].coefficient)};
        others[i] = part_of_value(make("other_prime", 3, numbers));
    }
    return make("others", n > 0 ? (size_t)n : 0, others);
}
