#include "elements.h"

struct pkcs1_bytes all(struct octets from) {
    struct pkcs1_bytes bytes = {from.at, from.left};
    return bytes;
}

uint32_t at_end(struct octets from) {
    return from.left == 0 ? PKCS1_OK : PKCS1_TRAILING_DATA;
}

static struct octets taken(struct octets *from, size_t len) {
    struct octets front = {from->at, len};
    from->at += len;
    from->left -= len;
    return front;
}

/* X.690 8.1.3, 10.1: the length in the fewest octets, of which there are at most four more. */
static uint32_t read_length(struct octets *from, size_t *len) {
    if (from->left == 0)
        return PKCS1_INCOMPLETE;
    uint8_t first = *taken(from, 1).at;
    if (first == 0x80)
        return PKCS1_INDEFINITE_LENGTH;
    *len = first;
    if (first < 0x80)
        return PKCS1_OK;
    unsigned count = first & 0x7f, needed = 1;
    if (count > 4)
        return PKCS1_OVERFLOW;
    if (from->left < count)
        return PKCS1_INCOMPLETE;
    uint64_t value = 0;
    for (unsigned i = 0; i < count; i++)
        value = value << 8 | *taken(from, 1).at;
    for (uint64_t rest = value >> 8; rest > 0; rest >>= 8)
        needed++;
    *len = (size_t)value;
    return value < 0x80 || needed != count ? PKCS1_OVERLENGTH : PKCS1_OK;
}

/* X.690 8.1.2: the tag, in one octet. 0 is reserved. */
bool is_tag(uint8_t octet) {
    return (octet & 0x1f) != 0x1f && octet != 0 && octet != 0x20;
}

static uint32_t read_tag(struct octets *from, uint8_t *tag) {
    if (from->left == 0)
        return PKCS1_INCOMPLETE;
    *tag = *taken(from, 1).at;
    return is_tag(*tag) ? PKCS1_OK : PKCS1_TAG_UNKNOWN;
}

uint32_t any(struct octets *from, uint8_t *tag, struct octets *contents) {
    size_t len;
    TRY(read_tag(from, tag));
    TRY(read_length(from, &len));
    if (from->left < len)
        return PKCS1_INCOMPLETE;
    *contents = taken(from, len);
    return PKCS1_OK;
}

uint32_t tagged(struct octets *from, uint8_t tag, struct octets *contents) {
    struct octets header = *from;
    uint8_t found;
    size_t len;
    TRY(read_tag(&header, &found));
    TRY(read_length(&header, &len));
    return found != tag ? (uint32_t)PKCS1_TAG_UNEXPECTED : any(from, &found, contents);
}

bool begins_with(struct octets from, uint8_t tag) {
    return from.left > 0 && *from.at == tag;
}

/* X.690 8.3: an INTEGER from 0 on, without its sign octet. */
uint32_t number(struct octets *from, struct pkcs1_bytes *read) {
    struct octets contents;
    TRY(tagged(from, 2, &contents));
    if (contents.left == 0)
        return PKCS1_LENGTH;
    if (*contents.at >= 0x80)
        return PKCS1_VALUE;
    if (*contents.at == 0 && contents.left > 1) {
        taken(&contents, 1);
        if (*contents.at < 0x80)
            return PKCS1_NONCANONICAL;
    }
    *read = all(contents);
    return PKCS1_OK;
}

uint32_t octet(struct octets *from, uint8_t *read) {
    struct pkcs1_bytes value;
    TRY(number(from, &value));
    *read = *value.data;
    return value.len == 1 ? PKCS1_OK : PKCS1_VALUE;
}

/* X.690 8.19: parts that don't begin with 80, each ending with an octet below 80. */
bool is_identifier(const uint8_t *data, size_t len) {
    bool begins = true;
    for (size_t i = 0; i < len; i++) {
        if (begins && data[i] == 0x80)
            return false;
        begins = data[i] < 0x80;
    }
    return 0 < len && len <= 39 && begins;
}

uint32_t identifier(struct octets *from, struct pkcs1_bytes *read) {
    struct octets contents;
    TRY(tagged(from, 6, &contents));
    *read = all(contents);
    return is_identifier(read->data, read->len) ? PKCS1_OK : PKCS1_OID_MALFORMED;
}
