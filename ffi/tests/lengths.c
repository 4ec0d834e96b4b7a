/* Tests the calls of pkcs1.h at every boundary of a length: contents of as many octets as a form of the length holds at
 * most, and of one more, at each level of an encoding. The shortest form is read, and written again as the same octets.
 * Each longer form is refused. */
#include "test.h"
#include <string.h>

/* In hexadecimal digits: `{` stands behind the tag of contents, `}` at their end. `*` stands for as many octets as are
 * wanted. */
#define ONES "020101020101020101020101020101020101020101"
#define RSA_ENCRYPTION "300d06092a864886f70d0101010500"
#define SHA_256 "0609608648016503040201"
#define IDENTIFIER(last) "06092a864886f70d0101" last
static const struct { const char *kind, *text; } shapes[] = {
    {"pub", "30{02{*}020103}"},
    {"pub", "30{02010302{0080*}}"},
    {"priv", "30{020100" ONES "02{*}}"},
    {"priv", "30{020101" ONES "02010130{30{02010102{*}020101}}}"},
    {"info", "30{020100" RSA_ENCRYPTION "04{30{02010002{0080*}" ONES "}}}"},
    {"info", "30{020100" RSA_ENCRYPTION "041d301b020100" ONES "020101a0{*}}"},
    {"pss", "30{a0{30{" SHA_256 "04{*}}}a203020107}"},
    {"pss-strict", "30{a1{30{" IDENTIFIER("08") "30{" SHA_256 "04{*}}}}}"},
    {"pss-algorithm", "30{" IDENTIFIER("0a") "30{a0{30{" SHA_256 "04{*}}}}}"},
    {"oaep", "30{a2{30{" IDENTIFIER("09") "04{*}}}}"},
    {"oaep-strict", "30{a0{30{" SHA_256 "30{*}}}}"},
    {"oaep-algorithm-strict", "30{" IDENTIFIER("07") "30{a2{30{" IDENTIFIER("09") "04{*}}}}}"}};

/* The boundaries, and lengths whose octets differ from each other. Those from FEW on are tried of the first shape alone. */
static const size_t lens[] = {0x7f, 0x80, 0xff, 0x100, 0x102, 0xffff, 0x10000, 0x10203, 0xffffff, 0x1000000, 0x1020304};
enum { LENS = sizeof lens / sizeof lens[0], FEW = 8, SHAPES = sizeof shapes / sizeof shapes[0] };

/* Where encodings are made, with room around the octets that `*` stands for. */
enum { AROUND = 200 };
static uint8_t made[0x1020304 + 2 * AROUND];

static unsigned digit(char it) {
    return (unsigned)(it <= '9' ? it - '0' : it - 'a' + 10);
}

static uint8_t octet(const char *digits) {
    return (uint8_t)(digit(digits[0]) * 16 + digit(digits[1]));
}

/* How many octets the shortest form of a length has behind its first. */
static size_t shortest(size_t len) {
    size_t more = len >= 0x80;
    for (; len >= 0x100; len /= 0x100)
        more++;
    return more;
}

/* Puts a tag and a length, with `more` octets behind its first, in front of contents. Where they begin then. */
static uint8_t *put_header(uint8_t *front, uint8_t tag, size_t len, size_t more) {
    for (size_t i = 0; i < more; i++, len /= 0x100)
        *--front = (uint8_t)len;
    *--front = (uint8_t)(more == 0 ? len : 0x80 + more);
    *--front = tag;
    return front;
}

/* Makes the encoding with so many octets for `*`. Level 0 is innermost. At this level the length has `more` octets behind
 * its first, at the others it is shortest. How many octets the contents are at this level. */
static size_t make(const char *text, size_t level, size_t stars, size_t more, struct pkcs1_bytes *der) {
    const char *left = strchr(text, '*'), *right = left + 1;
    uint8_t *front = made + AROUND, *end = front + stars;
    size_t contents = 0;
    for (size_t at = 0; left > text; at++) {
        for (; *right != '}'; right += 2)
            *end++ = octet(right);
        for (; left[-1] != '{'; left -= 2)
            *--front = octet(left - 2);
        size_t len = (size_t)(end - front);
        contents = at == level ? len : contents;
        left -= 3;
        right++;
        front = put_header(front, octet(left), len, at == level ? more : shortest(len));
    }
    *der = (struct pkcs1_bytes){front, (size_t)(end - front)};
    return contents;
}

/* What was read is written as it was. */
static void try_writing(const char *kind, const union value *value, struct pkcs1_bytes der) {
    uint8_t *out = filled(der.len);
    size_t len = 0;
    CHECK(write_row(kind, value, out, der.len - 1, &len) == PKCS1_NO_ROOM && len == der.len);
    CHECK(write_row(kind, value, out, der.len, &len) == PKCS1_OK && len == der.len);
    CHECK(memcmp(out, der.data, len) == 0);
    free(out);
}

/* Each form of a length, from the shortest on. */
static void try_forms(const char *kind, const char *text, size_t level, size_t stars, size_t len) {
    for (size_t more = shortest(len); more <= 5; more++) {
        struct pkcs1_bytes der;
        union value value;
        uint32_t want = more == shortest(len) ? PKCS1_OK : more < 5 ? PKCS1_OVERLENGTH : PKCS1_OVERFLOW;
        make(text, level, stars, more, &der);
        uint32_t status = read_row(kind, der.data, der.len, &value);
        if (status != want) {
            fprintf(stderr, "%s %s, %u octets at level %u, %u octets of the length: %s\n", kind, text, (unsigned)len,
                    (unsigned)level, (unsigned)more, pkcs1_strerror(status));
            exit(1);
        }
        if (status == PKCS1_OK)
            try_writing(kind, &value, der);
    }
}

/* Contents of so many octets at this level. Whether there can be so many, as in what stands around `*` are others. */
static bool try_length(const char *kind, const char *text, size_t level, size_t len) {
    struct pkcs1_bytes der;
    size_t stars = len, contents;
    for (int i = 0; i < 4 && 0 < stars && stars <= len; i++, stars += len - contents) {
        contents = make(text, level, stars, 1, &der);
        if (contents == len) {
            try_forms(kind, text, level, stars, len);
            return true;
        }
    }
    return false;
}

/* How many levels there are, from `*` to the whole. */
static size_t levels(const char *text) {
    size_t count = 0;
    for (; *text != '\0'; text++)
        count += *text == '{';
    return count;
}

int main(void) {
    size_t tried = 0;
    memset(made, 1, sizeof made);
    for (size_t i = 0; i < SHAPES; i++)
        for (size_t level = 0; level < levels(shapes[i].text); level++)
            for (size_t at = 0; at < (i == 0 ? LENS : FEW); at++)
                tried += try_length(shapes[i].kind, shapes[i].text, level, lens[at]);
    CHECK(tried == 350);
    puts("lengths: ok");
    return 0;
}
