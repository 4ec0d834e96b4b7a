/* races MODE [SECONDS]: makes a call again and again, while another thread changes the octets that it reads. They and
 * `out` lie beside a page that can't be read or written, so that a signal ends the program where a call leaves them. An
 * octet changed in front of `out`, a `*len` over the room, and a slice that isn't in the encoding that was read are
 * errors too. It goes on until the call has ended in two ways. Without a mode, it prints all of them. */
#define _GNU_SOURCE
#include "test.h"
#include <pkcs1.h>
#include <pthread.h>
#include <string.h>
#include <sys/mman.h>
#include <time.h>

#define COUNT(a) (sizeof(a) / sizeof(a)[0])

enum { PAGE = 4096, BIG = 65536 };

/* The octets that are changed. */
static struct spot { volatile uint8_t *at; uint8_t own; } spots[512];
static size_t spot_count;
static volatile int stop;

static void add_spots(const uint8_t *at, size_t count) {
    for (; count > 0 && spot_count < COUNT(spots); at++, count--)
        spots[spot_count++] = (struct spot){(volatile uint8_t *)at, *at};
}

static uint32_t next(uint64_t *state) {
    *state = *state * 6364136223846793005u + 1442695040888963407u;
    return (uint32_t)(*state >> 33);
}

/* Changes one octet for a while, each time back to its own value, so that most of what is read is right. The first
 * ones, of an outer header, get their turn more often. */
static void *change(void *unused) {
    uint64_t state = 1;
    while (!stop) {
        struct spot *spot = &spots[next(&state) % (next(&state) % 2 && spot_count > 3 ? 3 : spot_count)];
        uint8_t others[] = {(uint8_t)(spot->own + 1), 0x00, 0x80, 0x84, 0xff, (uint8_t)next(&state)};
        uint8_t other = others[next(&state) % COUNT(others)];
        for (int i = 0; i < 300 && !stop; i++) {
            *spot->at = other;
            for (volatile uint32_t wait = next(&state) % 32; wait > 0; wait--) {}
            *spot->at = spot->own;
            for (volatile uint32_t wait = next(&state) % 64; wait > 0; wait--) {}
        }
    }
    return unused;
}

/* Octets behind a page that can't be used (at_front), or in front of one. */
static uint8_t *guarded(size_t len, bool at_front) {
    size_t whole = (len + PAGE - 1) / PAGE * PAGE;
    uint8_t *area = mmap(NULL, whole + 2 * PAGE, PROT_NONE, MAP_PRIVATE | MAP_ANONYMOUS, -1, 0);
    CHECK(area != MAP_FAILED && mprotect(area + PAGE, whole, PROT_READ | PROT_WRITE) == 0);
    return at_front ? area + PAGE : area + PAGE + whole - len;
}

static struct pkcs1_bytes copied(const void *from, size_t len) {
    static bool at_front;
    at_front = !at_front;
    return (struct pkcs1_bytes){memcpy(guarded(len, at_front), from, len), len};
}

/* A number that needs a zero octet in front if its first octet is changed. */
static struct pkcs1_bytes number(size_t len) {
    static uint8_t octets[BIG];
    memset(octets, 0x11, sizeof octets);
    octets[0] = 0x7f;
    struct pkcs1_bytes made = copied(octets, len);
    add_spots(made.data, 1);
    return made;
}

static struct pkcs1_bytes identifier(struct pkcs1_bytes oid) {
    struct pkcs1_bytes made = copied(oid.data, oid.len);
    add_spots(made.data, made.len);
    return made;
}

/* What is written; and in front of a page that can't be used, what is read. */
static union value given, *got;
static struct pkcs1_bytes der;

/* A slice lies in the encoding, or it is a default in the library, of a few octets. */
static volatile uint8_t sum;
static void inside(struct pkcs1_bytes slice) {
    bool near = slice.data >= der.data - PAGE && slice.data <= der.data + der.len + PAGE;
    CHECK(slice.data != NULL && (near || slice.len < 64));
    CHECK(!near || (slice.data >= der.data && slice.len <= (size_t)(der.data + der.len - slice.data)));
    for (size_t i = 0; i < slice.len; i++)
        sum ^= slice.data[i];
}

static void all_inside(const char *kind) {
    const struct pkcs1_bytes *slice;
    for (size_t i = 0; (slice = next_field(kind, got, &i)) != NULL;)
        inside(*slice);
}

/* The octets of headers, and the first two of contents, also of those in an OCTET STRING, all shorter than 64 KiB. */
static void add_headers(const uint8_t *at, size_t len) {
    while (len >= 2) {
        size_t head = 2 + (at[1] > 0x80 ? at[1] & 0x7fu : 0), contents = at[head - 1];
        if (head == 4)
            contents += at[2] * 256u;
        add_spots(at, head + (contents < 2 ? contents : 2));
        if (at[0] & 0x20 || (at[0] == 4 && contents > 0 && at[head] == 0x30))
            add_headers(at + head, contents);
        at += head + contents;
        len -= head + contents;
    }
}

/* The encoding of what is given, whose headers alone are changed from now on. */
static struct pkcs1_bytes encoding(const char *kind) {
    struct pkcs1_bytes made = {NULL, 0};
    CHECK(write_row(kind, &given, NULL, 0, &made.len) == PKCS1_NO_ROOM);
    uint8_t *out = filled(made.len);
    CHECK(write_row(kind, &given, out, made.len, &made.len) == PKCS1_OK);
    made = copied(out, made.len);
    free(out);
    spot_count = 0;
    add_headers(made.data, made.len);
    return made;
}

/* The values that are written. Those behind the first eight numbers are of other primes, three of each. */
static void make_private(size_t coefficient, size_t primes) {
    given.priv.key.other_primes = primes;
    for (size_t i = 0, n = 0; n < 8 + 3 * primes; n++)
        *next_field("priv", &given, &i) = number(n >= 7 && n % 3 == 1 ? coefficient : 128);
}

/* Of no other hash function than SHA-1, the default, or of another. */
static void make_params(const char *kind, size_t label_len, bool other_hash) {
    struct pkcs1_bytes hash = identifier(other_hash ? pkcs1_oid_sha256 : pkcs1_oid_sha1);
    if (kind[0] == 'p') {
        pkcs1_pss_params_init(&given.pss, &hash, 32);
        given.pss.mask_gen.oid = identifier(pkcs1_oid_mgf1);
    } else {
        struct pkcs1_bytes label = number(label_len);
        pkcs1_oaep_params_init(&given.oaep, &hash, label.data, label.len);
        given.oaep.mask_gen.oid = identifier(pkcs1_oid_mgf1);
        given.oaep.p_source.oid = identifier(pkcs1_oid_p_specified);
    }
}

static void make(const char *kind, size_t size, size_t more) {
    if (strcmp(kind, "pub") == 0)
        given.key = (struct pkcs1_public_key){number(more), number(size)};
    else if (strcmp(kind, "priv") == 0 || strcmp(kind, "info") == 0)
        make_private(size, more);
    else
        make_params(kind, size, more > 0);
    if (strcmp(kind, "info") == 0)
        given.priv.info = (struct pkcs1_private_key_info){encoding("priv"), true, copied("\x30\3\2\1\5", 5)};
}

/* What is written, or read. `size` are the octets of what stands last, `more` those of the modulus, or how many other
 * primes there are, or whether there is another hash function. If `last` isn't 0, so many of the last octets alone are
 * changed: each number's first one of three other primes, or those of their headers. */
#define READ(word, number, call, type, part) {"read-" word, word, 5, 256, 0.5, 0},
static const struct mode {
    const char *name, *kind;
    size_t size, more;
    double seconds;
    size_t last;
} modes[] = {
    {"public", "pub", BIG, 256, 0.5, 0},
    {"public-small", "pub", 3, 256, 0.5, 0},
    {"private", "priv", BIG, 0, 0.5, 0},
    {"private-small", "priv", 128, 0, 0.5, 0},
    {"primes", "priv", BIG, LISTED, 0.5, 0},
    {"five-primes", "priv", 128, 3, 0.5, 9},
    {"container", "info", 128, LISTED, 0.2, 0},
    {"pss", "pss", 3 * PAGE, 0, 0.2, 0},
    {"pss-algorithm", "pss-algorithm", 3 * PAGE, 0, 0.2, 0},
    {"oaep", "oaep", 3 * PAGE, 0, 0.2, 0},
    {"oaep-algorithm", "oaep-algorithm", 3 * PAGE, 0, 0.2, 0},
    {"read-private", "priv", 128, 0, 0.2, 0},
    {"read-primes", "priv", 128, LISTED, 0.2, 0},
    {"read-five-primes", "priv", 128, 3, 0.5, 63},
    {"read-container", "info", 128, LISTED, 0.2, 0},
    DECODERS(READ)};

static double now(void) {
    struct timespec time;
    clock_gettime(CLOCK_MONOTONIC, &time);
    return (double)time.tv_sec + (double)time.tv_nsec / 1e9;
}

/* Reads, into what was filled with other octets. */
static uint32_t read_again(const char *kind) {
    uint32_t status = read_row(kind, der.data, der.len, memset(got, 0xa5, sizeof *got));
    if (status == PKCS1_OK)
        all_inside(kind);
    if (status == PKCS1_OK && strcmp(kind, "info") == 0)
        all_inside("priv");
    return status;
}

/* Calls with room for as many octets as are needed, one less, and one more, at the end of an area of whole pages. */
static void race(const struct mode *it, double seconds) {
    size_t exact = 0, first_len = 0;
    uint32_t first = PKCS1_OK;
    bool another = false, reads = strncmp(it->name, "read-", 5) == 0;
    unsigned long calls = 0;
    uint8_t marks[512], *end;
    pthread_t thread;
    make(it->kind, it->size, it->more);
    if (reads)
        der = encoding(it->kind);
    if (it->last > 0) {
        CHECK(it->last < spot_count);
        memmove(spots, spots + spot_count - it->last, it->last * sizeof *spots);
        spot_count = it->last;
    }
    CHECK(write_row(it->kind, &given, NULL, 0, &exact) == PKCS1_NO_ROOM);
    size_t area_len = exact + 2 * PAGE - exact % PAGE;
    end = guarded(area_len, true) + area_len;
    CHECK(pthread_create(&thread, NULL, change, NULL) == 0);
    memset(marks, 0xaa, sizeof marks);
    for (double until = now() + seconds; calls % 64 > 0 || now() < until || !another; calls++) {
        size_t room = exact + calls % 3 - 1, len = 0;
        uint8_t *out = end - room;
        memcpy(out - sizeof marks, marks, sizeof marks);
        uint32_t status = reads ? read_again(it->kind) : write_row(it->kind, &given, out, room, &len);
        CHECK(status != PKCS1_OK || len <= room);
        CHECK(memcmp(out - sizeof marks, marks, sizeof marks) == 0);
        if (calls == 0)
            first = status, first_len = len;
        another = another || status != first || len != first_len;
    }
    stop = 1;
    pthread_join(thread, NULL);
    printf("%s: %lu calls\n", it->name, calls);
}

int main(int argc, char **argv) {
    got = (union value *)guarded(sizeof *got, false);
    CHECK((void *)(got->priv.others + LISTED) == got + 1);
    for (size_t i = 0; i < COUNT(modes); i++) {
        if (argc == 1)
            puts(modes[i].name);
        else if (strcmp(modes[i].name, argv[1]) == 0)
            race(&modes[i], argc > 2 ? atof(argv[2]) : modes[i].seconds);
    }
    return 0;
}
