/* What the libraries and the parts of the harness share. */
#ifndef PEERS_H
#define PEERS_H
#include <stddef.h>
#include <stdint.h>

#ifdef __cplusplus
extern "C" {
#endif

enum { PUBLIC_KEY, PRIVATE_KEY, MULTI_PRIME_KEY, PSS, PSS_ALGORITHM, OAEP, OAEP_ALGORITHM, PKCS8, TYPES };
enum answer { REJECTED, ACCEPTED, NOT_WRITTEN };

/* Reads one whole input. If it is accepted and `out` isn't null, writes the value again and sets `*len`. Answers as the
 * enum above says. */
typedef int call(const uint8_t *der, size_t der_len, uint8_t *out, size_t room, size_t *len);

/* What the part `rows` measures apart. `read` and `strict` keep nothing. `keep` reads, for those behind it: it gives
 * null if it rejects. What returns a status gives 0 if it is done. A length of 0: nothing tells it. */
enum { QUESTIONS = 2 };
struct pkcs1_bytes;
struct steps {
    uint32_t (*read)(const uint8_t *der, size_t len);
    uint32_t (*strict)(const uint8_t *der, size_t len);
    void *(*keep)(const uint8_t *der, size_t len);
    uint32_t (*write)(const void *kept, uint8_t *to, size_t room, size_t *len);
    size_t (*length)(const void *kept);
    uint64_t (*ask[QUESTIONS])(const void *kept, const struct pkcs1_bytes *oid); /* in the order of rows.c */
};

struct library {
    const char *name;
    call *calls[TYPES]; /* null: it doesn't have the type */
    int writes[TYPES];  /* whether the call writes too */
    struct steps steps[TYPES];
};
extern const struct library *const libraries[];
extern const size_t library_count;
const struct library *library_named(const char *name);

/* ---- inputs.c ---- */

extern uint8_t out[1 << 20];
/* A file of inputs has before each a head of 6 octets: type, damage and length. */
enum { HEAD = 6 };
uint8_t *read_file(const char *name, size_t *len);
uint8_t *read_in(const char *folder, const char *name, size_t *len);
/* The type of an input for measuring, by its name, as 2048.public_key. */
int type_of(const char *name);
uint32_t length_at(const uint8_t *head);
/* A copy that ends where a page that can't be read begins. */
const uint8_t *before_the_end(const uint8_t *input, size_t len);
/* The seconds of processor time that this process took. */
double processor_seconds(void);

/* ---- measure.c ---- */

struct input {
    const uint8_t *der;
    size_t len;
};
/* The inputs of a file of records, in one random order, each in memory of its own. Sets how many there are. */
const struct input *read_set(const char *folder, const char *name, size_t *count);

/* What is run, what it needs, and the line of output before the number. */
struct task {
    uint64_t (*run)(struct task *);
    const struct library *library;
    int type;
    const uint8_t *der;
    size_t der_len;
    const struct input *inputs; /* by `speed`: what is run on, one after the other */
    size_t count, next;
    int written;      /* by `speed`: whether it is written too */
    const void *kept; /* by `rows` */
    char label[100];
    double best;
};
/* WHAT is time, the best of rounds, in nanoseconds of processor time; or instructions, between dumps of callgrind; or
 * allocations, calls for memory. */
int measure(const char *what, struct task *tasks, size_t count);

/* ---- the commands of main.c, whose arguments are those after the command ---- */

int check(int count, char **arguments);
int speed(int count, char **arguments);
int rows_of(int count, char **arguments);

#ifdef __cplusplus
}
#endif
#endif
