/* rows WHAT FOLDER INPUT..: each call of pkcs1.h on each input, beside a straight line of C and the crate for Rust. WHAT is time or instructions. A line of output is WHO|CALL|INPUT|NUMBER. Before a call is measured, all have
 * to agree. */
#include "peers.h"
#include "pkcs1.h"
#include <stdio.h>
#include <string.h>

extern const struct library libpkcs1, line_of_c, crate_structs, crate_views;
static const struct library *const by[] = {&libpkcs1, &line_of_c, &crate_structs, &crate_views};
enum { BY = sizeof by / sizeof *by, MOST = 64 };
static const char *const questions[TYPES][QUESTIONS] = {
    [PUBLIC_KEY] = {"bit_len"}, [PSS] = {"is", "algorithm_is"}, [OAEP] = {"is", "label"}};

/* What is asked of parameters: the hash function of this input. */
static struct pkcs1_bytes asked;

static const struct steps *steps_of(const struct task *task) { return &task->library->steps[task->type]; }
/* What comes before a call. */
static uint64_t nothing(struct task *task) {
    __asm__ volatile("" : : "r"(steps_of(task)->read), "r"(task->der), "r"(task->der_len));
    return 0;
}
static uint64_t read(struct task *task) { return steps_of(task)->read(task->der, task->der_len); }
static uint64_t strict(struct task *task) { return steps_of(task)->strict(task->der, task->der_len); }
static uint64_t write(struct task *task) {
    size_t len;
    return steps_of(task)->write(task->kept, out, sizeof out, &len) == 0 ? len : 0;
}
static uint64_t length(struct task *task) { return steps_of(task)->length(task->kept); }
static uint64_t ask_first(struct task *task) { return steps_of(task)->ask[0](task->kept, &asked); }
static uint64_t ask_second(struct task *task) { return steps_of(task)->ask[1](task->kept, &asked); }

static bool is_parameters(int type) { return type >= PSS && type <= OAEP_ALGORITHM; }

/* The calls that a library has for a type: a name for each that is measured, else null. */
struct row {
    const char *call;
    uint64_t (*run)(struct task *);
};
enum { CALLS = 6 };
static void calls_of(const struct library *library, int type, struct row to[CALLS]) {
    const struct steps *it = &library->steps[type];
    bool writes = library->writes[type] && it->write != NULL;
    to[0] = (struct row){it->read != NULL ? "read" : NULL, read};
    to[1] = (struct row){it->strict != NULL && is_parameters(type) ? "strict" : NULL, strict};
    to[2] = (struct row){writes ? "write" : NULL, write};
    to[3] = (struct row){writes && it->length != NULL ? "length" : NULL, length};
    to[4] = (struct row){it->ask[0] != NULL ? questions[type][0] : NULL, ask_first};
    to[5] = (struct row){it->ask[1] != NULL ? questions[type][1] : NULL, ask_second};
}

/* Whether all answer what the first does, which accepts the input and writes it again. */
static bool agrees(struct task *task, struct task *first) {
    size_t len = task->der_len;
    if (task->run == write)
        return task->run(task) == len && memcmp(out, task->der, len) == 0;
    if (task->run == length)
        return task->run(task) == len;
    return task->run(task) == first->run(first) && (task->run == ask_first || task->run == ask_second ||
                                                    first->run(first) == 0);
}

/* The tasks of a call, for each that has it; answers how many. */
static size_t tasks_of(int call, struct task *tasks, const struct task *input, const char *name) {
    size_t made = 0;
    for (int i = 0; i < BY; i++) {
        struct row rows[CALLS];
        calls_of(by[i], input->type, rows);
        if (rows[call].call == NULL)
            continue;
        struct task *task = &tasks[made++];
        *task = *input;
        task->library = by[i];
        task->run = rows[call].run;
        if (by[i]->steps[input->type].keep != NULL)
            task->kept = by[i]->steps[input->type].keep(input->der, input->der_len);
        if (task->run == length && length(task) == 0) /* it doesn't tell */
            made--;
        snprintf(task->label, sizeof task->label, "%s|%s|%s", by[i]->name, rows[call].call, name);
    }
    return made;
}

/* The identifier of the hash function. */
static struct pkcs1_bytes hash_of(const struct task *input) {
    struct pkcs1_pss_params pss = {0};
    struct pkcs1_oaep_params oaep = {0};
    if (input->type == PSS && pkcs1_pss_params_decode(input->der, input->der_len, &pss) == PKCS1_OK)
        return pss.hash.oid;
    if (input->type == OAEP && pkcs1_oaep_params_decode(input->der, input->der_len, &oaep) == PKCS1_OK)
        return oaep.hash.oid;
    return (struct pkcs1_bytes){0};
}

int rows_of(int count, char **arguments) {
    static struct task tasks[MOST] = {{nothing, &libpkcs1, .label = "nothing|-|-"}};
    size_t made = 1;
    for (int i = 2; i < count; i++) {
        struct task input = {.type = type_of(arguments[i])};
        input.der = read_in(arguments[1], arguments[i], &input.der_len);
        asked = hash_of(&input);
        for (int call = 0; call < CALLS; call++) {
            size_t first = made;
            made += tasks_of(call, &tasks[made], &input, arguments[i]);
            for (size_t at = first; at < made; at++)
                if (!agrees(&tasks[at], &tasks[first]))
                    return fprintf(stderr, "%s isn't done alike\n", tasks[at].label), 1;
        }
        if (measure(arguments[0], tasks, made) != 0)
            return 1;
        made = 0;
    }
    return 0;
}
