/* speed WHAT FOLDER SET [LIBRARY..]: the cost of reading, and of reading and writing, the encodings of a set, on
 * average. WHAT is time, instructions or allocations. A line of output is LIBRARY|SET|WRITTEN|NUMBER, in which WRITTEN is
 * 0 or 1. */
#include "peers.h"
#include <stdio.h>
#include <string.h>

/* What comes before each call: the next input is taken. */
static uint64_t nothing(struct task *task) {
    const struct input *it = &task->inputs[task->next];
    task->next = task->next + 1 < task->count ? task->next + 1 : 0;
    task->der = it->der, task->der_len = it->len;
    __asm__ volatile("" : : "r"(task->library->calls[task->type]), "r"(task->der), "r"(task->der_len),
                     "r"(task->written ? out : NULL) : "memory");
    return 0;
}

static uint64_t run(struct task *task) {
    size_t len;
    nothing(task);
    call *it = task->library->calls[task->type];
    return (uint64_t)it(task->der, task->der_len, task->written ? out : NULL, sizeof out, &len);
}

/* Whether the library has the call and takes each encoding; if it has caches, they are filled then. */
static int is_possible(struct task *task) {
    if (task->library->calls[task->type] == NULL || (task->written && !task->library->writes[task->type]))
        return 0;
    for (size_t i = 0; i < task->count; i++)
        if (run(task) != ACCEPTED)
            return 0;
    return 1;
}

int speed(int count, char **arguments) {
    static struct task tasks[64];
    const char *name = arguments[2];
    struct task task = {nothing, libraries[0], type_of(name)};
    size_t made = 0;
    task.inputs = read_set(arguments[1], name, &task.count);
    snprintf(task.label, sizeof task.label, "nothing|%s|0", name);
    tasks[made++] = task;
    task.run = run;
    for (size_t i = 0; i < (count > 3 ? (size_t)count - 3 : library_count); i++)
        for (task.written = 0; task.written < 2; task.written++) {
            task.library = count > 3 ? library_named(arguments[3 + i]) : libraries[i];
            if (task.library == NULL)
                return fprintf(stderr, "no library is named %s\n", arguments[3 + i]), 2;
            snprintf(task.label, sizeof task.label, "%s|%s|%d", task.library->name, name, task.written);
            if (is_possible(&task))
                tasks[made++] = task;
        }
    return measure(arguments[0], tasks, made);
}
