/* Measures tasks. Those of one call take turns. */
#include "peers.h"
#include <stdio.h>
#include <string.h>
#include <valgrind/callgrind.h>

enum { ROUNDS = 9, COUNTED_CALLS = 50 };
static const double least_seconds = 0.006; /* of a round */

static void time_round(struct task *task) {
    double seconds = 0;
    unsigned long done = 0;
    for (unsigned long step = 1; seconds < least_seconds; step *= 2) {
        double began = processor_seconds();
        for (unsigned long i = 0; i < step; i++)
            task->run(task);
        seconds += processor_seconds() - began;
        done += step;
    }
    double each = seconds / (double)done * 1e9;
    if (task->best == 0 || each < task->best)
        task->best = each;
}

static void count_instructions(struct task *task) {
    CALLGRIND_ZERO_STATS;
    for (int i = 0; i < COUNTED_CALLS; i++)
        task->run(task);
    CALLGRIND_DUMP_STATS_AT(task->label);
}

extern unsigned long allocation_count __attribute__((weak)); /* in allocations.so */
static void count_allocations(struct task *task) {
    unsigned long before = allocation_count;
    task->run(task);
    printf("%s|%lu\n", task->label, allocation_count - before);
}

int measure(const char *what, struct task *tasks, size_t count) {
    void (*once)(struct task *) = strcmp(what, "instructions") == 0 ? count_instructions : count_allocations;
    if (strcmp(what, "allocations") == 0 && &allocation_count == NULL)
        return fputs("allocations.so isn't preloaded\n", stderr), 2;
    if (strcmp(what, "time") != 0) {
        for (size_t i = 0; i < count; i++)
            once(&tasks[i]);
        return 0;
    }
    for (int round = 0; round < ROUNDS; round++)
        for (size_t i = 0; i < count; i++)
            time_round(&tasks[i]);
    for (size_t i = 0; i < count; i++)
        printf("%s|%.2f\n", tasks[i].label, tasks[i].best);
    return 0;
}
