/* check CORPUS OUT LIBRARY: reads each input, writes what is accepted, and puts a digit for each input into OUT.
 * A crash ends the program, with the input's number. */
#include "peers.h"
#include <malloc.h>
#include <signal.h>
#include <stdio.h>
#include <stdlib.h>
#include <string.h>
#include <unistd.h>

enum { IS_REJECTED = '0', IS_READ_ONLY, WRITTEN_ALIKE, WRITTEN_OTHERWISE, UNWRITTEN, NO_SUCH_TYPE = '9' };
static volatile unsigned long current;

static void crashed(int signal_number) {
    char text[80];
    int n = snprintf(text, sizeof text, "CRASH: signal %d at input %lu\n", signal_number, current);
    _exit(write(1, text, (size_t)n) < 0 ? 4 : 3);
}

static int written(const struct library *library, int type, const uint8_t *input, size_t len) {
    size_t made = 0;
    if (library->calls[type](input, len, out, sizeof out, &made) != ACCEPTED)
        return UNWRITTEN;
    return made == len && memcmp(input, out, len) == 0 ? WRITTEN_ALIKE : WRITTEN_OTHERWISE;
}

static int answer(const struct library *library, int type, const uint8_t *input, size_t len) {
    if (library->calls[type] == NULL)
        return NO_SUCH_TYPE;
    int got = library->calls[type](input, len, NULL, 0, NULL);
    if (got == REJECTED)
        return IS_REJECTED;
    return library->writes[type] ? written(library, type, input, len) : IS_READ_ONLY;
}

int check(int count, char **arguments) {
    (void)count;
    const struct library *library = library_named(arguments[2]);
    FILE *to = fopen(arguments[1], "wb");
    if (library == NULL || to == NULL)
        return 2;
    signal(SIGSEGV, crashed), signal(SIGBUS, crashed), signal(SIGABRT, crashed);
    signal(SIGFPE, crashed), signal(SIGILL, crashed);
    enum { SETTLED = 20000 }; /* after so many inputs, what a library keeps for itself is there */
    size_t len, accepted = 0, heap = 0;
    uint8_t *corpus = read_file(arguments[0], &len);
    for (size_t at = 0; at < len; at += HEAD + length_at(corpus + at)) {
        const uint8_t *input = before_the_end(corpus + at + HEAD, length_at(corpus + at));
        int got = answer(library, corpus[at], input, length_at(corpus + at));
        accepted += got != IS_REJECTED && got != NO_SUCH_TYPE;
        fputc(got, to);
        if (++current == SETTLED)
            heap = mallinfo2().uordblks;
    }
    printf("%-16s %lu inputs, %zu accepted, %.1f s", library->name, current, accepted, processor_seconds());
    if (current > SETTLED)
        printf(", the heap grew by %ld octets", (long)(mallinfo2().uordblks - heap));
    puts("");
    return fclose(to) != 0;
}
