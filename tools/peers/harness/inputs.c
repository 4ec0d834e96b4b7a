/* What all commands do with inputs. */
#include "peers.h"
#include <stdio.h>
#include <stdlib.h>
#include <string.h>
#include <sys/mman.h>
#include <time.h>

uint8_t out[1 << 20];

uint8_t *read_file(const char *name, size_t *len) {
    FILE *file = fopen(name, "rb");
    if (file == NULL) {
        perror(name);
        exit(2);
    }
    fseek(file, 0, SEEK_END);
    *len = (size_t)ftell(file);
    rewind(file);
    uint8_t *octets = malloc(*len + 1);
    if (octets == NULL || fread(octets, 1, *len, file) != *len)
        exit(2);
    fclose(file);
    return octets;
}

uint8_t *read_in(const char *folder, const char *name, size_t *len) {
    char path[4096];
    snprintf(path, sizeof path, "%s/%s", folder, name);
    return read_file(path, len);
}

int type_of(const char *name) {
    static const char *const types[TYPES] = {"public_key", "private_key",   "multi_prime_key", "pss", "pss_algorithm",
                                             "oaep",       "oaep_algorithm", "container"};
    const char *dot = strchr(name, '.');
    for (int type = 0; type < TYPES; type++)
        if (dot != NULL && strcmp(dot + 1, types[type]) == 0)
            return type;
    fprintf(stderr, "%s has no type in its name\n", name);
    exit(2);
}

uint32_t length_at(const uint8_t *head) {
    return (uint32_t)head[2] | (uint32_t)head[3] << 8 | (uint32_t)head[4] << 16 | (uint32_t)head[5] << 24;
}

const uint8_t *before_the_end(const uint8_t *input, size_t len) {
    enum { ROOM = 1 << 21, PAGE = 4096 };
    static uint8_t *end;
    if (end == NULL) {
        uint8_t *pages = mmap(NULL, ROOM + PAGE, PROT_READ | PROT_WRITE, MAP_PRIVATE | MAP_ANONYMOUS, -1, 0);
        if (pages == MAP_FAILED || mprotect(pages + ROOM, PAGE, PROT_NONE) != 0)
            exit(2);
        end = pages + ROOM;
    }
    if (len > ROOM)
        exit(2);
    return memcpy(end - len, input, len);
}

static uint64_t drawn(uint64_t below) {
    static uint64_t state = 88172645463325252u;
    state ^= state << 13, state ^= state >> 7, state ^= state << 17;
    return state % below;
}

const struct input *read_set(const char *folder, const char *name, size_t *count) {
    enum { MOST = 1000 };
    size_t len, made = 0;
    uint8_t *records = read_in(folder, name, &len);
    struct input *inputs = calloc(MOST, sizeof *inputs);
    if (inputs == NULL)
        exit(2);
    for (size_t at = 0; at < len && made < MOST; at += HEAD + length_at(records + at)) {
        uint8_t *der = malloc(length_at(records + at));
        if (der == NULL)
            exit(2);
        memcpy(der, records + at + HEAD, length_at(records + at));
        inputs[made++] = (struct input){der, length_at(records + at)};
    }
    for (size_t left = made; left > 1; left--) {
        size_t other = drawn(left);
        struct input last = inputs[left - 1];
        inputs[left - 1] = inputs[other], inputs[other] = last;
    }
    free(records);
    *count = made;
    return inputs;
}

double processor_seconds(void) {
    struct timespec time;
    clock_gettime(CLOCK_PROCESS_CPUTIME_ID, &time);
    return (double)time.tv_sec + (double)time.tv_nsec / 1e9;
}
