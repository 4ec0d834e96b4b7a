/* many_keys COUNT: reads different private keys in random order, with and without asking for the octets of the key two
 * ahead. It fails if what is read differs, and prints the processor time of a key, the best of five. It takes 3 KB of
 * memory for each key. */
#include <pkcs1.h>
#include <stdio.h>
#include <stdlib.h>
#include <time.h>

static uint64_t state = 8017;
static uint64_t chance(void) {
    state = state * 6364136223846793005u + 1442695040888963407u;
    return state >> 33;
}

/* Writes a key whose numbers differ from those of others. Each eighth is cut off. Gives the octets of its encoding. */
static size_t write_key(uint8_t *out, size_t room) {
    static const size_t lens[8] = {256, 3, 256, 128, 128, 128, 128, 128};
    static uint8_t octets[8][256];
    struct pkcs1_bytes n[8];
    size_t len = 0;
    for (size_t i = 0; i < 8; i++) {
        octets[i][0] = (uint8_t)(1 + chance() % 255);
        n[i] = (struct pkcs1_bytes){octets[i], lens[i]};
    }
    struct pkcs1_private_key key = {n[0], n[1], n[2], n[3], n[4], n[5], n[6], n[7], 0};
    uint32_t status = pkcs1_private_key_encode(&key, NULL, 0, out, room, &len);
    return status == PKCS1_OK ? len - (chance() % 8 == 0) : 0;
}

/* Makes the keys, 2 to 4 KB apart, and shuffles them. */
static bool make(uint8_t *octets, struct pkcs1_bytes *keys, size_t count) {
    for (size_t i = 0; i < count; i++) {
        size_t apart = 2048 + chance() % 2048, other = chance() % (i + 1);
        struct pkcs1_bytes made = {octets, write_key(octets, apart)};
        if (made.len == 0)
            return false;
        keys[i] = keys[other];
        keys[other] = made;
        octets += apart;
    }
    return true;
}

static void fetch(struct pkcs1_bytes der) {
    for (size_t i = 0; i < der.len; i += 64)
        __builtin_prefetch(der.data + i);
}

/* Reads all keys, and gives a number of what was read. Nothing is fetched if `ahead` is their count. */
static uint64_t read_all(const struct pkcs1_bytes *keys, size_t count, size_t ahead) {
    uint64_t told = 0;
    struct pkcs1_private_key key;
    for (size_t i = 0; i < count; i++) {
        if (i + ahead < count)
            fetch(keys[i + ahead]);
        uint32_t status = pkcs1_private_key_decode(keys[i].data, keys[i].len, &key, NULL, 0);
        told = told * 31 + (status == PKCS1_OK ? (size_t)(key.coefficient.data - keys[i].data) : status);
    }
    return told;
}

int main(int argc, char **argv) {
    size_t count = argc == 2 ? strtoul(argv[1], NULL, 10) : 0;
    uint8_t *octets = malloc(count * 4096);
    struct pkcs1_bytes *keys = calloc(count, sizeof *keys);
    double best[2] = {1e9, 1e9};
    uint64_t told[2];
    if (count == 0 || octets == NULL || keys == NULL || !make(octets, keys, count))
        return fputs("usage: many_keys COUNT, for which there is memory\n", stderr), 2;
    for (int round = 0; round < 10; round++) {
        clock_t began = clock();
        told[round % 2] = read_all(keys, count, round % 2 ? 2 : count);
        double took = (double)(clock() - began) / CLOCKS_PER_SEC * 1e9 / (double)count;
        best[round % 2] = took < best[round % 2] ? took : best[round % 2];
    }
    printf("%.0f ns, fetched two ahead %.0f ns\n", best[0], best[1]);
    free(keys);
    free(octets);
    return told[0] == told[1] ? 0 : 1;
}
