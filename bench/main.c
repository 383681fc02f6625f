// The same two routines as the program `speed`, on the C interpreter: `main STEPS` prints what they came to and how long they took.
#include "neuron.h"
#include <stdio.h>
#include <stdlib.h>
#include <string.h>
#include <time.h>

static const uint8_t BLOCK[18] = "\xb4\x05\xb4\x07\x50\x3d\xa4\xb6\x53\x3e\xc8\x88\xa4\x58\x11\x52\xe4\x20";

static const uint8_t LOOP[36] =
    "\xb5\x50\x00\xf0\x83\xc8"
    "\xb7\xc0\x00\x98\x00\x50\xa4\xd8\x01\xf7\xc0\x04\x88\x3f\xa4\xc8\x72\xee"
    "\x81\x40\x82\x9c\xe4\xe4\x80\x41\x3d\x20\x71\xdc";

static void measure(const char *name, const uint8_t *code, size_t size, unsigned long steps) {
    struct machine m = {.ip = 0x4000};
    struct settings s = {64, 32, 0};
    struct board b = {.first = 0x5000, .count = 512, .boundary = 0x8000, .inputs = {0xC000}, .outputs = {0xC004}, .ins = 1, .outs = 1};
    struct timespec start, end;
    clock_gettime(CLOCK_MONOTONIC, &start);
    for (unsigned long i = 0; i < steps; i++)
        if (step(&m, &s, code, size, 0x4000, &b)) m.ip = 0x4000;
    clock_gettime(CLOCK_MONOTONIC, &end);
    long long ns = (end.tv_sec - start.tv_sec) * 1000000000LL + (end.tv_nsec - start.tv_nsec);
    printf("%s: %lu steps, %u cycles, at %04X, %lld ns\n", name, steps, m.cycles, m.ip, ns);
}

int main(int argc, char **argv) {
    unsigned long steps = argc > 1 ? strtoul(argv[1], NULL, 10) : 4000;
    static uint8_t code[64 * sizeof BLOCK];
    for (int i = 0; i < 64; i++) memcpy(code + i * sizeof BLOCK, BLOCK, sizeof BLOCK);
    measure("straight", code, sizeof code, steps);
    measure("branches", LOOP, sizeof LOOP, steps);
    return 0;
}
