// A plain C interpreter of the same instructions, with the same questions: the baseline of the benchmark.
#ifndef NEURON_H
#define NEURON_H
#include <stddef.h>
#include <stdint.h>

struct machine {
    uint8_t stack[255], returns[255];
    unsigned depth, calls;
    uint8_t registers[16];
    uint16_t pointers[4];
    uint8_t carry;
    uint16_t ip;
    uint32_t cycles;
};

struct board {
    uint16_t first, count, boundary;
    uint8_t cells[512];
    uint16_t inputs[16], outputs[16];
    unsigned ins, outs;
    uint8_t latest[16];
    const uint8_t *samples;
    size_t many, next;
};

struct settings {
    unsigned stack, returns;
    uint8_t fill;
};

int step(struct machine *m, const struct settings *s, const uint8_t *code, size_t size, uint16_t first, struct board *b);
#endif
