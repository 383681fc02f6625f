#include "neuron.h"
#include <string.h>

static int board_read(struct board *b, uint16_t at, uint8_t *byte) {
    if (at < b->boundary) {
        if (at < b->first || (uint32_t)at >= (uint32_t)b->first + b->count) return 0;
        *byte = b->cells[at - b->first];
        return 1;
    }
    for (unsigned i = 0; i < b->ins; i++)
        if (b->inputs[i] == at) {
            *byte = b->next < b->many ? b->samples[b->next++] : 0;
            return 1;
        }
    return 0;
}

static int board_write(struct board *b, uint16_t at, uint8_t byte) {
    if (at < b->boundary) {
        if (at < b->first || (uint32_t)at >= (uint32_t)b->first + b->count) return 0;
        b->cells[at - b->first] = byte;
        return 1;
    }
    for (unsigned i = 0; i < b->outs; i++)
        if (b->outputs[i] == at) {
            b->latest[i] = byte;
            return 1;
        }
    return 0;
}

// The questions in their order: 70 code, 71 and 72 bytes needed, 73 and 74 room, 75 board.
#define SIZE(n) if (at + (n) > size) return 70
#define DATA(n, l) if (m->depth < (n)) return 71; if (m->depth - (n) + (l) > s->stack) return 73
#define BOTH(n, l, t, g) if (m->depth < (n)) return 71; if (m->calls < (t)) return 72; \
    if (m->depth - (n) + (l) > s->stack) return 73; if (m->calls - (t) + (g) > s->returns) return 74
#define TOP m->stack[m->depth - 1]
#define NEXT m->stack[m->depth - 2]
#define ON(n, c) m->ip += (n); m->cycles += (c); return 0
#define BACK(c) m->calls -= 2; m->ip = m->returns[m->calls] << 8 | m->returns[m->calls + 1]; m->cycles += (c); return 0

int step(struct machine *m, const struct settings *s, const uint8_t *code, size_t size, uint16_t first, struct board *b) {
    size_t at = (uint16_t)(m->ip - first);
    if (at >= size) return 70;
    const uint8_t op = code[at];
    unsigned sum;
    uint8_t byte;
    uint16_t word;
    switch (op) {
    case 0x20 ... 0x2F: m->ip += 1 + (op & 15); m->cycles += 1; return 0;
    case 0x31: BOTH(0, 0, 2, 0); BACK(4);
    case 0x3D: DATA(1, 1); TOP = ~TOP; m->carry = 0; ON(1, 2);
    case 0x3E: DATA(1, 1); TOP++; m->carry = TOP == 0; ON(1, 2);
    case 0x3F: DATA(1, 1); m->carry = TOP == 0; TOP--; ON(1, 2);
    case 0x40 ... 0x4F: DATA(1, 0); m->depth--; m->ip += m->stack[m->depth] == 0 ? 1 + (op & 15) : 1; m->cycles += 3; return 0;
    case 0x50: DATA(2, 1); sum = TOP + NEXT; m->depth--; TOP = sum; m->carry = sum > 255; ON(1, 4);
    case 0x51: DATA(2, 1); NEXT &= TOP; m->depth--; m->carry = 0; ON(1, 4);
    case 0x52: DATA(2, 1); NEXT |= TOP; m->depth--; m->carry = 0; ON(1, 4);
    case 0x53: DATA(2, 1); NEXT ^= TOP; m->depth--; m->carry = 0; ON(1, 4);
    case 0x54: DATA(2, 1); sum = TOP + NEXT + m->carry; m->depth--; TOP = sum; m->carry = sum > 255; ON(1, 4);
    case 0x58: SIZE(2); DATA(1, 1); sum = TOP + code[at + 1]; TOP = sum; m->carry = sum > 255; ON(2, 3);
    case 0x59: SIZE(2); DATA(1, 1); TOP &= code[at + 1]; m->carry = 0; ON(2, 3);
    case 0x5A: SIZE(2); DATA(1, 1); TOP |= code[at + 1]; m->carry = 0; ON(2, 3);
    case 0x5B: SIZE(2); DATA(1, 1); TOP ^= code[at + 1]; m->carry = 0; ON(2, 3);
    case 0x5C: BOTH(2, 1, 2, 0); sum = TOP + NEXT; m->depth--; TOP = sum; m->carry = sum > 255; BACK(7);
    case 0x5D: BOTH(2, 1, 2, 0); NEXT &= TOP; m->depth--; m->carry = 0; BACK(7);
    case 0x5E: BOTH(2, 1, 2, 0); NEXT |= TOP; m->depth--; m->carry = 0; BACK(7);
    case 0x5F: BOTH(2, 1, 2, 0); NEXT ^= TOP; m->depth--; m->carry = 0; BACK(7);
    case 0x60 ... 0x6F: DATA(1, 0); m->depth--; m->ip += m->stack[m->depth] != 0 ? 1 + (op & 15) : 1; m->cycles += 3; return 0;
    case 0x71: SIZE(2); m->ip += 2 + (int8_t)code[at + 1]; m->cycles += 2; return 0;
    case 0x72: SIZE(2); DATA(1, 0); m->depth--; m->ip += m->stack[m->depth] != 0 ? 2 + (int8_t)code[at + 1] : 2; m->cycles += 4; return 0;
    case 0x73: SIZE(2); DATA(1, 0); m->depth--; m->ip += m->stack[m->depth] == 0 ? 2 + (int8_t)code[at + 1] : 2; m->cycles += 4; return 0;
    case 0x77: SIZE(3); BOTH(0, 0, 0, 2); word = m->ip + 3; m->returns[m->calls++] = word >> 8; m->returns[m->calls++] = word;
        m->ip = code[at + 1] << 8 | code[at + 2]; m->cycles += 7; return 0;
    case 0x78 ... 0x7F: BOTH(0x80u - op, 0, 2, 0); m->depth -= 0x80 - op; BACK(6);
    case 0x80 ... 0x87: DATA(0, 1); m->stack[m->depth++] = op & 7; ON(1, 4);
    case 0x88 ... 0x97: DATA(0, 1); m->stack[m->depth++] = m->registers[op - 0x88]; ON(1, 4);
    case 0x98 ... 0x9B: SIZE(2); DATA(0, 1); if (!board_read(b, m->pointers[op & 3] + code[at + 1], &byte)) return 75; m->stack[m->depth++] = byte; ON(2, 7);
    case 0x9C ... 0x9F: DATA(1, 2); if (!board_read(b, m->pointers[op & 3] + TOP, &byte)) return 75; m->stack[m->depth] = TOP; TOP = byte; m->depth++; ON(1, 6);
    case 0xA1: BOTH(0, 1, 1, 1); m->stack[m->depth++] = m->returns[m->calls - 1]; ON(1, 4);
    case 0xA4: DATA(1, 2); m->stack[m->depth] = TOP; m->depth++; ON(1, 3);
    case 0xA5: DATA(2, 3); m->stack[m->depth] = NEXT; m->depth++; ON(1, 4);
    case 0xA7: BOTH(0, 1, 1, 0); m->stack[m->depth++] = m->returns[--m->calls]; ON(1, 5);
    case 0xB0 ... 0xB3: DATA(0, 2); word = m->pointers[op & 3]; m->stack[m->depth++] = word >> 8; m->stack[m->depth++] = word; ON(1, 6);
    case 0xB4: SIZE(2); DATA(0, 1); m->stack[m->depth++] = code[at + 1]; ON(2, 4);
    case 0xB5: SIZE(3); DATA(0, 2); m->stack[m->depth++] = code[at + 1]; m->stack[m->depth++] = code[at + 2]; ON(3, 6);
    case 0xB6: DATA(2, 2); byte = TOP; TOP = NEXT; NEXT = byte; ON(1, 4);
    case 0xB7: SIZE(3); DATA(0, 1); if (!board_read(b, code[at + 1] << 8 | code[at + 2], &byte)) return 75; m->stack[m->depth++] = byte; ON(3, 7);
    case 0xB8 ... 0xBF: DATA(0xC0u - op + 2, 0xC0u - op + 3); m->stack[m->depth] = m->stack[m->depth - 2 - (0xC0 - op)]; m->depth++; ON(1, 5);
    case 0xC0 ... 0xC7: DATA(0, op - 0xBFu); memset(m->stack + m->depth, s->fill, op - 0xBF); m->depth += op - 0xBF; ON(1, 3);
    case 0xC8 ... 0xD7: DATA(1, 0); m->registers[op - 0xC8] = m->stack[--m->depth]; ON(1, 4);
    case 0xD8 ... 0xDB: SIZE(2); DATA(1, 0); if (!board_write(b, m->pointers[op & 3] + code[at + 1], TOP)) return 75; m->depth--; ON(2, 7);
    case 0xDC ... 0xDF: DATA(2, 1); if (!board_write(b, m->pointers[op & 3] + TOP, NEXT)) return 75; NEXT = TOP; m->depth--; ON(1, 6);
    case 0xE4: DATA(1, 0); m->depth--; ON(1, 3);
    case 0xE5: DATA(2, 1); NEXT = TOP; m->depth--; ON(1, 2);
    case 0xE7: BOTH(1, 0, 0, 1); m->returns[m->calls++] = m->stack[--m->depth]; ON(1, 5);
    case 0xF0 ... 0xF3: DATA(2, 0); m->pointers[op & 3] = NEXT << 8 | TOP; m->depth -= 2; ON(1, 6);
    case 0xF7: SIZE(3); DATA(1, 0); if (!board_write(b, code[at + 1] << 8 | code[at + 2], TOP)) return 75; m->depth--; ON(3, 7);
    case 0xF8 ... 0xFF: DATA(0x100u - op + 2, 0x100u - op + 1); byte = TOP; m->depth--; m->stack[m->depth - 1 - (0x100 - op)] = byte; ON(1, 5);
    default: return 70;
    }
}
