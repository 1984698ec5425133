/* The processor as it is written by hand in C, to be measured beside the proved one: all opcodes,
 * checks and stops of beetle_run in a switch, in two copies by byte order. It has the table that
 * rules cannot write, but no stack areas, and nothing of it is proved. */
#include "cells.h"

#define CELL(at) cell_at(order, memory, (at))
#define SET(at, cell) set_cell(order, memory, (at), (cell))

/* Whether there is no cell at an address. */
#define BAD(at) SELDOM((at) >= length || (at) % 4 != 0)

/* An instruction that asks for a cell that is not there raises a fault. */
#define ASK(at) do { asked = (at); if (BAD(asked)) goto bad_cell; } while (0)

/* A store into the table raises a fault; `guarded` is the table's length. */
#define IN_TABLE(at) SELDOM((at) - table < guarded)
#define GUARD(at) do { if (IN_TABLE(at)) goto in_table; } while (0)

/* A cell that was not read, to be written. */
#define ASK_NEW(at) ASK(at); GUARD(at)

/* The top items of a stack, so many; their cells are asked for. */
#define TOP(p) ASK(p)
#define TOP_TWO(p) ASK(p); ASK((p) + 4)
#define TOP_THREE(p) TOP_TWO(p); ASK((p) + 8)

#define PUSH(cell) do { uint32_t pushed = (cell); ASK_NEW(sp - 4); sp -= 4; SET(sp, pushed); } while (0)
#define FLAG(holds) ((holds) ? UINT32_MAX : 0)
#define SIGNED(cell) ((int32_t)(cell))

typedef struct {
    uint8_t *memory;
    uint32_t length, table, guarded;
} Lent;

typedef struct {
    uint32_t ep, a, sp, rp, left, reason;
    int stopped;
} State;

/* Cycles until a stop, or until none is left. */
LAID_IN State turns(int order, Lent lent, State s) {
    uint8_t *memory = lent.memory;
    uint32_t length = lent.length, table = lent.table, guarded = lent.guarded;
    uint32_t ep = s.ep, a = s.a, sp = s.sp, rp = s.rp, left = s.left, reason = 0;
    uint32_t asked, code, x, y, z;
    Division cut;
    while (left-- != 0) {
        uint32_t opcode = a % 256;
        a = (uint32_t)(SIGNED(a) >> 8);
        switch (opcode) {
#include "stacks.inc"
#include "operators.inc"
#include "memory.inc"
#include "control.inc"
        default: code = -256; goto raise;
        }
#include "faults.inc"
    }
    return (State){ep, a, sp, rp, 0, 0, 0};
stop:
    return (State){ep, a, sp, rp, left, reason, 1};
}

static __attribute__((noinline)) State low_first(Lent lent, State s) {
    return turns(0, lent, s);
}

static __attribute__((noinline)) State high_first(Lent lent, State s) {
    return turns(1, lent, s);
}

static int bad_table(uint32_t table, uint32_t table_end, size_t length) {
    if (table == 0 && table_end == 0) return 0;
    return table % 4 != 0 || table_end % 4 != 0 || table > table_end || table < 0x10 ||
           table_end > length;
}

/* As beetle_run, but that the registers are EP, A, SP and RP alone. */
int32_t peer_run(uint8_t order, uint8_t *memory, size_t length, uint32_t table, uint32_t table_end,
                 uint32_t *registers, size_t registers_length, uint32_t budget, uint32_t *out,
                 size_t out_length) {
    if (length < 1024 || length > 16777216 || length % 4 != 0) return -4101;
    if (order > 1) return -4102;
    if (bad_table(table, table_end, length)) return -4112;
    if (registers_length < 4 || out_length < 2) return -4105;
    Lent lent = {memory, length, table, table_end - table};
    State s = {registers[0], registers[1], registers[2], registers[3], budget, 0, 0};
    s = order ? high_first(lent, s) : low_first(lent, s);
    registers[0] = s.ep;
    registers[1] = s.a;
    registers[2] = s.sp;
    registers[3] = s.rp;
    out[0] = s.reason;
    out[1] = budget - s.left;
    return s.stopped;
}
