/* Cells of lent memory, and divisions. The host is to have its low byte first. */
#include <stddef.h>
#include <stdint.h>
#include <string.h>

#define LAID_IN static inline __attribute__((always_inline))
#define SELDOM(x) __builtin_expect(!!(x), 0)

LAID_IN uint32_t cell_at(int order, const uint8_t *memory, uint32_t address) {
    uint32_t cell;
    memcpy(&cell, memory + address, 4);
    return order ? __builtin_bswap32(cell) : cell;
}

LAID_IN void set_cell(int order, uint8_t *memory, uint32_t address, uint32_t cell) {
    cell = order ? __builtin_bswap32(cell) : cell;
    memcpy(memory + address, &cell, 4);
}

typedef struct {
    uint32_t quotient, remainder;
} Division;

LAID_IN Division toward_zero(uint32_t number, uint32_t divisor) {
    int64_t n = (int32_t)number, d = (int32_t)divisor;
    return (Division){(uint32_t)(n / d), (uint32_t)(n % d)};
}

LAID_IN Division floored(uint32_t number, uint32_t divisor) {
    Division cut = toward_zero(number, divisor);
    if (cut.remainder != 0 && (int32_t)(number ^ divisor) < 0) {
        cut.quotient -= 1;
        cut.remainder += divisor;
    }
    return cut;
}

/* Whether (+LOOP) by a step ends: it leaves the circle of cells, counted from the limit up. */
LAID_IN int ends_loop(uint32_t index, uint32_t limit, uint32_t step) {
    int64_t reached = (int64_t)(uint32_t)(index - limit) + (int32_t)step;
    return reached < 0 || reached > UINT32_MAX;
}
