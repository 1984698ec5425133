/* Beetle: the processor, object modules, the packer and the list machine.
 *
 * A slice is a pointer and a length, in elements. An empty slice may be NULL. Lent buffers may not
 * overlap. No call keeps a pointer after it returns.
 *
 * `order` is the byte order: in 0 a cell begins with its low byte, in 1 with its high byte. `memory`
 * has whole cells, and from 1,024 to 16,777,216 bytes.
 *
 * `registers` holds eight numbers: EP, A, SP, RP, data_top, data_cells, return_top, return_cells. The
 * last four are the stack areas, so many cells below each top: no call changes them, and four zeros
 * are a machine without areas. The held cell, next below the data area, can be read as the area can,
 * but a throw's code is all that the data stack may write there. A stack access outside its area
 * raises -3 (data, below) or -4 (data, at the top or above), -5 or -6 (return, likewise). A throw that
 * finds neither area nor held cell for its code stops with -258, and so does HALT where SP is off both.
 *
 * The table is the bytes from `table` up to `table_end`, which is not in it: rules can read them, but
 * not write them. Two zeros are no table, two other equal numbers one of no byte. Any store of an
 * instruction into it raises -20: by address, on either stack, or of a return address. What else is
 * wrong with that place is told first, and the cell -ADDRESS stays as it is. A throw whose code would
 * be pushed into the table stops with -258, so a start can stop with it too. What a start puts into 0h
 * to Fh and what is loaded is no store of a rule. The table is no register: each call takes its own.
 *
 * A listing is its kinds, its operands and a base; as a file it is n, base, the kinds, the operands,
 * least significant byte first. A short file is n, m, base, the n kinds, and the m operands of its
 * literals and branches alone, in the order of their items. Some files read as either; each call takes
 * one of the two. `pointers` holds six numbers: SP, RP and the same areas.
 *
 * The answer is 0, 1 where the machine stopped, 2 where the list machine stands outside, or a
 * refusal, below 0. On a refusal nothing that was lent is written. A `registers`, `pointers`, `out`
 * or `output`, and `kinds` and `operands` where they are written, shorter than what a success writes
 * is refused with BEETLE_SHORT_OUTPUT, the last of the refusals to be judged. What is longer keeps its
 * rest. Areas that come in `registers` or `pointers` are not judged where the array is too short to
 * hold them; a table always is.
 */
#ifndef BEETLE_H
#define BEETLE_H

#include <stddef.h>
#include <stdint.h>

#ifdef __cplusplus
extern "C" {
#endif

/* ready, went on, spent, loaded, saved, packed, unpacked, all forms run; all the items asked for
 * carried out */
#define BEETLE_DONE 0
#define BEETLE_STOPPED 1
/* the list machine stopped in front of an item that it cannot carry out */
#define BEETLE_STANDS_OUTSIDE 2

/* why it stands outside: a write of the item would fall into the image; it jumps to where no entry
 * stands; its throw finds no entry at a usable 'THROW; no item follows it */
#define BEETLE_WRITES_IMAGE 1
#define BEETLE_NO_ENTRY 2
#define BEETLE_NO_HANDLER 3
#define BEETLE_PAST_END 4

#define BEETLE_OUTSIDE (-1)           /* a module, or a form, would not lie whole inside memory */
#define BEETLE_BAD_HEADER (-2)        /* the file does not begin as a module does, or in a set
                                         reaches past the buffer */
#define BEETLE_BAD_MEMORY (-4101)     /* memory length; in a batch, of either memory */
#define BEETLE_BAD_ORDER (-4102)      /* byte order above 1 */
#define BEETLE_BAD_FILE_LENGTH (-4103) /* file length not 12 + 4l */
#define BEETLE_UNALIGNED (-4104)      /* module address or base no multiple of 4 */
#define BEETLE_SHORT_OUTPUT (-4105)   /* a lent output too short, or fewer forms than are counted */
#define BEETLE_BAD_COUNT (-4106)      /* no item or over 4,096; two lengths; a file, not a short one, of
                                         the wrong length */
#define BEETLE_BAD_KIND (-4107)       /* a byte that is no kind */
#define BEETLE_BAD_OPERAND (-4108)    /* a plain item whose operand is not 0 */
#define BEETLE_BAD_TARGET (-4109)     /* a target that is no item */
#define BEETLE_BAD_BASE (-4110)       /* base below 10h, or the image passes 16,777,216 */
#define BEETLE_BAD_AREAS (-4111)      /* a stack area of no cell, with an unaligned top, not in memory
                                         or over the other, the held cell part of the data area;
                                         judged after BEETLE_BAD_ORDER */
#define BEETLE_BAD_TABLE (-4112)      /* a table with an unaligned end, its ends exchanged, below 10h or
                                         past memory; judged after BEETLE_BAD_AREAS */
#define BEETLE_BAD_SET (-4113)        /* no module or over sixteen, two that have a byte of memory in
                                         common, or `modules` not in threes; judged once every module
                                         has passed, before BEETLE_SHORT_OUTPUT */
#define BEETLE_NO_LISTING (-4116)     /* an image that no listing packs to at this base and in this
                                         order; judged after BEETLE_BAD_BASE */
#define BEETLE_BAD_SHORT_FILE (-4119) /* a short file of under 12 bytes, judged before BEETLE_BAD_COUNT;
                                         or its m is not the number of its literals and branches, or
                                         its length not 12 + n + 4m, judged after BEETLE_BAD_COUNT and
                                         before BEETLE_BAD_KIND */

/* Starts the machine: registers are written. SP and RP start at the areas' tops; without areas at
 * MEMORY - 100h and MEMORY. out: [reason, or 0]. */
int32_t beetle_start(
    uint8_t order,
    uint8_t *memory, size_t memory_length,
    uint32_t ep,
    uint32_t handler,
    uint32_t data_top,
    uint32_t data_cells,
    uint32_t return_top,
    uint32_t return_cells,
    uint32_t table,
    uint32_t table_end,
    uint32_t *registers, size_t registers_length,
    uint32_t *out, size_t out_length);

/* One cycle: registers are read and written. out: [reason, or 0]. */
int32_t beetle_cycle(
    uint8_t order,
    uint8_t *memory, size_t memory_length,
    uint32_t table,
    uint32_t table_end,
    uint32_t *registers, size_t registers_length,
    uint32_t *out, size_t out_length);

/* Cycles until a stop, at most `budget` of them. out: [reason, or 0; cycles done]. A spent run (the
 * answer is 0) goes on if it is called again with the arrays as it left them and the same table: runs
 * of b and of c cycles do what one of b + c would have done, their cycles added. A run that stops does
 * and answers the same under every larger budget. */
int32_t beetle_run(
    uint8_t order,
    uint8_t *memory, size_t memory_length,
    uint32_t table,
    uint32_t table_end,
    uint32_t *registers, size_t registers_length,
    uint32_t budget,
    uint32_t *out, size_t out_length);

/* Runs a rule over many forms and counts how the runs end. `forms` holds `count` forms end to end, each
 * of `form_length` bytes. For each of them in turn the whole of `memory` becomes what `start` holds,
 * which is as long, then the form's bytes go in from `address` on, aligned or not, over whatever is
 * there, 0h to Fh too; and then the machine is run as beetle_run runs it, from the registers and with
 * the table and the budget that are given. Nothing goes over from one form to the next, so no figure
 * depends on their order. At the end memory is as the last form left it, with no form as it was lent.
 * out: [forms; of these the stops by reason 0; by -258; by -259; by any other; the spent budgets; the
 * cycles of all of them, low half; high half; the most cycles that one of them had; the mean of the
 * cycles, rounded down; what that leaves of them]. With no form all are 0. A reason
 * counts by its number, whether the machine gave it or HALT; a spent run counts its whole budget. Of
 * forms in two calls the report is that of one: add the counts and the cycles, take the larger of the
 * largest, and divide anew.
 * The first of these that applies is answered: BEETLE_BAD_MEMORY, for start's length, or for a `memory`
 * that is not as long; BEETLE_BAD_ORDER, BEETLE_BAD_AREAS, BEETLE_BAD_TABLE; BEETLE_OUTSIDE where
 * address + form_length, not wrapped round, is past the end of memory, with no form too;
 * BEETLE_SHORT_OUTPUT where `forms` is shorter than count * form_length, or `out` than eleven. */
int32_t beetle_batch(
    uint8_t order,
    const uint8_t *start, size_t start_length,
    uint8_t *memory, size_t memory_length,
    const uint8_t *forms, size_t forms_length,
    uint16_t count,
    uint32_t form_length,
    uint32_t address,
    uint32_t ep,
    uint32_t a,
    uint32_t sp,
    uint32_t rp,
    uint32_t data_top,
    uint32_t data_cells,
    uint32_t return_top,
    uint32_t return_cells,
    uint32_t table,
    uint32_t table_end,
    uint32_t budget,
    uint32_t *out, size_t out_length);

/* Loads a module of either byte order to a byte address. out: [cells]. */
int32_t beetle_load(
    uint8_t order,
    uint8_t *memory, size_t memory_length,
    const uint8_t *file, size_t file_length,
    uint32_t address,
    uint32_t *out, size_t out_length);

/* The same, halted after `cells` cells: the module is judged whole, its first cells go in, each in the
 * machine's order, and every other byte of memory keeps its value. A module of no more cells goes in
 * whole. A later load of the same file to the same address, of no fewer cells, leaves what it would
 * have left without this one. out: [cells that went in]. */
int32_t beetle_load_first(
    uint8_t order,
    uint8_t *memory, size_t memory_length,
    const uint8_t *file, size_t file_length,
    uint32_t address,
    uint32_t cells,
    uint32_t *out, size_t out_length);

/* Loads a rule set: one to sixteen modules, each of either byte order, all of them or none. `modules`
 * holds three numbers for each: the byte address that it goes to, the place of its first byte in
 * `buffer`, and its length there in bytes. In the buffer they may lie over one another. The first of
 * these that applies is answered:
 *   BEETLE_BAD_MEMORY, BEETLE_BAD_ORDER;
 *   of each module in turn, up to the last whole three numbers, all that is wrong with it before the
 *   next one is looked at: BEETLE_BAD_HEADER where place + length, not wrapped round, is past the
 *   buffer's end, then what beetle_load would answer to those bytes at that address, which is
 *   BEETLE_BAD_HEADER, BEETLE_BAD_FILE_LENGTH, BEETLE_UNALIGNED or BEETLE_OUTSIDE;
 *   BEETLE_BAD_SET; a module of no cells has no byte of memory, and modules end to end have none in
 *   common;
 *   BEETLE_SHORT_OUTPUT.
 * A success writes the cells of every module, each in the machine's order, and no other byte of
 * memory: what beetle_load, module after module and in whatever sequence, would have left. A refusal
 * leaves memory and out as they were. out: [cells in all]. */
int32_t beetle_load_set(
    uint8_t order,
    uint8_t *memory, size_t memory_length,
    const uint8_t *buffer, size_t buffer_length,
    const uint32_t *modules, size_t modules_length,
    uint32_t *out, size_t out_length);

/* Saves a number of cells from a byte address as a module of 12 + 4 * cells bytes. out: [bytes]. */
int32_t beetle_save(
    uint8_t order,
    const uint8_t *memory, size_t memory_length,
    uint32_t address,
    uint32_t cells,
    uint8_t *output, size_t output_length,
    uint32_t *out, size_t out_length);

/* Packs a listing into the first cells of `output`, 4 bytes a cell. out: [cells]. */
int32_t beetle_pack(
    uint8_t order,
    const uint8_t *kinds, size_t kinds_length,
    const uint32_t *operands, size_t operands_length,
    uint32_t base,
    uint8_t *output, size_t output_length,
    uint32_t *out, size_t out_length);

/* Packs a listing file. out: [cells]. */
int32_t beetle_pack_file(
    uint8_t order,
    const uint8_t *file, size_t file_length,
    uint8_t *output, size_t output_length,
    uint32_t *out, size_t out_length);

/* Packs a short file, as the listing file that beetle_lengthen makes of it is packed. out: [cells]. */
int32_t beetle_pack_short(
    uint8_t order,
    const uint8_t *file, size_t file_length,
    uint8_t *output, size_t output_length,
    uint32_t *out, size_t out_length);

/* Reads an image back: finds the listing that beetle_pack, given this base and order, packs to exactly
 * these bytes. There is never a second one. Its kinds and operands go into the first places of both
 * arrays. Where there is none the image is refused with BEETLE_NO_LISTING: so is an empty one, and one
 * whose length is no multiple of 4. BEETLE_BAD_BASE counts the image's bytes whatever they hold. At
 * another base the same bytes may be refused, or be the image of another listing. out: [items]. */
int32_t beetle_unpack(
    uint8_t order,
    const uint8_t *image, size_t image_length,
    uint32_t base,
    uint8_t *kinds, size_t kinds_length,
    uint32_t *operands, size_t operands_length,
    uint32_t *out, size_t out_length);

/* Makes the short file, 12 + n + 4m bytes, of a listing file. Kinds and operands are judged, the base
 * is not. Lengthened again, it is the file that was given, byte for byte. out: [bytes]. */
int32_t beetle_shorten(
    const uint8_t *file, size_t file_length,
    uint8_t *output, size_t output_length,
    uint32_t *out, size_t out_length);

/* Makes the listing file, 8 + 5n bytes, of a short one, judged likewise. Shortened again, it is the
 * file that was given. out: [bytes]. */
int32_t beetle_lengthen(
    const uint8_t *file, size_t file_length,
    uint8_t *output, size_t output_length,
    uint32_t *out, size_t out_length);

/* Runs the list machine from item 0, at most `items` items. No image is asked for in memory, nor
 * that it fits there. A write into the table raises -20 where the image lies there too. out: [reason of
 * a stop, number of why it stands outside, or 0; item reached; items done; cycles counted, low half;
 * high half]. The item reached is the next one, the one that stopped the machine, or the one in front
 * of which it stands outside. */
int32_t beetle_list_run(
    uint8_t order,
    const uint8_t *kinds, size_t kinds_length,
    const uint32_t *operands, size_t operands_length,
    uint32_t base,
    uint8_t *memory, size_t memory_length,
    uint32_t table,
    uint32_t table_end,
    uint32_t *pointers, size_t pointers_length,
    uint32_t items,
    uint32_t *out, size_t out_length);

/* The same, taken up at `item`. `ran` is 1 (as any number but 0) where the machine came from the
 * item before it without a jump, and that item does not hold its value beside its opcode: reached
 * so, an item at the start of a cell counts two cycles. An item that the listing does not have
 * stands outside. A run cut in two at any item is the whole run, items and cycles added. */
int32_t beetle_list_resume(
    uint8_t order,
    const uint8_t *kinds, size_t kinds_length,
    const uint32_t *operands, size_t operands_length,
    uint32_t base,
    uint8_t *memory, size_t memory_length,
    uint32_t table,
    uint32_t table_end,
    uint32_t item,
    uint8_t ran,
    uint32_t *pointers, size_t pointers_length,
    uint32_t items,
    uint32_t *out, size_t out_length);

#ifdef __cplusplus
}
#endif

#endif
