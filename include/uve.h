/* The engine and the translator for C: the functions of target/staticlib/libuve.a, which `tools/build uve` proves and writes.
 *
 * A buffer is a pointer and a length in bytes. The buffers of a call must not overlap. A buffer of length 0 may have any pointer, NULL
 * too. No call reads or writes outside its buffers, or reads what a report held before.
 *
 * No state is kept between calls, so calls from several threads are safe, each on buffers of its own. There is no heap. Give a thread
 * that calls 256 KiB of stack: 188,968 bytes were touched, measured on x86-64 over the examples; no theorem bounds it.
 *
 * A report receives numbers of 64 bits each, lowest byte first: number k stands in bytes 8 k to 8 k + 7.
 *
 * examples/run.c is a program that calls uve_run: cc -Iinclude examples/run.c target/staticlib/libuve.a
 */
#ifndef UVE_H
#define UVE_H

#include <stddef.h>
#include <stdint.h>

#ifdef __cplusplus
extern "C" {
#endif

/* The answer where a report is too short: nothing was done. No refusal has this number. */
#define UVE_SHORT_REPORT UINT64_MAX

/* The length of a run's report: 464 numbers. */
#define UVE_RUN_REPORT 3712

/* The length of a translation's report: 3 numbers. */
#define UVE_TRANSLATE_REPORT 24

/* Runs a sheet on a memory, at a vector length in bytes. Answers the refusal's number, or 0.
 *
 * The numbers of the report:
 *   0 to 3      number, place, passes, calculations (done: number 0, place 0)
 *   4 and 5     lane and operand of a refusal 14: the first lane outside, counted from 0, and 0 for the first source, 1 for the
 *               second, 2 for the destination; both 0 with any other answer
 *   6 and 7     two that stay 0 for now: headers with a cache level, iterations walked
 *   8 to 455    for each of the 32 registers 14 of them, those of register i from number 8 + 14 i on: state (0 plain, 1 being
 *               configured, 2 open, 3 finished), kind (0 none, 1 load, 2 store), width in bytes, valid lanes, dimensions, flags (dimension
 *               1 in the lowest bit), and the 64 lane bytes as 8 numbers, so that they stand in the report in their order.
 *               What does not apply is 0: kind and dimensions of a plain register, flags of a plain or configuring one. With refusal
 *               15 all registers are fresh
 *   456 to 463  eight for the masks, which stay 0 for now
 *
 * Bytes behind the first 3,712 stay. A shorter report gets nothing: the answer is UVE_SHORT_REPORT, and the memory is unchanged.
 */
uint64_t uve_run(const uint8_t *sheet, size_t sheet_len, uint64_t vector_length,
                 uint8_t *memory, size_t memory_len,
                 uint8_t *report, size_t report_len);

/* Translates a loop nest into a room. Answers the refusal's number, or 0.
 *
 * The numbers of the report: number, place, length of the sheet (0 if refused). Bytes behind the first 24 stay, and so do those of the
 * room behind the sheet; if refused, the whole room. A shorter report gets nothing: the answer is UVE_SHORT_REPORT, and the room is
 * unchanged. A room of 1,024 bytes always suffices.
 */
uint64_t uve_translate(const uint8_t *nest, size_t nest_len,
                       uint8_t *room, size_t room_len,
                       uint8_t *report, size_t report_len);

#ifdef __cplusplus
}
#endif

#endif
