/* Pekonusit's proved calls, for C. `host/archive` makes the library, target/staticlib/libsignatures.a, for x86-64.
 *
 * A call takes any bytes and any lent slices, and returns. It allocates nothing, and a thread with 2 MiB of stack suffices. What tables, listings and the
 * numbers of refusals are is told in docs/FORMATS.md, what the calls promise in docs/CALLS.md. */
#ifndef PEKONUSIT_H
#define PEKONUSIT_H

#include <stddef.h>
#include <stdint.h>

#ifdef __cplusplus
extern "C" {
#endif

/* What is lent besides the output, in elements. A slice may be longer; one that is shorter is refused with 20. What it holds before does not matter, and at
 * every return all of it is zero. No two slices may share a cell. */
#define PEKONUSIT_DRAFT 65536         /* uint8_t */
#define PEKONUSIT_TABLE 77378         /* uint32_t, for table and for old */
#define PEKONUSIT_ARENA 57601         /* uint32_t, for canon, canon_numbered and canon_root */
#define PEKONUSIT_RECHECK_ARENA 65536 /* uint32_t, for recheck and recheck_numbered */
#define PEKONUSIT_WORK 45058          /* uint32_t */

/* The output may have any length; this is what the programs lend. A text that is longer than the output is refused with 12. */
#define PEKONUSIT_OUTPUT 65536

/* The number that a call answers has two halves. The high one is 0 if the text was written, and else the number of the refusal; then the output is as it was
 * found. The low one is the length of the text written, or the line that the refusal points at: counted from 1, and 0 where no line is at fault. */
static inline uint32_t pekonusit_refused(uint64_t answer) { return (uint32_t)(answer >> 32); }
static inline uint32_t pekonusit_length(uint64_t answer) { return (uint32_t)answer; }
static inline uint32_t pekonusit_line(uint64_t answer) { return (uint32_t)answer; }

/* The listing of a table. */
uint64_t pekonusit_canon(const uint8_t *text, size_t text_len,
                         uint8_t *out, size_t out_len,
                         uint8_t *draft, size_t draft_len,
                         uint32_t *table, size_t table_len,
                         uint32_t *arena, size_t arena_len,
                         uint32_t *work, size_t work_len);

/* The same with the variables of each root numbered 0, 1, 2 and so on, in the order of their first appearance: a numbered listing. */
uint64_t pekonusit_canon_numbered(const uint8_t *text, size_t text_len,
                                  uint8_t *out, size_t out_len,
                                  uint8_t *draft, size_t draft_len,
                                  uint32_t *table, size_t table_len,
                                  uint32_t *arena, size_t arena_len,
                                  uint32_t *work, size_t work_len);

/* The lines of one root of a table: an entry's id, and its sign, 0 for + and any other number for -. */
uint64_t pekonusit_canon_root(const uint8_t *text, size_t text_len,
                              uint32_t id, uint32_t sign,
                              uint8_t *out, size_t out_len,
                              uint8_t *draft, size_t draft_len,
                              uint32_t *table, size_t table_len,
                              uint32_t *arena, size_t arena_len,
                              uint32_t *work, size_t work_len);

/* The listing of a new table, given the old table and its listing, behind a line of `kept` or `redone` for each root. */
uint64_t pekonusit_recheck(const uint8_t *old_text, size_t old_text_len,
                           const uint8_t *new_text, size_t new_text_len,
                           const uint8_t *listing, size_t listing_len,
                           uint8_t *out, size_t out_len,
                           uint8_t *draft, size_t draft_len,
                           uint32_t *old, size_t old_len,
                           uint32_t *table, size_t table_len,
                           uint32_t *arena, size_t arena_len,
                           uint32_t *work, size_t work_len);

/* The same with a numbered listing before and after. */
uint64_t pekonusit_recheck_numbered(const uint8_t *old_text, size_t old_text_len,
                                    const uint8_t *new_text, size_t new_text_len,
                                    const uint8_t *listing, size_t listing_len,
                                    uint8_t *out, size_t out_len,
                                    uint8_t *draft, size_t draft_len,
                                    uint32_t *old, size_t old_len,
                                    uint32_t *table, size_t table_len,
                                    uint32_t *arena, size_t arena_len,
                                    uint32_t *work, size_t work_len);

#ifdef __cplusplus
}
#endif

#endif
