/* mirvashol.h: the proved library libmirvashol.a for programs in C. It is linked with -lmirvashol, and needs nothing but
 * memcpy and memset. tests/c/judge.c is a small program that uses it.
 *
 * What the files, numbers and endings mean: docs/FORMAT.md. What is proved of each function: docs/PROOFS.md.
 *
 * Every slice goes as a pointer and a length. Each function returns the refusal number, 0 where nothing is refused, and
 * gives eight entries of `answer`:
 *
 *     0 number    1 file (0 table, 1 list, 2 trace, 3 a lent buffer)    2 place
 *     3 to 7      what each function says below where nothing is refused; all else is 0
 *
 * Entries past the eighth keep their values. An answer of fewer than eight entries: 255 is returned and nothing is changed.
 * A refusal writes no byte of a lent buffer; bytes beyond what is written keep their values.
 *
 * Any bytes may be asked about. What a caller must see to, and no function can test:
 *
 * - Each pointer is valid for its length during the call: to read, or, where it is not const, to read and write.
 *   With length 0 any pointer will do, a null pointer too.
 * - Lent buffers and `answer` overlap neither each other nor anything that is read. What is only read may overlap.
 * - `answer` and `lengths` are aligned as a uint64_t is.
 * - Nobody writes to any of it during the call, and nobody reads what is lent to be written.
 *
 * The functions keep no state, allocate nothing and start no thread: any number of calls may be made at once, each with
 * its own buffers. None needs more than about 64 KB of stack; no promise speaks of that.
 */
#ifndef MIRVASHOL_H
#define MIRVASHOL_H

#include <stddef.h>
#include <stdint.h>

#ifdef __cplusplus
extern "C" {
#endif

/* Entries of an answer. */
#define MIRVASHOL_ENTRIES 8

/* The longest files that are not refused for their length, in bytes. Of a longer file one byte more is enough to read. */
#define MIRVASHOL_LONGEST_TABLE 808
#define MIRVASHOL_LONGEST_LIST 26632
#define MIRVASHOL_LONGEST_TRACE 5578

/* Buffers of these sizes always suffice, in bytes: a table's types, its list, a run's values, its messages. */
#define MIRVASHOL_ROOM_FOR_TYPES 12480
#define MIRVASHOL_ROOM_FOR_LIST 13512
#define MIRVASHOL_ROOM_FOR_VALUES 7680
#define MIRVASHOL_ROOM_FOR_LOG 2560

/* The widest types of a table: for each symbol a length byte and the type's bytes. Numbers 1 to 10, and 15 for `out`.
 * Entry 3: bytes written. */
uint8_t mirvashol_type(const uint8_t *table, size_t table_length,
                       uint8_t *out, size_t out_length,
                       uint64_t *answer, size_t answer_entries);

/* The list of a table. Numbers 1 to 10, and 15 for `out`. Entry 3: bytes written. */
uint8_t mirvashol_compile(const uint8_t *table, size_t table_length,
                          uint8_t *out, size_t out_length,
                          uint64_t *answer, size_t answer_entries);

/* Judges a list against a table: 0 exactly if the list is a faithful rendering of the table. Numbers 1 to 10 of the table,
 * 1 to 5 of the list, then 11 to 13. */
uint8_t mirvashol_judge(const uint8_t *table, size_t table_length,
                        const uint8_t *list, size_t list_length,
                        uint64_t *answer, size_t answer_entries);

/* Judges lists of one table, `lengths_count` of them (at most 64), laid end to end in `lists` with their lengths. For each list the four bytes
 * of what mirvashol_judge says of it by itself go to `verdicts`: number, file, and the place, high byte first; four zeros where it is accepted.
 * Refused is the whole call: numbers 1 to 10 of the table; then, with file 1, 3 for more than 64 lists, and 4 for lengths that do not add up to
 * `lists_length`; then 15 for `verdicts`. Entry 3: bytes written, four for each list. */
uint8_t mirvashol_judge_shelf(const uint8_t *table, size_t table_length,
                              const uint8_t *lists, size_t lists_length,
                              const uint64_t *lengths, size_t lengths_count,
                              uint8_t *verdicts, size_t verdicts_length,
                              uint64_t *answer, size_t answer_entries);

/* Judges a list and runs it on a trace. The value table goes to `values` and the messages to `log`, five bytes an entry
 * each. The judge's numbers, 1 to 6 of the trace, 14, then 15 for `values` and for `log`.
 * Entry 3: the ending. 4: the statement at which it ended, or their number. 5: supplies used. 6: messages. 7: values. */
uint8_t mirvashol_run(const uint8_t *table, size_t table_length,
                      const uint8_t *list, size_t list_length,
                      const uint8_t *trace, size_t trace_length,
                      uint8_t *values, size_t values_length,
                      uint8_t *log, size_t log_length,
                      uint64_t *answer, size_t answer_entries);

/* The part of a list that holds the type of a symbol. Nothing is refused. Entry 3: where the part starts in the list.
 * 4: its length, 0 where the list has a number 1 to 4 or a malformed type, or lacks the symbol. */
uint8_t mirvashol_type_of(const uint8_t *list, size_t list_length, size_t symbol,
                          uint64_t *answer, size_t answer_entries);

/* Reads a table by itself: numbers 1 to 9. Entry 3: symbols. 4: terms. 5: steps. */
uint8_t mirvashol_check_table(const uint8_t *table, size_t table_length,
                              uint64_t *answer, size_t answer_entries);

/* Reads a list by itself, where its table has `free_symbols` free symbols: numbers 1 to 5.
 * Entry 3: types. 4: statements. 5: where the statements begin. */
uint8_t mirvashol_check_list(const uint8_t *list, size_t list_length, size_t free_symbols,
                             uint64_t *answer, size_t answer_entries);

/* Reads a trace by itself: numbers 1 to 6. Entry 3: values. 4: supplied values. 5: starting values. */
uint8_t mirvashol_check_trace(const uint8_t *trace, size_t trace_length,
                              uint64_t *answer, size_t answer_entries);

#ifdef __cplusplus
}
#endif

#endif
