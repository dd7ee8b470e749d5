/* The C interface of Gofeshan, a proved tool for BTOR2 circuits with small memories.
 *
 * Link crates/exports/out/libexports.a, which `rt lib` in crates/exports writes.
 *
 * A table is a list that holds a circuit's records, six words each: kind, sort
 * line, three operands, and the id as written. A program holds records of five
 * words each: kind, width, three operands. Unused words are 0. A list whose
 * length is no multiple of six is no table; one whose length is no multiple of
 * five is no program. At most 16,384 records count.
 *
 * The kinds, by their words in BTOR2:
 *
 *    1 sort bitvec   2 sort array   3 constd (const, consth, zero, one, ones too)
 *    4 input   5 state   6 init   7 next   8 bad   9 constraint   10 output
 *   11 not  12 neg  13 inc  14 dec  15 redand  16 redor  17 redxor  18 slice
 *   19 uext  20 sext  21 eq  22 neq  23 ult  24 ulte  25 ugt  26 ugte  27 slt
 *   28 slte  29 sgt  30 sgte  31 iff  32 implies  33 and  34 or  35 xor  36 nand
 *   37 nor  38 xnor  39 add  40 sub  41 mul  42 udiv  43 urem  44 sdiv  45 srem
 *   46 smod  47 sll  48 srl  49 sra  50 rol  51 ror  52 concat  53 ite  54 read
 *   55 write  57 uaddo  58 saddo  59 usubo  60 ssubo  61 umulo  62 smulo  63 sdivo
 *
 * A program has the kinds 3 to 53, 57 to 63, and 56, which masks its operand to its
 * width and has no word. 57 to 63 are overflow detectors: of two words of one width
 * they are 1 where the sum, difference, product or quotient, as a whole number, is
 * no unsigned (u) or signed (s) number of that width, and else 0, by 0 too.
 *
 * The words of a table or a program stand in columns, all kinds first: word j of
 * record i, both from 0, stands at (len / 6) * j + i, in a program at
 * (len / 5) * j + i, where len is the length of the whole list, in words. So each
 * column is as long as the number of records that the list can hold, above 16,384
 * too, and where it starts depends on the list's length: pass a list on with the
 * length that it was filled with. Part of a list, or a longer one with zeros behind
 * the same words, holds other records. The last four functions convert between
 * records one behind the other and columns.
 *
 * A record's number is its place, from 1, and records tell lines by their
 * places. Ids only rise, from 1 up to 4,294,967,295, with or without gaps: those
 * of a text, whose operand tokens name ids, and those of the counted records of a
 * table. An operand token -7 is the complement of the line 7: reading puts a not
 * record, kind 11, before the line's own record for each of them. Its id is 0,
 * which no other kind of record may have, and no token names 0. Flat circuits and
 * written texts are numbered 1, 2, 3, not lines too.
 *
 * A line's name is its one extra token, bytes as they stand. No two lines of a text
 * may have the same: the later one is refused. Tables hold no names, and written
 * texts have none.
 *
 * A state is free where no counted record is a next line of it, wherever in the
 * table that stands; a next line with the state as its own value does set it. A row
 * of a run has a word for each input line, in line order, and behind them one for
 * each cell of each free state, states in line order, cells rising, wherever they
 * stand among the inputs. At step 0 every state has its start word or init value, and
 * the free states' words are present and not read; from step 1 on a free state's cells
 * are the row's words modulo 2^w, in a program too. A peek takes the row of step 0.
 *
 * A list is passed as a pointer and its length (in elements). Each function
 * returns 0 when done, else the number of the first refusal that holds, in the
 * order given with the function:
 *
 *    1  a list is no table, or no program, or `answer` has not three words
 *    2  text above 65,536 bytes
 *    3  id is no number above the id before it (0 before the first) and up to 4,294,967,295
 *    4  no record left; after 22 where there is one, and none for the line with its not records
 *    5  word unknown or missing
 *    6  operand missing or malformed, or two extra tokens
 *    7  number above 2^64 - 1, const above 64 or consth above 16 digits, or bitvec width not 1 to 64
 *    8  operand is not the id of an earlier line of the right class, or a minus before a sort, an array, an init value,
 *       or the state that an init or next sets
 *    9  sorts, widths, bounds or constant misfit
 *   10  second init or next of a state, or the init rule
 *   11  the count exceeds the table (a sixth of its length) or 16,384, or a record breaks a rule, or its id is not above
 *       the last one before it that is not 0, or above 4,294,967,295, or 0 for another than a not record; of a conversion
 *       the count alone
 *   12  more records than the target or 16,384 holds
 *   13  steps above 4,096
 *   14  start words: not one for each state cell
 *   15  input words: not one for each input and each cell of each free state, for each step (for a peek: one row)
 *   16  signal bytes: not one for each bad and constraint line and step
 *   17  work area below one word for each cell of each value line plus each state cell
 *   18  above 64 records, not a value line, or no such cell
 *   19  a record of kind 2 is present
 *   20  the count exceeds the program (a fifth of its length) or 16,384, or a record breaks a rule for programs; of a
 *       conversion the count alone
 *   21  text buffer too short
 *   22  the line's name already stands on an earlier line; after 10 for the same line
 *
 * Further values go to `answer`, a list of three words; words that are not used
 * are 0. Past the end of a result everything lent for writing is zero, in a table
 * or a program past the count in each column, and so it is after a refusal, but for
 * answer[0] of gofeshan_read, which is then the text line (0 with 1 and 2); a work
 * area is zero after any call.
 *
 * What the caller sees to:
 *  - each pointer comes with the length of its list, in elements; where the
 *    length is 0 the pointer may be anything, NULL too;
 *  - lists of uint64_t are aligned to 8 bytes;
 *  - a list lent for writing shares no words with another list.
 * A list lent for writing may be uninitialised. The proof takes it to hold some
 * words, and says that it makes no difference which; that the compiled code
 * writes each word before it reads it was seen under valgrind, on the examples.
 * Nothing else is asked: every call ends with an answer of this page.
 *
 * The functions keep their notes on the stack, less than 1 MB: call them with 2 MB of it.
 */
#ifndef GOFESHAN_H
#define GOFESHAN_H

#include <stddef.h>
#include <stdint.h>

#ifdef __cplusplus
extern "C" {
#endif

/* Reads a BTOR2 text into a table, which has room for table_len / 6 records. 1, 2; then line by line 3 to 10, 22, and 4 again.
 * answer[0]: the number of records; with 3 to 10 and 22 the text line, from 1. */
uint64_t gofeshan_read(const uint8_t *text, size_t text_len,
                       uint64_t *table, size_t table_len,
                       uint64_t *answer, size_t answer_len);

/* Writes the first `count` records as text, numbered 1, 2, 3 whatever their ids are. 1, 11, 21.
 * answer[0]: the number of bytes. */
uint64_t gofeshan_write(const uint64_t *table, size_t table_len, size_t count,
                        uint8_t *text, size_t text_len,
                        uint64_t *answer, size_t answer_len);

/* Flattens a circuit: arrays become words, one for each cell. The target is a
 * table too, with room for target_len / 6 records; their ids are 1, 2, 3. 1, 11, 12.
 * answer[0]: the number of records in the target. */
uint64_t gofeshan_flatten(const uint64_t *table, size_t table_len, size_t count,
                          uint64_t *target, size_t target_len,
                          uint64_t *answer, size_t answer_len);

/* Translates a flat circuit into a program on 64-bit words. The target is a
 * program, with room for target_len / 5 records. 1, 11, 19, 12.
 * answer[0]: the number of records in the target. */
uint64_t gofeshan_translate(const uint64_t *table, size_t table_len, size_t count,
                            uint64_t *target, size_t target_len,
                            uint64_t *answer, size_t answer_len);

/* Runs a circuit. 1, 11, 13, 14, 15, 16, 17.
 * starts:  a word for each state cell, free or not, in line order, cells rising; unused where there is an init.
 * inputs:  a row for each step: a word for each input line, then one for each cell of each free state.
 * signals: gets a byte, 0 or 1, for each step and each bad and constraint line.
 * work:    a word for each cell of each value line plus each state cell, or more.
 * answer:  1, step, place of the first counted bad (the step from 0, the place among the bad lines from 1); else 0, 0, 0. */
uint64_t gofeshan_run_circuit(const uint64_t *table, size_t table_len, size_t count, size_t steps,
                              const uint64_t *starts, size_t starts_len,
                              const uint64_t *inputs, size_t inputs_len,
                              uint8_t *signals, size_t signals_len,
                              uint64_t *work, size_t work_len,
                              uint64_t *answer, size_t answer_len);

/* Runs a program, as gofeshan_run_circuit runs a circuit; `table` has five columns. 1, 20, 13, 14, 15, 16, 17. */
uint64_t gofeshan_run_program(const uint64_t *table, size_t table_len, size_t count, size_t steps,
                              const uint64_t *starts, size_t starts_len,
                              const uint64_t *inputs, size_t inputs_len,
                              uint8_t *signals, size_t signals_len,
                              uint64_t *work, size_t work_len,
                              uint64_t *answer, size_t answer_len);

/* The value of a line's cell at step 0, from start words and one row: a word for each input line, then one for each
 * cell of each free state, which is not read. `line` is the record's place, not its id; a word has cell 0 only.
 * 1, 11, 14, 15, 18.
 * answer[0]: the value. */
uint64_t gofeshan_peek(const uint64_t *table, size_t table_len, size_t count, size_t line, size_t cell,
                       const uint64_t *starts, size_t starts_len,
                       const uint64_t *row, size_t row_len,
                       uint64_t *answer, size_t answer_len);

/* The name in the first line whose id, as written, is the given number. 1.
 * answer[0]: where it starts in the text, answer[1]: its length, 0 where the
 * line is missing, has an unknown word or has not just one extra token. */
uint64_t gofeshan_name(const uint8_t *text, size_t text_len, uint64_t id,
                       uint64_t *answer, size_t answer_len);

/* Converts the first `count` records of a circuit, one behind the other (word j of record i at 6 * i + j), into the
 * columns of the target, which has room for target_len / 6 records. Any words are carried over as they stand: neither
 * records nor ids are checked, and words past the count are not looked at. The lists may have different lengths.
 * 1 for either list; 11 where the count exceeds records_len / 6 or 16,384; 12 where it exceeds target_len / 6.
 * answer[0]: the count. */
uint64_t gofeshan_circuit_to_columns(const uint64_t *records, size_t records_len, size_t count,
                                     uint64_t *target, size_t target_len,
                                     uint64_t *answer, size_t answer_len);

/* Converts the first `count` records of a table back into records one behind the other, likewise. 1, 11, 12.
 * answer[0]: the count. */
uint64_t gofeshan_circuit_to_records(const uint64_t *table, size_t table_len, size_t count,
                                     uint64_t *target, size_t target_len,
                                     uint64_t *answer, size_t answer_len);

/* As gofeshan_circuit_to_columns, for the records of a program, five words each (word j of record i at 5 * i + j):
 * lengths are counted in fives, and 20 stands for 11. 1, 20, 12.
 * answer[0]: the count. */
uint64_t gofeshan_program_to_columns(const uint64_t *records, size_t records_len, size_t count,
                                     uint64_t *target, size_t target_len,
                                     uint64_t *answer, size_t answer_len);

/* As gofeshan_circuit_to_records, for a program. 1, 20, 12.
 * answer[0]: the count. */
uint64_t gofeshan_program_to_records(const uint64_t *table, size_t table_len, size_t count,
                                     uint64_t *target, size_t target_len,
                                     uint64_t *answer, size_t answer_len);

#ifdef __cplusplus
}
#endif

#endif
