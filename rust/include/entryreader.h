/*
 * The exported calls of the entry reader, for programs in C and C++: link libentryreader.a, which serves x86-64 Linux.
 *
 * A slice is handed over as its pointer and its length, counted in numbers of its type. No pointer may be null, not even one with length 0. What a call
 * writes (table, stored, work, out, answer, words) must not overlap with anything else that is handed over.
 *
 * Every call takes any bytes and any numbers, and ends. Where it is refused, it returns 100 plus the number of the refusal, and everything lent is as
 * it was; entryreader_sheet and entryreader_judge say in their answer what was refused. V is the sheet's count of variables, 1 to 256, and n the length
 * of the input, which is the entry, 0 to 4,096.
 */
#ifndef ENTRYREADER_H
#define ENTRYREADER_H

#include <stddef.h>
#include <stdint.h>

#ifdef __cplusplus
extern "C" {
#endif

/*
 * Reads a rule sheet. Returns 0, with 0, V, the start variable and the endmarker in the answer, and a word for the rule of each of the variables 1 to
 * 256: the kind and 1, or 0 for no rule, in the highest byte, then three operands, a byte each, called variables less 1. Or returns 100 plus the number
 * of a refusal (1 to 5), with the number, the line at fault or 0, 0 and 0 in the answer, and the words as they were.
 */
uint32_t entryreader_sheet(
    const uint8_t *sheet, size_t sheet_length,
    uint32_t (*answer)[4],
    uint32_t (*words)[256]);

/*
 * The verdict on an entry, over 1,024 cells of the call's own. Returns 0 recognised, 1 failure, 2 loop, 3 missing, 5 partial; or 100 plus the number of
 * a refusal (1 to 6, and 10 where V times (n + 1) is over 1,024). Since order 11 there is neither 4 nor refusal 7: an entry needs no closing mark, and a
 * rule that asks for a byte at its end fails.
 */
uint32_t entryreader_verdict(
    const uint8_t *sheet, size_t sheet_length,
    const uint8_t *input, size_t input_length);

/*
 * The verdict on an entry, over a lent table of twice V times (n + 1) numbers or more and a lent work slice of V times (n + 1) or more. Always returns
 * 0, with four numbers in the answer: the code of the verdict, the named variable or 0, the end or the named position or 0, the count of decided cells;
 * or for a refusal (1 to 6, 10) 9, its number, the line at fault or 0, and 0, with table and work slice as they were.
 */
uint32_t entryreader_judge(
    const uint8_t *sheet, size_t sheet_length,
    const uint8_t *input, size_t input_length,
    uint32_t *table, size_t table_length,
    uint32_t *work, size_t work_length,
    uint32_t (*answer)[4]);

/*
 * The opening of an entry that already loops: the least m such that the entry's first m bytes loop too, asked about the start variable at 0. Returns 0,
 * with 1 and m in the answer where the verdict is loop, and 0 and 0 where it is any other, though an opening may loop; or a refusal (1 to 6, 10). Table
 * and work slice are as long as for entryreader_judge, and afterwards the table is the one that it leaves.
 */
uint32_t entryreader_opening(
    const uint8_t *sheet, size_t sheet_length,
    const uint8_t *input, size_t input_length,
    uint32_t *table, size_t table_length,
    uint32_t *work, size_t work_length,
    uint32_t (*answer)[2]);

/*
 * The outcome of a variable (1 to V) at a position (0 to n), over a lent table of twice V times (n + 1) numbers or more and a lent work slice of V
 * times (n + 1) or more. Returns 0, with the outcome's code, the named variable and position (or 0 and 0) and the count of decided cells in the answer;
 * or a refusal (1 to 6, 8 to 10). A cell of the table is two numbers side by side, outcome then reach; that of variable A at p is number (A - 1) times
 * (n + 1) plus p. Its outcome is 0 if the question does not reach it, 1 for failure, 2 loop, 3 missing, 5 + q for success ending at q. Its reach is how
 * far a success or a failure looked: p for a rule of kind 0 or 1, p + 1 for one of kind 2 or 3, the greater of the two called pairs' for one of kind 4;
 * any other is 0. A reach of n + 1 says that the input's end was looked at: with bytes appended the answer may then be another.
 */
uint32_t entryreader_question(
    const uint8_t *sheet, size_t sheet_length,
    const uint8_t *input, size_t input_length,
    uint32_t variable, uint32_t position,
    uint32_t *table, size_t table_length,
    uint32_t *work, size_t work_length,
    uint32_t (*answer)[4]);

/*
 * The question about an input of which the byte at c was corrected, over a kept table of the old input: a blank one, one that a question left, or one
 * that this call or entryreader_further left over a kept one. Retained are its cells at positions above c, and each success or failure whose reach is
 * at most c. Returns as entryreader_question does, with the count of newly decided cells. The refusals are those of the question, about input alone; then
 * 18 (c is not below n), 21 (old and input differ in length, or at a position other than c) and 19 (a retained cell with outcome 4 or one over 5 + n, a
 * success that ends left of its place, or a success or a failure whose reach is below its place). Whether the table is of old and this sheet is not tested.
 *
 * Since order 10 old is handed over too: a program that was compiled without it has to be changed.
 */
uint32_t entryreader_correct(
    const uint8_t *sheet, size_t sheet_length,
    const uint8_t *old, size_t old_length,
    const uint8_t *input, size_t input_length,
    uint32_t variable, uint32_t position, uint32_t c,
    uint32_t *table, size_t table_length,
    uint32_t *work, size_t work_length,
    uint32_t (*answer)[4]);

/*
 * A further question, over a kept table of the same input, of which nothing is blanked: the first V times (n + 1) cells are retained. Returns as
 * entryreader_question does, with the count of newly decided cells; the refusals are those of the question and 19.
 */
uint32_t entryreader_further(
    const uint8_t *sheet, size_t sheet_length,
    const uint8_t *input, size_t input_length,
    uint32_t variable, uint32_t position,
    uint32_t *table, size_t table_length,
    uint32_t *work, size_t work_length,
    uint32_t (*answer)[4]);

/*
 * Stores the cells of a table by place, for an archive: the cell of variable A at p, both its numbers, becomes cell p times V plus A - 1 of stored. V is
 * variables and n is length; each of the two has twice V times (n + 1) numbers or more. What the cells hold is not looked at, and later numbers of stored
 * are unchanged. Returns 0; or a refusal (3 where V is not 1 to 256, 6 where n is over 4,096, 20 where one of the two has fewer numbers).
 */
uint32_t entryreader_store(
    uint32_t variables, uint32_t length,
    const uint32_t *table, size_t table_length,
    uint32_t *stored, size_t stored_length);

/*
 * Restores the cells of a table that was stored: the way back, to any table that is long enough. Returns as entryreader_store does. Where a kept table was
 * stored, the restored one is kept too.
 */
uint32_t entryreader_restore(
    uint32_t variables, uint32_t length,
    const uint32_t *stored, size_t stored_length,
    uint32_t *table, size_t table_length);

/*
 * The question, with its reading at the front of out, which has 49 times V times (n + 1) bytes or more. Returns 0, with the question's four numbers and
 * the count of lines, 49 bytes each, in the answer; or a refusal (1 to 6, 8 to 11). Loop and missing have no lines.
 */
uint32_t entryreader_write(
    const uint8_t *sheet, size_t sheet_length,
    const uint8_t *input, size_t input_length,
    uint32_t variable, uint32_t position,
    uint32_t *table, size_t table_length,
    uint32_t *work, size_t work_length,
    uint8_t *out, size_t out_length,
    uint32_t (*answer)[5]);

/*
 * Checks a reading about a variable at a position. Returns 0, with the code of the outcome that it claims (5 + q for success ending at q, 1 for
 * failure) and the end in its last line in the answer; or a refusal (1 to 6, 8, 9, 12 to 14).
 */
uint32_t entryreader_check(
    const uint8_t *sheet, size_t sheet_length,
    const uint8_t *input, size_t input_length,
    uint32_t variable, uint32_t position,
    const uint8_t *reading, size_t reading_length,
    uint32_t (*answer)[2]);

/*
 * Writes the rule sheet of a text of the societies' shorthand at the front of out; 26 times 257 bytes always suffice. Returns 0, with the sheet's length
 * in the answer; or a refusal (11, 15 to 17).
 */
uint32_t entryreader_shorthand(
    const uint8_t *text, size_t text_length,
    uint8_t *out, size_t out_length,
    uint32_t (*answer)[1]);

#ifdef __cplusplus
}
#endif

#endif
