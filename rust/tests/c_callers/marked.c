/*
 * Puts cases through every exported call, and prints what each returns and the numbers that it leaves.
 *
 * A case on standard input is a rule sheet, or a text of the shorthand, and then an entry, each as its length, a line feed and its bytes. Every question is
 * about variable 1 at 0, but for the further one, which is about variable 1 behind the last byte. The byte at 0 is corrected to another one and back. What
 * is lent is filled with 7 before. The table that the reading's question leaves is stored, and restored elsewhere.
 */
#include "entryreader.h"
#include <stdio.h>
#include <string.h>

enum { BYTES = 8192, CELLS = 1024, NUMBERS = 2 * CELLS, SHOWN = 64, LINE = 49 };

static uint8_t sheet[BYTES], entry[BYTES], other[BYTES], output[LINE * CELLS];
static size_t sheet_length, entry_length;
static uint32_t table[NUMBERS], stored[NUMBERS], restored[NUMBERS], work[CELLS], words[256], variables;

static int take(uint8_t *bytes, size_t *length)
{
    return scanf("%zu", length) == 1 && getchar() == '\n' && *length <= BYTES
        && fread(bytes, 1, *length, stdin) == *length;
}

static void fill(uint32_t *numbers, size_t count)
{
    for (size_t i = 0; i < count; i++)
        numbers[i] = 7;
}

static void print(const char *name, const uint32_t *numbers, size_t count)
{
    printf("%s", name);
    for (size_t i = 0; i < count; i++)
        printf(" %lu", (unsigned long)numbers[i]);
    printf("\n");
}

/* What a call returned, and its answer. */
static void report(const char *name, uint32_t returned, const uint32_t *numbers, size_t count)
{
    printf("%s %lu:", name, (unsigned long)returned);
    print("", numbers, count);
}

static void lend(uint32_t *answer, size_t count)
{
    fill(table, NUMBERS);
    fill(work, CELLS);
    fill(answer, count);
}

/* The text becomes a sheet where it is one of the shorthand. */
static void shorthand(void)
{
    uint32_t answer[1] = {7};
    memset(output, 7, sizeof output);
    uint32_t returned = entryreader_shorthand(sheet, sheet_length, output, sizeof output, &answer);
    report("shorthand", returned, answer, 1);
    if (returned == 0) {
        sheet_length = answer[0];
        memcpy(sheet, output, sheet_length);
    }
}

static void read_sheet(void)
{
    uint32_t answer[4] = {7, 7, 7, 7};
    fill(words, 256);
    uint32_t returned = entryreader_sheet(sheet, sheet_length, &answer, &words);
    report("sheet", returned, answer, 4);
    print("words", words, 256);
    variables = returned == 0 ? answer[1] : 0;
}

static void verdicts(void)
{
    uint32_t answer[4];
    report("verdict", entryreader_verdict(sheet, sheet_length, entry, entry_length), NULL, 0);
    lend(answer, 4);
    uint32_t returned = entryreader_judge(
        sheet, sheet_length, entry, entry_length, table, NUMBERS, work, CELLS, &answer);
    report("judge", returned, answer, 4);
    print("table", table, SHOWN);
}

static void opening(void)
{
    uint32_t answer[2];
    lend(answer, 2);
    uint32_t returned = entryreader_opening(
        sheet, sheet_length, entry, entry_length, table, NUMBERS, work, CELLS, &answer);
    report("opening", returned, answer, 2);
    print("table", table, SHOWN);
}

/* The correction of an old entry to a new one, with c named for it. */
static void correct(const char *name, const uint8_t *old, const uint8_t *new, uint32_t c)
{
    uint32_t answer[4] = {7, 7, 7, 7};
    uint32_t returned = entryreader_correct(
        sheet, sheet_length, old, entry_length, new, entry_length, 1, 0, c, table, NUMBERS, work, CELLS, &answer);
    report(name, returned, answer, 4);
    print("table", table, SHOWN);
}

/* The question; another byte at 0, for which 1 is named first, and the byte that was there; and a further question, all over one table. */
static void questions(void)
{
    uint32_t answer[4];
    lend(answer, 4);
    uint32_t returned = entryreader_question(
        sheet, sheet_length, entry, entry_length, 1, 0, table, NUMBERS, work, CELLS, &answer);
    report("question", returned, answer, 4);
    print("table", table, SHOWN);
    memcpy(other, entry, entry_length);
    other[0] ^= 1;
    correct("misplaced", entry, other, 1);
    correct("correct", entry, other, 0);
    correct("corrected back", other, entry, 0);
    fill(answer, 4);
    returned = entryreader_further(
        sheet, sheet_length, entry, entry_length, 1, (uint32_t)entry_length, table, NUMBERS, work, CELLS, &answer);
    report("further", returned, answer, 4);
    print("table", table, SHOWN);
}

/* The lines of the reading are printed as they are, and then checked. */
static void reading(void)
{
    uint32_t written[5], claimed[2] = {7, 7};
    lend(written, 5);
    memset(output, 7, sizeof output);
    uint32_t returned = entryreader_write(
        sheet, sheet_length, entry, entry_length, 1, 0, table, NUMBERS, work, CELLS, output, sizeof output, &written);
    report("write", returned, written, 5);
    size_t length = returned == 0 ? LINE * (size_t)written[4] : 0;
    fwrite(output, 1, length, stdout);
    returned = entryreader_check(
        sheet, sheet_length, entry, entry_length, 1, 0, output, length, &claimed);
    report("check", returned, claimed, 2);
}

/* A refused sheet has no variables. */
static void archive(void)
{
    uint32_t length = (uint32_t)entry_length;
    fill(stored, NUMBERS);
    uint32_t returned = entryreader_store(variables, length, table, NUMBERS, stored, NUMBERS);
    report("store", returned, stored, SHOWN);
    fill(restored, NUMBERS);
    returned = entryreader_restore(variables, length, stored, NUMBERS, restored, NUMBERS);
    report("restore", returned, restored, SHOWN);
}

int main(void)
{
    while (take(sheet, &sheet_length) && take(entry, &entry_length)) {
        shorthand();
        read_sheet();
        verdicts();
        opening();
        questions();
        reading();
        archive();
    }
    return 0;
}
