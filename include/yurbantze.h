/* The planner of mixed orthogonal run tables, for C. Link libexported.a, which `rt lib` in crates/exported writes to crates/exported/out (x86-64 Linux).
 *
 * What is said here of a function is its contract in crates/exported/src/lib.rt, and proved, for a caller that keeps to "What a caller owes". */
#ifndef YURBANTZE_H
#define YURBANTZE_H

#include <stddef.h>
#include <stdint.h>

#ifdef __cplusplus
extern "C" {
#endif

/* Question 1: shorter buffers are answered with refusal 1. Longer ones are taken. */
#define YURBANTZE_TABLE_LENGTH 65536
#define YURBANTZE_LEVELS_LENGTH 128
#define YURBANTZE_SCRATCH_LENGTH 65536

/* The numbers of an answer. */
#define YURBANTZE_ANSWER_LENGTH 7

/* A page: 60 lines of 79 characters and a line feed. A shorter page buffer is answered with refusal 12, a longer one is taken. */
#define YURBANTZE_PAGE_LENGTH 4800

/* The refusals, with their details in order. Columns, factors, steps, ingredients, members and pages count from 1; places, runs, levels and
 * values from 0. Details that are not named are 0. An order is refused by 1 to 11 or 14, a table that is checked by itself by 2 to 5, a page by 1, 12 or 13,
 * and a charge by 1 or 15; the refusals of a page and of a charge have no details. */
enum yurbantze_number {
    YURBANTZE_FILLED = 0,             /* no refusal: runs, columns; of a page, that it is printed; of a table, that it passes; of a price list, that it is
                                         applied */
    YURBANTZE_SHORT_BUFFERS = 1,      /* a buffer is too short; a sheet handed in has runs, columns or a level count outside 1 to 512, 1 to 128 or
                                         2 to 64, an entry that is not below its level, or a table or level list that is too short */
    YURBANTZE_UNREADABLE = 2,         /* place of the first number not allowed or left over, or the length if the list runs out */
    YURBANTZE_ENTRY_OUT_OF_RANGE = 3, /* place */
    YURBANTZE_UNEVEN_LEVEL = 4,       /* ingredient, column, level, times */
    YURBANTZE_UNEVEN_PAIR = 5,        /* ingredient, first column, second column, first level, second level, times; the columns are the first two that
                                         fail, and the levels those that are farthest off in them, the lowest two among equals */
    YURBANTZE_UNEVEN_DIFFERENCE = 6,  /* ingredient, first column, second column, difference, times */
    YURBANTZE_DEPENDENT = 7,          /* ingredient, first factor, second factor or 0, coefficients read base s, the first highest */
    YURBANTZE_STEP_NOT_ALLOWED = 8,   /* step */
    YURBANTZE_PARTS_DO_NOT_FIT = 9,   /* step */
    YURBANTZE_NOT_THE_SUM = 10,       /* step, run, member; the check ended there, and needed run + 1 runs */
    YURBANTZE_TOO_LARGE = 11,         /* step, runs, columns */
    YURBANTZE_SHORT_PAGE = 12,        /* the page buffer is too short */
    YURBANTZE_NO_SUCH_PAGE = 13,      /* page 0, or one past the last */
    YURBANTZE_UNEVEN_VALUE = 14,      /* step, ingredient, column, value; of a CROSS, the first of its matrices that serves a column of the sheet and
                                         has an uneven column, the lowest such column and the lowest value in it */
    YURBANTZE_UNFIT_PRICES = 15       /* the discount is over 100, or there are more or fewer prices than columns */
};

/* Plans an order, and returns answer[0]: 0 for a filled order, and otherwise the number of the refusal.
 *
 * list, list_length        The order: list_length sixteen-bit numbers. They are read and never altered. Any list is answered; one of more than
 *                          32,768 numbers is refused as 2 with place 32,768.
 * table, table_length      The run table, 65,536 bytes or more. Filled: the runs one after the other from byte 0, a byte for each entry, and zeros
 *                          after them; entry c of run r, both from 0, is table[r * answer[2] + c]. Refused: zeros throughout.
 * levels, levels_length    The level list, 128 bytes or more. Filled: the level count of each column, and zeros after them. Refused: zeros.
 * scratch, scratch_length  Room to work in, 65,536 bytes or more. Zeros throughout after every call.
 * answer                   Room for seven numbers, each of which is written by every call. Filled: 0, the number of runs, the number of columns,
 *                          and four zeros. Refused: the number of the refusal and its six details.
 * spare                    Room for one signed number, which is written by every call. Filled: how much the table could still hold, runs - 1 less the
 *                          sum over the columns of (level count - 1); it is never negative, and 0 for a saturated table. Refused: 0.
 *
 * What the buffers hold before the call does not matter: answer, spare and bytes depend on the list and the three lengths alone.
 *
 * What a caller owes: no pointer is null, not even one whose length is 0. Each points to as many elements as its length says, answer to seven and
 * spare to one. list, answer and spare are aligned for their types. list holds numbers that have been written, and so do the buffers, whatever the
 * numbers are. Nothing else reads or writes the buffers, answer and spare, or writes the list, during the call, and none of the six lies over another.
 *
 * The function allocates nothing and keeps nothing between calls, so several threads may call it, each with buffers of its own. */
size_t yurbantze_plan(
    const uint16_t *list, size_t list_length,
    uint8_t *table, size_t table_length,
    uint8_t *levels, size_t levels_length,
    uint8_t *scratch, size_t scratch_length,
    size_t answer[YURBANTZE_ANSWER_LENGTH],
    int64_t *spare);

/* Prints a page of a sheet, and returns 0, or else the number of the refusal: 1, 12 or 13, the first of these that has a cause.
 *
 * table, table_length      The sheet's entries, its runs one after the other from byte 0, as yurbantze_plan leaves them: runs * columns bytes or more,
 *                          each of those below its level; otherwise the sheet is refused as 1. Bytes after them are not looked at.
 * levels, levels_length    The level count of each column, 2 to 64, in columns bytes or more; otherwise the sheet is refused as 1. Bytes after them are
 *                          not looked at.
 * runs, columns            The sheet's size. Any numbers are answered; outside 1 to 512 and 1 to 128 the sheet is refused as 1, whatever the lengths
 *                          are. The sheet need not be even, nor come from yurbantze_plan.
 * number                   The page, from 1. There are (runs + 57) / 58 * ((columns + 24) / 25) pages, so 54 at most; page 0 and any past the last are
 *                          refused as 13. A caller prints pages 1, 2, .. until 13 is returned.
 * page, page_length        The page buffer, 4,800 bytes or more; a shorter one is refused as 12. Printed: the page in the first 4,800 bytes, and zeros
 *                          after them. Refused: zeros throughout.
 *
 * A page is 60 lines of 79 characters and a line feed. Line 1: the page number right-aligned in 4 characters, then up to 25 column numbers, each
 * right-aligned in 3. Line 2: 4 blanks, then the level counts of these columns in 3. Then up to 58 runs: the number of the run in 4, then its levels in
 * these columns in 3. All else is blank. Columns are numbered from 1 and runs from 0, on every page as they are on the sheet. All runs of the first 25
 * columns come before those of the next 25.
 *
 * What the page buffer holds before the call does not matter. table and levels are read and never altered.
 *
 * What a caller owes: no pointer is null, not even one whose length is 0. Each points to as many bytes as its length says, all of which have been
 * written, whatever they are. Nothing else reads or writes page, or writes table or levels, during the call, and none of the three lies over another.
 *
 * The function allocates nothing and keeps nothing between calls, so several threads may call it, each with a page buffer of its own. */
size_t yurbantze_page(
    const uint8_t *table, size_t table_length,
    const uint8_t *levels, size_t levels_length,
    size_t runs, size_t columns, size_t number,
    uint8_t *page, size_t page_length);

/* Works out what a sheet costs by a price list, in pence, and returns 0, or else the number of the refusal: 1 or 15, the first of these that has a cause.
 *
 * table, table_length      The sheet's entries, its runs one after the other from byte 0, as yurbantze_plan leaves them: runs * columns bytes or more,
 *                          each of those below its level; otherwise the sheet is refused as 1. Bytes after them are not looked at.
 * levels, levels_length    The level count of each column, 2 to 64, in columns bytes or more; otherwise the sheet is refused as 1. Bytes after them are
 *                          not looked at.
 * runs, columns            The sheet's size. Any numbers are answered; outside 1 to 512 and 1 to 128 the sheet is refused as 1, whatever the lengths
 *                          are. The sheet need not be even, nor come from yurbantze_plan.
 * run_price                The price of a run. Any number is a price, 0 too.
 * prices, prices_length    The price of a changed level in each column, in the order of the columns: exactly as many as there are columns; otherwise
 *                          they are refused as 15. Any number is a price.
 * discount                 The discount in percent, 0 to 100; a higher one is refused as 15.
 * charge                   Room for one number, which is written by every call. Returned 0: the charge. Refused: 0.
 *
 * The sum is runs * run_price and, for each run after the first and each column whose level differs from the run before, that column's price; one run has
 * no changes. The charge is sum * (100 - discount) / 100, rounded to the nearest penny, halves up, once at the end: no other number of pence is the
 * nearest. Without a discount it is the sum, with 100 percent it is 0, and a higher discount never makes it higher. No sum is above
 * (512 + 511 * 128) * (2^32 - 1) = 283,124,244,086,400, so that nothing passes 64 bits on the way.
 *
 * What charge holds before the call does not matter. table, levels and prices are read and never altered.
 *
 * What a caller owes: no pointer is null, not even one whose length is 0. table, levels and prices each point to as many elements as the length says, all
 * of which have been written, whatever they are, and charge to one; prices and charge are aligned for their types. Nothing else reads or writes charge, or
 * writes table, levels or prices, during the call, and none of the four lies over another.
 *
 * The function allocates nothing and keeps nothing between calls, so several threads may call it, each with a charge of its own. */
size_t yurbantze_charge(
    const uint8_t *table, size_t table_length,
    const uint8_t *levels, size_t levels_length,
    size_t runs, size_t columns,
    uint32_t run_price,
    const uint32_t *prices, size_t prices_length,
    uint32_t discount,
    uint64_t *charge);

/* Checks one table, and returns answer[0]: 0 for a table that passes, and otherwise the number of the refusal, 2, 3, 4 or 5.
 *
 * list, list_length        The table, written as an ingredient of an order is: 1, the number of runs, the number of columns, the level count of each
 *                          column, then the entries run by run, and nothing after them. The numbers are read and never altered. Any list is
 *                          answered; one of more than 32,768 numbers is refused as 2 with place 32,768.
 * answer                   Room for seven numbers, each of which is written by every call. Passes: seven zeros. Refused: the number of the refusal and
 *                          its six details, as an order has them whose ingredient 1 is the table, but with places counted from 0 in this list.
 * gap                      Room for one signed number, which is written by every call. Refused as 5: s * t * times - runs, where s and t are the level
 *                          counts of the two columns, below zero where the pair of levels is short and above where it is over; no other pair of
 *                          levels of the two columns is farther from 0. In every other case: 0.
 * pairs                    Room for one number, which is written by every call: how many pairs of columns were counted. Passes: columns * (columns - 1) / 2,
 *                          and so 0 for one column. Refused as 5: the position of the two columns named, from 1, in the order 1-2, 1-3, .., then 2-3, and
 *                          so on. Refused as 2, 3 or 4: 0. It is never above 8,128, which 128 columns have.
 *
 * What answer, gap and pairs hold before the call does not matter: what is written depends on the list alone.
 *
 * What a caller owes: no pointer is null, not even that of a list of length 0. list points to as many numbers as its length says, all of which have
 * been written, whatever they are, answer to seven, gap to one and pairs to one; all are aligned for their types. Nothing else reads or writes answer, gap
 * and pairs, or writes the list, during the call, and none of the four lies over another.
 *
 * The function is lent no buffers and allocates nothing, but needs up to 90,000 bytes of stack. It keeps nothing between calls, so several threads may
 * call it, each with an answer, a gap and pairs of its own. */
size_t yurbantze_check_table(
    const uint16_t *list, size_t list_length,
    size_t answer[YURBANTZE_ANSWER_LENGTH],
    int64_t *gap,
    size_t *pairs);

#ifdef __cplusplus
}
#endif

#endif
