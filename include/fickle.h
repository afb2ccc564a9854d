/* Label rules in Fickle II: read, write, check, translate, run; labels counted, and reports over fleets; price terms by
 * date (libservices.a, made by `tools/build.sh`).
 *
 * Rows are numbers, four to a row: a letter's ASCII code, then its numbers, the rest 0. Lengths count numbers or bytes.
 * Every input gets an answer. A refusal changes nothing that was lent. What is lent past what was written is unchanged.
 * Slices that one call is lent must not overlap, but for those that are only read. The pointer of a slice of length 0
 * may be NULL; pointers to single numbers, such as counts and `told`, may not.
 *
 * An answer has two words of 32 bits: FICKLE_NUMBER and FICKLE_LINE. Where the number is 0, the second word is the
 * result; where it is another, there is none. What the comments here say of an answer's numbers is in
 * crates/packing/specs/Unpacked.antt, and crates/packing/proofs/Faithful.antt proves that every answer is so read back.
 *
 * Refusals have these numbers, and the second word is the line, 0 where none is to blame:
 *    1 line      malformed line or row; length not a multiple of 4
 *    2 limit     over a limit, fuel included
 *    3 place     record not due here, B without expressions, or end too early
 *    4 name      class not declared, name twice
 *    5 kind      class kind, field type, X or order of X wrong
 *    6 override  heading differs or effect grows
 *    7 slot      not in scope, or A on 0
 *    8 member    no such field or method, or argument count
 *    9 type      a type is not what a rule needs
 *   10 effect    body exceeds its X lines
 *   11 change    R's class or root is wrong
 *   12 reserved  field name 254 or 255 given to the translator
 *   13 room      lent output too short
 * Fleets are refused with 1, 13, and two numbers of their own; the line is the place of a run or counted line, from 1:
 *   17 sum       one of a model's sums passes 4,000,000,000
 *   18 class     the run cannot be counted: its program is refused, does not declare both classes with the spoiled one
 *                strictly below the printed one, or lacks a class of its store; or rows or objects are missing
 * Price terms are refused with 1, 13, and two numbers of their own:
 *   23 term      first day after the last, or a signing number that an earlier line has
 *   24 date      a day, or a day of the month, is not in the calendar or not within 2000-01-01 to 2179-06-06; line 0
 */
#ifndef FICKLE_H
#define FICKLE_H

#include <stddef.h>
#include <stdint.h>

#ifdef __cplusplus
extern "C" {
#endif

#define FICKLE_NUMBER(answer) ((uint32_t)((answer) >> 32))
#define FICKLE_LINE(answer) ((uint32_t)(answer))

/* How a run ends without a value: its number, beside the refusals. */
#define FICKLE_SPENT 14u       /* no fuel to enter a node; the line is 0 */
#define FICKLE_DEEP 15u        /* a call with 64 calls active; the line is 0 */
#define FICKLE_FULL 16u        /* W with the store used up; the line is 0 */
#define FICKLE_EXCEPTION 1000u /* an exception, which is in place of the line */

/* The exceptions. */
#define FICKLE_NULL_OBJECT 1u
#define FICKLE_WRONG_CLASS 2u

/* The kinds of values, with their content. */
#define FICKLE_NULL 0u   /* 0 */
#define FICKLE_BOOL 1u   /* 0 false, 1 true */
#define FICKLE_OBJECT 2u /* its number, from 1 in the order in which objects were made */

/* Bytes of native stack that a call takes at most, whatever the input; c/stack.c measures it. On a thread that has less
 * left, some inputs overflow the stack. */
#define FICKLE_READ_ROWS_STACK_NEEDED 1048576
#define FICKLE_WRITE_TEXT_STACK_NEEDED 1048576
#define FICKLE_CHECK_ROWS_STACK_NEEDED 1048576
#define FICKLE_TRANSLATE_ROWS_STACK_NEEDED 1048576
#define FICKLE_RUN_ROWS_STACK_NEEDED 4194304
#define FICKLE_COUNT_RUN_STACK_NEEDED 1048576
#define FICKLE_COUNT_PLAIN_RUN_STACK_NEEDED 1048576
#define FICKLE_RANK_MODELS_STACK_NEEDED 1048576
#define FICKLE_REPORT_FLEET_STACK_NEEDED 1048576
#define FICKLE_DAY_OF_DATE_STACK_NEEDED 65536
#define FICKLE_DATE_OF_DAY_STACK_NEEDED 65536
#define FICKLE_PRICE_ON_DAY_STACK_NEEDED 65536
#define FICKLE_PRICE_ON_DATE_STACK_NEEDED 65536
#define FICKLE_REPORT_PRICES_STACK_NEEDED 65536

/* Reads a text into rows. Number 0: the result is how many rows were written. Else it is a refusal: 1, 2, 13. */
uint64_t fickle_read_rows(const uint8_t *text, size_t text_length, uint32_t *rows, size_t rows_length);

/* Writes rows as text. Number 0: the result is how many bytes were written. Else it is a refusal: 1, 2, 13. */
uint64_t fickle_write_text(const uint32_t *rows, size_t rows_length, uint8_t *text, size_t text_length);

/* Checks a program. Number 0: accepted, and the result is 0. Else it is a refusal: 1 to 11. */
uint64_t fickle_check_rows(const uint32_t *rows, size_t rows_length);

/* Translates a program into plain rows. Number 0: the result is how many rows were written. Else it is a refusal: 1 to
 * 13. */
uint64_t fickle_translate_rows(const uint32_t *rows, size_t rows_length, uint32_t *plain, size_t plain_length);

/* Runs a program. An object is 18 numbers of the store: its class, then its fields, each 0 for null, 1 for false, 2 for
 * true, or 2 + j for the j-th object made. Fuel is at most 100,000,000.
 * Number 0: the run ended in a value, the result is 0, and the value's kind and content are stored. FICKLE_EXCEPTION:
 * it ended in the exception that the line is. FICKLE_SPENT, FICKLE_DEEP, FICKLE_FULL: it stopped. In all these cases the
 * counts of nodes entered, objects made and changes of class are stored, and the store has the objects. Else it is a
 * refusal: 1 to 11. Kind and content stay as they were wherever there is no value, and the counts where there is a
 * refusal. */
uint64_t fickle_run_rows(const uint32_t *rows, size_t rows_length, uint32_t *store, size_t store_length, uint64_t fuel,
                         uint32_t *kind, uint32_t *content, uint32_t *steps, uint32_t *objects, uint32_t *changes);

/* Counts the labels of one ended run: of the first `objects` objects of the store those that ended in class `printed`
 * or below it, and those in class `spoiled` or below. What the store holds beyond the objects is ignored.
 * Number 0: the result is 0, and both counts are stored. Else it is refusal 18, line 1, and they stay as they were. */
uint64_t fickle_count_run(const uint32_t *rows, size_t rows_length, const uint32_t *store, size_t store_length,
                          uint32_t objects, uint32_t printed, uint32_t spoiled, uint32_t *printed_labels,
                          uint32_t *spoiled_labels);

/* The same from the store that a run of the plain program left: for each Identity, the class of its implementor. The
 * rows and the two classes are the source's. It is refusal 18, line 1, also where an Identity has no implementor among
 * the objects. */
uint64_t fickle_count_plain_run(const uint32_t *rows, size_t rows_length, const uint32_t *store, size_t store_length,
                                uint32_t objects, uint32_t printed, uint32_t spoiled, uint32_t *printed_labels,
                                uint32_t *spoiled_labels);

/* Sums counted lines (four numbers: model, printed, spoiled, cents) by model, and writes the report: a line a model in
 * decimals with tabs, by cents per good label, models without a good label last. A report's lines are counted lines
 * again. A report may be longer and a place larger than 32 bits hold, so this returns the number alone.
 * 0: *told is how many bytes were written. Else it is a refusal, and *told its line: 1, line 0, where the length is not
 * a multiple of 4; by lines 1, where more labels are spoiled than printed, and 17; then 13. */
uint32_t fickle_rank_models(const uint32_t *counts, size_t counts_length, uint8_t *report, size_t report_length,
                            uint64_t *told);

/* Writes the report over ended runs. A run is six numbers: model, count of rows, count of objects made, printed class,
 * spoiled class, cents. `programs` holds the rows of all runs one after another, `stores` their objects; what they
 * hold beyond the runs is ignored.
 * 0: *told is how many bytes were written. Else it is a refusal, and *told its line: 1, line 0, where the length of
 * `runs` is not a multiple of 6; by runs 18, then 17; then 13. */
uint32_t fickle_report_fleet(const uint32_t *runs, size_t runs_length, const uint32_t *programs, size_t programs_length,
                             const uint32_t *stores, size_t stores_length, uint8_t *report, size_t report_length,
                             uint64_t *told);

/* Days count from 2000-01-01, which is day 0, to 65,535, which is 2179-06-06, by the Gregorian calendar. Number 0: the
 * result is the number of the day that has this date. Else it is refusal 24. */
uint64_t fickle_day_of_date(uint32_t year, uint32_t month, uint32_t day);

/* The date of a day. Number 0: the result is 0, and its year, month and day of the month are stored. Else it is refusal
 * 24, for a day above 65,535, and they stay as they were. */
uint64_t fickle_date_of_day(uint32_t day, uint32_t *year, uint32_t *month, uint32_t *of_month);

/* The price of a model on a day, by terms that are a text: a line of five numbers a term, with tabs between them: model,
 * first day, last day, cents, signing number. Both edge days belong to a term, and of those that hold the one with the
 * highest signing number rules.
 * Number 0: the result is 1, and the cents and the line of that term are stored; or 0, and no term holds. Else it is a
 * refusal: by lines 1 and 23; then 24. Cents and line stay as they were wherever there is no price. */
uint64_t fickle_price_on_day(const uint8_t *terms, size_t terms_length, uint32_t model, uint32_t day, uint32_t *cents,
                             uint32_t *line);

/* The same on a date. */
uint64_t fickle_price_on_date(const uint8_t *terms, size_t terms_length, uint32_t model, uint32_t year, uint32_t month,
                              uint32_t day, uint32_t *cents, uint32_t *line);

/* Writes the price report of a model and a month: a line for each run of days with one price, in order of days: first
 * day, last day, cents, in decimals with tabs. Days without a term stand in no run and part runs.
 * Number 0: the result is how many bytes were written; 558 are enough for any month. Else it is a refusal: by lines 1
 * and 23; then 24, where it is no month or one of its days is out of range; then 13. */
uint64_t fickle_report_prices(const uint8_t *terms, size_t terms_length, uint32_t model, uint32_t year, uint32_t month,
                              uint8_t *report, size_t report_length);

#ifdef __cplusplus
}
#endif

#endif
