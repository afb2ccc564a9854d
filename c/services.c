/* Calls every service through fickle.h: each kind of result, stop and exception, refusals that change nothing that was
 * lent, and empty slices whose pointer is NULL. */
#include "fickle.h"

#include <stdio.h>
#include <string.h>

/* Room for every program here, and what buffers are filled with before a call. */
enum { TEXT = 256, ROWS = 32, PLAIN = 1000, STORE = 54, FUEL = 10000, MOST_FUEL = 100000000, FILL = 7 };

static int failures;
static uint8_t text[TEXT];
static uint32_t rows[4 * ROWS], plain[4 * PLAIN], store[STORE], value[2], counts[3], labels[2];
static uint64_t told;

/* Program D of document 01, and one program for each way in which a run can end without a value; tabs are spaces here,
 * line feeds commas. */
static const char program[] =
    "C 1 0,F 255 0,C 2 1,C 2 1,S,B 1 4,V 1,A 1,W 2,U 0,I 1,T,R 1 3,G 0,I 1,";
static const char null_object[] = "C 0 0,F 255 0,S,B 1 1,V 1,G 0,I 1,";
static const char wrong_class[] = "C 0 0,S,B 0 1,K 1,W 0,";
static const char endless[] = "C 0 0,M 255 0,B 0 1,Q 0 0,I 0,S,B 0 1,Q 0 0,W 1,";
static const char four_objects[] = "S,B 0 4,W 0,W 0,W 0,W 0,";
static const char no_object[] = "S,B 0 1,T,";
static const char reserved[] = "C 0 0,F 255 254,S,B 0 1,T,";
static const char malformed[] = "S,I 00,";

static void expect(const char *what, uint64_t answer, uint32_t number, uint32_t second)
{
    if (FICKLE_NUMBER(answer) != number || FICKLE_LINE(answer) != second) {
        printf("%s: %u %u, expected %u %u\n", what, FICKLE_NUMBER(answer), FICKLE_LINE(answer), number, second);
        failures++;
    }
}

/* The kind and the content of a run's value. */
static void expect_value(const char *what, uint32_t kind, uint32_t content)
{
    if (value[0] != kind || value[1] != content) {
        printf("%s: value %u %u, expected %u %u\n", what, value[0], value[1], kind, content);
        failures++;
    }
}

static void expect_counts(const char *what, uint32_t steps, uint32_t objects, uint32_t changes)
{
    if (counts[0] != steps || counts[1] != objects || counts[2] != changes) {
        printf("%s: counts %u %u %u\n", what, counts[0], counts[1], counts[2]);
        failures++;
    }
}

/* Fails where a byte of a buffer is not as it was filled. */
static void expect_filled(const char *what, const void *buffer, size_t bytes)
{
    for (size_t i = 0; i < bytes; i++)
        if (((const uint8_t *)buffer)[i] != FILL) {
            printf("%s: byte %zu of a lent buffer changed\n", what, i);
            failures++;
            return;
        }
}

/* Fills everything that is lent to be written on, but for the rows of the program at hand. */
static void fill(void)
{
    memset(text, FILL, sizeof text);
    memset(plain, FILL, sizeof plain);
    memset(store, FILL, sizeof store);
    memset(value, FILL, sizeof value);
    memset(counts, FILL, sizeof counts);
    memset(labels, FILL, sizeof labels);
}

static void expect_labels(const char *what, uint32_t printed, uint32_t spoiled)
{
    if (labels[0] != printed || labels[1] != spoiled) {
        printf("%s: labels %u %u\n", what, labels[0], labels[1]);
        failures++;
    }
}

/* A report's number, and its length or line. */
static void expect_told(const char *what, uint32_t answer, uint32_t number, uint64_t second)
{
    if (answer != number || told != second) {
        printf("%s: %u %llu, expected %u %llu\n", what, answer, (unsigned long long)told, number,
               (unsigned long long)second);
        failures++;
    }
}

/* A report of these lines, and nothing past it. */
static void expect_report(const char *what, const char *lines)
{
    size_t length = strlen(lines);
    if (memcmp(text, lines, length) != 0) {
        printf("%s: another report\n", what);
        failures++;
    }
    expect_filled(what, text + length, sizeof text - length);
}

/* Puts a program into the text with its tabs and line feeds. Returns its length. */
static size_t spell(const char *source)
{
    size_t length = strlen(source);
    for (size_t i = 0; i < length; i++)
        text[i] = source[i] == ' ' ? '\t' : source[i] == ',' ? '\n' : (uint8_t)source[i];
    return length;
}

/* Reads a program into the rows, then fills all else. Returns how many numbers it has. */
static size_t load(const char *source)
{
    uint64_t answer = fickle_read_rows(text, spell(source), rows, 4 * ROWS);
    fill();
    expect(source, answer, 0, FICKLE_LINE(answer));
    return (size_t)FICKLE_LINE(answer) * 4;
}

static uint64_t run(const uint32_t *of, size_t length, size_t room, uint64_t fuel)
{
    return fickle_run_rows(of, length, store, room, fuel, value, value + 1, counts, counts + 1, counts + 2);
}

static void texts(void)
{
    size_t length = spell(program);
    memset(rows, FILL, sizeof rows);
    expect("read_rows, no room", fickle_read_rows(text, length, rows, 59), 13, 0);
    expect("read_rows, malformed", fickle_read_rows(text, spell(malformed), rows, 4 * ROWS), 1, 2);
    expect_filled("read_rows, refused", rows, sizeof rows);
    expect("read_rows", fickle_read_rows(text, spell(program), rows, 4 * ROWS), 0, 15);
    expect_filled("read_rows, past its rows", rows + 60, sizeof rows - sizeof *rows * 60);
    fill();
    expect("write_text, no room", fickle_write_text(rows, 60, text, length - 1), 13, 0);
    expect("write_text, length", fickle_write_text(rows, 59, text, TEXT), 1, 0);
    expect_filled("write_text, refused", text, sizeof text);
    expect("write_text", fickle_write_text(rows, 60, text, TEXT), 0, (uint32_t)length);
    expect_filled("write_text, past its bytes", text + length, sizeof text - length);
    uint8_t written[TEXT];
    memcpy(written, text, length);
    spell(program);
    if (memcmp(text, written, length) != 0) {
        puts("write_text: another text");
        failures++;
    }
}

static void checks_and_translations(void)
{
    size_t length = load(program);
    expect("check_rows", fickle_check_rows(rows, length), 0, 0);
    expect("check_rows, length", fickle_check_rows(rows, length - 1), 1, 0);
    expect("check_rows, end", fickle_check_rows(rows, length - 4), 3, 15);
    expect("translate_rows, no room", fickle_translate_rows(rows, length, plain, 279), 13, 0);
    expect("translate_rows, end", fickle_translate_rows(rows, length - 4, plain, 4 * PLAIN), 3, 15);
    length = load(reserved);
    expect("translate_rows, reserved", fickle_translate_rows(rows, length, plain, 4 * PLAIN), 12, 2);
    expect_filled("translate_rows, refused", plain, sizeof plain);
    length = load(program);
    expect("translate_rows", fickle_translate_rows(rows, length, plain, 4 * PLAIN), 0, 70);
    expect_filled("translate_rows, past its rows", plain + 280, sizeof plain - sizeof *plain * 280);
}

static void runs(void)
{
    size_t length = load(program);
    expect("run_rows, fuel", run(rows, length, STORE, MOST_FUEL + 1), 2, 0);
    expect("run_rows, end", run(rows, length - 4, STORE, FUEL), 3, 15);
    expect_filled("run_rows, refused: store", store, sizeof store);
    expect_filled("run_rows, refused: value", value, sizeof value);
    expect_filled("run_rows, refused: counts", counts, sizeof counts);
    expect("run_rows", run(rows, length, STORE, 9), 0, 0);
    expect_value("run_rows", FICKLE_BOOL, 1);
    expect_counts("run_rows", 9, 1, 1);
    expect_filled("run_rows, past its object", store + 18, sizeof store - sizeof *store * 18);
    fickle_translate_rows(rows, length, plain, 4 * PLAIN);
    memset(value, FILL, sizeof value);
    expect("run_rows, plain", run(plain, 280, STORE, FUEL), 0, 0);
    expect_value("run_rows, plain", FICKLE_BOOL, 1);
    expect_counts("run_rows, plain", 52, 3, 0);
}

/* A run that ends in a value. */
static void run_to_value(const char *source, uint32_t kind, uint32_t content)
{
    size_t length = load(source);
    expect(source, run(rows, length, STORE, FUEL), 0, 0);
    expect_value(source, kind, content);
}

static void values(void)
{
    run_to_value("S,B 0 1,N,", FICKLE_NULL, 0);
    run_to_value("S,B 0 1,L,", FICKLE_BOOL, 0);
    run_to_value("S,B 0 1,T,", FICKLE_BOOL, 1);
    run_to_value("S,B 0 1,W 0,", FICKLE_OBJECT, 1);
    run_to_value("S,B 0 3,W 0,W 0,W 0,", FICKLE_OBJECT, 3);
}

/* A run that ends without a value, and leaves kind and content as they were. */
static void run_to_end(const char *what, const char *source, uint64_t fuel, uint32_t number, uint32_t line)
{
    size_t length = load(source);
    expect(what, run(rows, length, STORE, fuel), number, line);
    expect_filled(what, value, sizeof value);
}

static void stops_and_exceptions(void)
{
    run_to_end("run_rows, spent", program, 8, FICKLE_SPENT, 0);
    expect_counts("run_rows, spent", 8, 1, 1);
    run_to_end("run_rows, deep", endless, FUEL, FICKLE_DEEP, 0);
    expect_counts("run_rows, deep", 195, 1, 0);
    run_to_end("run_rows, full", four_objects, FUEL, FICKLE_FULL, 0);
    expect_counts("run_rows, full", 5, 3, 0);
    run_to_end("run_rows, null object", null_object, FUEL, FICKLE_EXCEPTION, FICKLE_NULL_OBJECT);
    expect_counts("run_rows, null object", 3, 0, 0);
    run_to_end("run_rows, wrong class", wrong_class, FUEL, FICKLE_EXCEPTION, FICKLE_WRONG_CLASS);
    expect_counts("run_rows, wrong class", 3, 1, 0);
}

static uint64_t count(size_t length, size_t room, uint32_t objects, uint32_t printed, uint32_t spoiled)
{
    return fickle_count_run(rows, length, store, room, objects, printed, spoiled, labels, labels + 1);
}

static uint64_t count_plain(size_t length, size_t room, uint32_t objects, uint32_t printed, uint32_t spoiled)
{
    return fickle_count_plain_run(rows, length, store, room, objects, printed, spoiled, labels, labels + 1);
}

/* The labels of program D's run, and of its plain run: one object, of class 3. */
static void counted_runs(void)
{
    size_t length = load(program);
    run(rows, length, STORE, FUEL);
    expect("count_run, not below", count(length, STORE, 1, 3, 1), 18, 1);
    expect("count_run, not declared", count(length, STORE, 1, 1, 4), 18, 1);
    expect("count_run, refused program", count(length - 4, STORE, 1, 1, 3), 18, 1);
    expect("count_run, class of the store", count(length, STORE, 2, 1, 3), 18, 1);
    expect("count_run, store too short", count(length, 17, 1, 1, 3), 18, 1);
    expect_filled("count_run, refused", labels, sizeof labels);
    expect("count_run", count(length, STORE, 1, 1, 3), 0, 0);
    expect_labels("count_run", 1, 1);
    expect("count_run, none spoiled", count(length, 18, 1, 1, 2), 0, 0);
    expect_labels("count_run, none spoiled", 1, 0);
    fickle_translate_rows(rows, length, plain, 4 * PLAIN);
    run(plain, 280, STORE, FUEL);
    memset(labels, FILL, sizeof labels);
    expect("count_plain_run, implementor not made", count_plain(length, STORE, 2, 1, 3), 18, 1);
    expect_filled("count_plain_run, refused", labels, sizeof labels);
    expect("count_plain_run", count_plain(length, STORE, 3, 1, 3), 0, 0);
    expect_labels("count_plain_run", 1, 1);
}

static void rankings(void)
{
    static const uint32_t lines[] = {7, 3, 0, 10, 8, 1, 0, 3, 7, 1, 1, 0}, past[] = {7, 0, 0, 4000000000u, 7, 0, 0, 1};
    static const uint32_t no_line[] = {7, 1, 1, 0, 7, 1, 2, 0};
    fill();
    expect_told("rank_models, length", fickle_rank_models(lines, 11, text, TEXT, &told), 1, 0);
    expect_told("rank_models, spoiled", fickle_rank_models(no_line, 8, text, TEXT, &told), 1, 2);
    expect_told("rank_models, sum", fickle_rank_models(past, 8, text, TEXT, &told), 17, 2);
    expect_told("rank_models, no room", fickle_rank_models(lines, 12, text, 16, &told), 13, 0);
    expect_filled("rank_models, refused", text, sizeof text);
    expect_told("rank_models", fickle_rank_models(lines, 12, text, TEXT, &told), 0, 17);
    expect_report("rank_models", "8\t1\t0\t3\n7\t4\t1\t10\n");
}

/* Two runs of program D, by two models. */
static uint32_t fleet[] = {9, 15, 1, 1, 3, 5, 8, 15, 1, 1, 2, 50}, programs[120], stores[36];

static uint32_t report(size_t runs, size_t numbers, size_t objects, size_t room)
{
    return fickle_report_fleet(fleet, runs, programs, numbers, stores, objects, text, room, &told);
}

static void fleets(void)
{
    size_t length = load(program);
    run(rows, length, STORE, FUEL);
    for (size_t i = 0; i < 2; i++) {
        memcpy(programs + 60 * i, rows, sizeof *rows * 60);
        memcpy(stores + 18 * i, store, sizeof *store * 18);
    }
    fill();
    expect_told("report_fleet, length", report(11, 120, 36, TEXT), 1, 0);
    expect_told("report_fleet, rows", report(12, 119, 36, TEXT), 18, 2);
    expect_told("report_fleet, store", report(12, 120, 35, TEXT), 18, 2);
    expect_told("report_fleet, no room", report(12, 120, 36, 16), 13, 0);
    fleet[11] = 4000000001u;
    expect_told("report_fleet, sum", report(12, 120, 36, TEXT), 17, 2);
    expect_filled("report_fleet, refused", text, sizeof text);
    fleet[11] = 50;
    expect_told("report_fleet", report(12, 120, 36, TEXT), 0, 17);
    expect_report("report_fleet", "8\t1\t0\t50\n9\t1\t1\t5\n");
}

#include "services_prices.h"

/* A run without a store. */
static uint64_t run_empty(const uint32_t *of, size_t length)
{
    return fickle_run_rows(of, length, NULL, 0, FUEL, value, value + 1, counts, counts + 1, counts + 2);
}

/* The header promises that an empty slice may be NULL. */
static void empty_slices(void)
{
    size_t length = load(no_object);
    expect("read_rows, NULL", fickle_read_rows(NULL, 0, NULL, 0), 0, 0);
    expect("read_rows, NULL text", fickle_read_rows(NULL, 0, plain, 4), 0, 0);
    expect("read_rows, NULL rows", fickle_read_rows(text, spell(no_object), NULL, 0), 13, 0);
    expect("write_text, NULL", fickle_write_text(NULL, 0, NULL, 0), 0, 0);
    expect("write_text, NULL rows", fickle_write_text(NULL, 0, text, TEXT), 0, 0);
    expect("write_text, NULL text", fickle_write_text(rows, length, NULL, 0), 13, 0);
    expect("check_rows, NULL", fickle_check_rows(NULL, 0), 3, 1);
    expect("translate_rows, NULL", fickle_translate_rows(NULL, 0, NULL, 0), 3, 1);
    expect("translate_rows, NULL rows", fickle_translate_rows(NULL, 0, plain, 4 * PLAIN), 3, 1);
    expect("translate_rows, NULL plain", fickle_translate_rows(rows, length, NULL, 0), 13, 0);
    expect_filled("NULL: plain", plain, sizeof plain);
    expect("run_rows, NULL", run_empty(NULL, 0), 3, 1);
    expect("run_rows, NULL rows", run(NULL, 0, STORE, FUEL), 3, 1);
    expect_filled("NULL: store", store, sizeof store);
    expect_filled("NULL: value", value, sizeof value);
    expect_filled("NULL: counts", counts, sizeof counts);
    expect("run_rows, NULL store", run_empty(rows, length), 0, 0);
    expect_value("run_rows, NULL store", FICKLE_BOOL, 1);
    expect("count_run, NULL", fickle_count_run(NULL, 0, NULL, 0, 0, 1, 2, labels, labels + 1), 18, 1);
    expect("count_plain_run, NULL", fickle_count_plain_run(NULL, 0, NULL, 0, 0, 1, 2, labels, labels + 1), 18, 1);
    expect_filled("NULL: labels", labels, sizeof labels);
    expect_told("rank_models, NULL", fickle_rank_models(NULL, 0, NULL, 0, &told), 0, 0);
    expect_told("report_fleet, NULL", fickle_report_fleet(NULL, 0, NULL, 0, NULL, 0, NULL, 0, &told), 0, 0);
    expect("price_on_day, NULL", fickle_price_on_day(NULL, 0, 7, 0, labels, labels + 1), 0, 0);
    expect("price_on_date, NULL", fickle_price_on_date(NULL, 0, 7, 2000, 1, 1, labels, labels + 1), 0, 0);
    expect_filled("NULL: price", labels, sizeof labels);
    expect("report_prices, NULL", fickle_report_prices(NULL, 0, 7, 2000, 1, NULL, 0), 0, 0);
    expect("report_prices, NULL report", fickle_report_prices(text, spell(terms), 7, 2000, 1, NULL, 0), 13, 0);
    length = load(four_objects);
    expect("run_rows, NULL, full", run_empty(rows, length), FICKLE_FULL, 0);
    expect_filled("run_rows, NULL, full", value, sizeof value);
}

int main(void)
{
    texts();
    checks_and_translations();
    runs();
    values();
    stops_and_exceptions();
    counted_runs();
    rankings();
    fleets();
    dates();
    prices();
    price_reports();
    empty_slices();
    puts(failures == 0 ? "all services answer C as they should" : "failed");
    return failures != 0;
}
