/* Measures the native stack of every service at the inputs that take the most of it: texts of 60,000 lines, the
 * deepest nesting through each letter that can nest, 64 calls at that nesting, 60,000 rows, 40,000 models, and 65,536
 * price terms. Fails where a service takes more than the header says that it needs. */
#include "measure.h"
#include "stack_prices.h"

/* The limits of document 01, and how much this program lends. */
enum {
    MOST_ROWS = 60000,
    MOST_NESTING = 128,
    MOST_CALLS = 64,
    MOST_CLASSES = 64,
    MOST_METHODS = 256,
    MOST_PARAMETERS = 8,
    TRANSLATED_ROWS = 680,
    TRANSLATED_NESTING = 24,
    TRANSLATED_CLASSES = 62,
    TRANSLATED_FIELDS = 16,
    LONGEST_LINE = 14,
    STORE = 36,
    FUEL = 1000000,
    LABEL = 18,
    MANY_MODELS = 40000,
    LONGEST_REPORTED = 44
};

/* Every letter that can nest. Where there are several children, capitals nest in the last one, small letters in the
 * first, or for J in the second; Z nests in the condition of a J. */
static const char letters[] = "BAKGUuQqJjZ";

static uint8_t text[LONGEST_LINE * (MOST_ROWS + 1)];
static uint32_t rows[4 * (MOST_ROWS + 1)], plain[4 * MOST_ROWS], store[STORE];
static uint32_t counted[4 * MANY_MODELS], runs[6 * MANY_MODELS];
static uint32_t programs[4 * (MOST_ROWS + 1) * 5], stores[LABEL * MANY_MODELS];
static uint8_t report[LONGEST_REPORTED * MANY_MODELS];
static size_t models, text_length, length;

static void *read_text(void *unused)
{
    answer = fickle_read_rows(text, text_length, rows, 4 * MOST_ROWS);
    return unused;
}

static void *write_rows(void *unused)
{
    answer = fickle_write_text(rows, length, text, sizeof text);
    return unused;
}

static void *check(void *unused)
{
    answer = fickle_check_rows(rows, length);
    return unused;
}

static void *translate(void *unused)
{
    answer = fickle_translate_rows(rows, length, plain, 4 * MOST_ROWS);
    return unused;
}

static void *run(void *unused)
{
    uint32_t value[2], counts[3];
    answer = fickle_run_rows(rows, length, store, STORE, FUEL, value, value + 1, counts, counts + 1, counts + 2);
    return unused;
}

/* Labels of a run of the rows at hand: one of class 1; class 2 is below it. */
static void *count(void *unused)
{
    uint32_t labels[2];
    answer = fickle_count_run(rows, length, store, STORE, 1, 1, 2, labels, labels + 1);
    return unused;
}

/* The same from a plain store: an Identity and its implementor. */
static void *count_plain(void *unused)
{
    uint32_t labels[2], both[2 * LABEL] = {1, 4};
    both[LABEL] = 3, both[LABEL + 1] = 3;
    answer = fickle_count_plain_run(rows, length, both, 2 * LABEL, 2, 1, 2, labels, labels + 1);
    return unused;
}

static void *rank(void *unused)
{
    uint64_t told;
    answer = (uint64_t)fickle_rank_models(counted, 4 * models, report, sizeof report, &told) << 32;
    return unused;
}

static void *report_runs(void *unused)
{
    uint64_t told;
    answer = (uint64_t)fickle_report_fleet(runs, 6 * models, programs, sizeof programs / sizeof *programs, stores,
                                           LABEL * models, report, sizeof report, &told) << 32;
    return unused;
}

/* The services. */
static struct service reading = {"read_rows", read_text, FICKLE_READ_ROWS_STACK_NEEDED, {0}},
  writing = {"write_text", write_rows, FICKLE_WRITE_TEXT_STACK_NEEDED, {0}},
  checking = {"check_rows", check, FICKLE_CHECK_ROWS_STACK_NEEDED, {0}},
  translating = {"translate_rows", translate, FICKLE_TRANSLATE_ROWS_STACK_NEEDED, {0}},
  running = {"run_rows", run, FICKLE_RUN_ROWS_STACK_NEEDED, {0}},
  counting = {"count_run", count, FICKLE_COUNT_RUN_STACK_NEEDED, {0}},
  counting_plain = {"count_plain_run", count_plain, FICKLE_COUNT_PLAIN_RUN_STACK_NEEDED, {0}},
  ranking = {"rank_models", rank, FICKLE_RANK_MODELS_STACK_NEEDED, {0}},
  reporting = {"report_fleet", report_runs, FICKLE_REPORT_FLEET_STACK_NEEDED, {0}};

static void row(uint32_t letter, uint32_t first, uint32_t second)
{
    uint32_t *at = rows + length;
    at[0] = letter, at[1] = first, at[2] = second, at[3] = 0;
    length += 4;
}

static void repeat_row(size_t count, uint32_t letter, uint32_t first)
{
    for (; count > 0; count--)
        row(letter, first, 0);
}

/* Writes the rows of a node, up to the child that the next node is. Returns how many children are still to follow. */
static int open_node(char letter)
{
    switch (letter) {
    case 'A': row('A', 1, 0); return 0;
    case 'K': row('K', 1, 0); return 0;
    case 'G': row('G', 0, 0); return 0;
    case 'U': row('U', 0, 0), row('I', 0, 0); return 0;
    case 'u': row('U', 0, 0); return 1;
    case 'Q': row('Q', 0, MOST_PARAMETERS), repeat_row(MOST_PARAMETERS, 'I', 0); return 0;
    case 'q': row('Q', 0, MOST_PARAMETERS); return MOST_PARAMETERS;
    case 'J': row('J', 0, 0), row('L', 0, 0), row('N', 0, 0); return 0;
    case 'j': row('J', 0, 0), row('T', 0, 0); return 1;
    case 'Z': row('J', 0, 0), row('Z', 0, 0); return 2;
    default: row('B', 0, 1); return 0;
    }
}

/* A program of count rows, or of as few as it takes, with a method that calls itself without end from a nesting that
 * is reached through one letter. The start block calls it from the same nesting, then has null on all rows left. */
static void deepen(char letter, int nesting, size_t count)
{
    int tails = 0, nodes = letter == 'Z' ? 2 : 1, level = 2;
    length = 0;
    row('C', 0, 0), row('F', 1, 0), row('M', 1, 0), repeat_row(MOST_PARAMETERS, 'P', 1), row('B', 0, 1);
    for (; level + nodes < nesting; level += nodes)
        tails += open_node(letter);
    if (level + 1 < nesting)
        open_node('B');
    row('Q', 0, MOST_PARAMETERS), repeat_row(1 + MOST_PARAMETERS, 'I', 0), repeat_row((size_t)tails, 'I', 0);
    row('C', 0, 1), repeat_row(TRANSLATED_CLASSES - 2, 'C', 0);
    size_t written = length / 4 + (size_t)nesting + 1 + MOST_PARAMETERS, nulls = count > written ? count - written : 0;
    row('S', 0, 0), row('B', 0, (uint32_t)nulls + 1);
    for (level = 3; level < nesting; level++)
        open_node('B');
    row('Q', 0, MOST_PARAMETERS), row('W', 1, 0), repeat_row(MOST_PARAMETERS + nulls, 'N', 0);
}

/* A program of count rows, nearly all of them expressions of the start block. */
static void widen(size_t count)
{
    length = 0;
    row('C', 0, 0), row('S', 0, 0), row('B', 0, (uint32_t)count - 3), repeat_row(count - 3, 'N', 0);
}

/* Classes with methods: as many of both as asked. */
static void crowd(int classes, uint32_t methods)
{
    length = 0;
    for (; classes > 0; classes--) {
        row('C', 0, 0);
        for (uint32_t name = 0; name < methods; name++)
            row('M', 0, name), row('B', 0, 1), row('N', 0, 0);
    }
    row('S', 0, 0), row('B', 0, 1), row('N', 0, 0);
}

/* As many changes as the translator takes, of a root with as many fields as it takes: the longest plain program. */
static void lengthen(void)
{
    length = 0;
    row('C', 1, 0);
    for (uint32_t name = 0; name < TRANSLATED_FIELDS; name++)
        row('F', 255, name);
    row('S', 0, 0), row('B', 1, TRANSLATED_ROWS - TRANSLATED_FIELDS - 4), row('V', 1, 0);
    while (length < 4 * TRANSLATED_ROWS)
        row('R', 1, 1);
}

/* A text of count lines, all alike. */
static void repeat(const char *line, size_t count)
{
    size_t bytes = strlen(line);
    for (size_t i = 0; i < count; i++)
        memcpy(text + i * bytes, line, bytes);
    text_length = count * bytes;
}

/* Reader and writer: the shortest and the longest lines, in texts for which they hold little, more and the most, and
 * of one line too many. */
static void texts(void)
{
    static const char *const lines[] = {"T\n", "R\t65535\t65535\n"};
    static const uint32_t numbers[] = {0, 65535};
    static const size_t counts[] = {1, 36, 256, 1024, MOST_ROWS, MOST_ROWS + 1};
    for (size_t i = 0; i < sizeof lines / sizeof *lines; i++)
        for (size_t j = 0; j < sizeof counts / sizeof *counts; j++) {
            uint32_t number = counts[j] > MOST_ROWS ? 2 : 0;
            repeat(lines[i], counts[j]);
            measure(&reading, WIDE, number);
            for (length = 0; length < 4 * counts[j];)
                row(lines[i][0], numbers[i], numbers[i]);
            measure(&writing, WIDE, number);
        }
}

/* Check, translation and run of programs that nest through one letter. Prints what they take, in all and by level. */
static void depths(char letter)
{
    size_t nodes = (1 + MOST_CALLS) * (MOST_NESTING - 1) + 1;
    deepen(letter, TRANSLATED_NESTING, 0);
    measure(&translating, DEEP, 0);
    deepen(letter, MOST_NESTING / 2, MOST_ROWS);
    size_t half = measure(&checking, DEEP, 0), half_run = measure(&running, DEEP, FICKLE_DEEP);
    deepen(letter, MOST_NESTING, MOST_ROWS);
    size_t check = measure(&checking, DEEP, 0), run = measure(&running, DEEP, FICKLE_DEEP);
    size_t level = (check - half) / (MOST_NESTING / 2), node = (run - half_run) / ((1 + MOST_CALLS) * MOST_NESTING / 2);
    printf("through %c: check %zu, %zu a level; translate %zu; ", letter, check, level, measure(&translating, DEEP, 2));
    printf("run %zu, %zu before its nodes, %zu a node\n", run, run - nodes * node, node);
}

/* Adds a run of the rows at hand, with a label of class 1; class 2 is below it. */
static void add_run(size_t *at, uint32_t cents)
{
    uint32_t *six = runs + 6 * models;
    six[0] = (uint32_t)models, six[1] = (uint32_t)(length / 4), six[2] = 1, six[3] = 1, six[4] = 2, six[5] = cents;
    memcpy(programs + *at, rows, sizeof *rows * length);
    stores[LABEL * models] = 1;
    *at += length, models++;
}

/* Counts of a run whose program nests through one letter, and a report of two such runs with different rows. */
static void counts(char letter)
{
    size_t at = 0;
    models = 0;
    store[0] = 1;
    deepen(letter, MOST_NESTING, MOST_ROWS);
    measure(&counting, DEEP, 0);
    measure(&counting_plain, DEEP, 0);
    add_run(&at, 9);
    deepen(letter, MOST_NESTING, 0);
    add_run(&at, 8);
    measure(&reporting, DEEP, 0);
}

/* Counts of the most rows, classes and methods; more models than the services hold at once, the dearest first. */
static void many_models(void)
{
    size_t at = 0;
    store[0] = 1;
    crowd(MOST_CLASSES, MOST_METHODS);
    measure(&counting, WIDE, 18);
    measure(&counting_plain, WIDE, 18);
    length = 0, models = 0;
    row('C', 0, 0), row('C', 0, 1), row('S', 0, 0), row('B', 0, 1), row('N', 0, 0);
    while (models < MANY_MODELS) {
        uint32_t *line = counted + 4 * models;
        line[0] = (uint32_t)models, line[1] = 1, line[2] = 0, line[3] = (uint32_t)(MANY_MODELS - models);
        add_run(&at, line[3]);
    }
    measure(&ranking, WIDE, 0);
    measure(&reporting, WIDE, 0);
}

/* Check, translation and run of programs that hardly nest: the most rows, and one more; classes and methods. */
static void widths(void)
{
    struct service *services[] = {&checking, &translating, &running};
    for (size_t i = 0; i < sizeof services / sizeof *services; i++) {
        uint32_t number = services[i] == &translating ? 2 : 0;
        widen(MOST_ROWS);
        measure(services[i], WIDE, number);
        widen(MOST_ROWS + 1);
        measure(services[i], WIDE, 2);
        crowd(MOST_CLASSES, MOST_METHODS);
        measure(services[i], WIDE, number);
        crowd(1, (TRANSLATED_ROWS - 4) / 3);
        measure(services[i], WIDE, 0);
        widen(TRANSLATED_ROWS);
        measure(services[i], WIDE, 0);
        lengthen();
        measure(services[i], WIDE, 0);
    }
}

int main(void)
{
    struct service *services[] = {&reading, &writing, &checking, &translating, &running,
                                  &counting, &counting_plain, &ranking, &reporting, &converting_dates,
                                  &converting_days, &pricing, &pricing_by_date, &reporting_prices};
    texts();
    for (const char *letter = letters; *letter; letter++)
        depths(*letter), counts(*letter);
    widths();
    many_models();
    dates_and_prices();
    for (size_t i = 0; i < sizeof services / sizeof *services; i++)
        printf("%s: deepest %zu, widest %zu, needed %zu bytes\n", services[i]->name, services[i]->took[DEEP],
               services[i]->took[WIDE], services[i]->needed);
    puts(failures == 0 ? "the native stack stays within what the header says" : "failed");
    return failures != 0;
}
