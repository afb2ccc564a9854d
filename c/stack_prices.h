/* The native stack of the services on days and prices, for stack.c, which includes measure.h before. */

/* The most terms, the bytes of the longest, and those of a month's longest report. */
enum { MOST_TERMS = 65536, LONGEST_TERM = 30, MONTH_REPORTED = 558 };

static uint8_t terms[LONGEST_TERM * (MOST_TERMS + 1)];
static size_t terms_length;
static uint32_t year, month, day;

static void *convert_date(void *unused)
{
    answer = fickle_day_of_date(year, month, day);
    return unused;
}

static void *convert_day(void *unused)
{
    uint32_t date[3];
    answer = fickle_date_of_day(day, date, date + 1, date + 2);
    return unused;
}

static void *price(void *unused)
{
    uint32_t found[2];
    answer = fickle_price_on_day(terms, terms_length, 7, day, found, found + 1);
    return unused;
}

static void *price_by_date(void *unused)
{
    uint32_t found[2];
    answer = fickle_price_on_date(terms, terms_length, 7, year, month, day, found, found + 1);
    return unused;
}

static void *report_month(void *unused)
{
    uint8_t lines[MONTH_REPORTED];
    answer = fickle_report_prices(terms, terms_length, 7, year, month, lines, sizeof lines);
    return unused;
}

/* The services. */
static struct service converting_dates = {"day_of_date", convert_date, FICKLE_DAY_OF_DATE_STACK_NEEDED, {0}},
  converting_days = {"date_of_day", convert_day, FICKLE_DATE_OF_DAY_STACK_NEEDED, {0}},
  pricing = {"price_on_day", price, FICKLE_PRICE_ON_DAY_STACK_NEEDED, {0}},
  pricing_by_date = {"price_on_date", price_by_date, FICKLE_PRICE_ON_DATE_STACK_NEEDED, {0}},
  reporting_prices = {"report_prices", report_month, FICKLE_REPORT_PRICES_STACK_NEEDED, {0}};

/* So many terms of one model, each of one day of May 2179, a price for each; the signing numbers rise. */
static void sign(uint32_t count)
{
    terms_length = 0;
    for (uint32_t i = 0; i < count; i++) {
        unsigned on = 65499 + i % 31, cents = 65535 - i % 31, signing = i % MOST_TERMS;
        char *line = (char *)terms + terms_length;
        terms_length += (size_t)sprintf(line, "7\t%u\t%u\t%u\t%u\n", on, on, cents, signing);
    }
}

/* Days and dates in range and out of it; prices and a report by few terms, by the most, and by one too many. */
static void dates_and_prices(void)
{
    static const uint32_t counts[] = {0, 31, MOST_TERMS, MOST_TERMS + 1};
    year = 2179, month = 6, day = 7;
    measure(&converting_dates, WIDE, 24);
    year = 2179, month = 5, day = 31;
    measure(&converting_dates, WIDE, 0);
    for (size_t i = 0; i < sizeof counts / sizeof *counts; i++) {
        uint32_t number = counts[i] > MOST_TERMS ? 23 : 0;
        sign(counts[i]);
        measure(&pricing_by_date, WIDE, number);
        measure(&reporting_prices, WIDE, number);
        day = 65529;
        measure(&pricing, WIDE, number);
        measure(&converting_days, WIDE, 0);
        day = 31;
    }
    day = 65536;
    measure(&converting_days, WIDE, 24);
    sign(31);
    measure(&pricing, WIDE, 24);
    month = 6;
    measure(&reporting_prices, WIDE, 24);
}
