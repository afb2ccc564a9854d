/* The calendar, prices and their reports, called from services.c, whose buffers they use. */

static void expect_date(const char *what, uint32_t year, uint32_t month, uint32_t day)
{
    if (counts[0] != year || counts[1] != month || counts[2] != day) {
        printf("%s: %u-%u-%u\n", what, counts[0], counts[1], counts[2]);
        failures++;
    }
}

static void dates(void)
{
    fill();
    expect("day_of_date, 2100", fickle_day_of_date(2100, 2, 29), 24, 0);
    expect("day_of_date, past the range", fickle_day_of_date(2179, 6, 7), 24, 0);
    expect("day_of_date, largest numbers", fickle_day_of_date(UINT32_MAX, UINT32_MAX, UINT32_MAX), 24, 0);
    expect("day_of_date, first", fickle_day_of_date(2000, 1, 1), 0, 0);
    expect("day_of_date, last", fickle_day_of_date(2179, 6, 6), 0, 65535);
    expect("date_of_day, past the range", fickle_date_of_day(65536, counts, counts + 1, counts + 2), 24, 0);
    expect_filled("date_of_day, refused", counts, sizeof counts);
    expect("date_of_day", fickle_date_of_day(59, counts, counts + 1, counts + 2), 0, 0);
    expect_date("date_of_day", 2000, 2, 29);
}

/* Terms of models 7 and 8; a line that is refused, and one that is malformed. */
static const char terms[] = "7 0 30 150 1,7 10 12 0 2,8 0 30 9 3,";
static const char falling[] = "7 0 30 150 1,7 9 8 9 2,";
static const char signed_twice[] = "7 0 30 150 1,8 0 30 9 1,";
static const char no_term[] = "7 0 30 150,";

static uint64_t price(size_t length, uint32_t model, uint32_t day)
{
    return fickle_price_on_day(text, length, model, day, labels, labels + 1);
}

static uint64_t price_by_date(size_t length, uint32_t year, uint32_t month, uint32_t day)
{
    return fickle_price_on_date(text, length, 7, year, month, day, labels, labels + 1);
}

static void prices(void)
{
    fill();
    expect("price_on_day, days fall", price(spell(falling), 7, 65536), 23, 2);
    expect("price_on_day, signed twice", price(spell(signed_twice), 7, 65536), 23, 2);
    expect("price_on_day, malformed", price(spell(no_term), 7, 65536), 1, 1);
    size_t length = spell(terms);
    expect("price_on_day, date", price(length, 7, 65536), 24, 0);
    expect("price_on_day, none", price(length, 7, 31), 0, 0);
    expect("price_on_day, no such model", price(length, UINT32_MAX, 0), 0, 0);
    expect("price_on_date, date", price_by_date(length, 2000, 2, 30), 24, 0);
    expect("price_on_date, none", price_by_date(length, 2000, 2, 1), 0, 0);
    expect_filled("price_on_day, no price", labels, sizeof labels);
    expect("price_on_day", price(length, 7, 30), 0, 1);
    expect_labels("price_on_day", 150, 1);
    expect("price_on_date", price_by_date(length, 2000, 1, 11), 0, 1);
    expect_labels("price_on_date", 0, 2);
}

static uint64_t report_of(const char *of, uint32_t model, uint32_t month, size_t room)
{
    uint8_t lines[TEXT];
    size_t length = spell(of);
    memcpy(lines, text, length);
    memset(text, FILL, sizeof text);
    return fickle_report_prices(lines, length, model, 2000, month, text, room);
}

static void price_reports(void)
{
    fill();
    expect("report_prices, days fall", report_of(falling, 7, 13, 0), 23, 2);
    expect("report_prices, malformed", report_of(no_term, 7, 13, 0), 1, 1);
    expect("report_prices, month", report_of(terms, 7, 13, 0), 24, 0);
    expect("report_prices, no room", report_of(terms, 7, 1, 25), 13, 0);
    expect_filled("report_prices, refused", text, sizeof text);
    expect("report_prices, none", report_of(terms, 7, 2, 0), 0, 0);
    expect("report_prices", report_of(terms, 7, 1, 26), 0, 26);
    expect_report("report_prices", "0\t9\t150\n10\t12\t0\n13\t30\t150\n");
}
