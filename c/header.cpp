// Calls every service from C++, which links only where the header declares their C names.
#include "fickle.h"
#include "fickle.h" // A second time: the header guards itself.

#include <cstdio>

int main()
{
    const uint32_t program[] = {'S', 0, 0, 0, 'B', 0, 1, 0, 'T', 0, 0, 0};
    const size_t length = sizeof program / sizeof *program;
    uint8_t text[32];
    uint32_t rows[length], plain[32], kind, content, steps, objects, changes;
    const uint64_t written = fickle_write_text(program, length, text, sizeof text);
    const uint64_t read = fickle_read_rows(text, FICKLE_LINE(written), rows, length);
    const uint64_t checked = fickle_check_rows(rows, length);
    const uint64_t translated = fickle_translate_rows(rows, length, plain, sizeof plain / sizeof *plain);
    const uint64_t ran = fickle_run_rows(plain, 4 * FICKLE_LINE(translated), nullptr, 0, 2, &kind, &content, &steps,
                                         &objects, &changes);
    const bool truth = ran == 0 && kind == FICKLE_BOOL && content == 1 && steps == 2;
    uint32_t printed, spoiled;
    uint64_t told = 0, length_of_report = 0;
    const uint64_t counted = fickle_count_run(rows, length, nullptr, 0, 0, 1, 2, &printed, &spoiled);
    const uint64_t counted_plain = fickle_count_plain_run(rows, length, nullptr, 0, 0, 1, 2, &printed, &spoiled);
    const uint32_t line[] = {7, 1, 0, 3}, run[] = {7, 3, 0, 1, 2, 0};
    const uint32_t ranked = fickle_rank_models(line, 4, text, sizeof text, &length_of_report);
    const uint32_t reported = fickle_report_fleet(run, 6, rows, length, nullptr, 0, text, sizeof text, &told);
    // The program declares no class, so no run of it can be counted.
    const bool refused = FICKLE_NUMBER(counted) == 18 && FICKLE_NUMBER(counted_plain) == 18 && reported == 18;
    const uint8_t terms[] = "7\t0\t30\t150\t1\n";
    uint32_t year, month, of_month, cents, on_date, term;
    const uint64_t day = fickle_day_of_date(2000, 1, 31);
    const uint64_t dated = fickle_date_of_day(FICKLE_LINE(day), &year, &month, &of_month);
    const uint64_t priced = fickle_price_on_day(terms, sizeof terms - 1, 7, 30, &cents, &term);
    const uint64_t priced_on = fickle_price_on_date(terms, sizeof terms - 1, 7, 2000, 1, 31, &on_date, &term);
    const uint64_t reported_prices = fickle_report_prices(terms, sizeof terms - 1, 7, 2000, 1, text, sizeof text);
    const bool prices = day == 30 && dated == 0 && of_month == 31 && priced == 1 && cents == 150 && priced_on == 1 &&
                        on_date == 150 && term == 1 && reported_prices == 9;
    const bool right = read == 3 && checked == 0 && translated == 7 && truth && refused && told == 1 &&
                       ranked == 0 && length_of_report == 8 && prices;
    std::puts(right ? "all services answer C++ as they should" : "failed");
    return !right;
}
