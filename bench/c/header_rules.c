// The fields of the header that have a meaning of their own: the kind of file, the sending bank,
// and the two days.
#include "rules.h"

enum number file_kind(const uint8_t *a3, struct kind *kind) {
    kind->credit = a3[0] == 'G';
    kind->customer = a3[1] == 'K';
    bool named = (kind->credit || a3[0] == 'L') && (kind->customer || a3[1] == 'B');
    return named ? ACCEPTED : NOT_FIXED;
}

// A5 is zero in a customer's file.
enum number sending_bank(const uint8_t *a5, struct kind kind) {
    uint64_t code;
    if (digits(a5, 8, &code) != ACCEPTED)
        return NO_DIGIT;
    return kind.customer && code != 0 ? CONDITION : ACCEPTED;
}

static bool is_leap(unsigned year) { return year % 4 == 0 && (year % 100 != 0 || year % 400 == 0); }

static unsigned month_days(unsigned year, unsigned month) {
    static const unsigned days[13] = {0, 31, 28, 31, 30, 31, 30, 31, 31, 30, 31, 30, 31};
    return month == 2 && is_leap(year) ? 29 : days[month];
}

// The number of a day, 1 for the first of the year 1, or 0 where there is no such day.
static unsigned day_number(unsigned day, unsigned month, unsigned year) {
    if (year < 1 || month < 1 || month > 12 || day < 1 || day > month_days(year, month))
        return 0;
    unsigned years = year - 1;
    unsigned number = 365 * years + years / 4 - years / 100 + years / 400 + day;
    for (unsigned m = 1; m < month; m++)
        number += month_days(year, m);
    return number;
}

// A7 is DDMMYY.
enum number creation_day(const uint8_t *a7, unsigned *day) {
    uint64_t date;
    if (digits(a7, 6, &date) != ACCEPTED)
        return NO_DIGIT;
    unsigned year = date % 100;
    *day = day_number(date / 10000, date / 100 % 100, year < 80 ? 2000 + year : 1900 + year);
    return *day == 0 ? NO_DATE : ACCEPTED;
}

// A11b is DDMMYYYY, on the day of creation or up to 15 days later.
enum number execution_day(const uint8_t *a11b, unsigned creation_day) {
    uint64_t date;
    if (digits(a11b, 8, &date) != ACCEPTED)
        return NO_DIGIT;
    unsigned day = day_number(date / 1000000, date / 10000 % 100, date % 10000);
    if (day == 0)
        return NO_DATE;
    if (day < creation_day)
        return TOO_EARLY;
    return day > creation_day + 15 ? TOO_LATE : ACCEPTED;
}
