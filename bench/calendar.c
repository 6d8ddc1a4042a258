/* Times of the product's calendar beside one in plain C, which tests each holiday and marks it in a table of days: their ratio, and how ours
 * grows with the number of holidays, all from one run. */

#include "paddockyear.h"
#include "support.h"

#include <math.h>
#include <stdio.h>
#include <string.h>

enum { REPETITIONS = 200, DAYS = 73049, PAST = 64 };

static uint32_t holidays[DAYS];
static size_t used;
static struct paddockyear_windows ours, theirs;

/* ---- holidays */

static int is_leap(uint32_t year) {
    return (year % 4 == 0 && year % 100 != 0) || year % 400 == 0;
}

static const uint32_t lengths[] = {31, 28, 31, 30, 31, 30, 31, 31, 30, 31, 30, 31};

static uint32_t length_of(uint32_t year, uint32_t month) {
    return lengths[month - 1] + (month == 2 && is_leap(year));
}

/* Every day of 200 years, or of those every so many. */
static void make_holidays(uint32_t step) {
    uint32_t day = 0;
    used = 0;
    for (uint32_t year = 2000; year < 2200; year++)
        for (uint32_t month = 1; month <= 12; month++)
            for (uint32_t i = 1; i <= length_of(year, month); i++)
                if (day++ % step == 0) holidays[used++] = year * 10000 + month * 100 + i;
}

/* ---- the two calendars */

static void run_ours(void) {
    demand(paddockyear_calendar(2000, 1, 1, holidays, used, &ours) == 0, "the calendar refuses");
}

static uint8_t marked[DAYS + PAST];

/* The number of a day that exists, -1 for one that does not. */
static int32_t number_of(uint32_t date) {
    static const uint32_t before[] = {0, 31, 59, 90, 120, 151, 181, 212, 243, 273, 304, 334};
    uint32_t year = date / 10000, month = date / 100 % 100, day = date % 100, past = year - 2000;
    if (year < 2000 || year > 2199 || month < 1 || month > 12 || day < 1 || day > length_of(year, month)) return -1;
    return (int32_t)(past * 365 + (past + 3) / 4 - (past + 99) / 100 + (past > 0) + before[month - 1] + (month > 2 && is_leap(year)) + day - 1);
}

static uint32_t working_from(uint32_t day) {
    while ((day + 5) % 7 > 4 || marked[day]) day++;
    return day;
}

static struct paddockyear_window hours(uint32_t first, uint32_t from, uint32_t last, uint32_t to) {
    struct paddockyear_window window = {first * UINT64_C(1440) + from * 60, last * UINT64_C(1440) + to * 60};
    return window;
}

static void run_plain(void) {
    int32_t last = -1;
    uint32_t first, second;
    memset(marked, 0, sizeof marked);
    for (size_t i = 0; i < used; i++) {
        int32_t day = number_of(holidays[i]);
        demand(day > last, "a holiday that does not rise");
        marked[last = day] = 1;
    }
    first = working_from(working_from(1) + 1);
    second = working_from(first + 1);
    theirs.polling = hours(0, 8, 0, 20);
    theirs.first_dice = hours(first, 10, first, 12);
    theirs.second_dice = hours(second, 10, second, 12);
    theirs.objections = hours(second, 12, working_from(second + 14), 24);
}

/* ---- times */

/* Prints one row and answers our time. */
static double compare(uint32_t step) {
    double a = INFINITY, b = INFINITY;
    make_holidays(step);
    for (int i = 0; i < REPETITIONS; i++) {
        a = smaller(a, time_once(run_ours));
        b = smaller(b, time_once(run_plain));
    }
    demand(memcmp(&ours, &theirs, sizeof ours) == 0, "other windows");
    printf("Calendar with %5zu holidays   ours %9.3f ms   plain C %9.3f ms   ratio %.2f\n", used, 1e3 * a, 1e3 * b, a / b);
    return a;
}

int main(void) {
    double few = compare(16), all = compare(1);
    printf("Calendar: 16 times the holidays take %.1f times as long\n", all / few);
    return 0;
}
