/* An election office's first program: the calendar of an election on Tuesday, 31 March 2026. Good Friday and Easter Monday are holidays. */

#include <inttypes.h>
#include <paddockyear.h>
#include <stdio.h>
#include <string.h>

enum { HOUR = 60, DAY = 24 * HOUR }; /* in minutes */

static const uint32_t holidays[] = {20260403, 20260406}; /* rising */

/* The year, month and day of the election, and the holidays, as all calls take them. */
#define ELECTION 2026, 3, 31, holidays, sizeof holidays / sizeof *holidays

static const char *const names[] = {"no window", "polling", "first dice", "second dice", "objections"};

struct moment {
    uint32_t year, month, day, hour, minute;
};

/* Prints a window, first in minutes, then in days after the election day. A window that ends at midnight ends at 24:00 of its last day. */
static void print_window(uint32_t number, struct paddockyear_window window, uint64_t midnight) {
    uint64_t start = window.start - midnight, last = window.end - midnight - 1;
    printf("%s: %" PRIu64 " to %" PRIu64 ", ", names[number], window.start, window.end);
    printf("day %" PRIu64 " %02" PRIu64 ":00 to ", start / DAY, start % DAY / HOUR);
    printf("day %" PRIu64 " %02" PRIu64 ":00\n", last / DAY, (last % DAY + 1) / HOUR);
}

static void print_windows(const struct paddockyear_windows *windows) {
    uint64_t midnight = windows->polling.start / DAY * DAY;
    print_window(PADDOCKYEAR_POLLING, windows->polling, midnight);
    print_window(PADDOCKYEAR_FIRST_DICE, windows->first_dice, midnight);
    print_window(PADDOCKYEAR_SECOND_DICE, windows->second_dice, midnight);
    print_window(PADDOCKYEAR_OBJECTIONS, windows->objections, midnight);
}

/* The minute of a moment: on any day that exists, polling would start at 08:00. */
static uint32_t find_minute(const struct moment *m, uint64_t *minute) {
    struct paddockyear_windows windows;
    uint32_t answer = paddockyear_calendar(m->year, m->month, m->day, NULL, 0, &windows);
    if (answer == PADDOCKYEAR_DONE) *minute = windows.polling.start - 8 * HOUR + m->hour * HOUR + m->minute;
    return answer;
}

/* Prints which window a moment is in, if its day exists. */
static void ask(const struct moment *m) {
    uint64_t minute = 0;
    uint32_t window = PADDOCKYEAR_NO_WINDOW;
    uint32_t answer = find_minute(m, &minute);
    if (answer == PADDOCKYEAR_DONE) answer = paddockyear_window_at(ELECTION, minute, &window);
    printf("%04" PRIu32 "-%02" PRIu32 "-%02" PRIu32 " %02" PRIu32 ":%02" PRIu32 ": ", m->year, m->month, m->day, m->hour, m->minute);
    if (answer == PADDOCKYEAR_DONE)
        printf("minute %" PRIu64 ", %s\n", minute, names[window]);
    else
        printf("REFUSED %" PRIu32 ": %s\n", answer, paddockyear_rule(answer));
}

int main(void) {
    static const struct moment moments[] = {{2026, 3, 31, 7, 59}, {2026, 3, 31, 8, 0},  {2026, 3, 31, 20, 0}, {2026, 4, 2, 11, 30},
                                            {2026, 4, 3, 11, 30}, {2026, 4, 7, 11, 59}, {2026, 4, 7, 12, 0},  {2026, 4, 21, 23, 59},
                                            {2026, 4, 22, 0, 0},  {2026, 4, 31, 12, 0}};
    static const uint32_t exchanged[] = {20260406, 20260403};
    struct paddockyear_windows windows, kept;
    uint32_t answer = paddockyear_calendar(ELECTION, &windows);
    if (answer != PADDOCKYEAR_DONE) return 1;
    print_windows(&windows);
    for (size_t i = 0; i < sizeof moments / sizeof *moments; i++) ask(&moments[i]);

    /* A refused call changes nothing: the calendar that was set still stands. */
    kept = windows;
    answer = paddockyear_calendar(2026, 3, 31, exchanged, 2, &windows);
    printf("with the holidays exchanged: REFUSED %" PRIu32 ": %s\n", answer, paddockyear_rule(answer));
    printf("the windows are %s\n", memcmp(&kept, &windows, sizeof kept) == 0 ? "as they were" : "others");
    return 0;
}
