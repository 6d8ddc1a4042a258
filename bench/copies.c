#include "copies.h"

#include <stdlib.h>
#include <string.h>

enum { WIDTH = 32, ALL = 6 * MOST, FIRST_COMMAND = 8, BALLOT = PADDOCKYEAR_COMMAND_LENGTH };

static uint8_t commitments[BAD_BOARDS][ALL][WIDTH];

static void make_random(uint8_t (*all)[WIDTH]) { fill(all[0], ALL * WIDTH, 0, 256); }

/* Random ones that their last bytes alone tell apart. */
static void make_alike(uint8_t (*all)[WIDTH], size_t last) {
    make_random(all);
    for (size_t i = 1; i < ALL; i++) memcpy(all[i], all[0], WIDTH - last);
}

/* One byte has too few values to tell all apart, so it takes two: 0 to 24,575, shuffled. */
static void make_two_bytes(uint8_t (*all)[WIDTH]) {
    static uint16_t values[ALL];
    make_alike(all, 2);
    for (size_t i = 0; i < ALL; i++) {
        size_t j = (size_t)below(i + 1);
        values[i] = values[j];
        values[j] = (uint16_t)i;
    }
    for (size_t i = 0; i < ALL; i++) {
        all[i][WIDTH - 2] = (uint8_t)(values[i] >> 8);
        all[i][WIDTH - 1] = (uint8_t)values[i];
    }
}

static void make_last_word(uint8_t (*all)[WIDTH]) { make_alike(all, 8); }

static int rising(const void *a, const void *b) { return memcmp(a, b, WIDTH); }
static int falling(const void *a, const void *b) { return memcmp(b, a, WIDTH); }

static void make_rising(uint8_t (*all)[WIDTH]) {
    make_random(all);
    qsort(all, ALL, WIDTH, rising);
}

static void make_falling(uint8_t (*all)[WIDTH]) {
    make_random(all);
    qsort(all, ALL, WIDTH, falling);
}

static void make_late_copy(uint8_t (*all)[WIDTH]) {
    make_random(all);
    memcpy(all[ALL - 1], all[0], WIDTH);
}

static void make_six_alike(uint8_t (*all)[WIDTH]) {
    make_random(all);
    for (size_t i = 0; i < ALL; i++) {
        if (i % 6 != 0) memcpy(all[i], all[i - 1], WIDTH);
    }
}

static void make_all_alike(uint8_t (*all)[WIDTH]) { make_alike(all, 0); }

const struct bad_board bad_boards[BAD_BOARDS] = {
    {"two bytes differ", PADDOCKYEAR_RULE_OPENING, make_two_bytes},
    {"rising", PADDOCKYEAR_RULE_OPENING, make_rising},
    {"falling", PADDOCKYEAR_RULE_OPENING, make_falling},
    {"last word differs", PADDOCKYEAR_RULE_OPENING, make_last_word},
    {"last is a copy", PADDOCKYEAR_RULE_COPIED_BALLOT, make_late_copy},
    {"six alike", PADDOCKYEAR_RULE_OPENING, make_six_alike},
    {"all alike", PADDOCKYEAR_RULE_COPIED_BALLOT, make_all_alike},
};

void make_bad_boards(void) {
    for (int which = 0; which < BAD_BOARDS; which++) bad_boards[which].make(commitments[which]);
}

void put_commitments(int which, uint8_t *record) {
    for (size_t j = 0; j < MOST; j++) {
        uint8_t *operands = record + FIRST_COMMAND + BALLOT * j + 1;
        memcpy(operands + 4, commitments[which][6 * j], 6 * WIDTH);
    }
}
