/* The C judge against the reference's verdicts, over boards of both forms from standard input. */

#include "judge.h"
#include "support.h"

#include <stdio.h>
#include <stdlib.h>

enum { LAST = 21 };

/* By the form, plain or drawn judging, and the number. */
static int counts[2][2][LAST + 1];

/* 18 to 20 are no judge's. */
static int judged(int number) { return number <= 17 || number == LAST; }

static void compare(const struct posted *board, int drawn) {
    struct verdict found, due = board->due[drawn];
    found.number = judge(board->record, board->length, drawn, &found.place);
    if (found.number != due.number || found.place != due.place) {
        fprintf(stderr, "%s judging: %d at %zu, the reference has %d at %zu\n",
                drawn ? "drawn" : "plain", found.number, found.place, due.number, due.place);
        exit(1);
    }
    counts[board->length > 0 && board->record[0] == 0x0C][drawn][found.number]++;
}

static void print_counts(const char *form, const char *judging, const int *counts) {
    printf("%s, %s judging: accepted %d", form, judging, counts[0]);
    for (int number = 1; number <= LAST; number++) {
        if (judged(number)) printf(", %d: %d", number, counts[number]);
    }
    printf("\n");
}

/* Each form has boards that are accepted and boards refused by every number. */
static void finish_form(const char *form, int counts[2][LAST + 1]) {
    print_counts(form, "plain", counts[0]);
    print_counts(form, "drawn", counts[1]);
    demand(counts[0][0] > 0 && counts[1][0] > 0, "no board was accepted");
    for (int number = 1; number <= LAST; number++) {
        demand(!judged(number) || counts[1][number] > 0, "a rule was not met");
    }
}

int main(void) {
    struct posted board;
    demand(judge_start(), "no SHA-3 in OpenSSL");
    while (read_board(&board)) {
        compare(&board, 0);
        compare(&board, 1);
        free_board(&board);
    }
    judge_stop();
    finish_form("01 or another byte first", counts[0]);
    finish_form("0C first", counts[1]);
    printf("the C judge and the reference agree\n");
    return 0;
}
