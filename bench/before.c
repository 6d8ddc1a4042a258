/* Times of the product's judge and of an earlier one, whose names start with before_, taken in turn
 * in one run: their ratio on honest boards of 4,096 ballots, and what boards that are bad for rule
 * 21 take longer than before, as a share of an honest one's time. The earlier one may know that rule
 * or not. */

#include "copies.h"
#include "inputs.h"
#include "support.h"

#include <math.h>
#include <stdio.h>
#include <stdlib.h>
#include <string.h>

#define RATIO_AIM 1.05
#define SHARE_AIM 0.10

enum { REPETITIONS = 24, BAD_RUNS = 8, BALLOTS_END = 8 + PADDOCKYEAR_COMMAND_LENGTH * MOST };
enum { PLAINLY, AS_DRAWN, JUDGINGS };

uint32_t before_paddockyear_judge_plainly(const uint8_t *bytes, size_t length);
uint32_t before_paddockyear_judge_as_drawn(const uint8_t *bytes, size_t length);

typedef uint32_t judge(const uint8_t *bytes, size_t length);

/* One of the two judges, what it must answer, and its best time. */
struct side {
    judge *judge;
    uint32_t due;
    double best;
};

static struct board {
    const uint8_t *record;
    size_t length;
    struct side now, before;
} honest[FORMS][JUDGINGS], bad[BAD_BOARDS];

/* Whether the earlier judge accepts the honest boards: it may know other commitments with 0C. */
static int accepted[FORMS];

/* What is timed. */
static const struct board *board;
static const struct side *side;

static void run(void) {
    demand(side->judge(board->record, board->length) == side->due, "a judge finds otherwise");
}

static void time_side(struct side *of, unsigned runs) {
    side = of;
    of->best = smaller(time_each(run, runs), of->best);
}

static void time_board(struct board *of, unsigned runs) {
    board = of;
    time_side(&of->now, runs);
    time_side(&of->before, runs);
}

static uint8_t *take(size_t length) {
    uint8_t *memory = malloc(length);
    demand(memory != NULL, "no memory");
    return memory;
}

static void make_honest(int form) {
    const struct side none = {NULL, 0, INFINITY};
    struct election of = lent_election(SIZES - 1, form);
    of.parts.joined = take(of.parts.joined_length);
    demand(paddockyear_hold(&of.in, &of.throws, &of.parts) == 0, "the election is refused");
    struct board made = {of.parts.joined, of.parts.joined_length, none, none};
    made.now.judge = paddockyear_judge_plainly;
    made.before.judge = before_paddockyear_judge_plainly;
    uint32_t before = made.before.judge(made.record, made.length);
    accepted[form] = before == 0;
    demand(accepted[form] || (form == NUMBERED && before == PADDOCKYEAR_RULE_OPENING),
           "the earlier judge refuses");
    honest[form][PLAINLY] = made;
    made.now.judge = paddockyear_judge_as_drawn;
    made.before.judge = before_paddockyear_judge_as_drawn;
    honest[form][AS_DRAWN] = made;
}

/* Cut behind the ballots, where both judges stop: by 1, or by 21 where they know it. So both read
 * the same, and what ours takes longer than one that does not know it is its test of rule 21. */
static void make_bad(int which) {
    uint32_t cut = PADDOCKYEAR_RULE_CUT_SHORT, copied = PADDOCKYEAR_RULE_COPIED_BALLOT;
    uint8_t *record = take(BALLOTS_END);
    memcpy(record, honest[PLAIN][PLAINLY].record, BALLOTS_END);
    put_commitments(which, record);
    bad[which] = honest[PLAIN][PLAINLY];
    bad[which].record = record;
    bad[which].length = BALLOTS_END;
    bad[which].now.due = bad_boards[which].due == copied ? copied : cut;
    uint32_t before = before_paddockyear_judge_plainly(record, BALLOTS_END);
    demand(before == cut || before == bad[which].now.due, "the earlier judge finds otherwise");
    bad[which].before.due = before;
}

static void make_boards(void) {
    make_elections();
    for (int form = 0; form < FORMS; form++) make_honest(form);
    make_bad_boards();
    for (int which = 0; which < BAD_BOARDS; which++) make_bad(which);
}

static void time_boards(void) {
    for (int repetition = 0; repetition < REPETITIONS; repetition++) {
        for (int form = 0; form < FORMS; form++) {
            if (!accepted[form]) continue;
            time_board(&honest[form][PLAINLY], 1);
            time_board(&honest[form][AS_DRAWN], 1);
        }
        for (int which = 0; which < BAD_BOARDS; which++) time_board(&bad[which], BAD_RUNS);
    }
}

static void print_times(const struct board *of) {
    printf("ours %9.3f ms   before  %9.3f ms", 1e3 * of->now.best, 1e3 * of->before.best);
}

static void print_honest(int form, int judging) {
    const struct board *of = &honest[form][judging];
    const char *how = judging == PLAINLY ? "plainly," : "as drawn,";
    printf("Judging %s %-9s n = %d  ", first_command(form), how, MOST);
    if (!accepted[form]) {
        printf("skipped, the earlier judge knows other commitments\n");
        return;
    }
    print_times(of);
    printf("   ratio %.3f (aim: at most %.2f)\n", of->now.best / of->before.best, RATIO_AIM);
}

static void print_bad(int which) {
    const struct board *of = &bad[which];
    double longer = of->now.best - of->before.best, whole = honest[PLAIN][PLAINLY].before.best;
    printf("Ballots, %-21s ", bad_boards[which].name);
    print_times(of);
    printf("   share %.3f (aim: at most %.2f)\n", longer / whole, SHARE_AIM);
}

int main(void) {
    make_boards();
    time_boards();
    for (int form = 0; form < FORMS; form++) {
        for (int judging = 0; judging < JUDGINGS; judging++) print_honest(form, judging);
    }
    for (int which = 0; which < BAD_BOARDS; which++) print_bad(which);
    return 0;
}
