/* Times of the product's judge and of the C judge over OpenSSL, both as drawn, on boards of either
 * form, and of the permutations alone that this takes, OpenSSL's and our own, taken in turn in one
 * run: their ratios, those of one form to the other, the growth from board to board and from the
 * first to the last, and the stack that the product's judge uses. Then those of boards that are bad
 * for rule 21, judged plainly, each as a share of an honest one's. */

#include "copies.h"
#include "hashing.h"
#include "inputs.h"
#include "judge.h"
#include "support.h"

#include <math.h>
#include <stdio.h>
#include <stdlib.h>
#include <string.h>

#define RATIO_AIM 0.85
#define PERMUTATIONS_AIM 1.10
#define FORMS_AIM 1.02
#define GROWTH_AIM 4.2
#define SHARE_AIM 0.10

enum { REPETITIONS = 16, BAD_RUNS = 8 };

/* Best times of each judge, and of one permutation of ours and of OpenSSL's. */
struct times {
    double ours, plain_c, permutation, openssl;
};

static const struct times none = {INFINITY, INFINITY, INFINITY, INFINITY};

/* With the number that plain judging gives, and how many permutations judging as drawn takes. */
static struct board {
    uint8_t *record;
    size_t length;
    uint32_t due;
    uint64_t permutations;
    struct times best;
} boards[FORMS][SIZES];

/* Judged plainly; the bad ones come one after the other to the same place. */
static struct board honest, bad[BAD_BOARDS];

/* The one that is judged. */
static const struct board *board;

static void ours(void) {
    demand(paddockyear_judge_as_drawn(board->record, board->length) == 0, "our judge refuses");
}

static void plain_c(void) {
    size_t place;
    demand(judge(board->record, board->length, 1, &place) == 0, "the C judge refuses");
}

/* How often judging as drawn needs Keccak-f[1600] by the papers. A digest takes one call for each
 * whole block of its message, and one for the padded rest. */
static uint64_t permutations_due(int form, uint64_t n, uint64_t m) {
    /* 01 or 0C, n commands 02, 2mn commands 03; then 04 and mn commands 05. */
    uint64_t before_04 = (form == NUMBERED ? 12 : 8) + 197 * n + 196 * 2 * m * n;
    uint64_t before_06 = before_04 + 35 + 10 * m * n;
    /* "the SHA3-224 of every record byte before that dice command": what the two share is taken in
     * once, and each is ended by itself. */
    uint64_t prefixes = before_06 / 144 + 1 + 1;
    /* "SHA3-224(i in decimal, first Q, "2")" for each list and "SHA3-224(j + 1 in decimal, second
     * Q, "1")" for each ballot: at most 4 + 86 + 1 bytes. */
    uint64_t draws = 2 * m + n;
    /* "A commitment is the SHA3-256 of an opening's 36 bytes", with 0C of 46 bytes, less than a
     * block too: three for each of n commands 07 and mn commands 08, six for each of mn commands
     * 0A. */
    uint64_t openings = 3 * (n + m * n) + 6 * m * n;
    return prefixes + draws + openings;
}

/* By the product, from the same inputs in both forms. */
static struct board write_board(int form, int size) {
    struct election of = lent_election(size, form);
    of.parts.joined = malloc(of.parts.joined_length);
    demand(of.parts.joined != NULL, "no memory");
    demand(paddockyear_hold(&of.in, &of.throws, &of.parts) == 0, "the election is refused");
    uint64_t permutations = permutations_due(form, LEAST << size, COMPARED);
    return (struct board){of.parts.joined, of.parts.joined_length, 0, permutations, none};
}

/* The C judge must accept a board, too, with as many permutations. */
static void check_board(const struct board *of) {
    board = of;
    plain_c();
    demand(judge_permutations() == of->permutations, "the C judge counts other permutations");
}

static void write_boards(void) {
    make_elections();
    for (int form = 0; form < FORMS; form++) {
        for (int size = 0; size < SIZES; size++) {
            boards[form][size] = write_board(form, size);
            check_board(&boards[form][size]);
        }
    }
}

/* Permutations are timed over as many as the judges' runs take: longer timings are disturbed more
 * often. */
static void time_board(struct board *of, unsigned runs) {
    struct times *best = &of->best;
    unsigned rows = (unsigned)(of->permutations * runs / ROW);
    board = of;
    best->ours = smaller(time_each(ours, runs), best->ours);
    best->openssl = smaller(openssl_permutation(rows), best->openssl);
    best->permutation = smaller(ours_permutation(rows), best->permutation);
    best->plain_c = smaller(time_each(plain_c, runs), best->plain_c);
}

/* The best of each board, all taken in turn, and each timing over as many ballots. */
static void time_boards(void) {
    for (int repetition = 0; repetition < REPETITIONS; repetition++) {
        for (int size = 0; size < SIZES; size++) {
            unsigned runs = MOST / (LEAST << size);
            for (int form = 0; form < FORMS; form++) time_board(&boards[form][size], runs);
        }
    }
}

static void ours_plainly(void) {
    uint32_t number = paddockyear_judge_plainly(board->record, board->length);
    demand(number == board->due, "our judge finds otherwise");
}

static void plain_c_plainly(void) {
    size_t place;
    int number = judge(board->record, board->length, 0, &place);
    demand((uint32_t)number == board->due, "the C judge finds otherwise");
}

/* The honest board of their size and form, and the bad ones in a copy of it. */
static void make_bad(void) {
    honest = boards[PLAIN][SIZES - 1];
    honest.best = none;
    uint8_t *copy = malloc(honest.length);
    demand(copy != NULL, "no memory");
    memcpy(copy, honest.record, honest.length);
    make_bad_boards();
    for (int i = 0; i < BAD_BOARDS; i++) {
        bad[i] = (struct board){copy, honest.length, bad_boards[i].due, 0, none};
    }
}

static void time_plainly(struct board *of, unsigned runs) {
    board = of;
    of->best.ours = smaller(time_each(ours_plainly, runs), of->best.ours);
    of->best.plain_c = smaller(time_each(plain_c_plainly, runs), of->best.plain_c);
}

static void time_bad(void) {
    for (int repetition = 0; repetition < REPETITIONS; repetition++) {
        time_plainly(&honest, 1);
        for (int i = 0; i < BAD_BOARDS; i++) {
            put_commitments(i, bad[i].record);
            time_plainly(&bad[i], BAD_RUNS);
        }
    }
}

static void print_times(int form, int size) {
    const struct times *of = &boards[form][size].best;
    printf("Judging %s, n = %4d, m = %d   ours %9.3f ms   C judge %9.3f ms   ratio %.3f",
           first_command(form), LEAST << size, COMPARED, 1e3 * of->ours, 1e3 * of->plain_c,
           of->ours / of->plain_c);
    printf(" (aim: at most %.2f)\n", RATIO_AIM);
}

/* Judging by its permutations alone, at the speed of either side. */
static void print_permutations(int form, int size) {
    const struct board *of = &boards[form][size];
    double ours = of->best.ours, calls = (double)of->permutations;
    double theirs = calls * of->best.openssl, own = calls * of->best.permutation;
    printf("Judging %s, n = %4d, m = %d   ours %9.3f ms   %.0f permutations of OpenSSL %9.3f ms",
           first_command(form), LEAST << size, COMPARED, 1e3 * ours, calls, 1e3 * theirs);
    printf("   ratio %.3f (aim: at most %.2f)\n", ours / theirs, PERMUTATIONS_AIM);
    printf("The same                       ours %9.3f ms   %.0f permutations of ours    %9.3f ms",
           1e3 * ours, calls, 1e3 * own);
    printf("   ratio %.3f, outside the permutation: %.1f in 100\n", ours / own,
           100 * (1 - own / ours));
}

static void print_forms(int size) {
    const struct times *plain = &boards[PLAIN][size].best;
    const struct times *numbered = &boards[NUMBERED][size].best;
    printf("0C over 01, n = %4d           ours %9.3f      C judge %9.3f", LEAST << size,
           numbered->ours / plain->ours, numbered->plain_c / plain->plain_c);
    printf("   (aim for ours: at most %.2f)\n", FORMS_AIM);
}

static void print_growth(int form, int from, int to) {
    const struct times *before = &boards[form][from].best, *after = &boards[form][to].best;
    printf("Growth %s from %4d to %4d    ours %9.3f      C judge %9.3f", first_command(form),
           LEAST << from, LEAST << to, after->ours / before->ours,
           after->plain_c / before->plain_c);
}

static void print_growths(int form) {
    for (int size = 1; size < SIZES; size++) {
        print_growth(form, size - 1, size);
        printf("\n");
    }
    print_growth(form, 0, SIZES - 1);
    printf("   (aim for ours: at most %.1f)\n", GROWTH_AIM);
}

static void print_stack(void) {
    size_t most = 0;
    for (int i = 0; i < FORMS * SIZES; i++) {
        board = &boards[i / SIZES][i % SIZES];
        size_t used = stack_of(ours);
        most = used > most ? used : most;
    }
    printf("Stack of our judge             %zu bytes (aim: at most %d)\n", most,
           PADDOCKYEAR_STACK_JUDGING);
}

static void print_bad(void) {
    const struct times *whole = &honest.best;
    printf("Judging 01 plainly, n = %d   ours %9.3f ms   C judge %9.3f ms   ratio %.3f\n", MOST,
           1e3 * whole->ours, 1e3 * whole->plain_c, whole->ours / whole->plain_c);
    for (int i = 0; i < BAD_BOARDS; i++) {
        const struct times *of = &bad[i].best;
        printf("The same, %-18s   ours %9.3f ms   C judge %9.3f ms   share %.3f, of C judge %.3f",
               bad_boards[i].name, 1e3 * of->ours, 1e3 * of->plain_c, of->ours / whole->ours,
               of->plain_c / whole->plain_c);
        printf(" (aim for ours: at most %.2f)\n", SHARE_AIM);
    }
}

static void print_honest(void) {
    for (int i = 0; i < FORMS * SIZES; i++) print_times(i / SIZES, i % SIZES);
    for (int i = 0; i < FORMS * SIZES; i++) print_permutations(i / SIZES, i % SIZES);
    for (int size = 0; size < SIZES; size++) print_forms(size);
    for (int form = 0; form < FORMS; form++) print_growths(form);
    print_stack();
}

int main(void) {
    demand(judge_start(), "no SHA-3 in OpenSSL");
    hashing_start();
    write_boards();
    time_boards();
    print_honest();
    make_bad();
    time_bad();
    print_bad();
    hashing_stop();
    judge_stop();
    return 0;
}
