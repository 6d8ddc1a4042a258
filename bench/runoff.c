/* Times of the product's runoff beside one in plain C that reads each vote's digits anew in each round, as ours does: their ratio, and how
 * ours grows with the number of votes and of rounds, all from one run. */

#include "paddockyear.h"
#include "support.h"

#include <math.h>
#include <stdio.h>
#include <string.h>

enum { REPETITIONS = 30, MOST_VOTES = 65536, CANDIDATES = 9 };

static uint32_t votes[MOST_VOTES];
static size_t used;
static struct paddockyear_candidate ours[CANDIDATES], theirs[CANDIDATES];
static uint32_t winner, plain_winner;
static uint64_t blank, spoiled, plain_blank, plain_spoiled;

/* ---- votes */

static uint32_t state;

static uint32_t draw(uint32_t below) {
    state = state * 1664525u + 1013904223u;
    return (uint32_t)(((uint64_t)state * below) >> 32);
}

/* A ranking of some candidates, in any order. */
static uint32_t ranking(uint32_t length) {
    uint32_t digits[CANDIDATES], vote = 0;
    for (uint32_t i = 0; i < CANDIDATES; i++) digits[i] = i + 1;
    for (uint32_t i = 0; i < length; i++) {
        uint32_t j = i + draw(CANDIDATES - i), k = digits[i];
        digits[i] = digits[j];
        digits[j] = k;
        vote = vote * 10 + digits[i];
    }
    return vote;
}

/* All candidates ranked at random, which takes nearly all rounds; or alike by all, which takes one. A few are blank or spoiled. */
static void make_votes(size_t n, int one_round) {
    used = n;
    state = 2;
    for (size_t i = 0; i < n; i++) votes[i] = one_round ? 123456789 : ranking(CANDIDATES);
    for (size_t i = 0; i < n; i += 64) votes[i] = i % 128 == 0 ? 0 : 11;
}

/* ---- the two runoffs */

static void run_ours(void) {
    demand(paddockyear_runoff(votes, used, CANDIDATES, ours, CANDIDATES, &winner, &blank, &spoiled) == 0, "the runoff refuses");
}

/* The first candidate standing, 0 for none. */
static uint32_t counts_for(uint32_t vote) {
    uint32_t seen = 1, first = 0;
    for (; vote != 0; vote /= 10) {
        uint32_t k = vote % 10;
        if (k > CANDIDATES || (seen >> k & 1)) return 0;
        seen |= 1u << k;
        if (theirs[k - 1].left == 0) first = k;
    }
    return first;
}

/* With nobody gone yet, what counts for none is blank or spoiled. */
static void count_apart(uint64_t uncounted) {
    plain_blank = 0;
    for (size_t i = 0; i < used; i++) plain_blank += votes[i] == 0;
    plain_spoiled = uncounted - plain_blank;
}

/* One round; answers whether another one follows. */
static int plain_round(uint32_t round) {
    uint64_t counts[CANDIDATES + 1] = {0}, counting;
    uint32_t last = 0;
    for (size_t i = 0; i < used; i++) counts[counts_for(votes[i])]++;
    counting = used - counts[0];
    if (round == 1) count_apart(counts[0]);
    for (uint32_t k = 1; k <= CANDIDATES; k++) {
        if (theirs[k - 1].left != 0) continue;
        theirs[k - 1].count = counts[k];
        if (2 * counts[k] > counting) plain_winner = k;
        if (last == 0 || counts[k] <= counts[last]) last = k;
    }
    if (counting == 0 || plain_winner != 0) return 0;
    theirs[last - 1].left = round;
    return 1;
}

static void run_plain(void) {
    memset(theirs, 0, sizeof theirs);
    plain_winner = 0;
    for (uint32_t round = 1; plain_round(round); round++) continue;
}

/* ---- times */

/* How many rounds there were: one more than the last in which somebody left. */
static uint32_t rounds(void) {
    uint32_t most = 0;
    for (int k = 0; k < CANDIDATES; k++)
        if (ours[k].left > most) most = ours[k].left;
    return most + 1;
}

static void demand_same(void) {
    demand(winner == plain_winner, "another winner");
    demand(blank == plain_blank && spoiled == plain_spoiled, "other counts apart");
    for (int k = 0; k < CANDIDATES; k++)
        demand(ours[k].count == theirs[k].count && ours[k].left == theirs[k].left, "another table");
}

/* Prints one row and answers our time. */
static double compare(size_t n, int one_round) {
    double a = INFINITY, b = INFINITY;
    make_votes(n, one_round);
    for (int i = 0; i < REPETITIONS; i++) {
        a = smaller(a, time_once(run_ours));
        b = smaller(b, time_once(run_plain));
    }
    demand_same();
    printf("Runoff of %5zu votes, rounds: %u   ours %9.3f ms   plain C %9.3f ms   ratio %.2f\n", n, rounds(), 1e3 * a, 1e3 * b, a / b);
    return a;
}

int main(void) {
    double few = compare(MOST_VOTES / 16, 0), many = compare(MOST_VOTES, 0), once = compare(MOST_VOTES, 1);
    printf("Runoff: 16 times the votes take %.1f times as long; all rounds take %.1f times as long as one\n", many / few, many / once);
    return 0;
}
