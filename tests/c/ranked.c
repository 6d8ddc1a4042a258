/* A returning officer's first program: counts the ranked votes of a board by instant runoff.
 *
 *     ranked BOARD CANDIDATES
 *
 * CANDIDATES is how many there are, a digit. */

#include <inttypes.h>
#include <paddockyear.h>
#include <stdio.h>
#include <string.h>

/* The longest record and one byte more: what is longer than a record may be is refused by then. */
static uint8_t record[PADDOCKYEAR_RECORD_LENGTH(1, PADDOCKYEAR_MOST_BALLOTS, PADDOCKYEAR_MOST_COMPARED) + 1];

static uint32_t votes[PADDOCKYEAR_MOST_BALLOTS];

/* How many ballots an accepted record has. Where its first command is 0C, the election's number stands before M, n and m. */
static size_t count_ballots(void) {
    const uint8_t *n = record + (record[0] == 0x0C ? 9 : 5);
    return (size_t)n[0] << 8 | n[1];
}

/* Prints a candidate's last count, and the round in which it left, if it did. */
static void say(uint32_t number, const struct paddockyear_candidate *candidate) {
    printf("candidate %" PRIu32 ": %" PRIu64 ", ", number, candidate->count);
    if (candidate->left == 0)
        printf("still standing\n");
    else
        printf("left in round %" PRIu32 "\n", candidate->left);
}

/* Prints the runoff of an accepted record; answers 0, or the number of the rule that is broken. */
static uint32_t print_runoff(size_t length, uint32_t candidates) {
    struct paddockyear_candidate table[PADDOCKYEAR_MOST_CANDIDATES];
    size_t ballots = count_ballots();
    uint32_t winner = 0;
    uint64_t blank = 0, spoiled = 0;
    uint32_t answer = paddockyear_announced_votes(record, length, votes, ballots);
    if (answer == PADDOCKYEAR_DONE) answer = paddockyear_runoff(votes, ballots, candidates, table, candidates, &winner, &blank, &spoiled);
    if (answer != PADDOCKYEAR_DONE) return answer;
    for (uint32_t k = 1; k <= candidates; k++) say(k, &table[k - 1]);
    if (winner == 0)
        printf("nobody wins\n");
    else
        printf("candidate %" PRIu32 " wins\n", winner);
    printf("blank: %" PRIu64 ", spoiled: %" PRIu64 "\n", blank, spoiled);
    return answer;
}

int main(int argc, char **argv) {
    int one_digit = argc == 3 && strlen(argv[2]) == 1 && strspn(argv[2], "0123456789") == 1;
    FILE *board = one_digit ? fopen(argv[1], "rb") : NULL;
    if (board == NULL) {
        fputs("usage: ranked BOARD CANDIDATES, a file that can be read and a digit\n", stderr);
        return 2;
    }
    size_t length = fread(record, 1, sizeof record, board);

    uint32_t number = paddockyear_judge_as_drawn(record, length);
    if (number == PADDOCKYEAR_DONE) number = print_runoff(length, (uint32_t)(argv[2][0] - '0'));
    if (number == PADDOCKYEAR_DONE) return 0;
    printf("REFUSED %" PRIu32 ": %s\n", number, paddockyear_rule(number));
    return 1;
}
