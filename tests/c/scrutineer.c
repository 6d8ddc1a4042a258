/* A scrutineer's first program: judges a board, says where a refused one is at fault, and of an accepted one prints the election's number,
 * where it has one, and counts the votes.
 *
 *     scrutineer BOARD */

#include <inttypes.h>
#include <paddockyear.h>
#include <stdio.h>

/* The longest record and one byte more: what is longer than a record may be is refused by then. */
static uint8_t record[PADDOCKYEAR_RECORD_LENGTH(1, PADDOCKYEAR_MOST_BALLOTS, PADDOCKYEAR_MOST_COMPARED) + 1];

static uint32_t votes[PADDOCKYEAR_MOST_BALLOTS], values[PADDOCKYEAR_MOST_BALLOTS];
static uint64_t counts[PADDOCKYEAR_MOST_BALLOTS];

/* How many ballots an accepted record has. Where its first command is 0C, the election's number stands before M, n and m. */
static size_t count_ballots(void) {
    const uint8_t *n = record + (record[0] == 0x0C ? 9 : 5);
    return (size_t)n[0] << 8 | n[1];
}

/* The number of the election, if the record names one: its bytes 1 to 4, most significant first. */
static void print_election(void) {
    if (record[0] != 0x0C) return;
    uint32_t election = (uint32_t)record[1] << 24 | (uint32_t)record[2] << 16 | (uint32_t)record[3] << 8 | record[4];
    printf("ELECTION %" PRIu32 "\n", election);
}

/* Prints the tally of an accepted record; answers 0, as it then must. */
static uint32_t print_tally(size_t length) {
    size_t ballots = count_ballots();
    uint64_t pairs = 0;
    uint32_t answer = paddockyear_announced_votes(record, length, votes, ballots);
    if (answer == PADDOCKYEAR_DONE) answer = paddockyear_tally(votes, ballots, values, ballots, counts, ballots, &pairs);
    for (uint64_t i = 0; i < pairs; i++) printf("vote %" PRIu32 ": %" PRIu64 "\n", values[i], counts[i]);
    return answer;
}

int main(int argc, char **argv) {
    FILE *board = argc == 2 ? fopen(argv[1], "rb") : NULL;
    if (board == NULL) {
        fputs("usage: scrutineer BOARD, a file that can be read\n", stderr);
        return 2;
    }
    size_t length = fread(record, 1, sizeof record, board);

    uint64_t place = 0;
    uint32_t number = paddockyear_first_fault(record, length, 1, &place); /* 1: mask and sides must be the drawn ones */
    if (number != PADDOCKYEAR_DONE) {
        printf("REFUSED %" PRIu32 " at byte %" PRIu64 ": %s\n", number, place, paddockyear_rule(number));
        return 1;
    }
    printf("ACCEPTED\n");
    print_election();
    return print_tally(length) == PADDOCKYEAR_DONE ? 0 : 2;
}
