/* Two elections of one evening over the C faces, as the maker of a tablet and an election officer hold them, each with its number in its
 * record: the votes 5, 2, 5 in election 41 and 0, 5, 8 in election 42, modulo 9. The dice are thrown once for both. Its output is fixed; a
 * call that answers anything else than due ends it with 1. Numbers, keys and dice are fixed too, which those of a true election must never
 * be. */

#include "paddockyear.h"

#include <inttypes.h>
#include <stdio.h>
#include <stdlib.h>
#include <string.h>

enum { MODULUS = 9, BALLOTS = 3, COMPARED = 2 };
enum { NUMBERS = 5, KEYS = PADDOCKYEAR_BALLOT_KEYS_LENGTH, RECEIPT = PADDOCKYEAR_RECEIPT_LENGTH }; /* of one ballot */
enum { DICE = PADDOCKYEAR_DICE_LENGTH, MASK_PLACE = 31, FIRST_COMMAND = 12 };

/* An array as a lent slice. */
#define LENGTH(array) (sizeof(array) / sizeof((array)[0]))
#define LENT(array) (array), LENGTH(array)

/* What is told, what the tablets and servers bring, and what is written. */
struct election {
    uint32_t number, ids[BALLOTS], votes[BALLOTS], numbers[PADDOCKYEAR_NUMBERS_LENGTH(BALLOTS, COMPARED)];
    uint16_t permutations[PADDOCKYEAR_PERMUTATIONS_LENGTH(BALLOTS, COMPARED)];
    uint8_t keys[PADDOCKYEAR_KEYS_LENGTH(BALLOTS, COMPARED)];
    uint8_t commands[BALLOTS][PADDOCKYEAR_COMMAND_LENGTH], receipts[BALLOTS][RECEIPT];
    uint8_t one[PADDOCKYEAR_PART_ONE_LENGTH(1, BALLOTS, COMPARED)], two[PADDOCKYEAR_PART_TWO_LENGTH(BALLOTS, COMPARED)];
    uint8_t three[PADDOCKYEAR_PART_THREE_LENGTH(BALLOTS, COMPARED)], joined[PADDOCKYEAR_RECORD_LENGTH(1, BALLOTS, COMPARED)];
};

static struct election first = {.number = 41, .ids = {1001, 1002, 1005}, .votes = {5, 2, 5}};
static struct election second = {.number = 42, .ids = {1001, 1003, 1005}, .votes = {0, 5, 8}};

/* What comes from the dice table; mask and sides are drawn. */
static uint8_t first_dice[DICE], second_dice[DICE];
static const struct paddockyear_throws throws = {LENT(first_dice), LENT(second_dice), 0, 0, 0, NULL, 0};

/* Every call of an election is told its form, here 1 for a record with a number, and that number. */
static struct paddockyear_inputs inputs_of(const struct election *of) {
    struct paddockyear_inputs in = {
        1, of->number, MODULUS, BALLOTS, COMPARED, LENT(of->ids), LENT(of->votes), LENT(of->numbers), LENT(of->permutations),
        LENT(of->keys)};
    return in;
}

static struct paddockyear_parts parts_of(struct election *of) {
    struct paddockyear_parts parts = {LENT(of->one), LENT(of->two), LENT(of->three), LENT(of->joined)};
    return parts;
}

static void demand(int holds, const char *what) {
    if (!holds) {
        fprintf(stderr, "not so: %s\n", what);
        exit(1);
    }
}

static void expect(uint32_t due, uint32_t answer, const char *call) {
    if (answer != due) {
        fprintf(stderr, "%s answers %" PRIu32 ", not %" PRIu32 "\n", call, answer, due);
        exit(1);
    }
}

static uint32_t below(uint32_t bound) {
    static uint32_t state = 1;
    state = state * 1664525 + 1013904223;
    return (state >> 8) % bound;
}

static void shuffle(uint16_t permutation[BALLOTS]) {
    for (uint32_t i = 0; i < BALLOTS; i++) {
        uint32_t j = below(i + 1);
        permutation[i] = permutation[j];
        permutation[j] = (uint16_t)i;
    }
}

static void make_inputs(struct election *of) {
    for (size_t i = 0; i < LENGTH(of->numbers); i++) of->numbers[i] = below(MODULUS);
    for (size_t i = 0; i < LENGTH(of->permutations); i += BALLOTS) shuffle(of->permutations + i);
    for (size_t i = 0; i < LENGTH(of->keys); i++) of->keys[i] = (uint8_t)below(256);
}

static void throw_dice(void) {
    for (size_t i = 0; i < DICE; i++) first_dice[i] = (uint8_t)('1' + below(6));
    for (size_t i = 0; i < DICE; i++) second_dice[i] = (uint8_t)('1' + below(6));
}

static uint32_t number_at(const uint8_t *bytes) {
    return (uint32_t)bytes[0] << 24 | (uint32_t)bytes[1] << 16 | (uint32_t)bytes[2] << 8 | bytes[3];
}

static void cast_votes(struct election *of) {
    for (size_t j = 0; j < BALLOTS; j++) {
        const uint32_t *x = of->numbers + NUMBERS * j; /* then y, u1, u2, u3 */
        uint32_t answer = paddockyear_tablet(1, of->number, MODULUS, of->ids[j], of->votes[j], x[0], x[1], x[2], x[3], x[4],
                                             of->keys + KEYS * j, KEYS, LENT(of->commands[j]), LENT(of->receipts[j]));
        expect(0, answer, "tablet");
        printf("receipt of ballot %" PRIu32 "\n", number_at(of->receipts[j]));
    }
}

/* The first command: 0C, the election's number, M, n, m. */
static void print_first_command(const struct election *of) {
    printf("first command:");
    for (size_t i = 0; i < FIRST_COMMAND; i++) printf(" %02X", of->joined[i]);
    printf("\n");
    demand(of->joined[0] == 0x0C && number_at(of->joined + 1) == of->number, "the record has the election's number");
}

static void hold_election(struct election *of) {
    const struct paddockyear_inputs in = inputs_of(of);
    const struct paddockyear_parts parts = parts_of(of);
    uint32_t mask = 0;
    expect(0, paddockyear_hold(&in, &throws, &parts), "election");
    expect(0, paddockyear_drawn_mask(&in, &throws, &parts, &mask), "draw_mask");
    demand(number_at(of->two + MASK_PLACE) == mask, "part two has the drawn mask");
    print_first_command(of);
    printf("election held, mask drawn: %" PRIu32 "\n", mask);
    demand(memcmp(of->one + FIRST_COMMAND, of->commands, sizeof of->commands) == 0, "the ballots are as cast");
    printf("ballots posted: as cast\n");
}

static void judge(const struct election *of) {
    expect(0, paddockyear_judge_plainly(LENT(of->joined)), "judge_plainly");
    expect(0, paddockyear_judge_as_drawn(LENT(of->joined)), "judge_as_drawn");
    printf("judged plainly and as drawn: accepted\n");
}

/* What check and lookup say of a receipt, on the board of an election. */
static void look_for(const uint8_t *receipt, const char *which, const struct election *of, uint32_t due) {
    expect(due, paddockyear_check_receipt(LENT(of->joined), receipt, RECEIPT), "check_receipt");
    expect(due, paddockyear_look_up(LENT(of->joined), receipt, RECEIPT), "look_up");
    printf("receipt of ballot %" PRIu32 "%s, in election %" PRIu32 ": ", number_at(receipt), which, of->number);
    printf("%s\n", due == 0 ? "posted as printed" : due == 101 ? "posted otherwise" : "not posted");
}

static void check_receipts(const struct election *of) {
    uint8_t changed[RECEIPT];
    memcpy(changed, of->receipts[1], RECEIPT);
    changed[RECEIPT - 1] ^= 1;
    look_for(of->receipts[1], "", of, 0);
    look_for(changed, " with one bit changed", of, 101);
}

static void count_votes(const struct election *of) {
    uint32_t announced[BALLOTS] = {0}, values[BALLOTS] = {0};
    uint64_t counts[BALLOTS] = {0};
    uint64_t pairs = 0;
    expect(0, paddockyear_announced_votes(LENT(of->joined), LENT(announced)), "announced_votes");
    expect(0, paddockyear_tally(LENT(announced), LENT(values), LENT(counts), &pairs), "tally");
    demand(pairs <= BALLOTS, "there are no more pairs than votes");
    for (size_t i = 0; i < pairs; i++) printf("%" PRIu32 " %" PRIu64 "\n", values[i], counts[i]);
}

static void have_election(struct election *of) {
    printf("election %" PRIu32 "\n", of->number);
    cast_votes(of);
    hold_election(of);
    judge(of);
    check_receipts(of);
    count_votes(of);
}

/* The two boards beside each other: an id may be on both, a receipt is of one. */
static void compare_boards(void) {
    printf("both elections\n");
    demand(memcmp(first.joined, second.joined, FIRST_COMMAND) != 0, "the first commands differ");
    demand(number_at(first.two + MASK_PLACE) != number_at(second.two + MASK_PLACE), "the draws differ");
    printf("first commands and masks differ\n");
    look_for(first.receipts[0], " of election 41", &second, 101);
    look_for(first.receipts[1], " of election 41", &second, 102);
    look_for(second.receipts[0], " of election 42", &first, 101);
    look_for(second.receipts[1], " of election 42", &first, 102);
}

/* The number is drawn from, too: the first election's inputs and dice under the second one's number. */
static void draw_under_other_number(void) {
    static struct election renumbered;
    renumbered = first;
    renumbered.number = second.number;
    const struct paddockyear_inputs in = inputs_of(&renumbered);
    const struct paddockyear_parts parts = parts_of(&renumbered);
    uint32_t mask = 0;
    expect(0, paddockyear_write_one(&in, &parts), "part_one");
    expect(0, paddockyear_drawn_mask(&in, &throws, &parts, &mask), "draw_mask");
    printf("mask drawn for the ballots of election 41 under number 42: %" PRIu32 "\n", mask);
}

static void be_refused(struct election *of, uint32_t due, const char *what) {
    const struct paddockyear_inputs in = inputs_of(of);
    const struct paddockyear_parts parts = parts_of(of);
    memset(of->one, 0xA5, sizeof of->one);
    expect(due, paddockyear_write_one(&in, &parts), "part_one");
    for (size_t i = 0; i < sizeof of->one; i++) demand(of->one[i] == 0xA5, "the buffer is unchanged");
    printf("%s: refused with %" PRIu32 ", the buffer unchanged\n", what, due);
}

static void spoil_permutation(struct election *of) {
    of->permutations[0] = of->permutations[1];
    be_refused(of, 19, "a permutation that is none");
}

/* What a tablet sent of the first ballot, taken for the second one too: under the other id its commitments are others. Those of the first
 * ballot are of no use there. */
static void feed_ballot_twice(struct election *of) {
    const struct paddockyear_inputs in = inputs_of(of);
    const struct paddockyear_parts parts = parts_of(of);
    uint8_t *fed = of->joined + FIRST_COMMAND, *again = fed + PADDOCKYEAR_COMMAND_LENGTH;
    of->votes[1] = of->votes[0];
    memcpy(of->numbers + NUMBERS, of->numbers, NUMBERS * sizeof of->numbers[0]);
    memcpy(of->keys + KEYS, of->keys, KEYS);
    expect(0, paddockyear_hold(&in, &throws, &parts), "election");
    for (size_t at = 5; at < PADDOCKYEAR_COMMAND_LENGTH; at += 32) demand(memcmp(fed + at, again + at, 32) != 0, "no commitment is a copy");
    printf("a ballot fed twice: accepted, with commitments of its own\n");
    memcpy(again + 5, fed + 5, PADDOCKYEAR_COMMAND_LENGTH - 5);
    expect(21, paddockyear_judge_plainly(LENT(of->joined)), "judge_plainly");
    printf("its commitments posted twice: refused with 21\n");
}

/* A commitment is of one election: the first one's record with the second one's number. */
static void exchange_number(struct election *of) {
    uint8_t before = of->joined[4];
    demand(before == 41, "the number is as told");
    of->joined[4] = 42;
    expect(13, paddockyear_judge_plainly(LENT(of->joined)), "judge_plainly");
    of->joined[4] = before;
    expect(0, paddockyear_judge_plainly(LENT(of->joined)), "judge_plainly");
    printf("the record of election 41 with the number 42: refused with 13\n");
}

int main(void) {
    make_inputs(&first);
    make_inputs(&second);
    throw_dice();
    have_election(&first);
    have_election(&second);
    compare_boards();
    draw_under_other_number();
    exchange_number(&first);
    spoil_permutation(&first);
    feed_ballot_twice(&second);
    return fflush(stdout) == 0 && !ferror(stdout) ? 0 : 1;
}
