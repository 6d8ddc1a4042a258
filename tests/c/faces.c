/* What include/paddockyear.h says beside the calls that officer.c makes: the words for each number, the lengths, empty slices with null
 * pointers, inputs that overlap, lane order, places of faults, what lies behind a tally's last pair or a runoff's table, calendars, the
 * functions over structs beside the long ones, copied ballots, and the two forms of a record, by themselves and beside each other. It is
 * compiled as C99 and as C++; a call that answers anything else than due ends it with 1. */

#include "paddockyear.h"

#include <stdio.h>
#include <stdlib.h>
#include <string.h>

enum { M = 9, N = 3, COMPARED = 2 };
enum { BALLOT = PADDOCKYEAR_COMMAND_LENGTH, KEYS = PADDOCKYEAR_BALLOT_KEYS_LENGTH, KEY = 32, LAST_RULE = 22 };

#define LENGTH(array) (sizeof(array) / sizeof((array)[0]))
#define LENT(array) (array), LENGTH(array)
#define NONE NULL, 0
#define EXPECT(due, call) expect(due, call, #call)

/* What all calls are told: first that the record has no election's number, then that it has this one. */
enum { NUMBER = 0x0C01FE07 };
static uint32_t numbered, election;

static uint32_t ids[N] = {1, 2, 5}, votes[N] = {5, 2, 5}, numbers[PADDOCKYEAR_NUMBERS_LENGTH(N, COMPARED)];
static uint16_t permutations[PADDOCKYEAR_PERMUTATIONS_LENGTH(N, COMPARED)];
static uint8_t keys[PADDOCKYEAR_KEYS_LENGTH(N, COMPARED)], sides[N] = {1, 0, 1};
static uint8_t dice[PADDOCKYEAR_DICE_LENGTH + 1] = "123456123456123456123456123456";

static uint8_t one[PADDOCKYEAR_PART_ONE_LENGTH(1, N, COMPARED)], two[PADDOCKYEAR_PART_TWO_LENGTH(N, COMPARED)];
static uint8_t three[PADDOCKYEAR_PART_THREE_LENGTH(N, COMPARED)], joined[PADDOCKYEAR_RECORD_LENGTH(1, N, COMPARED) + 1];

static unsigned calls;

static void expect(uint32_t due, uint32_t answer, const char *call) {
    calls++;
    if (answer == due) return;
    fprintf(stderr, "%s is %lu, not %lu\n", call, (unsigned long)answer, (unsigned long)due);
    exit(1);
}

static void report(const char *what) {
    printf("%s: as said, in %u answers\n", what, calls);
    calls = 0;
}

/* Of the form that is told. */
static size_t first_length(void) { return numbered == 0 ? 8 : 12; }
static size_t record_length(void) { return PADDOCKYEAR_RECORD_LENGTH(numbered, N, COMPARED); }

static struct paddockyear_inputs lent_inputs(void) {
    struct paddockyear_inputs in = {numbered,      election,           M,         N, COMPARED, LENT(ids), LENT(votes),
                                    LENT(numbers), LENT(permutations), LENT(keys)};
    return in;
}

static struct paddockyear_throws lent_throws(void) {
    struct paddockyear_throws throws = {dice, PADDOCKYEAR_DICE_LENGTH, dice, PADDOCKYEAR_DICE_LENGTH, 1, 5, 1, LENT(sides)};
    return throws;
}

static struct paddockyear_parts lent_parts(void) {
    struct paddockyear_parts parts = {
        one, PADDOCKYEAR_PART_ONE_LENGTH(numbered, N, COMPARED), LENT(two), LENT(three), joined, record_length()};
    return parts;
}

static void say_rules(void) {
    static const uint32_t others[] = {LAST_RULE + 1, 100, 101, 102, 103, UINT32_MAX};
    for (uint32_t number = 0; number <= LAST_RULE; number++) printf("%lu %s\n", (unsigned long)number, paddockyear_rule(number));
    for (size_t i = 0; i < LENGTH(others); i++) printf("%lu %s\n", (unsigned long)others[i], paddockyear_rule(others[i]));
}

static uint32_t same_words(uint32_t a, uint32_t b) { return strcmp(paddockyear_rule(a), paddockyear_rule(b)) == 0; }

/* Each number has words, and they are its own. */
static void compare_words(void) {
    EXPECT(LAST_RULE, PADDOCKYEAR_RULE_DAY);
    for (uint32_t number = 0; number <= LAST_RULE; number++) {
        EXPECT(0, same_words(number, UINT32_MAX));
        for (uint32_t other = 0; other < number; other++) EXPECT(0, same_words(number, other));
    }
    report("words for each number");
}

/* The lengths of the scope document's samples, and the widest; with an election's number, 4 bytes more. */
static void try_lengths(void) {
    EXPECT(0, (uint32_t)PADDOCKYEAR_ELECTION_LENGTH(0));
    EXPECT(4, (uint32_t)PADDOCKYEAR_ELECTION_LENGTH(1));
    EXPECT(4, (uint32_t)PADDOCKYEAR_ELECTION_LENGTH(UINT32_MAX));
    EXPECT(597, (uint32_t)PADDOCKYEAR_PART_ONE_LENGTH(0, 1, 1));
    EXPECT(601, (uint32_t)PADDOCKYEAR_PART_ONE_LENGTH(1, 1, 1));
    EXPECT(601, (uint32_t)PADDOCKYEAR_PART_ONE_LENGTH(UINT32_MAX, 1, 1));
    EXPECT(45, (uint32_t)PADDOCKYEAR_PART_TWO_LENGTH(1, 1));
    EXPECT(483, (uint32_t)PADDOCKYEAR_PART_THREE_LENGTH(1, 1));
    EXPECT(1125, (uint32_t)PADDOCKYEAR_RECORD_LENGTH(0, 1, 1));
    EXPECT(1129, (uint32_t)PADDOCKYEAR_RECORD_LENGTH(1, 1, 1));
    EXPECT(1129, (uint32_t)PADDOCKYEAR_RECORD_LENGTH(2, 1, 1));
    EXPECT(14347, (uint32_t)PADDOCKYEAR_RECORD_LENGTH(0, 8, 2));
    EXPECT(14351, (uint32_t)PADDOCKYEAR_RECORD_LENGTH(1, 8, 2));
    EXPECT(37371979, (uint32_t)PADDOCKYEAR_RECORD_LENGTH(0, PADDOCKYEAR_MOST_BALLOTS, PADDOCKYEAR_MOST_COMPARED));
    EXPECT(37371983, (uint32_t)PADDOCKYEAR_RECORD_LENGTH(1, PADDOCKYEAR_MOST_BALLOTS, PADDOCKYEAR_MOST_COMPARED));
    EXPECT((uint32_t)PADDOCKYEAR_RECORD_LENGTH(1, N, COMPARED), (uint32_t)(sizeof one + sizeof two + sizeof three));
    report("lengths");
}

/* The ballots have the same numbers, and keys of their own. */
static void fill_inputs(void) {
    uint32_t state = 1;
    for (size_t i = 0; i < LENGTH(numbers); i++) numbers[i] = (uint32_t)(7 * i + i / 5) % M;
    for (size_t i = 0; i < LENGTH(permutations); i++) permutations[i] = (uint16_t)((i + i / N) % N);
    for (size_t i = 0; i < LENGTH(keys); i++) {
        state = state * 1664525 + 1013904223;
        keys[i] = (uint8_t)(state >> 24);
    }
}

/* The first and the last byte of a digest. */
static uint32_t ends(const uint8_t *digest, size_t length) { return (uint32_t)digest[0] << 8 | digest[length - 1]; }

/* Of the empty message, from FIPS 202's examples. */
static void hash_nothing(void) {
    uint8_t digest[32];
    paddockyear_sha3_224(NONE, digest);
    EXPECT(0x6BC7, ends(digest, 28));
    paddockyear_sha3_224_parts(NONE, NONE, NONE, digest);
    EXPECT(0x6BC7, ends(digest, 28));
    paddockyear_sha3_256(NONE, digest);
    EXPECT(0xA74A, ends(digest, 32));
    paddockyear_sha3_256_parts(NONE, NONE, NONE, digest);
    EXPECT(0xA74A, ends(digest, 32));
    report("hashes of null pointers with length 0");
}

/* The permutation of zeros, from the Keccak team's vectors: lane (0, 0), lane (1, 0), lane (0, 1). */
static void permute_zeros(void) {
    uint64_t lanes[25] = {0};
    paddockyear_keccak_f(lanes);
    EXPECT(1, lanes[0] == UINT64_C(0xF1258F7940E1DDE7));
    EXPECT(1, lanes[1] == UINT64_C(0x84D5CCF933C0478A));
    EXPECT(1, lanes[5] == UINT64_C(0xFF97A42D7F8E6FD4));
    report("order of lanes");
}

static void lend_nothing_to_tablet_and_mix(void) {
    uint8_t command[PADDOCKYEAR_COMMAND_LENGTH], receipt[PADDOCKYEAR_RECEIPT_LENGTH];
    uint32_t row[N] = {5, 6, 7}, out[N];
    EXPECT(18, paddockyear_tablet(numbered, election, M, 1, 1, 1, 1, 1, 1, 1, NONE, LENT(command), LENT(receipt)));
    EXPECT(18, paddockyear_tablet(numbered, election, M, 1, 1, 1, 1, 1, 1, 1, keys, PADDOCKYEAR_BALLOT_KEYS_LENGTH, NONE, LENT(receipt)));
    EXPECT(18, paddockyear_tablet(numbered, election, M, 1, 1, 1, 1, 1, 1, 1, keys, PADDOCKYEAR_BALLOT_KEYS_LENGTH, LENT(command), NONE));
    EXPECT(18, paddockyear_tablet(numbered, election, M, 1, 1, 1, 1, 1, 1, 1, NONE, NONE, NONE));
    EXPECT(3, paddockyear_tablet(numbered, election, 1, 1, 1, 1, 1, 1, 1, 1, NONE, NONE, NONE));
    EXPECT(18, paddockyear_row_server(M, N, NONE, LENT(row), permutations, N, LENT(out)));
    EXPECT(18, paddockyear_row_server(M, N, LENT(row), NONE, permutations, N, LENT(out)));
    EXPECT(18, paddockyear_row_server(M, N, LENT(row), LENT(row), NONE, LENT(out)));
    EXPECT(18, paddockyear_row_server(M, N, LENT(row), LENT(row), permutations, N, NONE));
    EXPECT(3, paddockyear_row_server(M, 0, NONE, NONE, NONE, NONE));
    EXPECT(18, paddockyear_third_row_offsets(M, N, NONE, LENT(row), LENT(out)));
    EXPECT(18, paddockyear_third_row_offsets(M, N, LENT(row), NONE, LENT(out)));
    EXPECT(18, paddockyear_third_row_offsets(M, N, LENT(row), LENT(row), NONE));
    EXPECT(3, paddockyear_third_row_offsets(M, 0, NONE, NONE, NONE));
    EXPECT(18, paddockyear_split(M, N, NONE, LENT(row), LENT(out)));
    EXPECT(18, paddockyear_split(M, N, LENT(row), NONE, LENT(out)));
    EXPECT(18, paddockyear_split(M, N, LENT(row), LENT(row), NONE));
    EXPECT(3, paddockyear_split(M, 0, NONE, NONE, NONE));
    report("null pointers to tablet and mix servers");
}

/* The answer of every call of the record writer, each due. */
static void write_by_all(uint32_t due, const struct paddockyear_inputs *in, const struct paddockyear_throws *throws,
                         const struct paddockyear_parts *parts) {
    EXPECT(due, paddockyear_write_one(in, parts));
    EXPECT(due, paddockyear_write_two(in, throws, parts));
    EXPECT(due, paddockyear_write_two_drawn(in, throws, parts));
    EXPECT(due, paddockyear_write_three(in, throws, parts));
    EXPECT(due, paddockyear_write_three_drawn(in, throws, parts));
    EXPECT(due, paddockyear_hold(in, throws, parts));
}

/* One slice of the inputs at a time, then all slices. */
static void lend_no_inputs(void) {
    struct paddockyear_throws throws = lent_throws(), no_throws = {NONE, NONE, 1, 5, 1, NONE};
    struct paddockyear_parts parts = lent_parts(), no_parts = {NONE, NONE, NONE, NONE};
    struct paddockyear_inputs without_ids = lent_inputs(), without_votes = lent_inputs(), without_numbers = lent_inputs();
    struct paddockyear_inputs without_permutations = lent_inputs(), without_keys = lent_inputs();
    struct paddockyear_inputs nothing = {numbered, election, M, N, COMPARED, NONE, NONE, NONE, NONE, NONE}, no_limits = nothing;
    without_ids.ids = NULL, without_ids.ids_length = 0;
    without_votes.votes = NULL, without_votes.votes_length = 0;
    without_numbers.numbers = NULL, without_numbers.numbers_length = 0;
    without_permutations.permutations = NULL, without_permutations.permutations_length = 0;
    without_keys.keys = NULL, without_keys.keys_length = 0;
    no_limits.ballots = 0;
    write_by_all(18, &without_ids, &throws, &parts);
    write_by_all(18, &without_votes, &throws, &parts);
    write_by_all(18, &without_numbers, &throws, &parts);
    write_by_all(18, &without_permutations, &throws, &parts);
    write_by_all(18, &without_keys, &throws, &parts);
    write_by_all(18, &nothing, &no_throws, &no_parts);
    write_by_all(3, &no_limits, &no_throws, &no_parts);
    report("null pointers for the servers' inputs");
}

/* Dice, sides and buffers, one at a time. Sides that are drawn are not looked at. */
static void lend_no_throws_or_parts(void) {
    struct paddockyear_inputs in = lent_inputs();
    struct paddockyear_throws throws = lent_throws(), first = throws, second = throws, no_sides = throws;
    struct paddockyear_parts parts = lent_parts(), no_one = parts, no_two = parts, no_three = parts, no_join = parts;
    uint32_t mask = 0;
    first.first_dice = NULL, first.first_dice_length = 0;
    second.second_dice = NULL, second.second_dice_length = 0;
    no_sides.sides = NULL, no_sides.sides_length = 0;
    no_one.one = NULL, no_one.one_length = 0;
    no_two.two = NULL, no_two.two_length = 0;
    no_three.three = NULL, no_three.three_length = 0;
    no_join.joined = NULL, no_join.joined_length = 0;
    EXPECT(18, paddockyear_write_one(&in, &no_one));
    EXPECT(18, paddockyear_write_two(&in, &first, &parts));
    EXPECT(18, paddockyear_write_two(&in, &throws, &no_two));
    EXPECT(18, paddockyear_write_two_drawn(&in, &first, &parts));
    EXPECT(18, paddockyear_write_two_drawn(&in, &throws, &no_one));
    EXPECT(18, paddockyear_write_two_drawn(&in, &throws, &no_two));
    EXPECT(18, paddockyear_drawn_mask(&in, &first, &parts, &mask));
    EXPECT(18, paddockyear_drawn_mask(&in, &throws, &no_one, &mask));
    EXPECT(0, mask);
    EXPECT(18, paddockyear_write_three(&in, &second, &parts));
    EXPECT(18, paddockyear_write_three(&in, &no_sides, &parts));
    EXPECT(18, paddockyear_write_three(&in, &throws, &no_three));
    EXPECT(18, paddockyear_write_three_drawn(&in, &second, &parts));
    EXPECT(18, paddockyear_write_three_drawn(&in, &throws, &no_one));
    EXPECT(18, paddockyear_write_three_drawn(&in, &throws, &no_two));
    EXPECT(18, paddockyear_write_three_drawn(&in, &throws, &no_three));
    EXPECT(18, paddockyear_hold(&in, &first, &parts));
    EXPECT(18, paddockyear_hold(&in, &second, &parts));
    EXPECT(18, paddockyear_hold(&in, &no_sides, &parts));
    EXPECT(18, paddockyear_hold(&in, &throws, &no_one));
    EXPECT(18, paddockyear_hold(&in, &throws, &no_two));
    EXPECT(18, paddockyear_hold(&in, &throws, &no_three));
    EXPECT(18, paddockyear_hold(&in, &throws, &no_join));
    no_sides.sides_given = 0;
    EXPECT(0, paddockyear_hold(&in, &no_sides, &parts));
    report("null pointers for dice, sides and buffers");
}

/* The parts of single calls, joined, are the record of one call: mask and sides given, then drawn. */
static void write_parts(void) {
    static uint8_t again[PADDOCKYEAR_RECORD_LENGTH(1, N, COMPARED)];
    struct paddockyear_inputs in = lent_inputs();
    struct paddockyear_throws throws = lent_throws();
    struct paddockyear_parts parts = lent_parts(), pieces = parts;
    pieces.one = again, pieces.two = pieces.one + pieces.one_length, pieces.three = pieces.two + sizeof two;
    EXPECT(0, paddockyear_hold(&in, &throws, &parts));
    EXPECT(0, paddockyear_write_one(&in, &pieces));
    EXPECT(0, paddockyear_write_two(&in, &throws, &pieces));
    EXPECT(0, paddockyear_write_three(&in, &throws, &pieces));
    EXPECT(0, (uint32_t)memcmp(again, joined, record_length()));
    throws.mask_given = throws.sides_given = 0;
    EXPECT(0, paddockyear_hold(&in, &throws, &parts));
    EXPECT(0, paddockyear_write_two_drawn(&in, &throws, &pieces));
    EXPECT(0, paddockyear_drawn_mask(&in, &throws, &pieces, &throws.mask));
    EXPECT(0, paddockyear_write_three_drawn(&in, &throws, &pieces));
    EXPECT(0, (uint32_t)memcmp(again, joined, record_length()));
    EXPECT(0, paddockyear_judge_as_drawn(again, record_length()));
    report("functions over structs");
}

/* One slice as two inputs, and one throw of the dice for both. */
static void lend_one_slice_twice(void) {
    struct paddockyear_inputs in = lent_inputs();
    struct paddockyear_throws throws = lent_throws();
    struct paddockyear_parts parts = lent_parts();
    uint32_t row[N] = {5, 6, 7}, out[N];
    in.votes = in.ids;
    write_by_all(0, &in, &throws, &parts);
    EXPECT(0, paddockyear_row_server(M, N, LENT(row), LENT(row), permutations, N, LENT(out)));
    EXPECT(0, paddockyear_split(M, N, LENT(row), LENT(row), LENT(out)));
    EXPECT(0, out[0] + out[1] + out[2]);
    report("inputs that overlap");
}

/* joined holds an accepted record of one slice as ids and votes, with room for one byte behind it. */
static void find_faults(void) {
    size_t length = record_length();
    uint64_t place = 77;
    EXPECT(0, paddockyear_first_fault(joined, length, 0, &place));
    EXPECT(77, (uint32_t)place);
    EXPECT(17, paddockyear_first_fault(joined, length + 1, 0, &place));
    EXPECT((uint32_t)length, (uint32_t)place);
    EXPECT(1, paddockyear_first_fault(joined, length - 1, 0, &place)); /* no byte left for 0B */
    EXPECT((uint32_t)length - 1, (uint32_t)place);
    EXPECT(1, paddockyear_first_fault(joined, first_length() + 1, 0, &place)); /* inside the first ballot */
    EXPECT((uint32_t)first_length(), (uint32_t)place);
    EXPECT(1, paddockyear_first_fault(joined, first_length() - 1, 0, &place)); /* inside the first command */
    EXPECT(0, (uint32_t)place);
    EXPECT(1, paddockyear_first_fault(NONE, 0, &place));
    EXPECT(0, (uint32_t)place);
    EXPECT(1, paddockyear_first_fault(NONE, 1, &place));
    EXPECT(1, paddockyear_judge_plainly(NONE));
    EXPECT(1, paddockyear_judge_as_drawn(NONE));
    report("places of faults, and records of length 0");
}

/* The check reads all ballots, the lookup of id 1 the first alone. */
static void ask_for_receipts(void) {
    uint8_t receipt[PADDOCKYEAR_RECEIPT_LENGTH] = {0};
    size_t length = record_length(), behind_first = first_length() + PADDOCKYEAR_COMMAND_LENGTH;
    EXPECT(18, paddockyear_check_receipt(NONE, NONE));
    EXPECT(18, paddockyear_check_receipt(joined, length, NONE));
    EXPECT(1, paddockyear_check_receipt(NONE, LENT(receipt)));
    EXPECT(PADDOCKYEAR_NOT_POSTED, paddockyear_check_receipt(joined, length, LENT(receipt)));
    EXPECT(18, paddockyear_look_up(NONE, NONE));
    EXPECT(18, paddockyear_look_up(joined, length, NONE));
    EXPECT(1, paddockyear_look_up(NONE, LENT(receipt)));
    EXPECT(PADDOCKYEAR_NOT_POSTED, paddockyear_look_up(joined, length, LENT(receipt)));
    receipt[3] = 1;
    paddockyear_sha3_224(joined + first_length(), PADDOCKYEAR_COMMAND_LENGTH, receipt + 4);
    EXPECT(0, paddockyear_check_receipt(joined, length, LENT(receipt)));
    EXPECT(0, paddockyear_look_up(joined, length, LENT(receipt)));
    receipt[4] ^= 1;
    EXPECT(PADDOCKYEAR_POSTED_OTHERWISE, paddockyear_check_receipt(joined, length, LENT(receipt)));
    EXPECT(PADDOCKYEAR_POSTED_OTHERWISE, paddockyear_look_up(joined, length, LENT(receipt)));
    EXPECT(1, paddockyear_check_receipt(joined, behind_first, LENT(receipt)));
    EXPECT(PADDOCKYEAR_POSTED_OTHERWISE, paddockyear_look_up(joined, behind_first, LENT(receipt)));
    EXPECT(1, paddockyear_look_up(joined, behind_first - 1, LENT(receipt)));
    report("receipt check and receipt lookup");
}

static void take_results(void) {
    size_t length = record_length();
    uint32_t out[N], values[N] = {90, 91, 92};
    uint64_t counts[N] = {80, 81, 82};
    uint64_t pairs = 77;
    EXPECT(1, paddockyear_announced_votes(NONE, NONE));
    EXPECT(18, paddockyear_announced_votes(joined, length, NONE));
    EXPECT(0, paddockyear_announced_votes(joined, length, LENT(out)));
    EXPECT(0, (uint32_t)memcmp(out, ids, sizeof out)); /* which are the votes of this record */
    EXPECT(18, paddockyear_tally(LENT(out), NONE, LENT(counts), &pairs));
    EXPECT(18, paddockyear_tally(LENT(out), LENT(values), NONE, &pairs));
    EXPECT(77, (uint32_t)pairs);
    EXPECT(0, paddockyear_tally(NONE, NONE, NONE, &pairs));
    EXPECT(0, (uint32_t)pairs);
    out[0] = 2, out[1] = 5, out[2] = 5;
    EXPECT(0, paddockyear_tally(LENT(out), LENT(values), LENT(counts), &pairs));
    EXPECT(2, (uint32_t)pairs);
    EXPECT(2, values[0]);
    EXPECT(1, (uint32_t)counts[0]);
    EXPECT(5, values[1]);
    EXPECT(2, (uint32_t)counts[1]);
    EXPECT(92, values[2]);
    EXPECT(82, (uint32_t)counts[2]);
    report("announced votes and tally");
}

/* A table of as many candidates as there may be, and one entry behind it, none of them as a runoff leaves it. */
static void fill_table(struct paddockyear_candidate *table) {
    for (uint32_t i = 0; i <= PADDOCKYEAR_MOST_CANDIDATES; i++) table[i].count = 90 + i, table[i].left = 80 + i;
}

/* 1 where the entries from a place on are still as they were filled, else 0. */
static uint32_t filled_from(const struct paddockyear_candidate *table, uint32_t from) {
    uint32_t same = 1;
    for (uint32_t i = from; i <= PADDOCKYEAR_MOST_CANDIDATES; i++) same &= table[i].count == 90 + i && table[i].left == 80 + i;
    return same;
}

/* A refused runoff changes neither the table nor the three numbers beside it. */
static void refuse_runoffs(void) {
    static const uint32_t ranked[] = {12, 21, 0, 2, 33};
    struct paddockyear_candidate table[PADDOCKYEAR_MOST_CANDIDATES + 1];
    uint32_t winner = 77;
    uint64_t blank = 78, spoiled = 79;
    fill_table(table);
    EXPECT(20, paddockyear_runoff(LENT(ranked), 0, NONE, &winner, &blank, &spoiled));
    EXPECT(20, paddockyear_runoff(LENT(ranked), 0, table, 1, &winner, &blank, &spoiled));
    EXPECT(20, paddockyear_runoff(LENT(ranked), PADDOCKYEAR_MOST_CANDIDATES + 1, LENT(table), &winner, &blank, &spoiled));
    EXPECT(20, paddockyear_runoff(LENT(ranked), UINT32_MAX, LENT(table), &winner, &blank, &spoiled));
    EXPECT(20, paddockyear_runoff(NONE, UINT32_MAX, NONE, &winner, &blank, &spoiled));
    EXPECT(18, paddockyear_runoff(LENT(ranked), 2, NONE, &winner, &blank, &spoiled));
    EXPECT(18, paddockyear_runoff(LENT(ranked), 2, table, 1, &winner, &blank, &spoiled));
    EXPECT(18, paddockyear_runoff(LENT(ranked), 2, table, 3, &winner, &blank, &spoiled));
    EXPECT(18, paddockyear_runoff(LENT(ranked), PADDOCKYEAR_MOST_CANDIDATES, LENT(table), &winner, &blank, &spoiled));
    EXPECT(18, paddockyear_runoff(NONE, 1, NONE, &winner, &blank, &spoiled));
    EXPECT(1, filled_from(table, 0));
    EXPECT(77, winner);
    EXPECT(78, (uint32_t)blank);
    EXPECT(79, (uint32_t)spoiled);
    report("refused runoffs");
}

/* Whatever a runoff says of one candidate. */
static void expect_entry(const struct paddockyear_candidate *entry, uint32_t count, uint32_t left) {
    EXPECT(1, entry->count == count);
    EXPECT(left, entry->left);
}

static void run_off(void) {
    static const uint32_t ranked[] = {12, 21, 0, 2, 33};
    struct paddockyear_candidate table[PADDOCKYEAR_MOST_CANDIDATES + 1];
    uint32_t winner = 77;
    uint64_t blank = 78, spoiled = 79;
    fill_table(table);
    EXPECT(0, paddockyear_runoff(NONE, 2, table, 2, &winner, &blank, &spoiled));
    EXPECT(1, winner == 0 && blank == 0 && spoiled == 0);
    expect_entry(&table[0], 0, 0);
    expect_entry(&table[1], 0, 0);
    EXPECT(0, paddockyear_runoff(LENT(ranked), 2, table, 2, &winner, &blank, &spoiled)); /* two of three votes */
    EXPECT(1, winner == 2 && blank == 1 && spoiled == 1);
    expect_entry(&table[0], 1, 0);
    expect_entry(&table[1], 2, 0);
    EXPECT(0, paddockyear_runoff(ranked, 2, 2, table, 2, &winner, &blank, &spoiled)); /* one of two, so that 2 leaves */
    EXPECT(1, winner == 1 && blank == 0 && spoiled == 0);
    expect_entry(&table[0], 2, 0);
    expect_entry(&table[1], 1, 1);
    EXPECT(1, filled_from(table, 2));
    EXPECT(0, paddockyear_runoff(LENT(ranked), PADDOCKYEAR_MOST_CANDIDATES, table, PADDOCKYEAR_MOST_CANDIDATES, &winner, &blank, &spoiled));
    EXPECT(1, filled_from(table, PADDOCKYEAR_MOST_CANDIDATES));
    EXPECT(0, filled_from(table, PADDOCKYEAR_MOST_CANDIDATES - 1));
    report("runoffs");
}

/* Windows that no calendar has. */
static const struct paddockyear_windows unset = {{90, 91}, {92, 93}, {94, 95}, {96, 97}};

/* A refused calendar changes neither the windows nor the number of one. */
static void refuse_calendar(uint32_t year, uint32_t month, uint32_t day, const uint32_t *holidays, size_t length) {
    struct paddockyear_windows windows = unset;
    uint32_t window = 77;
    EXPECT(22, paddockyear_calendar(year, month, day, holidays, length, &windows));
    EXPECT(0, (uint32_t)memcmp(&windows, &unset, sizeof unset));
    EXPECT(22, paddockyear_window_at(year, month, day, holidays, length, 0, &window));
    EXPECT(77, window);
}

/* Days that do not exist, as election days and, where they have such a number, behind a holiday that does. */
static void refuse_days(void) {
    static const uint32_t days[][3] = {{1999, 12, 31}, {2200, 1, 1},  {2026, 0, 1},  {2026, 13, 1}, {2026, 1, 0},  {2026, 1, 32},
                                       {2026, 2, 29},  {2100, 2, 29}, {2096, 2, 30}, {2026, 4, 31}, {2026, 12, 32}};
    for (size_t i = 0; i < LENGTH(days); i++) {
        const uint32_t holidays[] = {20000101, days[i][0] * 10000 + days[i][1] * 100 + days[i][2]};
        refuse_calendar(days[i][0], days[i][1], days[i][2], NONE);
        refuse_calendar(2026, 3, 31, LENT(holidays));
        refuse_calendar(2026, 3, 31, holidays + 1, 1);
    }
    refuse_calendar(0, 0, 0, NONE);
    refuse_calendar(UINT32_MAX, 3, 31, NONE);
    refuse_calendar(2026, UINT32_MAX, 31, NONE);
    refuse_calendar(2026, 3, UINT32_MAX, NONE);
    report("days that do not exist");
}

static void refuse_holidays(void) {
    static const uint32_t twice[] = {20260403, 20260403}, falling[] = {20260403, 20260406, 20260404}, none[] = {0}, last[] = {UINT32_MAX};
    refuse_calendar(2026, 3, 31, LENT(twice));
    refuse_calendar(2026, 3, 31, LENT(falling));
    refuse_calendar(2026, 3, 31, LENT(none));
    refuse_calendar(2026, 3, 31, LENT(last));
    report("holidays that do not rise");
}

/* By the days of election, dice and objections' end, that of 2000-01-01 being 0: the windows as C's structs have them, and each by its
 * first minute and its last, with no window before the first one and behind the last. */
static void expect_windows(const uint32_t *date, const uint32_t *holidays, size_t length, const uint64_t *days) {
    const uint64_t due[] = {days[0] * 1440 + 480, days[0] * 1440 + 1200, days[1] * 1440 + 600, days[1] * 1440 + 720,
                            days[2] * 1440 + 600, days[2] * 1440 + 720,  days[2] * 1440 + 720, days[3] * 1440 + 1440};
    struct paddockyear_windows windows = unset;
    uint32_t window = 77;
    EXPECT((uint32_t)sizeof due, (uint32_t)sizeof windows);
    EXPECT(0, paddockyear_calendar(date[0], date[1], date[2], holidays, length, &windows));
    EXPECT(1, windows.polling.start == due[0] && windows.polling.end == due[1]);
    EXPECT(1, windows.first_dice.start == due[2] && windows.first_dice.end == due[3]);
    EXPECT(1, windows.second_dice.start == due[4] && windows.second_dice.end == due[5]);
    EXPECT(1, windows.objections.start == due[6] && windows.objections.end == due[7]);
    for (uint32_t number = PADDOCKYEAR_POLLING; number <= PADDOCKYEAR_OBJECTIONS; number++) {
        uint64_t start = due[2 * number - 2], end = due[2 * number - 1];
        EXPECT(0, paddockyear_window_at(date[0], date[1], date[2], holidays, length, start - 1, &window));
        EXPECT(number == PADDOCKYEAR_OBJECTIONS ? PADDOCKYEAR_SECOND_DICE : PADDOCKYEAR_NO_WINDOW, window);
        EXPECT(0, paddockyear_window_at(date[0], date[1], date[2], holidays, length, start, &window));
        EXPECT(number, window);
        EXPECT(0, paddockyear_window_at(date[0], date[1], date[2], holidays, length, end - 1, &window));
        EXPECT(number, window);
        EXPECT(0, paddockyear_window_at(date[0], date[1], date[2], holidays, length, end, &window));
        EXPECT(number == PADDOCKYEAR_SECOND_DICE ? PADDOCKYEAR_OBJECTIONS : PADDOCKYEAR_NO_WINDOW, window);
    }
    EXPECT(0, paddockyear_window_at(date[0], date[1], date[2], holidays, length, UINT64_MAX, &window));
    EXPECT(PADDOCKYEAR_NO_WINDOW, window);
}

/* The first day, a Saturday; a leap day; the last day, whose windows run on into 2200; and 2026-03-31, where holidays move the objections'
 * end, or the second dice, or nothing. */
static void set_calendars(void) {
    static const uint32_t first[] = {2000, 1, 1}, leap[] = {2000, 2, 29}, last[] = {2199, 12, 31}, date[] = {2026, 3, 31};
    static const uint32_t at_end[] = {20260417, 20260420}, at_dice[] = {20260403, 20260406};
    static const uint32_t aside[] = {20000101, 20260330, 20260331, 20260404, 20260422, 21991231};
    static const uint64_t of_first[] = {0, 3, 4, 18}, of_leap[] = {59, 61, 62, 76}, of_last[] = {73048, 73050, 73051, 73065};
    static const uint64_t plain[] = {9586, 9588, 9589, 9603};
    static const uint64_t later_end[] = {9586, 9588, 9589, 9607}, later_dice[] = {9586, 9588, 9593, 9607};
    expect_windows(first, NONE, of_first);
    expect_windows(leap, NONE, of_leap);
    expect_windows(last, NONE, of_last);
    expect_windows(last, LENT(aside), of_last);
    expect_windows(date, NONE, plain);
    expect_windows(date, LENT(aside), plain);
    expect_windows(date, LENT(at_end), later_end);
    expect_windows(date, LENT(at_dice), later_dice);
    report("windows and minutes");
}

/* Fills or looks for what a refused call must leave. */
static void fill_buffers(void) {
    memset(one, 0xA5, sizeof one), memset(two, 0xA5, sizeof two), memset(three, 0xA5, sizeof three), memset(joined, 0xA5, sizeof joined);
}

static uint32_t filled(const uint8_t *bytes, size_t length) {
    uint32_t same = 1;
    for (size_t i = 0; i < length; i++) same &= bytes[i] == 0xA5;
    return same;
}

static uint32_t differ(const uint8_t *a, const uint8_t *b, size_t length) { return memcmp(a, b, length) != 0; }

/* ---- Copied ballots */

/* What the ballots of the inputs are made of, to be changed. */
static struct ballots {
    uint32_t votes[N], numbers[PADDOCKYEAR_NUMBERS_LENGTH(N, COMPARED)];
    uint8_t keys[PADDOCKYEAR_KEYS_LENGTH(N, COMPARED)];
} changed, kept;

/* As they are. */
static struct paddockyear_inputs unchanged_inputs(void) {
    struct paddockyear_inputs in = lent_inputs();
    memcpy(changed.votes, votes, sizeof votes), memcpy(changed.numbers, numbers, sizeof numbers), memcpy(changed.keys, keys, sizeof keys);
    in.votes = changed.votes, in.numbers = changed.numbers, in.keys = changed.keys;
    return in;
}

/* With 01 every writing call is refused by 21, and leaves all lent bytes. With 0C their places tell equal openings apart, so that all is
 * written, and accepted. */
static void lend_copies_to_all(const struct paddockyear_inputs *in) {
    struct paddockyear_throws throws = lent_throws();
    struct paddockyear_parts parts = lent_parts();
    uint32_t due = numbered == 0 ? 21 : 0;
    kept = changed;
    fill_buffers();
    write_by_all(due, in, &throws, &parts);
    throws.mask_given = throws.sides_given = 0;
    EXPECT(due, paddockyear_hold(in, &throws, &parts));
    if (numbered == 0) {
        EXPECT(1, filled(LENT(one)) && filled(LENT(two)) && filled(LENT(three)) && filled(LENT(joined)));
    } else {
        EXPECT(0, paddockyear_judge_as_drawn(joined, record_length()));
    }
    EXPECT(0, (uint32_t)memcmp(&changed, &kept, sizeof kept));
}

/* The first ballot as the second one too, its vote, numbers and keys; and the first one's u1 with its key as v3 of the third. */
static void copy_inputs(void) {
    struct paddockyear_inputs in = unchanged_inputs();
    struct paddockyear_throws throws = lent_throws();
    struct paddockyear_parts parts = lent_parts();
    uint16_t none[LENGTH(permutations)] = {0};
    uint32_t *third = changed.numbers + 2 * 5; /* x, y, u1, u2, u3; v3 = vote - x - y - u3 */
    changed.votes[1] = changed.votes[0];
    memcpy(changed.numbers + 5, changed.numbers, 5 * sizeof changed.numbers[0]);
    memcpy(changed.keys + KEYS, changed.keys, KEYS);
    lend_copies_to_all(&in);
    in.permutations = none; /* 19 goes before 21 */
    write_by_all(19, &in, &throws, &parts);
    in = unchanged_inputs();
    third[4] = (changed.votes[2] + 3 * M - third[0] - third[1] - changed.numbers[2]) % M;
    memcpy(changed.keys + 2 * KEYS + 5 * KEY, changed.keys, KEY);
    lend_copies_to_all(&in);
    third[4] = (third[4] + 1) % M; /* the key alone makes no copy */
    write_by_all(0, &in, &throws, &parts);
    report("copied ballots in the servers' inputs");
}

/* Equal openings in all six places of the first ballot stand: six numbers 0, six equal keys. With 01 so do six equal commitments. */
static void commit_alike_inside(void) {
    struct paddockyear_inputs in = unchanged_inputs();
    struct paddockyear_throws throws = lent_throws();
    struct paddockyear_parts parts = lent_parts();
    const uint8_t *commitments = joined + first_length() + 5;
    changed.votes[0] = 0;
    memset(changed.numbers, 0, 5 * sizeof changed.numbers[0]);
    for (int key = 1; key < 6; key++) memcpy(changed.keys + key * KEY, changed.keys, KEY);
    write_by_all(0, &in, &throws, &parts);
    for (int place = 1; place < 6; place++) EXPECT(numbered != 0, differ(commitments + place * 32, commitments, 32));
    EXPECT(0, paddockyear_judge_plainly(joined, record_length()));
    report("equal openings inside a ballot");
}

/* Both judgings of joined, or of its first bytes, stop at this ballot by this number. */
static void stop_at(uint32_t due, size_t ballot, size_t length) {
    uint64_t place = 77;
    for (uint32_t drawn = 0; drawn < 2; drawn++) {
        EXPECT(due, paddockyear_first_fault(joined, length, drawn, &place));
        EXPECT((uint32_t)(first_length() + BALLOT * ballot), (uint32_t)place);
    }
    EXPECT(due, paddockyear_judge_plainly(joined, length));
    EXPECT(due, paddockyear_judge_as_drawn(joined, length));
}

/* A copied ballot is posted, and so its receipt is answered. */
static void ask_for_copy(const uint8_t *command) {
    uint8_t receipt[PADDOCKYEAR_RECEIPT_LENGTH];
    memcpy(receipt, command + 1, 4);
    paddockyear_sha3_224(command, BALLOT, receipt + 4);
    EXPECT(0, paddockyear_check_receipt(joined, record_length(), LENT(receipt)));
    EXPECT(0, paddockyear_look_up(joined, record_length(), LENT(receipt)));
}

/* joined is an accepted record, into which commitments are copied; an id is not. */
static void post_copies(void) {
    static uint8_t posted[sizeof joined];
    struct paddockyear_inputs in = lent_inputs();
    struct paddockyear_throws throws = lent_throws();
    struct paddockyear_parts parts = lent_parts();
    uint8_t *first = joined + first_length(), *second = first + BALLOT, *third = second + BALLOT;
    size_t length = record_length(), behind_second = first_length() + 2 * BALLOT;
    uint32_t out[N] = {90, 91, 92};
    EXPECT(0, paddockyear_hold(&in, &throws, &parts));
    memcpy(third + 5 + 5 * 32, first + 5, 32);
    stop_at(21, 2, length);
    memcpy(second + 5, first + 5, 6 * 32);
    memcpy(posted, joined, sizeof joined);
    stop_at(21, 1, length);
    EXPECT(21, paddockyear_announced_votes(joined, length, LENT(out)));
    EXPECT(1, out[0] == 90 && out[1] == 91 && out[2] == 92);
    ask_for_copy(first);
    ask_for_copy(second);
    EXPECT(0, (uint32_t)memcmp(joined, posted, sizeof posted));
    stop_at(21, 1, behind_second);
    stop_at(1, 1, behind_second - 1); /* 1, 2 and 5 go before 21 in a ballot */
    second[4] = first[4];
    stop_at(5, 1, length);
    second[0] = 0;
    stop_at(2, 1, length);
    report("copied ballots on a board");
}

/* ---- The two forms beside each other */

/* What all writing calls leave in one form, mask and sides given [0] and drawn [1]; a receipt and a part one are not drawn. */
struct written {
    uint32_t mask;
    uint8_t command[PADDOCKYEAR_COMMAND_LENGTH], receipt[PADDOCKYEAR_RECEIPT_LENGTH], one[PADDOCKYEAR_PART_ONE_LENGTH(1, N, COMPARED)];
    uint8_t two[2][PADDOCKYEAR_PART_TWO_LENGTH(N, COMPARED)], three[2][PADDOCKYEAR_PART_THREE_LENGTH(N, COMPARED)];
    uint8_t joined[2][PADDOCKYEAR_RECORD_LENGTH(1, N, COMPARED)];
};

static struct written plain, with_number, other;

static void tell(uint32_t flag, uint32_t number) { numbered = flag, election = number; }

/* Every writing call, told a form. */
static void write_all(uint32_t flag, uint32_t number, struct written *to) {
    tell(flag, number);
    struct paddockyear_inputs in = lent_inputs();
    struct paddockyear_throws throws = lent_throws();
    struct paddockyear_parts parts = lent_parts(), whole = parts;
    memset(to, 0, sizeof *to);
    EXPECT(0, paddockyear_tablet(flag, number, M, ids[0], votes[0], numbers[0], numbers[1], numbers[2], numbers[3], numbers[4], keys,
                                 PADDOCKYEAR_BALLOT_KEYS_LENGTH, LENT(to->command), LENT(to->receipt)));
    parts.one = to->one, parts.two = to->two[0], parts.three = to->three[0], whole.joined = to->joined[0];
    EXPECT(0, paddockyear_write_one(&in, &parts));
    EXPECT(0, paddockyear_write_two(&in, &throws, &parts));
    EXPECT(0, paddockyear_write_three(&in, &throws, &parts));
    EXPECT(0, paddockyear_hold(&in, &throws, &whole));
    throws.mask_given = throws.sides_given = 0;
    parts.two = to->two[1], parts.three = to->three[1], whole.joined = to->joined[1];
    EXPECT(0, paddockyear_write_two_drawn(&in, &throws, &parts));
    EXPECT(0, paddockyear_drawn_mask(&in, &throws, &parts, &to->mask));
    throws.mask = to->mask;
    EXPECT(0, paddockyear_write_three_drawn(&in, &throws, &parts));
    EXPECT(0, paddockyear_hold(&in, &throws, &whole));
    EXPECT(0, paddockyear_judge_as_drawn(to->joined[1], record_length()));
}

/* Flags that are not 0 are alike, and so is every number beside a flag of 0. */
static void tell_alike(void) {
    static const uint32_t flags[] = {2, 12, 0x100, 0x10000, 0x80000000, UINT32_MAX}, beside_none[] = {1, 12, NUMBER, UINT32_MAX};
    write_all(1, NUMBER, &with_number);
    for (size_t i = 0; i < LENGTH(flags); i++) {
        write_all(flags[i], NUMBER, &other);
        EXPECT(0, (uint32_t)memcmp(&other, &with_number, sizeof other));
    }
    write_all(0, 0, &plain);
    for (size_t i = 0; i < LENGTH(beside_none); i++) {
        write_all(0, beside_none[i], &other);
        EXPECT(0, (uint32_t)memcmp(&other, &plain, sizeof other));
    }
    report("what is told alike");
}

/* One ballot or list entry of both records: the same operands, and six commitments that all differ. */
static void compare_commitments(const uint8_t *of_plain, const uint8_t *of_number, size_t operands) {
    EXPECT(0, differ(of_plain, of_number, operands));
    for (size_t at = operands; at < operands + 6 * 32; at += 32) EXPECT(1, differ(of_plain + at, of_number + at, 32));
}

/* The first command, and what comes behind it: in part one only the commitments are others, and so are parts two and three where they are
 * drawn, and not where mask and sides are given. */
static void compare_bytes(void) {
    static const uint8_t first[] = {0x01, 0, 0, 0, M, 0, N, COMPARED},
                         first_numbered[] = {0x0C, 0x0C, 1, 0xFE, 7, 0, 0, 0, M, 0, N, COMPARED};
    size_t one_length = PADDOCKYEAR_PART_ONE_LENGTH(0, N, COMPARED), behind = PADDOCKYEAR_RECORD_LENGTH(0, N, COMPARED) - one_length;
    for (int drawn = 0; drawn < 2; drawn++) {
        const uint8_t *of_plain = plain.joined[drawn], *of_number = with_number.joined[drawn];
        EXPECT(0, differ(of_plain, first, sizeof first));
        EXPECT(0, differ(of_number, first_numbered, sizeof first_numbered));
        EXPECT((uint32_t)drawn, differ(of_plain + one_length, of_number + one_length + 4, behind));
        for (size_t at = 8; at < 8 + N * BALLOT; at += BALLOT) compare_commitments(of_plain + at, of_number + at + 4, 5);
        for (size_t at = 8 + N * BALLOT; at < one_length; at += 196) compare_commitments(of_plain + at, of_number + at + 4, 4);
    }
    EXPECT(0, differ(plain.joined[0] + sizeof first, plain.command, sizeof plain.command));
    EXPECT(0, differ(with_number.joined[0] + sizeof first_numbered, with_number.command, sizeof with_number.command));
    report("bytes of the two forms");
}

/* Each number is in the first command as told, and in every commitment of the tablet, so that a receipt is of one election. */
static void tell_other_numbers(void) {
    static const uint32_t elections[] = {0, 1, 0x01020304, UINT32_MAX};
    for (size_t i = 0; i < LENGTH(elections); i++) {
        write_all(1, elections[i], &other);
        const uint8_t *number = other.joined[1] + 1;
        EXPECT(elections[i], (uint32_t)number[0] << 24 | (uint32_t)number[1] << 16 | (uint32_t)number[2] << 8 | number[3]);
        compare_commitments(other.command, with_number.command, 5);
        EXPECT(1, differ(other.receipt, with_number.receipt, sizeof other.receipt));
    }
    report("other numbers of an election");
}

/* Buffers of the length that the other form has, there being room for either: 18, and nothing is written. */
static void lend_other_lengths(uint32_t flag) {
    tell(flag, NUMBER);
    struct paddockyear_inputs in = lent_inputs();
    struct paddockyear_throws throws = lent_throws(), drawn = throws;
    struct paddockyear_parts parts = lent_parts(), other_one = parts, other_joined = parts;
    uint32_t mask = 77;
    drawn.mask_given = drawn.sides_given = 0;
    other_one.one_length = PADDOCKYEAR_PART_ONE_LENGTH(flag == 0, N, COMPARED);
    other_joined.joined_length = PADDOCKYEAR_RECORD_LENGTH(flag == 0, N, COMPARED);
    fill_buffers();
    EXPECT(18, paddockyear_write_one(&in, &other_one));
    EXPECT(18, paddockyear_write_two_drawn(&in, &throws, &other_one));
    EXPECT(18, paddockyear_drawn_mask(&in, &throws, &other_one, &mask));
    EXPECT(18, paddockyear_write_three_drawn(&in, &throws, &other_one));
    EXPECT(18, paddockyear_hold(&in, &throws, &other_one));
    EXPECT(18, paddockyear_hold(&in, &drawn, &other_one));
    EXPECT(18, paddockyear_hold(&in, &throws, &other_joined));
    EXPECT(18, paddockyear_hold(&in, &drawn, &other_joined));
    EXPECT(77, mask);
    EXPECT(1, filled(LENT(one)) && filled(LENT(two)) && filled(LENT(three)) && filled(LENT(joined)));
    report("buffers of the other form's length");
}

/* The ballot whose id has this byte of a record with 01, from 1, or 0. */
static size_t ballot_of_id(size_t at) {
    size_t in_ballot = (at - 8) % BALLOT;
    return at < 8 + N * BALLOT && in_ballot >= 1 && in_ballot <= 4 ? 1 + (at - 8) / BALLOT : 0;
}

/* Each bit 0 behind the first command changed, in both records: the same number, and its place 4 bytes further on with 0C. Only an id that
 * still rises is no fault with 01, and with 0C one of its ballot's openings. */
static void find_faults_further_on(void) {
    size_t length = PADDOCKYEAR_RECORD_LENGTH(0, N, COMPARED), halves = length - PADDOCKYEAR_PART_THREE_LENGTH(N, COMPARED) + 31;
    unsigned refused = 0;
    for (size_t at = 8; at < length; at++) {
        uint64_t place = 77, further = 77;
        plain.joined[0][at] ^= 1, with_number.joined[0][at + 4] ^= 1;
        uint32_t number = paddockyear_first_fault(plain.joined[0], length, 0, &place);
        refused += number != 0;
        if (number == 0 && ballot_of_id(at) != 0) number = 13, place = halves + 112 * (1 + COMPARED) * (ballot_of_id(at) - 1);
        EXPECT(number, paddockyear_first_fault(with_number.joined[0], length + 4, 0, &further));
        EXPECT(1, number == 0 ? place == 77 && further == 77 : further == place + 4);
        plain.joined[0][at] ^= 1, with_number.joined[0][at + 4] ^= 1;
    }
    printf("of records with one bit changed, %u were refused\n", refused);
    report("places of faults in the two forms");
}

/* The first command's own faults are at 0: the byte, where it stops, its limits. The election's number has none, but with another one no
 * opening gives its commitment. */
static void spoil_first_command(void) {
    static const uint8_t bytes[] = {0, 2, 11, 13, 0x8C, 0xFF};
    static const struct {
        size_t at;
        uint8_t value;
    } limits[] = {{8, 1}, {10, 0}, {9, 0x11}, {11, 0}, {11, 13}};
    uint8_t *record = with_number.joined[0];
    size_t length = PADDOCKYEAR_RECORD_LENGTH(1, N, COMPARED);
    uint64_t place = 77;
    for (size_t i = 0; i < LENGTH(bytes); i++) {
        record[0] = bytes[i];
        EXPECT(2, paddockyear_first_fault(record, length, 1, &place));
        EXPECT(0, (uint32_t)place);
    }
    record[0] = 0x0C;
    for (size_t i = 0; i < LENGTH(limits); i++) {
        uint8_t before = record[limits[i].at];
        record[limits[i].at] = limits[i].value;
        EXPECT(3, paddockyear_first_fault(record, length, 1, &place));
        EXPECT(0, (uint32_t)place);
        record[limits[i].at] = before;
    }
    for (size_t cut = 1; cut <= 12; cut++) {
        EXPECT(1, paddockyear_first_fault(record, cut, 1, &place));
        EXPECT(cut < 12 ? 0 : 12, (uint32_t)place);
    }
    for (size_t at = 1; at <= 4; at++) {
        record[at] ^= 0xFF;
        EXPECT(13, paddockyear_judge_plainly(record, length));
        record[at] ^= 0xFF;
        EXPECT(0, paddockyear_judge_plainly(record, length));
    }
    report("the command 0C");
}

/* What is said of a record of either form. */
static void try_form(uint32_t flag, uint32_t number) {
    tell(flag, number);
    printf("command %s\n", flag == 0 ? "01" : "0C");
    lend_nothing_to_tablet_and_mix();
    lend_no_inputs();
    lend_no_throws_or_parts();
    write_parts();
    lend_one_slice_twice();
    find_faults();
    ask_for_receipts();
    take_results();
    copy_inputs();
    commit_alike_inside();
    post_copies();
}

static void compare_forms(void) {
    printf("both commands\n");
    tell_alike();
    compare_bytes();
    tell_other_numbers();
    lend_other_lengths(0);
    lend_other_lengths(1);
    find_faults_further_on();
    spoil_first_command();
}

int main(void) {
    say_rules();
    compare_words();
    try_lengths();
    fill_inputs();
    hash_nothing();
    permute_zeros();
    refuse_runoffs();
    run_off();
    refuse_days();
    refuse_holidays();
    set_calendars();
    try_form(0, 0);
    try_form(1, NUMBER);
    compare_forms();
    return fflush(stdout) == 0 && !ferror(stdout) ? 0 : 1;
}
