/* Paddockyear: an election by split values, for C and C++. Link with -lpaddockyear; docs/USING.md shows how, with first programs. The
 * functions that are declared here are proved. Those written out here (`static inline`) hand their arguments on and decide nothing, but for
 * paddockyear_rule, which has the words for each number.
 *
 * SLICES. A slice is a pointer and a length; the length counts elements, not bytes. Where the length is 0 the pointer may be null. No
 * output may overlap any other slice of its call (PADDOCKYEAR_RESTRICT tells the compiler so); inputs may overlap each other, or be the
 * same. What is lent without a length (out of a hash, lanes, *mask, *place, *pairs, *winner, *blank, *spoiled, *windows, *window) must be
 * there. All is lent for the call only: no call keeps a pointer, and nothing is kept from call to call. A call writes to its outputs alone,
 * so that calls may run at the same time while nobody else writes what is lent to them.
 *
 * ANSWERS. An answer is 0, or the number of a rule that is broken: enum paddockyear_number below. Each function says
 * which numbers it can answer. A call that is refused has changed nothing.
 *
 * ORDER OF REFUSALS. Whatever writes (tablet, mix servers, parts, draw, election) tests its limits first (3), then the length of every
 * slice (18), then the rest in rising number, each over its whole input. The judge goes command by command; the first faulty one decides.
 *
 * STACK. At most PADDOCKYEAR_STACK_WRITING bytes for each part and the election, PADDOCKYEAR_STACK_JUDGING for judging, the first fault and
 * the announced votes, PADDOCKYEAR_STACK for every other call, with as many ballots, lists and holidays as there may be (measured, not
 * proved).
 *
 * TERMS. M is the modulus, n the number of ballots; there are 2m lists, of which m are compared and m opened. In the arguments:
 *     numbered   the form of the record's first command: 0 for command 01, which names no election; any other value for command 0C, which
 *                has the election's number. All calls of an election, and its tablets, are told the same
 *     election   the election's number, any value; with numbered 0 it is not looked at
 *     modulus    M, 2 to 4294967295; every number is below it, and sums and differences are taken modulo M
 *     ballots    n, 1 to 4096
 *     compared   m, 1 to 12: the number of lists that are compared, half of all lists
 *     mask       bit i (bit 0 is the lowest) is set where list i is compared: exactly m bits, none at 2m or above
 *     dice       30 characters '1' to '6'
 *     sides      a byte for each ballot: 0 opens its first halves u1, u2, u3, and 1 its second halves v1, v2, v3
 * Ballots, lists, places and columns are counted from 0. */
#ifndef PADDOCKYEAR_H
#define PADDOCKYEAR_H

#include <stddef.h>
#include <stdint.h>

/* `restrict` in a form that C99 and C++ take. */
#if defined(__GNUC__) || defined(_MSC_VER)
#define PADDOCKYEAR_RESTRICT __restrict
#elif !defined(__cplusplus)
#define PADDOCKYEAR_RESTRICT restrict
#else
#define PADDOCKYEAR_RESTRICT
#endif

#ifdef __cplusplus
extern "C" {
#endif

/* ---- Numbers that are answered ---------------------------------------------------------------------------------------------------- */

enum paddockyear_number {
    PADDOCKYEAR_DONE = 0, /* done, accepted, or posted as printed */

    PADDOCKYEAR_RULE_CUT_SHORT = 1,
    PADDOCKYEAR_RULE_COMMAND = 2,
    PADDOCKYEAR_RULE_LIMITS = 3,
    PADDOCKYEAR_RULE_OPERAND = 4,
    PADDOCKYEAR_RULE_ID = 5,
    PADDOCKYEAR_RULE_DICE = 6,
    PADDOCKYEAR_RULE_MASK_SHAPE = 7,
    PADDOCKYEAR_RULE_MASK_DRAWN = 8, /* by drawn judging only */
    PADDOCKYEAR_RULE_LINK = 9,
    PADDOCKYEAR_RULE_NUMBER = 10,
    PADDOCKYEAR_RULE_SIDE = 11,
    PADDOCKYEAR_RULE_SIDE_DRAWN = 12, /* by drawn judging only */
    PADDOCKYEAR_RULE_OPENING = 13,
    PADDOCKYEAR_RULE_HALVES = 14,
    PADDOCKYEAR_RULE_VOTE_ORDER = 15,
    PADDOCKYEAR_RULE_OPENED_LIST = 16,
    PADDOCKYEAR_RULE_BYTES_AFTER = 17,
    PADDOCKYEAR_RULE_LENGTH = 18,
    PADDOCKYEAR_RULE_PERMUTATION = 19,
    PADDOCKYEAR_RULE_CANDIDATES = 20, /* by the runoff only */
    PADDOCKYEAR_RULE_COPIED_BALLOT = 21,
    PADDOCKYEAR_RULE_DAY = 22, /* by the calendar only */

    PADDOCKYEAR_POSTED_OTHERWISE = 101, /* both by receipt check and lookup only; they are no rules, and no refusals */
    PADDOCKYEAR_NOT_POSTED = 102
};

/* The papers' sentence for a number. */
static inline const char *paddockyear_rule(uint32_t number) {
    switch (number) {
    case PADDOCKYEAR_DONE: return "no rule is broken";
    case PADDOCKYEAR_RULE_CUT_SHORT: return "the record stops inside a command or before 0B";
    case PADDOCKYEAR_RULE_COMMAND: return "a command byte that is not due";
    case PADDOCKYEAR_RULE_LIMITS: return "M, n or m outside its limits";
    case PADDOCKYEAR_RULE_OPERAND:
        return "a list, ballot, position or index operand other than the due one (in a link, list and ballot only)";
    case PADDOCKYEAR_RULE_ID: return "an id not above the one before";
    case PADDOCKYEAR_RULE_DICE: return "a dice byte outside '1' to '6'";
    case PADDOCKYEAR_RULE_MASK_SHAPE: return "mask of the wrong shape";
    case PADDOCKYEAR_RULE_MASK_DRAWN: return "mask not the drawn one";
    case PADDOCKYEAR_RULE_LINK: return "link position n or above, or taken";
    case PADDOCKYEAR_RULE_NUMBER: return "an opened number, t or vote not below M";
    case PADDOCKYEAR_RULE_SIDE: return "side byte above 1";
    case PADDOCKYEAR_RULE_SIDE_DRAWN: return "side not the drawn one";
    case PADDOCKYEAR_RULE_OPENING: return "opening does not give its commitment";
    case PADDOCKYEAR_RULE_HALVES: return "the two halves disagree";
    case PADDOCKYEAR_RULE_VOTE_ORDER: return "announced vote below its forerunner";
    case PADDOCKYEAR_RULE_OPENED_LIST: return "opened list is no permutation of the announced votes (found at its last 0A)";
    case PADDOCKYEAR_RULE_BYTES_AFTER: return "bytes after 0B";
    case PADDOCKYEAR_RULE_LENGTH: return "a slice of another length than due";
    case PADDOCKYEAR_RULE_PERMUTATION: return "a permutation that is none";
    case PADDOCKYEAR_RULE_CANDIDATES: return "the number of candidates outside 1 to 9";
    case PADDOCKYEAR_RULE_COPIED_BALLOT: return "a ballot with a commitment equal to one of an earlier ballot, at whichever places";
    case PADDOCKYEAR_RULE_DAY: return "a day that does not exist from 2000 to 2199, or a holiday not after the one before it";
    case PADDOCKYEAR_POSTED_OTHERWISE: return "posted otherwise (the id is there, the hash differs)";
    case PADDOCKYEAR_NOT_POSTED: return "not posted (no such id)";
    default: return "no number that is answered";
    }
}

/* ---- Lengths that are due --------------------------------------------------------------------------------------------------------- */

enum {
    PADDOCKYEAR_MOST_BALLOTS = 4096,
    PADDOCKYEAR_MOST_COMPARED = 12,
    PADDOCKYEAR_MOST_CANDIDATES = 9,
    PADDOCKYEAR_DICE_LENGTH = 30,
    PADDOCKYEAR_BALLOT_KEYS_LENGTH = 192, /* six keys of 32 bytes */
    PADDOCKYEAR_COMMAND_LENGTH = 197,     /* of a ballot command */
    PADDOCKYEAR_RECEIPT_LENGTH = 32
};

/* Of the servers' inputs and of the parts they write, for n ballots and m compared lists within their limits. A record with an election's
 * number is PADDOCKYEAR_ELECTION_LENGTH bytes longer, all of them in part one. */
#define PADDOCKYEAR_NUMBERS_LENGTH(n, m) (5 * (size_t)(n) + 18 * (size_t)(m) * (size_t)(n))
#define PADDOCKYEAR_PERMUTATIONS_LENGTH(n, m) (6 * (size_t)(m) * (size_t)(n))
#define PADDOCKYEAR_KEYS_LENGTH(n, m) (192 * (size_t)(n) + 384 * (size_t)(m) * (size_t)(n))
#define PADDOCKYEAR_ELECTION_LENGTH(numbered) ((numbered) != 0 ? (size_t)4 : (size_t)0)
#define PADDOCKYEAR_PART_ONE_LENGTH(numbered, n, m)                                                                                        \
    (PADDOCKYEAR_ELECTION_LENGTH(numbered) + 8 + 197 * (size_t)(n) + 392 * (size_t)(m) * (size_t)(n))
#define PADDOCKYEAR_PART_TWO_LENGTH(n, m) (35 + 10 * (size_t)(m) * (size_t)(n))
#define PADDOCKYEAR_PART_THREE_LENGTH(n, m) (32 + 119 * (size_t)(n) + 332 * (size_t)(m) * (size_t)(n))
#define PADDOCKYEAR_RECORD_LENGTH(numbered, n, m)                                                                                          \
    (PADDOCKYEAR_ELECTION_LENGTH(numbered) + 75 + 316 * (size_t)(n) + 734 * (size_t)(m) * (size_t)(n))

/* The bytes of stack that a call needs at most. */
enum { PADDOCKYEAR_STACK = 8192, PADDOCKYEAR_STACK_JUDGING = 196608, PADDOCKYEAR_STACK_WRITING = 262144 };

/* ---- SHA-3 (FIPS 202) ------------------------------------------------------------------------------------------------------------- */

/* The hash of a message into out: 28 bytes for SHA3-224, 32 bytes for SHA3-256. */
void paddockyear_sha3_224(const uint8_t *message, size_t length, uint8_t *PADDOCKYEAR_RESTRICT out);
void paddockyear_sha3_256(const uint8_t *message, size_t length, uint8_t *PADDOCKYEAR_RESTRICT out);

/* The hash of three pieces joined: a, then b, then c. */
void paddockyear_sha3_224_parts(const uint8_t *a, size_t a_length, const uint8_t *b, size_t b_length, const uint8_t *c, size_t c_length,
                                uint8_t *PADDOCKYEAR_RESTRICT out);
void paddockyear_sha3_256_parts(const uint8_t *a, size_t a_length, const uint8_t *b, size_t b_length, const uint8_t *c, size_t c_length,
                                uint8_t *PADDOCKYEAR_RESTRICT out);

/* Keccak-f[1600] of 25 lanes, in place. The standard's lane (x, y) is lanes[5 * y + x]; bit z of a lane is the bit of weight 2^z, so that
 * bytes 8i to 8i + 7 of the state are lanes[i], least significant byte first. */
void paddockyear_keccak_f(uint64_t lanes[25]);

/* ---- The tablet ------------------------------------------------------------------------------------------------------------------- */

/* The ballot command (197 bytes) and the receipt (32 bytes) of a vote with shares x and y and first halves u1, u2, u3. The third share
 * z = vote - x - y and the second halves v1 = x - u1, v2 = y - u2, v3 = z - u3 are worked out. keys are 192 bytes: six keys of 32 bytes, in
 * the order of the six commitments, u1, v1, u2, v2, u3, v3. The receipt is the id, most significant byte first, and the SHA3-224 of the
 * command. Form, number and id are those of the record that the ballot is for: in the form of command 0C a commitment is bound to election,
 * id and slot, and is opened by the judge nowhere else.
 * Answers 0; 3 for the modulus; 18; 10 for vote, x, y, u1, u2, u3. */
uint32_t paddockyear_tablet(uint32_t numbered, uint32_t election, uint32_t modulus, uint32_t id, uint32_t vote, uint32_t x, uint32_t y,
                            uint32_t u1, uint32_t u2, uint32_t u3, const uint8_t *keys, size_t keys_length,
                            uint8_t *PADDOCKYEAR_RESTRICT command, size_t command_length, uint8_t *PADDOCKYEAR_RESTRICT receipt,
                            size_t receipt_length);

/* ---- The mix servers of one column ------------------------------------------------------------------------------------------------ */

/* Every slice has n elements. */

/* A row server: out[i] is numbers[p] + offsets[p] with p = permutation[i]. So the offset is that of the place a number comes from, and the
 * permutation names for each new place the old one. permutation has each of 0 to n - 1 once.
 * Answers 0; 3 for modulus or n; 18; 10 for numbers and offsets; 19. */
uint32_t paddockyear_row_server(uint32_t modulus, uint32_t n, const uint32_t *numbers, size_t numbers_length, const uint32_t *offsets,
                                size_t offsets_length, const uint16_t *permutation, size_t permutation_length,
                                uint32_t *PADDOCKYEAR_RESTRICT out, size_t out_length);

/* Row three's offsets: out[i] is -first[i] - second[i], so that the three rows' offsets at a place add to 0. first and second are the
 * offsets of rows one and two, all by places before the permutation.
 * Answers 0; 3 for modulus or n; 18; 10. */
uint32_t paddockyear_third_row_offsets(uint32_t modulus, uint32_t n, const uint32_t *first, size_t first_length, const uint32_t *second,
                                       size_t second_length, uint32_t *PADDOCKYEAR_RESTRICT out, size_t out_length);

/* The split of a row behind the third column: out[i], the second half, is numbers[i] - first_halves[i].
 * Answers 0; 3 for modulus or n; 18; 10. */
uint32_t paddockyear_split(uint32_t modulus, uint32_t n, const uint32_t *numbers, size_t numbers_length, const uint32_t *first_halves,
                           size_t first_halves_length, uint32_t *PADDOCKYEAR_RESTRICT out, size_t out_length);

/* ---- The record writer ------------------------------------------------------------------------------------------------------------ */

/* A record is three parts joined. Part one: parameters, ballots, list entries. Part two, behind the first throw of the dice: dice, mask,
 * links. Part three, behind the second throw: dice, halves, announced votes, full openings, end. Every part is given all of the inputs and
 * tests them all. With n ballots and m compared lists:
 *
 * ids            n, rising strictly; the first may be 0
 * votes          n, ballot by ballot
 * numbers        5n + 18mn. First for each ballot x, y, u1, u2, u3. Then for each of the 2m lists 9n numbers: for each of its three columns
 *                n pairs, the offsets of rows one and two at a place, places as they come into that column; then for each place of the
 *                finished list its three first halves, of rows one, two, three.
 *                    of ballot j: numbers[5j], x, to numbers[5j + 4], u3
 *                    of list l, with a = 5n + 9nl:
 *                        column c (0 to 2), place i, row r (0 or 1): offset numbers[a + 2nc + 2i + r]
 *                        place i, row r (0 to 2): first half numbers[a + 6n + 3i + r]
 * permutations   6mn: for each list three permutations of n places, those of its columns.
 *                    list l, column c: permutations[3nl + nc + i] is the place that new place i comes from
 *                So place i of the finished list holds ballot p0(p1(p2(i))), p0, p1, p2 being the permutations of columns 0, 1, 2.
 * keys           192n + 384mn bytes: for each ballot, then for each list and place, six keys of 32 bytes, of u1, v1, u2, v2, u3, v3.
 *                    ballot j, key q: from keys[192j + 32q]
 *                    list l, place i, key q: from keys[192n + 192(nl + i) + 32q]
 *
 * The output of part one is 8 + 197n + 392mn bytes, and 4 more with an election's number, of part two 35 + 10mn, of part three 32 + 119n +
 * 332mn. Where the mask is drawn, it is drawn from dice and part one as lent (one); where the sides are drawn, from dice and parts one and
 * two as lent (one, two). Lent parts are hashed and not read otherwise.
 *
 * No two ballots may come to share a commitment, each in any of its six places: 21, tested last. With keys drawn anew for every ballot none
 * will: a commitment hashes a key and a number, and in the form of command 0C the election's number, slot and id too, so that there no two
 * ballots will whatever their keys. Inside one ballot equal ones stand.
 *
 * The structs and functions further down take the same in fewer arguments. */

/* Answers 0; 3; 18; 5; 10; 19; 21. */
uint32_t paddockyear_part_one(
    uint32_t numbered, uint32_t election, uint32_t modulus, uint32_t ballots, uint32_t compared, const uint32_t *ids, size_t ids_length,
    const uint32_t *votes, size_t votes_length, const uint32_t *numbers, size_t numbers_length, const uint16_t *permutations,
    size_t permutations_length, const uint8_t *keys, size_t keys_length, uint8_t *PADDOCKYEAR_RESTRICT out, size_t out_length);

/* With the mask given. Answers 0; 3; 18; 5; 6; 7; 10; 19; 21. */
uint32_t paddockyear_part_two(
    uint32_t numbered, uint32_t election, uint32_t modulus, uint32_t ballots, uint32_t compared, const uint32_t *ids, size_t ids_length,
    const uint32_t *votes, size_t votes_length, const uint32_t *numbers, size_t numbers_length, const uint16_t *permutations,
    size_t permutations_length, const uint8_t *keys, size_t keys_length, const uint8_t *dice, size_t dice_length, uint32_t mask,
    uint8_t *PADDOCKYEAR_RESTRICT out, size_t out_length);

/* With the mask drawn. Answers 0; 3; 18; 5; 6; 10; 19; 21. */
uint32_t paddockyear_part_two_drawn(
    uint32_t numbered, uint32_t election, uint32_t modulus, uint32_t ballots, uint32_t compared, const uint32_t *ids, size_t ids_length,
    const uint32_t *votes, size_t votes_length, const uint32_t *numbers, size_t numbers_length, const uint16_t *permutations,
    size_t permutations_length, const uint8_t *keys, size_t keys_length, const uint8_t *dice, size_t dice_length, const uint8_t *one,
    size_t one_length, uint8_t *PADDOCKYEAR_RESTRICT out, size_t out_length);

/* With the sides given; the mask is that of part two. Answers 0; 3; 18; 5; 6; 7; 10; 11; 19; 21. */
uint32_t paddockyear_part_three(
    uint32_t numbered, uint32_t election, uint32_t modulus, uint32_t ballots, uint32_t compared, const uint32_t *ids, size_t ids_length,
    const uint32_t *votes, size_t votes_length, const uint32_t *numbers, size_t numbers_length, const uint16_t *permutations,
    size_t permutations_length, const uint8_t *keys, size_t keys_length, const uint8_t *dice, size_t dice_length, uint32_t mask,
    const uint8_t *sides, size_t sides_length, uint8_t *PADDOCKYEAR_RESTRICT out, size_t out_length);

/* With the sides drawn; the mask is that of part two. Answers 0; 3; 18; 5; 6; 7; 10; 19; 21. */
uint32_t paddockyear_part_three_drawn(
    uint32_t numbered, uint32_t election, uint32_t modulus, uint32_t ballots, uint32_t compared, const uint32_t *ids, size_t ids_length,
    const uint32_t *votes, size_t votes_length, const uint32_t *numbers, size_t numbers_length, const uint16_t *permutations,
    size_t permutations_length, const uint8_t *keys, size_t keys_length, const uint8_t *dice, size_t dice_length, uint32_t mask,
    const uint8_t *one, size_t one_length, const uint8_t *two, size_t two_length, uint8_t *PADDOCKYEAR_RESTRICT out, size_t out_length);

/* The mask that part two draws from the first dice and part one, into *mask: part three wants it. Answers 0; 3; 18; 6. */
uint32_t paddockyear_draw_mask(uint32_t numbered, uint32_t election, uint32_t modulus, uint32_t ballots, uint32_t compared,
                               const uint8_t *dice, size_t dice_length, const uint8_t *one, size_t one_length,
                               uint32_t *PADDOCKYEAR_RESTRICT mask);

/* The three parts, their join and plain judging of it, in one call, for dice that are known beforehand: a rehearsal, or a test. The mask is
 * drawn where mask_given is 0, the sides are drawn where sides_given is 0; what is lent in the place of what is drawn is not looked at.
 * Answers 0: all four buffers are written, and the record in joined is accepted (as drawn, too, where both are drawn). Else 3; 18, for
 * every slice, that of joined too; 5; 6; 7; 10; 11; 19; 21. */
uint32_t paddockyear_election(
    uint32_t mask_given, uint32_t sides_given, uint32_t numbered, uint32_t election, uint32_t modulus, uint32_t ballots, uint32_t compared,
    const uint32_t *ids, size_t ids_length, const uint32_t *votes, size_t votes_length, const uint32_t *numbers, size_t numbers_length,
    const uint16_t *permutations, size_t permutations_length, const uint8_t *keys, size_t keys_length, const uint8_t *first_dice,
    size_t first_dice_length, uint32_t mask, const uint8_t *second_dice, size_t second_dice_length, const uint8_t *sides,
    size_t sides_length, uint8_t *PADDOCKYEAR_RESTRICT one, size_t one_length, uint8_t *PADDOCKYEAR_RESTRICT two, size_t two_length,
    uint8_t *PADDOCKYEAR_RESTRICT three, size_t three_length, uint8_t *PADDOCKYEAR_RESTRICT joined, size_t joined_length);

/* ---- The record writer in structs ------------------------------------------------------------------------------------------------- */

/* What the servers are given, in the order described above. */
struct paddockyear_inputs {
    uint32_t numbered, election, modulus, ballots, compared;
    const uint32_t *ids;
    size_t ids_length;
    const uint32_t *votes;
    size_t votes_length;
    const uint32_t *numbers;
    size_t numbers_length;
    const uint16_t *permutations;
    size_t permutations_length;
    const uint8_t *keys;
    size_t keys_length;
};

/* What comes from the dice table. The two switches are looked at by paddockyear_hold only. */
struct paddockyear_throws {
    const uint8_t *first_dice;
    size_t first_dice_length;
    const uint8_t *second_dice;
    size_t second_dice_length;
    uint32_t mask_given, mask;
    uint32_t sides_given;
    const uint8_t *sides;
    size_t sides_length;
};

/* Where the parts stand. joined is written by paddockyear_hold only. */
struct paddockyear_parts {
    uint8_t *one;
    size_t one_length;
    uint8_t *two;
    size_t two_length;
    uint8_t *three;
    size_t three_length;
    uint8_t *joined;
    size_t joined_length;
};

/* paddockyear_part_one into parts->one. */
static inline uint32_t paddockyear_write_one(const struct paddockyear_inputs *in, const struct paddockyear_parts *parts) {
    return paddockyear_part_one(in->numbered, in->election, in->modulus, in->ballots, in->compared, in->ids, in->ids_length, in->votes,
                                in->votes_length, in->numbers, in->numbers_length, in->permutations, in->permutations_length, in->keys,
                                in->keys_length, parts->one, parts->one_length);
}

/* paddockyear_part_two by the first dice and throws->mask, into parts->two. */
static inline uint32_t paddockyear_write_two(const struct paddockyear_inputs *in, const struct paddockyear_throws *throws,
                                             const struct paddockyear_parts *parts) {
    return paddockyear_part_two(in->numbered, in->election, in->modulus, in->ballots, in->compared, in->ids, in->ids_length, in->votes,
                                in->votes_length, in->numbers, in->numbers_length, in->permutations, in->permutations_length, in->keys,
                                in->keys_length, throws->first_dice, throws->first_dice_length, throws->mask, parts->two,
                                parts->two_length);
}

/* paddockyear_part_two_drawn by the first dice and parts->one, into parts->two. */
static inline uint32_t paddockyear_write_two_drawn(const struct paddockyear_inputs *in, const struct paddockyear_throws *throws,
                                                   const struct paddockyear_parts *parts) {
    return paddockyear_part_two_drawn(in->numbered, in->election, in->modulus, in->ballots, in->compared, in->ids, in->ids_length,
                                      in->votes, in->votes_length, in->numbers, in->numbers_length, in->permutations,
                                      in->permutations_length, in->keys, in->keys_length, throws->first_dice, throws->first_dice_length,
                                      parts->one, parts->one_length, parts->two, parts->two_length);
}

/* paddockyear_draw_mask by the first dice and parts->one, into *mask, which may be throws->mask. */
static inline uint32_t paddockyear_drawn_mask(const struct paddockyear_inputs *in, const struct paddockyear_throws *throws,
                                              const struct paddockyear_parts *parts, uint32_t *mask) {
    return paddockyear_draw_mask(in->numbered, in->election, in->modulus, in->ballots, in->compared, throws->first_dice,
                                 throws->first_dice_length, parts->one, parts->one_length, mask);
}

/* paddockyear_part_three by the second dice, throws->mask and throws->sides, into parts->three. */
static inline uint32_t paddockyear_write_three(const struct paddockyear_inputs *in, const struct paddockyear_throws *throws,
                                               const struct paddockyear_parts *parts) {
    return paddockyear_part_three(in->numbered, in->election, in->modulus, in->ballots, in->compared, in->ids, in->ids_length, in->votes,
                                  in->votes_length, in->numbers, in->numbers_length, in->permutations, in->permutations_length, in->keys,
                                  in->keys_length, throws->second_dice, throws->second_dice_length, throws->mask, throws->sides,
                                  throws->sides_length, parts->three, parts->three_length);
}

/* paddockyear_part_three_drawn by the second dice, throws->mask, parts->one and parts->two, into parts->three. */
static inline uint32_t paddockyear_write_three_drawn(const struct paddockyear_inputs *in, const struct paddockyear_throws *throws,
                                                     const struct paddockyear_parts *parts) {
    return paddockyear_part_three_drawn(in->numbered, in->election, in->modulus, in->ballots, in->compared, in->ids, in->ids_length,
                                        in->votes, in->votes_length, in->numbers, in->numbers_length, in->permutations,
                                        in->permutations_length, in->keys, in->keys_length, throws->second_dice, throws->second_dice_length,
                                        throws->mask, parts->one, parts->one_length, parts->two, parts->two_length, parts->three,
                                        parts->three_length);
}

/* paddockyear_election. */
static inline uint32_t paddockyear_hold(const struct paddockyear_inputs *in, const struct paddockyear_throws *throws,
                                        const struct paddockyear_parts *parts) {
    return paddockyear_election(throws->mask_given, throws->sides_given, in->numbered, in->election, in->modulus, in->ballots, in->compared,
                                in->ids, in->ids_length, in->votes, in->votes_length, in->numbers, in->numbers_length, in->permutations,
                                in->permutations_length, in->keys, in->keys_length, throws->first_dice, throws->first_dice_length,
                                throws->mask, throws->second_dice, throws->second_dice_length, throws->sides, throws->sides_length,
                                parts->one, parts->one_length, parts->two, parts->two_length, parts->three, parts->three_length,
                                parts->joined, parts->joined_length);
}

/* ---- The verifier ----------------------------------------------------------------------------------------------------------------- */

/* Judging of a record: 0 for accepted, else the number of the first rule broken, 1 to 17 or 21. Plain judging takes mask and sides as
 * posted; drawn judging also demands that they be the drawn ones (8, 12). A record may have any length. */
uint32_t paddockyear_judge_plainly(const uint8_t *bytes, size_t length);
uint32_t paddockyear_judge_as_drawn(const uint8_t *bytes, size_t length);

/* The same number, with drawn 0 for plain judging and any other for drawn judging. Along with a number other than 0, *place is written: the
 * offset of the first byte of the faulty command. For 17 that is the offset of the byte behind 0B, and where no byte is left for the next
 * command (1) it is the record's length. With 0, *place is left as it was. */
uint32_t paddockyear_first_fault(const uint8_t *bytes, size_t length, uint32_t drawn, uint64_t *PADDOCKYEAR_RESTRICT place);

/* Whether a receipt of 32 bytes is posted: 0 as printed, 101 otherwise (the id is there, the hash differs), 102 not posted (no such id).
 * Else 18 for the receipt's length, or 1, 2, 3, 5 of the record as in judging. It reads the parameters and all ballots, and nothing behind
 * them: a record that stops there is enough, and a record that is answered here need not be accepted. Copied ballots (21) are left to the
 * judge. */
uint32_t paddockyear_check_receipt(const uint8_t *bytes, size_t length, const uint8_t *printed, size_t printed_length);

/* The same answers from the ballots up to the first whose id is the one sought or larger, for a screen at which many look receipts up.
 * Where parameters and ballots are well formed it answers as paddockyear_check_receipt does. A fault up to that ballot's last byte is
 * answered by the same number; what stands behind is not read, so that a fault there, or a record cut there, is left to the judge. */
uint32_t paddockyear_look_up(const uint8_t *bytes, size_t length, const uint8_t *printed, size_t printed_length);

/* The announced votes of an accepted record, one for each ballot, smallest first, into out of n elements; n is in the record's bytes 5 and
 * 6, most significant first, or in bytes 9 and 10 where byte 0 is 0C (hexadecimal). Answers 0; else the number of plain judging; else 18
 * for the length of out. */
uint32_t paddockyear_announced_votes(const uint8_t *bytes, size_t length, uint32_t *PADDOCKYEAR_RESTRICT out, size_t out_length);

/* The tally of votes that do not fall: for each distinct vote, rising, values[i] is the vote and counts[i] how often it is there. *pairs is
 * how many pairs were written; behind the last pair both slices are left as they were. values and counts have the votes' length.
 * Answers 0; 18; 15 where a vote is below the one before. */
uint32_t paddockyear_tally(const uint32_t *votes, size_t votes_length, uint32_t *PADDOCKYEAR_RESTRICT values, size_t values_length,
                           uint64_t *PADDOCKYEAR_RESTRICT counts, size_t counts_length, uint64_t *PADDOCKYEAR_RESTRICT pairs);

/* ---- Ranked votes by instant runoff ----------------------------------------------------------------------------------------------- */

/* A candidate's entry in the table of a runoff. Candidate k, from 1, stands at k - 1. */
struct paddockyear_candidate {
    uint64_t count; /* how many votes counted for the candidate in the last round in which it stood */
    uint32_t left;  /* the round in which it left, from 1, or 0 if it is still standing */
};

/* A vote's decimal digits, from the left, are candidates in the order of preference: 312 is 3, then 1, then 2. Vote 0 is blank. A vote with
 * a digit that is 0, above the number of candidates or repeated is spoiled. In each round a vote counts for its first candidate still
 * standing; one whose candidates have all left counts no more. A candidate with more than half of the counting votes wins; else the one
 * standing with fewest leaves, of equals the highest number. There are at most as many rounds as candidates, and there is no winner exactly
 * if no vote is valid.
 *
 * The votes may be any number of votes in any order: the answer depends on how often each stands there, and on nothing else. table has one
 * entry for each candidate. *winner is the winner's number, or 0 for none; *blank and *spoiled are how many votes are blank and spoiled.
 * Answers 0; 20 for candidates outside 1 to 9; 18 for the length of table. */
uint32_t paddockyear_runoff(const uint32_t *votes, size_t votes_length, uint32_t candidates,
                            struct paddockyear_candidate *PADDOCKYEAR_RESTRICT table, size_t table_length,
                            uint32_t *PADDOCKYEAR_RESTRICT winner, uint64_t *PADDOCKYEAR_RESTRICT blank,
                            uint64_t *PADDOCKYEAR_RESTRICT spoiled);

/* ---- The election calendar -------------------------------------------------------------------------------------------------------- */

/* Minutes are counted from 2000-01-01 00:00, 1440 for each day: 08:00 of 2000-01-02 is 1920. They are those of the clock where the election
 * is held. Time zones and summer time are not known here: whoever turns the time of a machine into such a minute takes local time. */

/* A window is open from the minute start on, and is shut in the minute end. */
struct paddockyear_window {
    uint64_t start;
    uint64_t end;
};

struct paddockyear_windows {
    struct paddockyear_window polling, first_dice, second_dice, objections;
};

/* What paddockyear_window_at gives in *window. No minute is in two windows. */
enum paddockyear_window_number {
    PADDOCKYEAR_NO_WINDOW = 0,
    PADDOCKYEAR_POLLING = 1,
    PADDOCKYEAR_FIRST_DICE = 2,
    PADDOCKYEAR_SECOND_DICE = 3,
    PADDOCKYEAR_OBJECTIONS = 4
};

/* The windows of an election, by its day and the holidays, into *windows. Working days are Monday to Friday without the holidays.
 *     polling       08:00 to 20:00 of the election day, whichever day that is
 *     first dice    10:00 to 12:00 of the second working day after it
 *     second dice   10:00 to 12:00 of the next working day after that one
 *     objections    from 12:00 of the second dice's day to 24:00 of the fourteenth day after it, or where that one is a holiday, to 24:00
 *                   of the next working day
 *
 * The election day is a date of the Gregorian calendar from 2000-01-01 to 2199-12-31: year 2000 to 2199, month 1 to 12, day from 1 on. A
 * holiday is such a date in one number, year * 10000 + month * 100 + day, as in 20261225. Holidays rise: each is after the one before it.
 * There may be none or any number of them, on weekends and on the election day too; those that no window meets make no difference. So a
 * list for many years is taken as it is, in one pass. The windows of the last days of 2199 run on into 2200, in which only weekends are
 * known.
 *
 * Answers 0; 22 for an election day or a holiday that does not exist in those years, or a holiday that is not after the one before it.
 * With 22, *windows is left as it was. */
uint32_t paddockyear_calendar(uint32_t year, uint32_t month, uint32_t day, const uint32_t *holidays, size_t holidays_length,
                              struct paddockyear_windows *PADDOCKYEAR_RESTRICT windows);

/* The window of an election that a minute is in, into *window: a number of enum paddockyear_window_number. The minute may be any. Election
 * day, holidays and answers are those of paddockyear_calendar. With 22, *window is left as it was. */
uint32_t paddockyear_window_at(uint32_t year, uint32_t month, uint32_t day, const uint32_t *holidays, size_t holidays_length,
                               uint64_t minute, uint32_t *PADDOCKYEAR_RESTRICT window);

#ifdef __cplusplus
}
#endif

#endif
