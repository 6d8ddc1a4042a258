#include "inputs.h"

#define MODULUS UINT32_MAX
#define ELECTION 0x0C070102

/* An array as a lent slice: all of it, or as much as n ballots take. */
#define LENT(array) (array), sizeof(array) / sizeof((array)[0])
#define FIRST(kind, array) (array), PADDOCKYEAR_##kind##_LENGTH(n, COMPARED)
#define FIRST_OF(form, kind, array) (array), PADDOCKYEAR_##kind##_LENGTH(form, n, COMPARED)

/* Of what all elections share, the smaller ones take the first. */
static uint32_t ids[MOST], votes[SIZES][MOST], numbers[PADDOCKYEAR_NUMBERS_LENGTH(MOST, COMPARED)];
static uint16_t permutations[SIZES][PADDOCKYEAR_PERMUTATIONS_LENGTH(MOST, COMPARED)];
static uint8_t keys[PADDOCKYEAR_KEYS_LENGTH(MOST, COMPARED)];
static uint8_t first_dice[DICE], second_dice[DICE], no_sides[MOST];

static uint8_t one[PADDOCKYEAR_PART_ONE_LENGTH(NUMBERED, MOST, COMPARED)];
static uint8_t two[PADDOCKYEAR_PART_TWO_LENGTH(MOST, COMPARED)];
static uint8_t three[PADDOCKYEAR_PART_THREE_LENGTH(MOST, COMPARED)];
static uint8_t joined[PADDOCKYEAR_RECORD_LENGTH(NUMBERED, MOST, COMPARED)];

uint64_t below(uint64_t bound) {
    static uint64_t state = 70;
    uint64_t word = state += 0x9E3779B97F4A7C15;
    word = (word ^ word >> 30) * 0xBF58476D1CE4E5B9;
    word = (word ^ word >> 27) * 0x94D049BB133111EB;
    return (word ^ word >> 31) % bound;
}

void fill(uint8_t *bytes, size_t length, uint8_t least, uint32_t choices) {
    for (size_t i = 0; i < length; i++) bytes[i] = (uint8_t)(least + below(choices));
}

static void shuffle(uint16_t *permutation, uint32_t n) {
    for (uint32_t i = 0; i < n; i++) {
        uint32_t j = (uint32_t)below(i + 1);
        permutation[i] = permutation[j];
        permutation[j] = (uint16_t)i;
    }
}

static void make_own(int size, uint32_t n) {
    size_t places = PADDOCKYEAR_PERMUTATIONS_LENGTH(n, COMPARED);
    for (uint32_t j = 0; j < n; j++) votes[size][j] = (uint32_t)below(n / 2);
    for (size_t j = 0; j < places; j += n) shuffle(permutations[size] + j, n);
}

void make_elections(void) {
    for (uint32_t i = 0; i < MOST; i++) ids[i] = 3 * i;
    for (size_t i = 0; i < sizeof numbers / 4; i++) numbers[i] = (uint32_t)below(MODULUS);
    fill(keys, sizeof keys, 0, 256);
    fill(first_dice, DICE, '1', 6);
    fill(second_dice, DICE, '1', 6);
    for (int size = 0; size < SIZES; size++) make_own(size, LEAST << size);
}

struct election lent_election(int size, int form) {
    uint32_t n = LEAST << size;
    struct election of;
    of.in = (struct paddockyear_inputs){form, ELECTION, MODULUS, n, COMPARED, ids, n, votes[size],
                                        n, FIRST(NUMBERS, numbers),
                                        FIRST(PERMUTATIONS, permutations[size]), FIRST(KEYS, keys)};
    of.throws =
        (struct paddockyear_throws){LENT(first_dice), LENT(second_dice), 0, 0, 0, no_sides, n};
    of.parts = (struct paddockyear_parts){FIRST_OF(form, PART_ONE, one), FIRST(PART_TWO, two),
                                          FIRST(PART_THREE, three), FIRST_OF(form, RECORD, joined)};
    return of;
}

const char *first_command(int form) { return form == PLAIN ? "01" : "0C"; }
