/* The servers' first program: writes a record of three ballots to a file, throw by throw.
 *
 *     server RANDOM BOARD [ELECTION]          as in: server /dev/urandom my.board 7
 *
 * With the number of an election the record starts with command 0C and that number, without it with command 01. The dice come from standard
 * input, a line of 30 characters '1' to '6' for each throw. */

#include <inttypes.h>
#include <paddockyear.h>
#include <stdio.h>
#include <stdlib.h>
#include <string.h>

enum { MODULUS = 1000, BALLOTS = 3, COMPARED = 2 }; /* two lists are compared, two are opened */

#define LENT(array) (array), sizeof(array) / sizeof((array)[0])

/* What the tablets and the mix servers bring. A true election has ids, votes, x, y, u1, u2, u3 and the first keys from the tablets. */
static const uint32_t ids[BALLOTS] = {1001, 1002, 1005}, votes[BALLOTS] = {5, 2, 5};
static uint32_t numbers[PADDOCKYEAR_NUMBERS_LENGTH(BALLOTS, COMPARED)];
static uint16_t permutations[PADDOCKYEAR_PERMUTATIONS_LENGTH(BALLOTS, COMPARED)];
static uint8_t keys[PADDOCKYEAR_KEYS_LENGTH(BALLOTS, COMPARED)];

static uint8_t one[PADDOCKYEAR_PART_ONE_LENGTH(1, BALLOTS, COMPARED)]; /* with room for the election's number */
static uint8_t two[PADDOCKYEAR_PART_TWO_LENGTH(BALLOTS, COMPARED)];
static uint8_t three[PADDOCKYEAR_PART_THREE_LENGTH(BALLOTS, COMPARED)];

static void demand(int holds, const char *what) {
    if (holds) return;
    fprintf(stderr, "server: %s\n", what);
    exit(2);
}

/* A number below the bound, each as likely as the others. */
static uint32_t below(uint32_t bound, FILE *random) {
    uint32_t number;
    do {
        demand(fread(&number, sizeof number, 1, random) == 1, "too few random bytes");
    } while (number >= UINT32_MAX - UINT32_MAX % bound);
    return number % bound;
}

static void shuffle(uint16_t *permutation, FILE *random) {
    for (uint32_t i = 0; i < BALLOTS; i++) {
        uint32_t j = below(i + 1, random);
        permutation[i] = permutation[j];
        permutation[j] = (uint16_t)i;
    }
}

static void make_inputs(FILE *random) {
    for (size_t i = 0; i < sizeof numbers / sizeof *numbers; i++) numbers[i] = below(MODULUS, random);
    for (size_t i = 0; i < sizeof permutations / sizeof *permutations; i += BALLOTS) shuffle(permutations + i, random);
    demand(fread(keys, sizeof keys, 1, random) == 1, "too few random bytes");
}

/* Puts a part on the board. Where it was refused there is nothing to post, and the program ends. */
static void post(uint32_t answer, const char *name, const uint8_t *part, size_t length, FILE *board) {
    if (answer != PADDOCKYEAR_DONE) {
        printf("%s is not written: rule %" PRIu32 ", %s\n", name, answer, paddockyear_rule(answer));
        exit(1);
    }
    demand(fwrite(part, 1, length, board) == length && fflush(board) == 0, "the board cannot be written");
    printf("%s is posted, %zu bytes\n", name, length);
}

/* The election's number in decimal. */
static uint32_t read_election(const char *text) {
    char *end;
    unsigned long long number = strtoull(text, &end, 10);
    demand(text[0] >= '0' && text[0] <= '9' && *end == '\0' && number <= UINT32_MAX, "the election has no such number");
    return (uint32_t)number;
}

/* A line of dice; how many there are, and whether they are dice, is the library's to say. */
static size_t read_dice(char *line, size_t room) {
    demand(fgets(line, (int)room, stdin) != NULL, "no dice");
    return strcspn(line, "\n");
}

int main(int argc, char **argv) {
    uint32_t numbered = argc == 4, election = numbered ? read_election(argv[3]) : 0;
    size_t one_length = PADDOCKYEAR_PART_ONE_LENGTH(numbered, BALLOTS, COMPARED);
    struct paddockyear_inputs in = {numbered,      election,           MODULUS,   BALLOTS, COMPARED, LENT(ids), LENT(votes),
                                    LENT(numbers), LENT(permutations), LENT(keys)};
    struct paddockyear_parts parts = {one, one_length, LENT(two), LENT(three), NULL, 0};
    struct paddockyear_throws throws = {0};
    char first[80], second[80];
    demand(argc == 3 || argc == 4, "usage: server RANDOM BOARD [ELECTION]");
    FILE *random = fopen(argv[1], "rb"), *board = fopen(argv[2], "wb");
    demand(random != NULL && board != NULL, "a file cannot be opened");
    make_inputs(random);

    post(paddockyear_write_one(&in, &parts), "part one", one, one_length, board);

    throws.first_dice_length = read_dice(first, sizeof first);
    throws.first_dice = (const uint8_t *)first;
    post(paddockyear_write_two_drawn(&in, &throws, &parts), "part two", LENT(two), board);

    /* Part three wants the mask that part two drew. */
    demand(paddockyear_drawn_mask(&in, &throws, &parts, &throws.mask) == PADDOCKYEAR_DONE, "no mask is drawn");
    for (uint32_t list = 0; list < 2 * COMPARED; list++)
        printf("list %" PRIu32 " will be %s\n", list, throws.mask >> list & 1 ? "compared" : "opened");

    throws.second_dice_length = read_dice(second, sizeof second);
    throws.second_dice = (const uint8_t *)second;
    post(paddockyear_write_three_drawn(&in, &throws, &parts), "part three", LENT(three), board);
    return 0;
}
