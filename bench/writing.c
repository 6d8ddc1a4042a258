/* Times of the product's writing of whole records, mask and sides drawn, in both forms, and of the
 * hashes alone that this takes, by the product's own SHA-3, taken in turn in one run: their ratio,
 * the same of each part, the ratio to the permutations alone at OpenSSL's speed, one form's time by
 * the other's, the growth from n to 2n and from the first n to the last, and the stack that the
 * calls use at the last. With KEYED_ROW the commitments are hashed by the function that writing
 * itself uses, else by the face of SHA3-256, which is slower. */

#include "hashing.h"
#include "inputs.h"
#include "judge.h"
#include "support.h"

#include <math.h>
#include <stdio.h>
#include <string.h>

#define AIM 1.06

enum { REPETITIONS = 16, PARTS = 3, SEED = 86, OPENING = 36, PLACED = OPENING + 10 };

/* Commitments of a ballot, and of it with an entry of each list. */
enum { OF_BALLOT = 6, COMMITMENTS = OF_BALLOT * (1 + LISTS) };

/* What is hashed alone: as many openings, each with number and place of a commitment with 0C, and a
 * message of the longest draw. */
static uint8_t openings[COMMITMENTS * MOST][PLACED], message[4 + SEED + 1];

struct times {
    double writing, hashing;
};

/* With the best time of one permutation of OpenSSL's. */
static struct board {
    struct election of;
    struct times part[PARTS];
    double openssl;
} boards[FORMS][SIZES];

/* The one that is written. */
static struct board *board;

static void make_boards(void) {
    const struct times none = {INFINITY, INFINITY};
    make_elections();
    fill(openings[0], sizeof openings, 0, 256);
    fill(message, sizeof message, '0', 10);
    for (int i = 0; i < FORMS * SIZES; i++) {
        int form = i / SIZES, size = i % SIZES;
        struct election of = lent_election(size, form);
        boards[form][size] = (struct board){of, {none, none, none}, INFINITY};
    }
}

static void write_one(void) {
    struct election *of = &board->of;
    demand(paddockyear_write_one(&of->in, &of->parts) == 0, "part one is refused");
}

static void write_two(void) {
    struct election *of = &board->of;
    uint32_t answer = paddockyear_write_two_drawn(&of->in, &of->throws, &of->parts);
    demand(answer == 0, "part two is refused");
}

/* By the mask that part two has, which need not be drawn again. */
static void write_three(void) {
    struct election *of = &board->of;
    const uint8_t *posted = of->parts.two + 1 + DICE;
    of->throws.mask = (uint32_t)posted[0] << 24 | (uint32_t)posted[1] << 16 |
                      (uint32_t)posted[2] << 8 | posted[3];
    uint32_t answer = paddockyear_write_three_drawn(&of->in, &of->throws, &of->parts);
    demand(answer == 0, "part three is refused");
}

static void write_all(void) {
    struct election *of = &board->of;
    uint32_t answer = paddockyear_hold(&of->in, &of->throws, &of->parts);
    demand(answer == 0, "the election is refused");
}

#ifdef KEYED_ROW

/* `sha3::keyed_row`, no face but a function inside the archive, which bench/run names so: one block
 * of SHA3-256 of a key and the two lanes behind it, of which the first four lanes are the digest. */
struct lent {
    const uint8_t *bytes;
    size_t length;
};
void keyed_row(uint64_t row[5], const struct lent *key, uint64_t low, uint64_t high);

/* What is behind the key is at most 14 bytes, and ends in the byte 06. */
static void hash_opening(const uint8_t *opening, size_t length, uint8_t digest[32]) {
    const struct lent key = {opening, 32};
    uint64_t row[5], low = 0, high = 0;
    if (length == OPENING) {
        memcpy(&low, opening + 32, 4);
        low |= (uint64_t)6 << 32;
    } else {
        memcpy(&low, opening + 32, 8);
        memcpy(&high, opening + 40, 6);
        high |= (uint64_t)6 << 48;
    }
    keyed_row(row, &key, low, high);
    memcpy(digest, row, 32);
}

#else

static void hash_opening(const uint8_t *opening, size_t length, uint8_t digest[32]) {
    paddockyear_sha3_256(opening, length, digest);
}

#endif

/* Both forms are hashed as the face does it, or their times mean nothing. */
static void check_hashing(void) {
    uint8_t ours[32], faces[32];
    for (size_t length = OPENING; length <= PLACED; length += PLACED - OPENING) {
        hash_opening(openings[0], length, ours);
        paddockyear_sha3_256(openings[0], length, faces);
        demand(memcmp(ours, faces, sizeof ours) == 0, "a commitment is hashed to something else");
    }
}

/* So many commitments for each ballot. */
static void hash_openings(size_t each) {
    uint8_t digest[32];
    size_t count = each * board->of.in.ballots, length = board->of.in.numbered ? PLACED : OPENING;
    for (size_t i = 0; i < count; i++) hash_opening(openings[i], length, digest);
}

/* The ballots' commitments, which each part makes for its test of copies, and then all that it
 * posts. */
static void hash_one(void) {
    hash_openings(OF_BALLOT);
    hash_openings(COMMITMENTS);
}

/* Of a number of up to four digits. */
static void hash_draw(uint32_t number) {
    size_t digits = 1 + (number > 9) + (number > 99) + (number > 999);
    uint8_t digest[28];
    paddockyear_sha3_224(message, digits + SEED + 1, digest);
}

/* The ballots' commitments, part one, and a draw for each list. */
static void hash_two(void) {
    const struct paddockyear_parts *lent = &board->of.parts;
    uint8_t digest[28];
    hash_openings(OF_BALLOT);
    paddockyear_sha3_224(lent->one, lent->one_length, digest);
    for (uint32_t list = 0; list < LISTS; list++) hash_draw(list);
}

/* The ballots' commitments, parts one and two, and a draw for each ballot. */
static void hash_three(void) {
    const struct paddockyear_parts *lent = &board->of.parts;
    uint8_t digest[28];
    hash_openings(OF_BALLOT);
    paddockyear_sha3_224_parts(lent->one, lent->one_length, lent->two, lent->two_length, message, 0,
                               digest);
    for (uint32_t ballot = 0; ballot < board->of.in.ballots; ballot++) hash_draw(ballot + 1);
}

static const struct part {
    const char *name;
    void (*write)(void), (*hash)(void);
} parts[PARTS] = {
    {"Part one", write_one, hash_one},
    {"Part two, drawn", write_two, hash_two},
    {"Part three, drawn", write_three, hash_three},
};

/* How often the three parts need Keccak-f[1600] by the papers: as above, a commitment or a draw
 * taking one call, and the hash of what is before a dice command one for each whole block of 144
 * bytes and one for its end. */
static uint64_t permutations_due(const struct board *of) {
    const struct paddockyear_parts *lent = &of->of.parts;
    uint64_t n = of->of.in.ballots, commitments = (PARTS * OF_BALLOT + COMMITMENTS) * n;
    uint64_t first = lent->one_length / 144 + 1;
    uint64_t second = (lent->one_length + lent->two_length) / 144 + 1;
    return commitments + first + LISTS + second + n;
}

static void time_board(void) {
    unsigned runs = MOST / board->of.in.ballots;
    unsigned rows = (unsigned)(permutations_due(board) * runs / ROW);
    board->openssl = smaller(openssl_permutation(rows), board->openssl);
    for (int i = 0; i < PARTS; i++) {
        struct times *best = &board->part[i];
        best->writing = smaller(time_each(parts[i].write, runs), best->writing);
        best->hashing = smaller(time_each(parts[i].hash, runs), best->hashing);
    }
}

/* The C judge accepts the three parts joined, or their times mean nothing. */
static void check_record(void) {
    const struct paddockyear_parts *lent = &board->of.parts;
    uint8_t *two = lent->joined + lent->one_length, *three = two + lent->two_length;
    size_t place;
    memcpy(lent->joined, lent->one, lent->one_length);
    memcpy(two, lent->two, lent->two_length);
    memcpy(three, lent->three, lent->three_length);
    demand(judge(lent->joined, lent->joined_length, 1, &place) == 0, "the C judge refuses");
}

/* The best of each board and part, all taken in turn, and each timing over as many ballots. */
static void time_boards(void) {
    for (int repetition = 0; repetition < REPETITIONS; repetition++) {
        for (int i = 0; i < FORMS * SIZES; i++) {
            board = &boards[i % FORMS][i / FORMS];
            time_board();
            if (repetition == 0) check_record();
        }
    }
}

static struct times whole(const struct board *of) {
    struct times sum = {0, 0};
    for (int i = 0; i < PARTS; i++) {
        sum.writing += of->part[i].writing;
        sum.hashing += of->part[i].hashing;
    }
    return sum;
}

static void print_times(const char *name, struct times best) {
    printf("%-30s ours %9.3f ms   hashes  %9.3f ms   ratio %.3f", name, 1e3 * best.writing,
           1e3 * best.hashing, best.writing / best.hashing);
}

static void print_board(int form, int size) {
    const struct board *of = &boards[form][size];
    char name[32];
    snprintf(name, sizeof name, "Writing %s, n = %4d, m = %d", first_command(form), LEAST << size,
             COMPARED);
    struct times sum = whole(of);
    print_times(name, sum);
    printf(" (aim: at most %.2f)\n", AIM);
    double calls = (double)permutations_due(of), theirs = calls * of->openssl;
    printf("The same                       ours %9.3f ms   %.0f permutations of OpenSSL %9.3f ms",
           1e3 * sum.writing, calls, 1e3 * theirs);
    printf("   ratio %.3f\n", sum.writing / theirs);
    for (int i = 0; i < PARTS; i++) {
        print_times(parts[i].name, of->part[i]);
        printf("\n");
    }
}

static void print_forms(int size) {
    struct times plain = whole(&boards[PLAIN][size]), numbered = whole(&boards[NUMBERED][size]);
    printf("0C over 01, n = %4d           ours %9.3f      hashes  %9.3f\n", LEAST << size,
           numbered.writing / plain.writing, numbered.hashing / plain.hashing);
}

static void print_growth(int form, int from, int to) {
    struct times before = whole(&boards[form][from]), after = whole(&boards[form][to]);
    printf("Growth %s from %4d to %4d    ours %9.3f      hashes  %9.3f\n", first_command(form),
           LEAST << from, LEAST << to, after.writing / before.writing,
           after.hashing / before.hashing);
}

static void print_growths(int form) {
    for (int size = 1; size < SIZES; size++) print_growth(form, size - 1, size);
    print_growth(form, 0, SIZES - 1);
}

static void print_stack(int form, const char *name, void (*run)(void)) {
    board = &boards[form][SIZES - 1];
    printf("%-20s %s, n = %d   stack %zu bytes (aim: at most %d)\n", name, first_command(form),
           MOST, stack_of(run), PADDOCKYEAR_STACK_WRITING);
}

static void print_stacks(int form) {
    for (int i = 0; i < PARTS; i++) print_stack(form, parts[i].name, parts[i].write);
    print_stack(form, "Election in one call", write_all);
}

static void print_all(void) {
    for (int form = 0; form < FORMS; form++) {
        for (int size = 0; size < SIZES; size++) print_board(form, size);
    }
    for (int size = 0; size < SIZES; size++) print_forms(size);
    for (int form = 0; form < FORMS; form++) print_growths(form);
    for (int form = 0; form < FORMS; form++) print_stacks(form);
}

int main(void) {
    demand(judge_start(), "no SHA-3 in OpenSSL");
    hashing_start();
    make_boards();
    check_hashing();
    time_boards();
    print_all();
    hashing_stop();
    judge_stop();
    return 0;
}
