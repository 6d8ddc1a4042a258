#include "judge.h"

#include <openssl/evp.h>
#include <stdio.h>
#include <stdlib.h>
#include <string.h>

enum { MAX_BALLOTS = 4096, MAX_M = 12, DICE = 30, SEED = 86 };
enum { COMMITMENT = 32, OPENING = 36, PLACED = OPENING + 10, OF_BALLOT = 255 };
enum { RATE_224 = 144, RATE_256 = 136 };
enum { PARAMETERS = 0x01, NUMBERED_PARAMETERS = 0x0C, ELECTION = 4 };

enum refusal {
    STOPS = 1,
    NOT_DUE,
    LIMITS,
    OPERAND,
    ID,
    DICE_BYTE,
    MASK_SHAPE,
    MASK_DRAWN,
    POSITION,
    NUMBER,
    SIDE,
    SIDE_DRAWN,
    WRONG_OPENING,
    HALVES,
    VOTE_FALLS,
    OPENED_LIST,
    BEHIND,
    COPIED = 21
};

#define TRY(step)                                                                                  \
    do {                                                                                           \
        int number = (step);                                                                       \
        if (number != 0) return number;                                                            \
    } while (0)

#define DEMAND(kept, number)                                                                       \
    do {                                                                                           \
        if (!(kept)) return number;                                                                \
    } while (0)

static EVP_MD *sha3_224, *sha3_256;
static EVP_MD_CTX *hashing, *prefix;

/* Those of a judging: a digest takes one for each whole block and one for the padded rest. */
static uint64_t permutations;

static int rates_stand(void) {
    return EVP_MD_get_block_size(sha3_224) == RATE_224 &&
           EVP_MD_get_block_size(sha3_256) == RATE_256;
}

int judge_start(void) {
    sha3_224 = EVP_MD_fetch(NULL, "SHA3-224", NULL);
    sha3_256 = EVP_MD_fetch(NULL, "SHA3-256", NULL);
    hashing = EVP_MD_CTX_new();
    prefix = EVP_MD_CTX_new();
    return sha3_224 && sha3_256 && hashing && prefix && rates_stand();
}

void judge_stop(void) {
    EVP_MD_CTX_free(hashing);
    EVP_MD_CTX_free(prefix);
    EVP_MD_free(sha3_224);
    EVP_MD_free(sha3_256);
}

static void check(int done) {
    if (!done) {
        fprintf(stderr, "OpenSSL refuses\n");
        abort();
    }
}

static void hash(const EVP_MD *md, size_t rate, const uint8_t *m, size_t length, uint8_t *out) {
    permutations += length / rate + 1;
    check(EVP_DigestInit_ex(hashing, md, NULL));
    check(EVP_DigestUpdate(hashing, m, length));
    check(EVP_DigestFinal_ex(hashing, out, NULL));
}

/* A record being read: the places of the next command, of the one read last, of the first ballot.
 * With command 01 there is no number of an election. */
struct board {
    const uint8_t *record, *election;
    size_t length, next, place, hashed, first_ballot;
    int drawn;
    uint32_t modulus, n, m, mask;
    uint32_t compared[MAX_M], opened[MAX_M];
    char seed[SEED];
    uint32_t votes[MAX_BALLOTS];
};

static uint32_t number_at(const uint8_t *bytes, int width) {
    uint32_t value = 0;
    for (int i = 0; i < width; i++) {
        value = value << 8 | bytes[i];
    }
    return value;
}

static int command(struct board *b, uint8_t code, size_t width, const uint8_t **operands) {
    b->place = b->next;
    size_t left = b->length - b->next;
    DEMAND(left > 0, STOPS);
    DEMAND(b->record[b->place] == code, NOT_DUE);
    DEMAND(left - 1 >= width, STOPS);
    *operands = b->record + b->place + 1;
    b->next += 1 + width;
    return 0;
}

static const uint8_t *ballot_commitments(const struct board *b, uint32_t ballot) {
    return b->record + b->first_ballot + 197 * (size_t)ballot + 5;
}

static const uint8_t *entry_commitments(const struct board *b, uint32_t list, uint32_t position) {
    size_t entry = (size_t)list * b->n + position;
    return b->record + b->first_ballot + 197 * (size_t)b->n + 196 * entry + 4;
}

/* The operands of the link of this ballot in the compared list of this rank. */
static const uint8_t *link_operands(const struct board *b, uint32_t rank, uint32_t ballot) {
    size_t first_dice = b->first_ballot + 197 * (size_t)b->n + 392 * (size_t)b->m * b->n;
    return b->record + first_dice + 35 + 10 * ((size_t)rank * b->n + ballot) + 1;
}

/* The SHA3-224 of all bytes before the last command; what was hashed before is not hashed again. */
static void hash_prefix(struct board *b, uint8_t digest[28]) {
    if (b->hashed == 0) {
        check(EVP_DigestInit_ex(prefix, sha3_224, NULL));
    }
    permutations += b->place / RATE_224 - b->hashed / RATE_224 + 1;
    check(EVP_DigestUpdate(prefix, b->record + b->hashed, b->place - b->hashed));
    b->hashed = b->place;
    check(EVP_MD_CTX_copy_ex(hashing, prefix));
    check(EVP_DigestFinal_ex(hashing, digest, NULL));
}

/* Q: the dice and the digits of the prefix's digest. */
static void make_seed(struct board *b, const uint8_t *dice) {
    static const char digits[] = "0123456789abcdef";
    uint8_t digest[28];
    hash_prefix(b, digest);
    memcpy(b->seed, dice, DICE);
    for (int i = 0; i < 28; i++) {
        b->seed[DICE + 2 * i] = digits[digest[i] >> 4];
        b->seed[DICE + 2 * i + 1] = digits[digest[i] & 15];
    }
}

/* SHA3-224 of the number in decimal, Q, and the last character. */
static void draw(const struct board *b, uint32_t number, char last, uint8_t digest[28]) {
    char text[12 + SEED];
    int length = snprintf(text, 12, "%u", number);
    memcpy(text + length, b->seed, SEED);
    text[length + SEED] = last;
    hash(sha3_224, RATE_224, (const uint8_t *)text, (size_t)length + SEED + 1, digest);
}

static uint32_t drawn_mask(const struct board *b) {
    uint32_t mask = 0, remaining = b->m;
    for (uint32_t list = 0; list < 2 * b->m; list++) {
        uint8_t digest[28];
        draw(b, list, '2', digest);
        uint64_t h = (uint64_t)number_at(digest, 4) << 32 | number_at(digest + 4, 4);
        if (h % (2 * b->m - list) < remaining) {
            mask |= (uint32_t)1 << list;
            remaining--;
        }
    }
    return mask;
}

static uint8_t drawn_side(const struct board *b, uint32_t ballot) {
    uint8_t digest[28];
    draw(b, ballot + 1, '1', digest);
    return digest[27] & 1;
}

static int dice_fair(const uint8_t *dice) {
    for (int i = 0; i < DICE; i++) {
        if (dice[i] < '1' || dice[i] > '6') return 0;
    }
    return 1;
}

static int mask_stands(uint32_t m, uint32_t mask) {
    return (uint32_t)__builtin_popcount(mask) == m && mask >> (2 * m) == 0;
}

static int below_modulus(const struct board *b, const uint8_t *openings, int count) {
    for (int i = 0; i < count; i++) {
        if (number_at(openings + OPENING * i + 32, 4) >= b->modulus) return 0;
    }
    return 1;
}

/* Whose six commitments are opened: those of a ballot, by its id, or of a list, by the position. */
struct holder {
    const uint8_t *commitments;
    uint8_t list;
    uint32_t index;
};

static struct holder ballot_of(const struct board *b, uint32_t ballot) {
    const uint8_t *commitments = ballot_commitments(b, ballot);
    return (struct holder){commitments, OF_BALLOT, number_at(commitments - 4, 4)};
}

static struct holder entry_of(const struct board *b, uint32_t list, uint32_t position) {
    return (struct holder){entry_commitments(b, list, position), (uint8_t)list, position};
}

/* With an election's number it and the place are hashed behind the opening. */
static void commit(const struct board *b, const uint8_t *opening, const struct holder *of,
                   uint8_t slot, uint8_t digest[32]) {
    if (b->election == NULL) {
        hash(sha3_256, RATE_256, opening, OPENING, digest);
        return;
    }
    uint8_t message[PLACED];
    const uint8_t place[] = {slot,
                             of->list,
                             (uint8_t)(of->index >> 24),
                             (uint8_t)(of->index >> 16),
                             (uint8_t)(of->index >> 8),
                             (uint8_t)of->index};
    memcpy(message, opening, OPENING);
    memcpy(message + OPENING, b->election, ELECTION);
    memcpy(message + OPENING + ELECTION, place, sizeof place);
    hash(sha3_256, RATE_256, message, PLACED, digest);
}

/* Each opening against the commitment `step` slots behind the one before. */
static int openings_give(const struct board *b, const uint8_t *openings, int count,
                         struct holder of, int first, int step) {
    for (int i = 0; i < count; i++) {
        int slot = first + step * i;
        uint8_t digest[32];
        commit(b, openings + OPENING * i, &of, (uint8_t)slot, digest);
        if (memcmp(digest, of.commitments + COMMITMENT * slot, COMMITMENT) != 0) return 0;
    }
    return 1;
}

static uint32_t sum(const struct board *b, const uint8_t *openings, int count) {
    uint64_t total = 0;
    for (int i = 0; i < count; i++) {
        total += number_at(openings + OPENING * i + 32, 4);
    }
    return (uint32_t)(total % b->modulus);
}

/* In either form: one has the election's number before M, n and m. */
static int parameters(struct board *b) {
    const uint8_t *operands;
    if (b->length > 0 && b->record[0] == NUMBERED_PARAMETERS) {
        TRY(command(b, NUMBERED_PARAMETERS, ELECTION + 7, &operands));
        b->election = operands;
        operands += ELECTION;
    } else {
        TRY(command(b, PARAMETERS, 7, &operands));
    }
    b->first_ballot = b->next;
    b->modulus = number_at(operands, 4);
    b->n = number_at(operands + 4, 2);
    b->m = operands[6];
    DEMAND(b->modulus >= 2, LIMITS);
    DEMAND(b->n >= 1 && b->n <= MAX_BALLOTS, LIMITS);
    DEMAND(b->m >= 1 && b->m <= MAX_M, LIMITS);
    return 0;
}

/* How many are whole, with rising ids: all of them, or those before the fault that is answered. */
static int read_ballots(struct board *b, uint32_t *whole) {
    uint32_t before = 0;
    for (*whole = 0; *whole < b->n; ++*whole) {
        const uint8_t *operands;
        TRY(command(b, 0x02, 196, &operands));
        uint32_t id = number_at(operands, 4);
        DEMAND(*whole == 0 || id > before, ID);
        before = id;
    }
    return 0;
}

/* A commitment and whose it is. */
struct committed {
    const uint8_t *commitment;
    uint32_t ballot;
};

/* By the bytes, equal ones by their ballots. */
static int by_commitment(const void *a, const void *b) {
    const struct committed *x = a, *y = b;
    int order = memcmp(x->commitment, y->commitment, COMMITMENT);
    return order != 0 ? order : (x->ballot > y->ballot) - (x->ballot < y->ballot);
}

/* The first ballot, of so many, that has a commitment of an earlier one; if none has, their number.
 * Equal ones stand together, ballots rising: a copy is where another ballot follows. */
static uint32_t first_copying(const struct board *b, uint32_t whole) {
    static struct committed sorted[6 * MAX_BALLOTS];
    size_t count = 6 * (size_t)whole;
    for (size_t i = 0; i < count; i++) {
        uint32_t ballot = (uint32_t)(i / 6);
        const uint8_t *commitment = ballot_commitments(b, ballot) + COMMITMENT * (i % 6);
        sorted[i] = (struct committed){commitment, ballot};
    }
    qsort(sorted, count, sizeof *sorted, by_commitment);
    uint32_t first = whole;
    for (size_t i = 1; i < count; i++) {
        const struct committed *one = &sorted[i - 1], *next = &sorted[i];
        if (next->ballot >= first || next->ballot == one->ballot) continue;
        if (memcmp(one->commitment, next->commitment, COMMITMENT) == 0) first = next->ballot;
    }
    return first;
}

/* A copy goes before the fault that ended the reading, which is further on. */
static int ballots(struct board *b) {
    uint32_t whole;
    int number = read_ballots(b, &whole);
    uint32_t copying = first_copying(b, whole);
    if (copying == whole) return number;
    b->place = b->first_ballot + 197 * (size_t)copying;
    return COPIED;
}

static int lists(struct board *b) {
    for (uint32_t list = 0; list < 2 * b->m; list++) {
        for (uint32_t position = 0; position < b->n; position++) {
            const uint8_t *operands;
            TRY(command(b, 0x03, 195, &operands));
            DEMAND(operands[0] == list && number_at(operands + 1, 2) == position, OPERAND);
        }
    }
    return 0;
}

static void sort_out_lists(struct board *b) {
    uint32_t compared = 0, opened = 0;
    for (uint32_t list = 0; list < 2 * b->m; list++) {
        if (b->mask >> list & 1) {
            b->compared[compared++] = list;
        } else {
            b->opened[opened++] = list;
        }
    }
}

static int first_dice(struct board *b) {
    const uint8_t *operands;
    TRY(command(b, 0x04, 34, &operands));
    b->mask = number_at(operands + DICE, 4);
    DEMAND(dice_fair(operands), DICE_BYTE);
    DEMAND(mask_stands(b->m, b->mask), MASK_SHAPE);
    if (b->drawn) {
        make_seed(b, operands);
        DEMAND(b->mask == drawn_mask(b), MASK_DRAWN);
    }
    sort_out_lists(b);
    return 0;
}

static int links_of_list(struct board *b, uint32_t list) {
    uint8_t taken[MAX_BALLOTS] = {0};
    for (uint32_t ballot = 0; ballot < b->n; ballot++) {
        const uint8_t *operands;
        TRY(command(b, 0x05, 9, &operands));
        uint32_t position = number_at(operands + 3, 2);
        DEMAND(operands[0] == list && number_at(operands + 1, 2) == ballot, OPERAND);
        DEMAND(position < b->n && !taken[position], POSITION);
        DEMAND(number_at(operands + 5, 4) < b->modulus, NUMBER);
        taken[position] = 1;
    }
    return 0;
}

static int links(struct board *b) {
    for (uint32_t rank = 0; rank < b->m; rank++) {
        TRY(links_of_list(b, b->compared[rank]));
    }
    return 0;
}

static int second_dice(struct board *b) {
    const uint8_t *operands;
    TRY(command(b, 0x06, DICE, &operands));
    DEMAND(dice_fair(operands), DICE_BYTE);
    if (b->drawn) {
        make_seed(b, operands);
    }
    return 0;
}

static int ballot_half(struct board *b, uint32_t ballot, uint8_t *side, uint32_t *total) {
    const uint8_t *operands;
    TRY(command(b, 0x07, 111, &operands));
    const uint8_t *openings = operands + 3;
    *side = operands[2];
    DEMAND(number_at(operands, 2) == ballot, OPERAND);
    DEMAND(below_modulus(b, openings, 3), NUMBER);
    DEMAND(*side <= 1, SIDE);
    DEMAND(!b->drawn || *side == drawn_side(b, ballot), SIDE_DRAWN);
    DEMAND(openings_give(b, openings, 3, ballot_of(b, ballot), *side, 2), WRONG_OPENING);
    *total = sum(b, openings, 3);
    return 0;
}

/* Side 0 adds t, side 1 subtracts it. */
static int agrees(const struct board *b, uint8_t side, uint32_t ballot, uint32_t list, uint32_t t) {
    uint64_t moved = (uint64_t)list + (side == 0 ? t : b->modulus - t);
    return moved % b->modulus == ballot;
}

static int list_half(struct board *b, uint32_t rank, uint32_t ballot, uint8_t side,
                     uint32_t total) {
    const uint8_t *operands;
    TRY(command(b, 0x08, 111, &operands));
    const uint8_t *openings = operands + 3, *link = link_operands(b, rank, ballot);
    uint32_t list = b->compared[rank];
    uint32_t position = number_at(link + 3, 2), t = number_at(link + 5, 4);
    DEMAND(operands[0] == list && number_at(operands + 1, 2) == position, OPERAND);
    DEMAND(below_modulus(b, openings, 3), NUMBER);
    DEMAND(openings_give(b, openings, 3, entry_of(b, list, position), side, 2), WRONG_OPENING);
    DEMAND(agrees(b, side, total, sum(b, openings, 3), t), HALVES);
    return 0;
}

static int halves(struct board *b) {
    for (uint32_t ballot = 0; ballot < b->n; ballot++) {
        uint8_t side;
        uint32_t total;
        TRY(ballot_half(b, ballot, &side, &total));
        for (uint32_t rank = 0; rank < b->m; rank++) {
            TRY(list_half(b, rank, ballot, side, total));
        }
    }
    return 0;
}

static int votes(struct board *b) {
    for (uint32_t index = 0; index < b->n; index++) {
        const uint8_t *operands;
        TRY(command(b, 0x09, 6, &operands));
        uint32_t vote = number_at(operands + 2, 4);
        DEMAND(number_at(operands, 2) == index, OPERAND);
        DEMAND(vote < b->modulus, NUMBER);
        DEMAND(index == 0 || vote >= b->votes[index - 1], VOTE_FALLS);
        b->votes[index] = vote;
    }
    return 0;
}

static int by_value(const void *a, const void *b) {
    uint32_t x = *(const uint32_t *)a, y = *(const uint32_t *)b;
    return (x > y) - (x < y);
}

static int permutes_votes(const struct board *b, uint32_t *values) {
    qsort(values, b->n, sizeof *values, by_value);
    return memcmp(values, b->votes, b->n * sizeof *values) == 0;
}

static int opened_list(struct board *b, uint32_t list) {
    uint32_t values[MAX_BALLOTS];
    for (uint32_t position = 0; position < b->n; position++) {
        const uint8_t *operands;
        TRY(command(b, 0x0A, 219, &operands));
        const uint8_t *openings = operands + 3;
        DEMAND(operands[0] == list && number_at(operands + 1, 2) == position, OPERAND);
        DEMAND(below_modulus(b, openings, 6), NUMBER);
        DEMAND(openings_give(b, openings, 6, entry_of(b, list, position), 0, 1), WRONG_OPENING);
        values[position] = sum(b, openings, 6);
    }
    DEMAND(permutes_votes(b, values), OPENED_LIST);
    return 0;
}

static int opened_lists(struct board *b) {
    for (uint32_t rank = 0; rank < b->m; rank++) {
        TRY(opened_list(b, b->opened[rank]));
    }
    return 0;
}

static int end(struct board *b) {
    const uint8_t *operands;
    TRY(command(b, 0x0B, 0, &operands));
    b->place = b->next;
    DEMAND(b->next == b->length, BEHIND);
    return 0;
}

static int judge_board(struct board *b) {
    TRY(parameters(b));
    TRY(ballots(b));
    TRY(lists(b));
    TRY(first_dice(b));
    TRY(links(b));
    TRY(second_dice(b));
    TRY(halves(b));
    TRY(votes(b));
    TRY(opened_lists(b));
    return end(b);
}

int judge(const uint8_t *record, size_t length, int drawn, size_t *place) {
    struct board b = {.record = record, .length = length, .drawn = drawn};
    permutations = 0;
    int number = judge_board(&b);
    *place = number == 0 ? 0 : b.place;
    return number;
}

uint64_t judge_permutations(void) { return permutations; }
