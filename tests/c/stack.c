/* Shows that each call keeps to its bound of include/paddockyear.h, with as many ballots, lists and holidays as there may be: by what it
 * touches of a painted stack, and by a run on a thread that has so much stack and no more. Those that write or read a record do so in both
 * forms. The figures go to standard error; a call that touches more is printed as such, which makes the output another than due, and a
 * thread that needs more ends the program by a signal. */

#include "paddockyear.h"
#include "support.h"

#include <pthread.h>
#include <signal.h>
#include <stdio.h>
#include <sys/resource.h>
#include <sys/wait.h>
#include <unistd.h>

enum { MODULUS = 1000003, BALLOTS = PADDOCKYEAR_MOST_BALLOTS, COMPARED = PADDOCKYEAR_MOST_COMPARED, KIB = 1024 };
enum { DAYS = 73049 }; /* from 2000 to 2199 */

#define LENGTH(array) (sizeof(array) / sizeof((array)[0]))
#define LENT(array) (array), LENGTH(array)

static uint32_t ids[BALLOTS], votes[BALLOTS], numbers[PADDOCKYEAR_NUMBERS_LENGTH(BALLOTS, COMPARED)];
static uint16_t permutations[PADDOCKYEAR_PERMUTATIONS_LENGTH(BALLOTS, COMPARED)];
static uint8_t keys[PADDOCKYEAR_KEYS_LENGTH(BALLOTS, COMPARED)], dice[PADDOCKYEAR_DICE_LENGTH], sides[BALLOTS];
static uint8_t one[PADDOCKYEAR_PART_ONE_LENGTH(1, BALLOTS, COMPARED)], two[PADDOCKYEAR_PART_TWO_LENGTH(BALLOTS, COMPARED)];
static uint8_t three[PADDOCKYEAR_PART_THREE_LENGTH(BALLOTS, COMPARED)], joined[PADDOCKYEAR_RECORD_LENGTH(1, BALLOTS, COMPARED)];

static struct paddockyear_inputs in = {
    1, UINT32_MAX, MODULUS, BALLOTS, COMPARED, LENT(ids), LENT(votes), LENT(numbers), LENT(permutations), LENT(keys)};
static struct paddockyear_throws throws = {LENT(dice), LENT(dice), 0, 0, 0, LENT(sides)};
static struct paddockyear_parts parts = {LENT(one), LENT(two), LENT(three), LENT(joined)};

static uint8_t command[PADDOCKYEAR_COMMAND_LENGTH], receipt[PADDOCKYEAR_RECEIPT_LENGTH], digest[32];
static uint32_t out[BALLOTS], values[BALLOTS], answer;
static uint64_t counts[BALLOTS];
static uint64_t lanes[25], place, pairs, blank, spoiled;
static uint32_t winner;
static struct paddockyear_candidate table[PADDOCKYEAR_MOST_CANDIDATES];
static uint32_t holidays[DAYS], window;
static struct paddockyear_windows windows;

static void keccak_f(void) { paddockyear_keccak_f(lanes), answer = 0; }
static void sha3_224(void) { paddockyear_sha3_224(LENT(keys), digest), answer = 0; }
static void sha3_256(void) { paddockyear_sha3_256(LENT(keys), digest), answer = 0; }
static void sha3_224_parts(void) { paddockyear_sha3_224_parts(LENT(keys), LENT(dice), LENT(keys), digest), answer = 0; }
static void sha3_256_parts(void) { paddockyear_sha3_256_parts(LENT(keys), LENT(dice), LENT(keys), digest), answer = 0; }
static void tablet(void) {
    answer = paddockyear_tablet(in.numbered, in.election, MODULUS, 5, 4, 3, 2, 1, 2, 3, keys, PADDOCKYEAR_BALLOT_KEYS_LENGTH, LENT(command),
                                LENT(receipt));
}
static void row_server(void) {
    answer = paddockyear_row_server(MODULUS, BALLOTS, numbers, BALLOTS, numbers, BALLOTS, permutations, BALLOTS, LENT(out));
}
static void third_row_offsets(void) {
    answer = paddockyear_third_row_offsets(MODULUS, BALLOTS, numbers, BALLOTS, numbers, BALLOTS, LENT(out));
}
static void split(void) { answer = paddockyear_split(MODULUS, BALLOTS, numbers, BALLOTS, numbers, BALLOTS, LENT(out)); }
static void part_one(void) { answer = paddockyear_write_one(&in, &parts); }
static void part_two_drawn(void) { answer = paddockyear_write_two_drawn(&in, &throws, &parts); }
static void draw_mask(void) { answer = paddockyear_drawn_mask(&in, &throws, &parts, &throws.mask); }
static void part_two(void) { answer = paddockyear_write_two(&in, &throws, &parts); }
static void part_three_drawn(void) { answer = paddockyear_write_three_drawn(&in, &throws, &parts); }
static void part_three(void) { answer = paddockyear_write_three(&in, &throws, &parts); }
static void election(void) { answer = paddockyear_hold(&in, &throws, &parts); }
static void judge_plainly(void) { answer = paddockyear_judge_plainly(joined, parts.joined_length); }
static void judge_as_drawn(void) { answer = paddockyear_judge_as_drawn(joined, parts.joined_length); }
static void first_fault(void) { answer = paddockyear_first_fault(joined, parts.joined_length, 1, &place); }
static void check_receipt(void) { answer = paddockyear_check_receipt(joined, parts.joined_length, LENT(receipt)) == 101 ? 0 : 1; }
static void look_up(void) { answer = paddockyear_look_up(joined, parts.joined_length, LENT(receipt)) == 101 ? 0 : 1; }
static void announced_votes(void) { answer = paddockyear_announced_votes(joined, parts.joined_length, LENT(out)); }
static void tally(void) { answer = paddockyear_tally(LENT(out), LENT(values), LENT(counts), &pairs); }
static void runoff(void) {
    answer = paddockyear_runoff(LENT(votes), PADDOCKYEAR_MOST_CANDIDATES, LENT(table), &winner, &blank, &spoiled);
}
static void calendar(void) { answer = paddockyear_calendar(2000, 1, 1, LENT(holidays), &windows); }
static void window_at(void) { answer = paddockyear_window_at(2000, 1, 1, LENT(holidays), 0, &window); }

struct row {
    const char *name;
    void (*call)(void);
    size_t most;
};

#define ROW(call, most) {#call, call, most}

/* In an order in which each call finds what it needs. */
static const struct row with_record[] = {
    ROW(tablet, PADDOCKYEAR_STACK),
    ROW(part_one, PADDOCKYEAR_STACK_WRITING),
    ROW(part_two_drawn, PADDOCKYEAR_STACK_WRITING),
    ROW(draw_mask, PADDOCKYEAR_STACK),
    ROW(part_two, PADDOCKYEAR_STACK_WRITING),
    ROW(part_three_drawn, PADDOCKYEAR_STACK_WRITING),
    ROW(part_three, PADDOCKYEAR_STACK_WRITING),
    ROW(election, PADDOCKYEAR_STACK_WRITING),
    ROW(judge_plainly, PADDOCKYEAR_STACK_JUDGING),
    ROW(judge_as_drawn, PADDOCKYEAR_STACK_JUDGING),
    ROW(first_fault, PADDOCKYEAR_STACK_JUDGING),
    ROW(check_receipt, PADDOCKYEAR_STACK),
    ROW(look_up, PADDOCKYEAR_STACK),
    ROW(announced_votes, PADDOCKYEAR_STACK_JUDGING),
};

/* The tally is of the votes that were announced last. */
static const struct row without_record[] = {
    ROW(keccak_f, PADDOCKYEAR_STACK),
    ROW(sha3_224, PADDOCKYEAR_STACK),
    ROW(sha3_256, PADDOCKYEAR_STACK),
    ROW(sha3_224_parts, PADDOCKYEAR_STACK),
    ROW(sha3_256_parts, PADDOCKYEAR_STACK),
    ROW(row_server, PADDOCKYEAR_STACK),
    ROW(third_row_offsets, PADDOCKYEAR_STACK),
    ROW(split, PADDOCKYEAR_STACK),
    ROW(tally, PADDOCKYEAR_STACK),
    ROW(runoff, PADDOCKYEAR_STACK),
    ROW(calendar, PADDOCKYEAR_STACK),
    ROW(window_at, PADDOCKYEAR_STACK),
};

/* With less than they need, which shows that a thread has no more than it is given. */
static const struct row starved[] = {ROW(row_server, 1 * KIB), ROW(judge_as_drawn, 32 * KIB), ROW(election, 32 * KIB)};

/* Every ballot has keys of its own, or it would be refused as a copy. */
static void fill_keys(void) {
    uint32_t state = 1;
    for (size_t i = 0; i < LENGTH(keys); i++) {
        state = state * 1664525 + 1013904223;
        keys[i] = (uint8_t)(state >> 24);
    }
}

/* Every day that exists. A calendar of a day by itself says whether it does. */
static void fill_holidays(void) {
    size_t count = 0;
    for (uint32_t date = 20000101; date <= 21991231; date++)
        if (paddockyear_calendar(date / 10000, date / 100 % 100, date % 100, NULL, 0, &windows) == 0) {
            demand(count < DAYS, "too many days");
            holidays[count++] = date;
        }
    demand(count == DAYS, "too few days");
}

static void fill(void) {
    for (size_t i = 0; i < BALLOTS; i++) ids[i] = (uint32_t)i, votes[i] = (uint32_t)i % 7;
    for (size_t i = 0; i < LENGTH(numbers); i++) numbers[i] = (uint32_t)(i * i) % MODULUS;
    for (size_t i = 0; i < LENGTH(permutations); i++) permutations[i] = (uint16_t)((5 * i + i / BALLOTS) % BALLOTS);
    fill_keys();
    fill_holidays();
    for (size_t i = 0; i < LENGTH(dice); i++) dice[i] = (uint8_t)('1' + i % 6);
}

/* ---- threads */

enum { MOST_STACK = 1024 * KIB, ALIGNMENT = 64 };

static uint8_t *stack, *frame;
static size_t taken;

static void note_frame(void) { frame = __builtin_frame_address(0); }

static void *start(void *row) {
    ((const struct row *)row)->call();
    return NULL;
}

/* Runs a call on a thread that has this many bytes of stack, the lowest ones, down to the region that nobody may touch. A thread must be
 * told of 16 KiB or so at least; where that is more, it is told of a piece of that region too, of which it can use nothing. */
static void run_on_thread(const struct row *row, size_t bytes) {
    size_t least = (size_t)sysconf(_SC_THREAD_STACK_MIN), told = bytes < least ? least : bytes;
    pthread_attr_t attributes;
    pthread_t thread;
    int failed = pthread_attr_init(&attributes) || pthread_attr_setstack(&attributes, stack + bytes - told, told) ||
                 pthread_create(&thread, &attributes, start, (void *)row) || pthread_join(thread, NULL);
    demand(!failed, "no thread");
    pthread_attr_destroy(&attributes);
}

/* What a thread has taken of its stack when it calls, for its record and its first frames: given on top of a call's bound, so that the call
 * itself has that bound and no more. Rounded as the record is aligned. */
static void measure_taken(void) {
    static const struct row noting = ROW(note_frame, MOST_STACK);
    stack = guarded(MOST_STACK);
    run_on_thread(&noting, noting.most);
    size_t bytes = (size_t)(stack + noting.most - frame);
    taken = (bytes + ALIGNMENT - 1) / ALIGNMENT * ALIGNMENT;
    fprintf(stderr, "%-18s %6zu bytes of stack\n", "thread", taken);
}

/* Whether a call ends a process of its own by touching what it may not. */
static int is_ended(const struct row *row) {
    const struct rlimit no_core = {0, 0};
    int status;
    pid_t child = fork();
    demand(child >= 0, "no process");
    if (child == 0) {
        setrlimit(RLIMIT_CORE, &no_core);
        run_on_thread(row, row->most + taken);
        _exit(0);
    }
    demand(waitpid(child, &status, 0) == child, "no process");
    return WIFSIGNALED(status) && WTERMSIG(status) == SIGSEGV;
}

/* ---- both */

/* Written out before the thread runs, so that the call which ends the program is seen. */
static void show(const struct row *row) {
    answer = 1;
    size_t bytes = stack_of(row->call);
    fprintf(stderr, "%-18s %6zu bytes of stack\n", row->name, bytes);
    demand(answer == 0, "a call is refused");
    printf("%s: %s its bound", row->name, bytes <= row->most ? "within" : "ABOVE");
    fflush(stdout);
    answer = 1;
    run_on_thread(row, row->most + taken);
    demand(answer == 0, "a call on a thread is refused");
    printf(", runs on a stack of %zu KiB\n", row->most / KIB);
}

static void show_starved(const struct row *row) {
    printf("%s on a stack of %zu KiB: %s\n", row->name, row->most / KIB, is_ended(row) ? "ended by a signal" : "RUNS");
}

static void show_all(void (*show_one)(const struct row *), const struct row *all, size_t count) {
    for (size_t i = 0; i < count; i++) show_one(&all[i]);
}

static void show_form(uint32_t numbered, const char *command) {
    in.numbered = numbered;
    parts.one_length = PADDOCKYEAR_PART_ONE_LENGTH(numbered, BALLOTS, COMPARED);
    parts.joined_length = PADDOCKYEAR_RECORD_LENGTH(numbered, BALLOTS, COMPARED);
    printf("records with command %s\n", command);
    fprintf(stderr, "records with command %s\n", command);
    show_all(show, LENT(with_record));
}

int main(void) {
    fill();
    measure_taken();
    show_form(0, "01");
    show_form(1, "0C");
    printf("without a record\n");
    show_all(show, LENT(without_record));
    show_all(show_starved, LENT(starved));
    return 0;
}
