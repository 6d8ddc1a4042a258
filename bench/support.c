#include "support.h"

#include <stdio.h>
#include <stdlib.h>
#include <string.h>
#include <sys/mman.h>
#include <time.h>
#include <ucontext.h>

enum { STACK = 16 << 20, GUARD = 1 << 20, PAINT = 0xA5 };

void demand(int holds, const char *what) {
    if (!holds) {
        fprintf(stderr, "%s\n", what);
        exit(1);
    }
}

double seconds(void) {
    struct timespec now;
    clock_gettime(CLOCK_THREAD_CPUTIME_ID, &now);
    return (double)now.tv_sec + 1e-9 * (double)now.tv_nsec;
}

/* By chance, in steps of a cache line. */
size_t some_of_page(void) {
    static uint64_t state = 70;
    state = 6364136223846793005 * state + 1442695040888963407;
    return 64 * (1 + (state >> 58));
}

double time_once(void (*run)(void)) { return time_each(run, 1); }

double time_each(void (*run)(void), unsigned runs) {
    MOVE_STACK();
    double start = seconds();
    for (unsigned i = 0; i < runs; i++) run();
    return (seconds() - start) / runs;
}

double smaller(double a, double b) { return a < b ? a : b; }

uint8_t *guarded(size_t bytes) {
    uint8_t *memory =
        mmap(NULL, GUARD + bytes, PROT_READ | PROT_WRITE, MAP_PRIVATE | MAP_ANONYMOUS, -1, 0);
    demand(memory != MAP_FAILED && mprotect(memory, GUARD, PROT_NONE) == 0, "no memory");
    return memory + GUARD;
}

/* Made once. */
static uint8_t *painted_stack(void) {
    static uint8_t *stack;
    if (stack == NULL) stack = guarded(STACK);
    return memset(stack, PAINT, STACK);
}

/* How much of a painted stack a function touches. */
static size_t touched(void (*run)(void)) {
    static ucontext_t here, there;
    uint8_t *stack = painted_stack();
    demand(getcontext(&there) == 0, "no context");
    there.uc_stack.ss_sp = stack;
    there.uc_stack.ss_size = STACK;
    there.uc_link = &here;
    makecontext(&there, run, 0);
    demand(swapcontext(&here, &there) == 0, "no context");
    size_t left = 0;
    while (left < STACK && stack[left] == PAINT) left++;
    return STACK - left;
}

static void nothing(void) {}

size_t stack_of(void (*run)(void)) { return touched(run) - touched(nothing); }

/* A number of 8 bytes; 0 at the end of the input. */
static int read_number(size_t *number) {
    uint8_t bytes[8];
    size_t count = fread(bytes, 1, 8, stdin);
    if (count == 0) return 0;
    demand(count == 8, "a board is cut short");
    *number = 0;
    for (int i = 0; i < 8; i++) {
        *number = *number << 8 | bytes[i];
    }
    return 1;
}

int read_board(struct posted *board) {
    if (!read_number(&board->length)) return 0;
    for (int drawn = 0; drawn < 2; drawn++) {
        board->due[drawn].number = getchar();
        demand(read_number(&board->due[drawn].place), "a verdict is cut short");
    }
    board->record = malloc(board->length + 1);
    demand(board->record != NULL, "no memory");
    size_t count = fread(board->record, 1, board->length, stdin);
    demand(count == board->length, "a record is cut short");
    return 1;
}

void free_board(struct posted *board) { free(board->record); }
