/* What the benchmarks and the check share. */

#ifndef SUPPORT_H
#define SUPPORT_H

#include <alloca.h>
#include <stddef.h>
#include <stdint.h>

/* Ends the program with this line unless it holds. */
void demand(int holds, const char *what);

/* The processor's time, so that other programs weigh little. */
double seconds(void);

/* Moves the stack by some part of a page, in the function that says it: what has its frame across
 * two pages is slower, and where the system puts the stack is chance, so each timing has another
 * place. The compiler must not see that nothing uses the gap. */
#define MOVE_STACK() __asm__ volatile("" : : "r"(alloca(some_of_page())) : "memory")
size_t some_of_page(void);

double time_once(void (*run)(void));

/* The time of one run out of so many: runs of short things are many, so that what else the machine
 * does weighs alike on them and on long ones. */
double time_each(void (*run)(void), unsigned runs);

double smaller(double a, double b);

/* Memory for a stack, above a region of 1 MiB that nobody may touch, so that no frame reaches
 * beyond it: what needs more ends the program by a signal. */
uint8_t *guarded(size_t bytes);

/* The bytes of stack that a function touches, beyond what an empty one does. */
size_t stack_of(void (*run)(void));

struct verdict {
    int number;
    size_t place;
};

/* A board with the reference's verdicts in plain and in drawn judging. */
struct posted {
    uint8_t *record;
    size_t length;
    struct verdict due[2];
};

/* The next board from standard input, which the caller frees; 0 at the end. Each has its length in
 * 8 bytes, most significant first, then for plain and for drawn judging a number in 1 byte and a
 * place in 8, then the record. */
int read_board(struct posted *board);
void free_board(struct posted *board);

#endif
