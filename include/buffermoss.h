/* Buffermoss: the cheapest bushy join tree for up to 11 relations. */
#ifndef BUFFERMOSS_H
#define BUFFERMOSS_H

#include <stddef.h>
#include <stdint.h>

#ifdef __cplusplus
extern "C" {
#endif

/* What a join is charged by: `model`. */
enum {
    BUFFERMOSS_NAIVE = 0,      /* the rows that come out */
    BUFFERMOSS_SORT_MERGE = 1, /* sorting both sides */
    BUFFERMOSS_DISK_LOOPS = 2  /* nested loops over blocks of ten rows, with 100 blocks of memory */
};

/* What is returned where there is no plan. Nothing is written then. */
enum {
    /* in the text, judged line by line from the top */
    BUFFERMOSS_RELATIONS = 1,    /* n is not 1 to 15 */
    BUFFERMOSS_UNEQUAL = 2,      /* the first two numbers of the size line differ */
    BUFFERMOSS_ZERO_DIVISOR = 3, /* a divisor is 0 */
    BUFFERMOSS_SHAPE = 11,       /* a line has not its shape or is missing, or bytes follow the last */
    BUFFERMOSS_NO_COUNT = 12,    /* a relation has no row count */
    BUFFERMOSS_TWICE = 13,       /* a place is given twice */
    BUFFERMOSS_OUTSIDE = 14,     /* a place is not in the lower triangle of n by n */
    BUFFERMOSS_TOO_LARGE = 15,   /* a number is above 4,294,967,295 */
    /* then, in this order */
    BUFFERMOSS_TOO_MANY = 16,    /* more than 11 relations */
    BUFFERMOSS_MODEL = 4,        /* the model is unknown */
    BUFFERMOSS_LIMIT = 5,        /* the limit is above BUFFERMOSS_NO_LIMIT */
    BUFFERMOSS_SHORT_ROOM = 9,   /* `room` is below the length of the tree's text */
    BUFFERMOSS_NO_PLAN = 7       /* every tree costs more than the limit */
};

/* A return value above this is this plus the length of the tree's text. */
enum { BUFFERMOSS_PLAN = 1000 };

/* The highest limit, 2^60: no plan costs as much. */
#define BUFFERMOSS_NO_LIMIT ((uint64_t)1 << 60)

/* Room enough for any tree of up to 11 relations. */
enum { BUFFERMOSS_ROOM = 44 };

/* Stack enough for a thread that only makes the call; a refusal takes it, too. Measured by painting the stack, on x86-64 with glibc: some 37 KB are
   taken, 31 of them by the call, the rest by the C library for the thread and by the dynamic linker in a first call. */
enum { BUFFERMOSS_STACK = 40960 };

/*
 * The cheapest plan for the figures file of `length` bytes at `text` (Matrix Market, coordinate integer symmetric: row counts on the
 * diagonal, divisors below it). The tree is written to `tree` in Newick form, as "((2,3),(1,4));", with no byte 0 after it; bytes past
 * it stay as they are. `text` and `tree` may be NULL where their length is 0. They must not overlap. Nothing is kept between calls, and
 * calls on different memory may run at the same time.
 *
 * Returns BUFFERMOSS_PLAN plus the length written, or one of the numbers above.
 */
uint32_t buffermoss_plan(const uint8_t *text, size_t length, uint32_t model, uint64_t limit, uint8_t *tree, size_t room);

#ifdef __cplusplus
}
#endif

#endif
