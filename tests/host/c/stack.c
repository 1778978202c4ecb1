/* The C call in a thread whose whole stack is BUFFERMOSS_STACK bytes, what the C library takes of it for the thread included. A page that
   must not be touched lies beneath, and the stack is painted: how far it is overwritten is what was taken. */
#define _DEFAULT_SOURCE
#include "buffermoss.h"

#include <pthread.h>
#include <stdio.h>
#include <stdlib.h>
#include <string.h>
#include <sys/mman.h>
#include <sys/wait.h>
#include <unistd.h>

#define LINE_1 "%%MatrixMarket matrix coordinate integer symmetric\n"
#define PAINT 0xa7

/* Ten relations about one, so that each join takes a single relation: no tree of eleven is deeper, and print goes down as far. */
static const char STAR[] =
    LINE_1 "11 11 21\n"
           "1 1 10\n2 2 10\n3 3 10\n4 4 10\n5 5 10\n6 6 10\n7 7 10\n8 8 10\n9 9 10\n10 10 10\n11 11 10\n"
           "2 1 10\n3 1 10\n4 1 10\n5 1 10\n6 1 10\n7 1 10\n8 1 10\n9 1 10\n10 1 10\n11 1 10\n";

static const char TWELVE[] =
    LINE_1 "12 12 12\n"
           "1 1 1\n2 2 1\n3 3 1\n4 4 1\n5 5 1\n6 6 1\n7 7 1\n8 8 1\n9 9 1\n10 10 1\n11 11 1\n12 12 1\n";

typedef struct {
    const char *what;
    const char *text;
    uint32_t model;
    uint64_t limit;
    uint32_t expected;
} Call;

static const Call CALLS[] = {
    {"naive", STAR, BUFFERMOSS_NAIVE, BUFFERMOSS_NO_LIMIT, BUFFERMOSS_PLAN + BUFFERMOSS_ROOM},
    {"sort-merge", STAR, BUFFERMOSS_SORT_MERGE, BUFFERMOSS_NO_LIMIT, BUFFERMOSS_PLAN + BUFFERMOSS_ROOM},
    {"nested loops on disk", STAR, BUFFERMOSS_DISK_LOOPS, BUFFERMOSS_NO_LIMIT, BUFFERMOSS_PLAN + BUFFERMOSS_ROOM},
    {"no text", "", BUFFERMOSS_NAIVE, BUFFERMOSS_NO_LIMIT, BUFFERMOSS_SHAPE},
    {"no size line", LINE_1, BUFFERMOSS_NAIVE, BUFFERMOSS_NO_LIMIT, BUFFERMOSS_SHAPE},
    {"twelve relations", TWELVE, BUFFERMOSS_NAIVE, BUFFERMOSS_NO_LIMIT, BUFFERMOSS_TOO_MANY},
    {"no plan", STAR, BUFFERMOSS_NAIVE, 0, BUFFERMOSS_NO_PLAN},
};

static uint8_t *stack;
static uint8_t tree[BUFFERMOSS_ROOM];

static void need(int holds, const char *what)
{
    if (!holds) {
        fprintf(stderr, "stack: %s\n", what);
        exit(1);
    }
}

static void *make_call(void *asked)
{
    const Call *call = (const Call *)asked;
    const uint32_t found =
        buffermoss_plan((const uint8_t *)call->text, strlen(call->text), call->model, call->limit, tree, sizeof tree);

    need(found == call->expected, call->what);
    return NULL;
}

static void make_call_in_thread(const Call *call)
{
    pthread_attr_t attributes;
    pthread_t thread;

    need(pthread_attr_init(&attributes) == 0, "no attributes");
    need(pthread_attr_setstack(&attributes, stack, BUFFERMOSS_STACK) == 0, "the stack is not taken");
    need(pthread_create(&thread, &attributes, make_call, (void *)call) == 0, "no thread");
    need(pthread_join(thread, NULL) == 0, "the thread is lost");
}

/* How much of the stack was taken. Each call has a process of its own and is the first there, which takes most: memcpy and memset are found
   only when they are first called. So nothing here calls them. */
static size_t taken_by(const Call *call)
{
    size_t left = 0;
    int status = 0;
    pid_t child;

    for (size_t i = 0; i < BUFFERMOSS_STACK; i++) {
        stack[i] = PAINT;
    }
    child = fork();
    need(child >= 0, "no process");
    if (child == 0) {
        make_call_in_thread(call);
        _exit(0);
    }
    need(waitpid(child, &status, 0) == child && WIFEXITED(status), "the call needs more stack than the header says");
    need(WEXITSTATUS(status) == 0, "the call failed");
    while (left < BUFFERMOSS_STACK && stack[left] == PAINT) {
        left++;
    }
    return BUFFERMOSS_STACK - left;
}

int main(void)
{
    const size_t page = (size_t)sysconf(_SC_PAGESIZE);
    const size_t calls = sizeof CALLS / sizeof *CALLS;
    size_t most = 0;
    uint8_t *all = (uint8_t *)mmap(NULL, page + BUFFERMOSS_STACK, PROT_READ | PROT_WRITE, MAP_SHARED | MAP_ANONYMOUS, -1, 0);

    need(all != MAP_FAILED && mprotect(all, page, PROT_NONE) == 0, "no memory");
    stack = all + page;
    for (size_t i = 0; i < calls; i++) {
        const size_t taken = taken_by(&CALLS[i]);

        most = taken > most ? taken : most;
    }
    printf("stack: %d calls agree, with up to %d of %d bytes taken\n", (int)calls, (int)most, (int)BUFFERMOSS_STACK);
    return 0;
}
