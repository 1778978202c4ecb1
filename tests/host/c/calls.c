/* The C call as a host makes it: the header compiles without a warning, as C and as C++, and NULL is fine where the length is 0. */
#include "buffermoss.h"

#include <stdio.h>
#include <string.h>

#ifdef __cplusplus
#define LANGUAGE "C++"
#else
#define LANGUAGE "C"
#endif

#define ROOM 64

/* Case 10 of document 01. */
static const char SOUND[] =
    "%%MatrixMarket matrix coordinate integer symmetric\n"
    "4 4 4\n"
    "1 1 10\n"
    "2 2 20\n"
    "3 3 30\n"
    "4 4 40\n";

static const char TREE[] = "((2,3),(1,4));";

static const uint64_t HIGHEST_LIMIT = UINT64_C(1) << 60;

static int calls = 0;
static int faults = 0;

static void fault(const char *what)
{
    faults++;
    fprintf(stderr, "%s\n", what);
}

static void expect(const char *what, uint32_t expected, uint32_t found)
{
    calls++;
    if (found != expected) {
        fault(what);
        fprintf(stderr, "%lu is expected, %lu is answered\n", (unsigned long)expected, (unsigned long)found);
    }
}

/* Every room is full of dots before a call. */
static void expect_dots(const char *what, const uint8_t *bytes, size_t length)
{
    size_t i;

    for (i = 0; i < length; i++) {
        if (bytes[i] != '.') {
            fault(what);
            return;
        }
    }
}

static uint32_t plan(const char *text, uint32_t model, uint64_t limit, uint8_t *tree, size_t room)
{
    return buffermoss_plan((const uint8_t *)text, strlen(text), model, limit, tree, room);
}

/* A text of no bytes is a missing line, and a room of no bytes is too short for any tree. */
static void nothing_lent(void)
{
    uint8_t tree[ROOM];

    memset(tree, '.', ROOM);
    expect("no text", 11, buffermoss_plan(NULL, 0, 0, HIGHEST_LIMIT, tree, ROOM));
    expect_dots("no text: something is written", tree, ROOM);
    expect("no room", 9, plan(SOUND, 0, HIGHEST_LIMIT, NULL, 0));
    expect("neither", 11, buffermoss_plan(NULL, 0, 0, HIGHEST_LIMIT, NULL, 0));
}

/* 1,000 plus the text's length; the bytes past the text stay. */
static void done(uint32_t model)
{
    const size_t length = sizeof TREE - 1;
    uint8_t tree[ROOM];

    memset(tree, '.', ROOM);
    expect("a sound text", 1000 + (uint32_t)length, plan(SOUND, model, HIGHEST_LIMIT, tree, ROOM));
    if (memcmp(tree, TREE, length) != 0) {
        fault("another tree is written");
    }
    expect_dots("something is written past the tree", tree + length, ROOM - length);
}

/* What is refused writes nothing. */
static void refused(const char *what, uint32_t number, const char *text, uint32_t model, uint64_t limit, size_t room)
{
    uint8_t tree[ROOM];

    memset(tree, '.', ROOM);
    expect(what, number, plan(text, model, limit, tree, room));
    expect_dots(what, tree, ROOM);
}

int main(void)
{
    nothing_lent();
    done(0);
    done(1);
    done(2);
    refused("a text without line 1", 11, "4 4 4\n", 0, HIGHEST_LIMIT, ROOM);
    refused("an unknown model", 4, SOUND, 3, HIGHEST_LIMIT, ROOM);
    refused("a limit above 2^60", 5, SOUND, 0, HIGHEST_LIMIT + 1, ROOM);
    refused("a room of one byte less", 9, SOUND, 0, HIGHEST_LIMIT, sizeof TREE - 2);
    refused("no tree within the limit", 7, SOUND, 0, 240999, ROOM);
    if (faults == 0) {
        printf("calls from %s: %d agree\n", LANGUAGE, calls);
    }
    return faults != 0;
}
