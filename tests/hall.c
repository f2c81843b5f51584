/*
 * Plays a hall from C. Four bays lie around a block of two by two squares, and each shuttle drives to the square that
 * the next one enters by, and back. If only free squares were looked at, all four would enter and nobody could go on.
 * Here the fourth waits, and all come home. Ends with status 1 if anything else happens.
 */
#include "../include/binarukol.h"

#include <stdio.h>
#include <stdlib.h>

enum { ACROSS = 4, DOWN = 4, SHUTTLES = 4, ROUTE = 4 };

static const char picture[DOWN][ACROSS + 1] = {"#a##", "#..b", "d..#", "##c#"};

static const uint16_t routes[SHUTTLES][ROUTE] = {{5, 6, 5, 1}, {6, 10, 6, 7}, {10, 9, 10, 14}, {9, 5, 9, 8}};

struct hall {
    uint8_t walls[ACROSS * DOWN];
    uint16_t bays[SHUTTLES];
    uint16_t memory[BINARUKOL_MEMORY_LENGTH(SHUTTLES)];
};

static void read_picture(struct hall *hall)
{
    for (uint16_t square = 0; square < ACROSS * DOWN; square++) {
        char sign = picture[square / ACROSS][square % ACROSS];
        hall->walls[square] = sign == '#';
        if (sign >= 'a' && sign < 'a' + SHUTTLES)
            hall->bays[sign - 'a'] = square;
    }
}

static uint16_t number(const struct hall *hall, int shuttle, int k)
{
    return hall->memory[BINARUKOL_AT(shuttle, k)];
}

static uint64_t event(struct hall *hall, uint64_t kind, int shuttle, const uint16_t *route, size_t length)
{
    uint64_t result = happen(ACROSS, DOWN, hall->walls, ACROSS * DOWN, hall->bays, SHUTTLES, hall->memory,
                             BINARUKOL_MEMORY_LENGTH(SHUTTLES), kind, (uint64_t)shuttle, route, length);
    return BINARUKOL_ANSWER(result);
}

static void show(const struct hall *hall)
{
    for (uint16_t square = 0; square < ACROSS * DOWN; square++) {
        char sign = picture[square / ACROSS][square % ACROSS];
        for (int i = 0; i < SHUTTLES; i++)
            if (number(hall, i, BINARUKOL_SQUARE) == square || number(hall, i, BINARUKOL_BEHIND) == square)
                sign = (char)('A' + i);
        putchar(sign);
        if (square % ACROSS == ACROSS - 1)
            putchar('\n');
    }
    putchar('\n');
}

static void expect(int holds, const char *what)
{
    if (holds)
        return;
    printf("unexpected: %s\n", what);
    exit(1);
}

/* One event further for a shuttle, if it has one. Says whether it happened. */
static int advance(struct hall *hall, int shuttle)
{
    uint64_t kind = number(hall, shuttle, BINARUKOL_MOVES) ? BINARUKOL_ARRIVE : BINARUKOL_STEP;
    if (kind == BINARUKOL_STEP && number(hall, shuttle, BINARUKOL_LENGTH) == 0)
        return 0;
    uint64_t answer = event(hall, kind, shuttle, routes[shuttle], 0);
    expect(answer == BINARUKOL_HAPPENED || answer == BINARUKOL_NOT, "an event is refused");
    if (kind == BINARUKOL_ARRIVE)
        expect(answer == BINARUKOL_HAPPENED, "a shuttle that moves doesn't arrive");
    if (kind == BINARUKOL_STEP)
        printf("%c %s %u\n", 'A' + shuttle, answer == BINARUKOL_HAPPENED ? "drives to" : "waits for",
               number(hall, shuttle, answer == BINARUKOL_HAPPENED ? BINARUKOL_SQUARE : BINARUKOL_LEFT));
    return answer == BINARUKOL_HAPPENED;
}

static int all_home(const struct hall *hall)
{
    for (int i = 0; i < SHUTTLES; i++)
        if (number(hall, i, BINARUKOL_SQUARE) != hall->bays[i] || number(hall, i, BINARUKOL_MOVES) != 0 ||
            number(hall, i, BINARUKOL_LENGTH) != 0)
            return 0;
    return 1;
}

/* Wrong numbers are refused by the first check that they fail. */
static void try_refusals(struct hall *hall)
{
    expect(event(hall, 3, 0, routes[0], 0) == BINARUKOL_REFUSED_EVENT, "an event of kind 3");
    expect(event(hall, BINARUKOL_STEP, SHUTTLES, routes[0], 0) == BINARUKOL_REFUSED_EVENT, "a fifth shuttle");
    hall->memory[BINARUKOL_AT(3, BINARUKOL_MOVES)] = 2;
    expect(event(hall, 3, 0, routes[0], 0) == BINARUKOL_REFUSED_MEMORY, "a mark of 2");
    hall->walls[hall->bays[3]] = 1;
    expect(event(hall, 3, 0, routes[0], 0) == BINARUKOL_REFUSED_FIELD, "a bay that is a wall");
    hall->walls[hall->bays[3]] = 0;
    uint64_t result = start(ACROSS, DOWN, hall->walls, ACROSS * DOWN, hall->bays, SHUTTLES, hall->memory,
                            BINARUKOL_MEMORY_LENGTH(SHUTTLES - 1));
    expect(BINARUKOL_ANSWER(result) == BINARUKOL_REFUSED_MEMORY, "a start with memory for three");
}

int main(void)
{
    static struct hall hall;
    read_picture(&hall);
    uint64_t result = start(ACROSS, DOWN, hall.walls, ACROSS * DOWN, hall.bays, SHUTTLES, hall.memory,
                            BINARUKOL_MEMORY_LENGTH(SHUTTLES));
    expect(BINARUKOL_ANSWER(result) == BINARUKOL_HAPPENED && all_home(&hall), "no start");
    show(&hall);
    for (int i = 0; i < SHUTTLES; i++)
        expect(event(&hall, BINARUKOL_ORDER, i, routes[i], ROUTE) == BINARUKOL_HAPPENED, "an order isn't taken");
    for (int i = 0; i < SHUTTLES; i++)
        expect(advance(&hall, i) == (i < 3), "the first three enter and the fourth waits");
    show(&hall);
    int happened = 3;
    while (!all_home(&hall)) {
        int before = happened;
        for (int i = 0; i < SHUTTLES; i++)
            happened += advance(&hall, i);
        expect(happened > before, "nothing can happen and not all are home");
        show(&hall);
    }
    expect(happened == 2 * SHUTTLES * ROUTE, "there is a step and an arrival for each square");
    try_refusals(&hall);
    printf("all home after %d steps and arrivals\n", happened);
    return 0;
}
