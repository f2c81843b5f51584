/*
 * Binarukol: traffic control for up to 16 shuttles in a hall.
 *
 * The library keeps nothing between calls. The caller owns all numbers: the field, which stays the same, and the
 * memory, which says where each shuttle is and what is left of its route. Each call checks all that it is given,
 * so that wrong numbers are refused and never used. Calls on the same memory must not run at the same time.
 *
 * Every pointer must point to as many elements as the length beside it says. Where that length is 0 nothing is read
 * or written, but the pointer must still not be NULL. The arrays of one call must not overlap.
 */
#ifndef BINARUKOL_H
#define BINARUKOL_H

#include <stddef.h>
#include <stdint.h>

#ifdef __cplusplus
extern "C" {
#endif

/* Limits. */
#define BINARUKOL_MOST_ACROSS 64
#define BINARUKOL_MOST_DOWN 64
#define BINARUKOL_MOST_SHUTTLES 16
#define BINARUKOL_MOST_LEFT 256

/*
 * Memory has this many numbers for each shuttle, one shuttle after the other. Of shuttle i, number k is
 * memory[BINARUKOL_PER_SHUTTLE * i + k].
 */
#define BINARUKOL_PER_SHUTTLE 260
#define BINARUKOL_MEMORY_LENGTH(shuttles) ((size_t)BINARUKOL_PER_SHUTTLE * (size_t)(shuttles))

/* The numbers of a shuttle. */
#define BINARUKOL_SQUARE 0 /* the square that it is on, or moves to */
#define BINARUKOL_MOVES 1  /* 1 while it moves, 0 while it stands */
#define BINARUKOL_BEHIND 2 /* the square that it comes from; its own square once it stands */
#define BINARUKOL_LENGTH 3 /* how many squares are left of its route */
#define BINARUKOL_LEFT 4   /* the first of 256 places for these squares, the next square first; the places
                              behind them are neither read nor written */

/* Where number k of a shuttle stands in memory. */
#define BINARUKOL_AT(shuttle, k) (BINARUKOL_MEMORY_LENGTH(shuttle) + (size_t)(k))

/* Kinds of events. */
#define BINARUKOL_ORDER 0  /* a shuttle that stands with nothing left is given a route */
#define BINARUKOL_STEP 1   /* a shuttle that stands asks for the next square of its route */
#define BINARUKOL_ARRIVE 2 /* a shuttle that moves has come to its square */

/* Answers: the low 8 bits. The bits above are 0 but where way and tick say otherwise. */
#define BINARUKOL_ANSWER(result) ((result) & 0xff)
#define BINARUKOL_HAPPENED 0        /* the order is taken, the step granted, the arrival noted, the start written */
#define BINARUKOL_NOT 1             /* it is not: nothing was changed; a step may be asked for again later */
#define BINARUKOL_REFUSED_FIELD 17  /* across, down, walls and bays are no field; nothing was changed */
#define BINARUKOL_REFUSED_MEMORY 18 /* memory is not acceptable; nothing was changed */
#define BINARUKOL_REFUSED_EVENT 19  /* there is no such event or shuttle, or the route is past a limit; nothing was
                                       changed */
#define BINARUKOL_FOUND 2           /* of way: there is a route; its length is in the bits above */
#define BINARUKOL_REFUSED_WAY 21    /* of way: what is asked for is past a limit; nothing was changed */
#define BINARUKOL_REFUSED_TURNS 22  /* of tick: waits or due are not acceptable; nothing was changed */

/* What stands above the low 8 bits: the length of a route of way, the shuttle of tick, else 0. */
#define BINARUKOL_ABOVE(result) ((result) >> 8)

/*
 * Lets one event happen, if it may, and changes memory accordingly.
 *
 * A step is granted if nobody else holds the next square and all shuttles can still come home after it. From then on
 * the shuttle may drive to that square. It holds both squares until its arrival is reported.
 *
 * across      squares in a row, 1 to 64
 * down        rows, 1 to 64; squares are numbered row by row from 0, so that the square in row r and column c has
 *             the number across * r + c
 * walls       for each square 1 if it is a wall, else 0
 * walls_len   across * down
 * bays        for each shuttle the square of its bay: no wall, and nobody else's bay
 * bays_len    how many shuttles there are, 0 to 16
 * memory      the numbers described above, changed if the event happens
 * memory_len  260 * bays_len
 * kind        BINARUKOL_ORDER, BINARUKOL_STEP or BINARUKOL_ARRIVE
 * shuttle     whose event it is, from 0
 * route       for an order the squares to drive to, one after the other, each beside the one before it, the first
 *             beside the shuttle's square and the last its bay; no wall, no other bay, and the own bay only at the
 *             end. For other events it is not used, but its limits are checked just so: pass a length of 0
 * route_len   how many squares the route has, 0 to 256, none above 4095
 *
 * Answers BINARUKOL_HAPPENED or BINARUKOL_NOT, or the first of BINARUKOL_REFUSED_FIELD, BINARUKOL_REFUSED_MEMORY and
 * BINARUKOL_REFUSED_EVENT that applies.
 */
uint64_t happen(uint64_t across, uint64_t down, const uint8_t *walls, size_t walls_len, const uint16_t *bays,
                size_t bays_len, uint16_t *memory, size_t memory_len, uint64_t kind, uint64_t shuttle,
                const uint16_t *route, size_t route_len);

/*
 * Writes the memory of a hall in which every shuttle stands in its bay with nothing left. The places of routes stay
 * as they were; they need not be set before. The arguments are those of happen.
 *
 * Answers BINARUKOL_HAPPENED, or BINARUKOL_REFUSED_FIELD, or BINARUKOL_REFUSED_MEMORY if memory_len is not
 * 260 * bays_len.
 */
uint64_t start(uint64_t across, uint64_t down, const uint8_t *walls, size_t walls_len, const uint16_t *bays,
               size_t bays_len, uint16_t *memory, size_t memory_len);

/*
 * Finds a route: as short as any of at most 256 squares that leads from a square through a row of squares, in their
 * order, to the shuttle's bay; of these the first by right, down, left, up, compared step by step. A square of the row
 * may be met more than once and counts from the first time; the square that the route starts from counts too. Other
 * shuttles don't matter.
 *
 * across, down, walls, bays and their lengths are those of happen.
 *
 * shuttle    whose route it is, from 0
 * from       the square that it starts from: no wall and nobody else's bay
 * row        the squares to go to, each within the field
 * row_len    how many there are, 0 to 8
 * route      256 places; as many as the route has squares are written if there is one, and none else
 * route_len  256
 *
 * Answers BINARUKOL_FOUND with the length above it, or BINARUKOL_NOT if there is no such route, or the first of
 * BINARUKOL_REFUSED_FIELD, BINARUKOL_REFUSED_EVENT for a shuttle that isn't there, and BINARUKOL_REFUSED_WAY that
 * applies.
 */
uint64_t way(uint64_t across, uint64_t down, const uint8_t *walls, size_t walls_len, const uint16_t *bays,
             size_t bays_len, uint64_t shuttle, uint16_t from, const uint16_t *row, size_t row_len, uint16_t *route,
             size_t route_len);

/*
 * One tick: the arrivals that are due are made, the waits counted, and one step is granted: of the shuttles whose
 * steps would be, that which has waited longest, of equals the lowest.
 *
 * across, down, walls, bays, memory and their lengths are those of happen.
 *
 * waits      for each shuttle how many ticks it has waited: begin with 0. One that stands with something left waits
 *            one tick more, any other has not waited, and one whose step is granted begins again
 * waits_len  bays_len
 * due        for each shuttle 1 if it has come to its square, else 0; of one that doesn't move it means nothing
 * due_len    bays_len
 *
 * Answers BINARUKOL_HAPPENED with the shuttle above it whose step was granted, or BINARUKOL_NOT if no step was, or
 * the first of BINARUKOL_REFUSED_FIELD, BINARUKOL_REFUSED_MEMORY and BINARUKOL_REFUSED_TURNS that applies, which is
 * for other lengths, other marks, or a wait that could not count on.
 */
uint64_t tick(uint64_t across, uint64_t down, const uint8_t *walls, size_t walls_len, const uint16_t *bays,
              size_t bays_len, uint16_t *memory, size_t memory_len, uint64_t *waits, size_t waits_len,
              const uint8_t *due, size_t due_len);

#ifdef __cplusplus
}
#endif

#endif
