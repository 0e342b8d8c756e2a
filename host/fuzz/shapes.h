/* The shapes of a job: numbers on a grid, rings, and name blocks. */
#ifndef SHAPES_H
#define SHAPES_H

#include <stddef.h>
#include <stdint.h>

/* ---- rings.c ---- */

/* Draws the step and the origin of a call's grid. */
void begin_grid(void);
/* A number on the grid from..to, or a neighbour of it, or a strange one. */
double coordinate(int from, int to);
double cell_size(void);
/* Fills the points of some rings, end to end, at most so many; gives their number. One ring, if the call takes no part. */
size_t draw_rings(double *xs, double *ys, size_t most, int rings);
/* Takes the points that are there as the rings, for a call on points that are kept. */
void rings_of(size_t points);
/* The part of the points that goes with a row. */
uint32_t ring_start(size_t row), ring_count(size_t row);

/* ---- names.c ---- */

enum block { NAMES, MAP, FIGURES, VIAS };

/* Fills a block, or a damaged one; gives its length, at most 25,000. */
size_t draw_block(enum block kind, uint8_t *block);
/* Fills a name that may be asked for, at most 80 bytes; gives its length. */
size_t draw_name(uint8_t *name);
int16_t draw_layer(void);

#endif
