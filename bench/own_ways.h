/* What a game writes itself where it has no library, for bench/game_loop: a grid of counts of the buildings that block a cell, a
 * flow field over it by Dijkstra's search with a queue of buckets, lines of sight, and smoothing that looks ahead as far as it
 * sees. Plain code: a game that stands on one of them would have more. */
#ifndef OWN_WAYS_H
#define OWN_WAYS_H

#include <pathserve.h>

/* Adds (1) or takes away (-1) a square building on the map of 512 by 512, with the clearance of the class that walks. */
void own_paint(const pathserve_post *building, pathserve_fixed clearance, int more);

/* Whether a view shows the same cells. */
int own_is_seen(pathserve_view *view);

/* The steps of the field of a circle, or where no cell of it can be reached by the path, of the one in which that ends. */
void own_field(const pathserve_post *goal, const pathserve_reply *path, uint8_t *steps);

/* Whether each cell that the line between the middles of two cells touches is free, corners included. */
int own_clear(pathserve_cell from, pathserve_cell to);

/* From each waypoint that is kept goes on to the last that is seen one after another. Gives how many are kept. */
size_t own_smooth(pathserve_cell from, pathserve_cell *waypoints, size_t count);

#endif
