/* The plan of a call: what its parameters are to each other, by their names. */
#ifndef PLAN_H
#define PLAN_H

#include "harness.h"

/* Lists that are parallel, or lists of a kind. */
enum group {
    POINTS, NODES, ELEMENTS, ROWS, POLYGONS, OVERRIDES, BLOCK, NAME,               /* read */
    NODE_ROOM, ELEMENT_ROOM, ROW_ROOM, OUTCOMES, DIAGNOSTICS, RING, CORNERS, COPY, /* written */
    SINGLE, GROUPS
};

enum role { LOW, HIGH, CELL_SIZE, EXTENT, ANY_NUMBER, LAYER, START, COUNT, MATERIAL, KIND, ELEMENT_KIND, PLACES, OTHER };

struct plan {
    const struct call *call;
    enum group group[MOST_PARAMETERS];
    enum role role[MOST_PARAMETERS];
    int column[MOST_PARAMETERS];         /* the place of a list in its group */
    bool appends, stacks, meshes, parts; /* to a mesh; polygons; has a mesh; takes parts of the points */
};

/* That of the call that is being made. */
extern const struct plan *plan;

void find_plan(const struct call *c);
/* Entries of a list for one of its group: eight node places an element. */
size_t each(int place);
bool same(const char *one, const char *other);

#endif
