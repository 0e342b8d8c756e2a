/* The plan of a call: what its parameters are to each other, by their names. */
#include "plan.h"

const struct plan *plan;

/* libFuzzer watches strcmp and makes inputs of what is compared. */
bool same(const char *one, const char *other)
{
    while (*one && *one == *other) {
        one++;
        other++;
    }
    return *one == *other;
}

int parameter(const struct call *c, const char *name, enum lent lent)
{
    int i;
    for (i = 0; i < c->count; i++)
        if (c->parameters[i].lent == lent && same(c->parameters[i].name, name))
            return i;
    return -1;
}

static bool among(const char *name, const char *const *names)
{
    for (; *names; names++)
        if (same(name, *names))
            return true;
    return false;
}

static enum group read_group(const struct call *c, const struct parameter *p)
{
    static const char *const of_polygons[] = {"layers", "nets", "starts", "counts", NULL};
    static const char *const of_points[] = {"xs", "ys", "point_x", "point_y", NULL};
    static const char *const of_nodes[] = {"xs", "ys", "zs", NULL};
    static const char *const of_elements[] = {"kinds", "places", "regions", NULL};
    static const char *const of_overrides[] = {"materials", "laterals", "verticals", NULL};
    static const char *const of_kinds[] = {"kinds", "row_kinds", NULL};
    if (parameter(c, "layers", READ) >= 0 && among(p->name, of_polygons))
        return POLYGONS;
    if (parameter(c, "zs", READ) >= 0 && among(p->name, of_nodes))
        return NODES;
    if (parameter(c, "zs", READ) >= 0 && among(p->name, of_elements))
        return ELEMENTS;
    if (among(p->name, of_points))
        return POINTS;
    if (parameter(c, "laterals", READ) >= 0 && among(p->name, of_overrides))
        return OVERRIDES;
    if (same(p->name, "name"))
        return NAME;
    return p->type == U8 && !among(p->name, of_kinds) ? BLOCK : ROWS;
}

static enum group written_group(const struct call *c, const struct parameter *p)
{
    static const char *const of_elements[] = {"kinds", "places", "regions", "out_kinds", "out_places", "out_regions", NULL};
    static const struct { const char *name; enum group group; } alone[] = {
        {"outcomes", OUTCOMES}, {"diagnostics", DIAGNOSTICS}, {"corners", CORNERS}, {"copy", COPY},
    };
    size_t i;
    for (i = 0; i < sizeof alone / sizeof *alone; i++)
        if (same(p->name, alone[i].name))
            return alone[i].group;
    if (parameter(c, "layers", READ) >= 0)
        return ROW_ROOM;
    if (parameter(c, "zs", WRITE) < 0 && parameter(c, "out_z", WRITE) < 0)
        return RING;
    return among(p->name, of_elements) ? ELEMENT_ROOM : NODE_ROOM;
}

/* What a parameter's values are, by its name. */
static enum role role_of(const struct parameter *p, enum group g)
{
    static const struct { const char *name; enum role role; } roles[] = {
        {"lateral_cell", CELL_SIZE}, {"z_cell", CELL_SIZE}, {"cell", CELL_SIZE}, {"laterals", CELL_SIZE}, {"verticals", CELL_SIZE},
        {"tolerance", CELL_SIZE}, {"extent", EXTENT}, {"x", ANY_NUMBER}, {"max", HIGH}, {"max_x", HIGH}, {"max_y", HIGH},
        {"z_top", HIGH}, {"layer", LAYER}, {"layers", LAYER}, {"start", START}, {"starts", START}, {"count", COUNT}, {"counts", COUNT},
        {"row_counts", COUNT}, {"material", MATERIAL}, {"materials", MATERIAL}, {"row_materials", MATERIAL}, {"kinds", KIND},
        {"row_kinds", KIND}, {"places", PLACES}, {"out_places", PLACES},
    };
    size_t i;
    for (i = 0; i < sizeof roles / sizeof *roles; i++)
        if (same(p->name, roles[i].name))
            return g == ELEMENTS && roles[i].role == KIND ? ELEMENT_KIND : roles[i].role;
    return p->type == F64 ? LOW : OTHER;
}

static void make_plan(const struct call *c, struct plan *made)
{
    int i, in_group[GROUPS] = {0};
    made->call = c;
    for (i = 0; i < c->count; i++) {
        const struct parameter *p = &c->parameters[i];
        enum group g = p->lent == READ ? read_group(c, p) : p->lent == WRITE ? written_group(c, p) : SINGLE;
        made->group[i] = g;
        made->role[i] = role_of(p, g);
        made->column[i] = in_group[g]++;
    }
    made->appends = parameter(c, "zs", WRITE) >= 0;
    made->stacks = parameter(c, "layers", READ) >= 0;
    made->meshes = made->appends || parameter(c, "zs", READ) >= 0;
    made->parts = parameter(c, "starts", READ) >= 0 || parameter(c, "start", VALUE) >= 0;
}

void find_plan(const struct call *c)
{
    static struct plan plans[MOST_CALLS];
    struct plan *found = plans;
    while (found->call && found->call != c)
        found++;
    if (!found->call)
        make_plan(c, found);
    plan = found;
}

size_t each(int place)
{
    return plan->role[place] == PLACES ? OPENRDSON_NODE_PLACES : 1;
}
