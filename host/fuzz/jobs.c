/* The arguments of a call: parallel lists are a group, drawn to fit each other, or not. */
#include "plan.h"
#include "shapes.h"
#include <string.h>

enum { ROW_LISTS = 12, MESH_LISTS = 6, MOST_KEPT = 2500 };

/* What an earlier call of the same input wrote. */
static struct {
    uint8_t rows[ROW_LISTS][ROOM], points[2][ROOM], mesh[MESH_LISTS][ROOM];
    size_t row_count, point_count, nodes, elements;
} past;

static size_t sizes[GROUPS], nodes_there, elements_there;
static bool past_rows, past_mesh, zeros[GROUPS];

static size_t rows_drawn(size_t most)
{
    unsigned b = byte();
    if (b < 250)
        return b % (b < 200 ? 6 : 24);
    return strange() ? most + b % 2 : b % 40;
}

/* As long as another group, or a little off. */
static size_t about(size_t length)
{
    unsigned b = byte();
    if (b < 160)
        return length;
    if (b < 240)
        return length + b % 5;
    return length < b % 4 ? 0 : length - b % 4;
}

static size_t pick_of(const size_t *from)
{
    return from[pick(16)];
}

static void draw_rooms(void)
{
    static const size_t nodes[] = {0, 6, 8, 12, 16, 27, 32, 64, 128, 128, 256, 256, 512, 1024, 2048, 8192};
    static const size_t elements[] = {0, 1, 2, 4, 8, 16, 32, 64, 64, 128, 128, 256, 256, 512, 1024, 2048};
    nodes_there = past_mesh ? past.nodes : pick(4) ? 0 : pick(9);
    elements_there = past_mesh ? past.elements : pick(4) ? 0 : pick(5);
    sizes[NODE_ROOM] = plan->appends ? nodes_there + pick_of(nodes) : about(sizes[NODES]);
    sizes[ELEMENT_ROOM] = plan->appends ? elements_there + pick_of(elements) : about(sizes[ELEMENTS]);
    if (strange())
        nodes_there = hard_whole();
    if (strange())
        elements_there = sizes[ELEMENT_ROOM] + pick(3);
}

/* Draws the points, or takes those that are kept. */
static void draw_points(const struct call *c)
{
    int x = parameter(c, "xs", READ) >= 0 ? parameter(c, "xs", READ) : parameter(c, "point_x", READ), i;
    rings_of(0);
    if (x < 0 || plan->group[x] != POINTS)
        return;
    if (past_rows) {
        for (i = 0; i < 2; i++)
            memcpy(before(x + i), past.points[i], past.point_count * sizeof(double));
        sizes[POINTS] = past.point_count;
        rings_of(past.point_count);
    } else {
        sizes[POINTS] = draw_rings((double *)before(x), (double *)before(x + 1), ROOM / sizeof(double), plan->parts ? 6 : 0);
    }
    for (i = 0; i < 2; i++)
        memset(before(x + i) + sizes[POINTS] * sizeof(double), 0, SPARE);
}

void begin_call(const struct call *c, bool chained)
{
    static const unsigned rates[8] = {0, 0, 0, 0, 1, 3, 8, 32};
    find_plan(c);
    strange_rate(rates[pick(8)]);
    if (!chained || (past.row_count == 0 && past.nodes == 0))
        begin_grid();
    memset(zeros, 0, sizeof zeros);
    past_rows = past.row_count > 0 && !plan->stacks && parameter(c, "starts", READ) >= 0 && (chained || pick(2));
    past_mesh = past.nodes > 0 && plan->meshes && (chained || pick(2));
    draw_points(c);
    sizes[NODES] = past_mesh ? past.nodes : pick(8) ? 4 + pick(20) : pick(4);
    sizes[ELEMENTS] = past_mesh ? past.elements : pick(10);
    sizes[ROWS] = past_rows ? past.row_count : rows_drawn(OPENRDSON_MOST_REGIONS);
    sizes[POLYGONS] = rows_drawn(OPENRDSON_MOST_POLYGONS);
    sizes[OVERRIDES] = rows_drawn(OPENRDSON_MOST_OVERRIDES);
    sizes[ROW_ROOM] = about(sizes[POLYGONS]);
    sizes[OUTCOMES] = about(sizes[POLYGONS]);
    sizes[DIAGNOSTICS] = about(sizes[ROWS]);
    sizes[RING] = about(sizes[POINTS]);
    sizes[CORNERS] = about(3 * sizes[POINTS]);
    sizes[COPY] = about(OPENRDSON_NAME_BYTES);
    draw_rooms();
    if (strange() && strange()) {
        zeros[POINTS] = true;
        sizes[POINTS] = OPENRDSON_MOST_POINTS + pick(2);
    }
    if (strange() && strange()) {
        zeros[NODES] = true;
        sizes[NODES] = OPENRDSON_MOST_NODES + pick(2);
    }
}

static double number(enum role role)
{
    switch (role) {
    case CELL_SIZE: return cell_size();
    case EXTENT: return coordinate(1, 40) * (pick(4) ? 1.0 : 1 + 1e-12);
    case ANY_NUMBER: return pick(2) ? hard_number() : coordinate(-100, 100) / 2;
    case HIGH: return coordinate(4, 15);
    default: return coordinate(-8, 3);
    }
}

/* A node place that fits the element's kind. */
static uint32_t node_place(const struct call *c, size_t i)
{
    static const unsigned used[4] = {4, 8, 6, 5};
    if (i % OPENRDSON_NODE_PLACES >= used[before(parameter(c, "kinds", READ))[i / OPENRDSON_NODE_PLACES] % 4])
        return OPENRDSON_UNUSED;
    return sizes[NODES] ? pick((unsigned)(sizes[NODES] < 200 ? sizes[NODES] : 200)) : 0;
}

static uint32_t whole(const struct call *c, enum role role, size_t i)
{
    if (role != LAYER && role != START && role != COUNT && strange())
        return hard_whole();
    switch (role) {
    case LAYER: return (uint32_t)draw_layer();
    case START: return ring_start(i);
    case COUNT: return ring_count(i);
    case MATERIAL: return 1 + pick(6);
    case KIND: return pick(2);
    case ELEMENT_KIND: return pick(4);
    case PLACES: return node_place(c, i);
    default: return pick(24);
    }
}

static void set(const struct parameter *p, uint8_t *list, size_t i, uint32_t value)
{
    if (p->type == U8)
        list[i] = (uint8_t)value;
    else if (p->type == I16)
        ((int16_t *)(void *)list)[i] = (int16_t)value;
    else
        ((uint32_t *)(void *)list)[i] = value;
}

/* The kept list that goes here, and the bytes that are in it. */
static const uint8_t *past_list(const struct call *c, int place, size_t *bytes)
{
    enum group g = plan->group[place];
    int which = plan->column[place];
    size_t row = each(place) * c->parameters[place].bytes;
    bool nodes = g == NODES || (g == NODE_ROOM && plan->appends);
    bool elements = g == ELEMENTS || (g == ELEMENT_ROOM && plan->appends);
    *bytes = 0;
    if (g == ROWS && past_rows && which < ROW_LISTS) {
        *bytes = past.row_count * row;
        return past.rows[which];
    }
    if (!past_mesh || !(nodes || elements))
        return NULL;
    *bytes = (nodes ? past.nodes : past.elements) * row;
    return past.mesh[nodes ? which : 3 + which];
}

static void fill(const struct call *c, int place, size_t length)
{
    const struct parameter *p = &c->parameters[place];
    uint8_t *list = before(place);
    size_t i;
    for (i = 0; i < length; i++)
        if (p->type == F64)
            ((double *)(void *)list)[i] = number(plan->role[place]);
        else
            set(p, list, i, whole(c, plan->role[place], i));
    memset(list + length * p->bytes, 0, SPARE);
}

static size_t draw_bytes(const struct call *c, int place)
{
    static const struct { const char *name; enum block kind; } kinds[] = {
        {"names", NAMES}, {"conducting", MAP}, {"via", MAP}, {"conductors", FIGURES}, {"diffusions", FIGURES}, {"vias", VIAS},
    };
    size_t i;
    if (plan->group[place] == NAME)
        return draw_name(before(place));
    for (i = 0; i < 6; i++)
        if (same(kinds[i].name, c->parameters[place].name))
            return draw_block(kinds[i].kind, before(place));
    return draw_block(FIGURES, before(place));
}

/* The length of a list of a group, or one that does not fit the others. */
static size_t draw_length(int place, size_t bytes, size_t most)
{
    size_t length = sizes[plan->group[place]] * each(place);
    if (strange())
        length = about(length);
    return length > most / bytes ? most / bytes : length;
}

static void draw_read(const struct call *c, int place, struct argument *a)
{
    const struct parameter *p = &c->parameters[place];
    enum group g = plan->group[place];
    const uint8_t *from;
    size_t bytes;
    if (zeros[g]) {
        a->length = draw_length(place, p->bytes, MOST_ZEROS);
        a->list = lend_zeros(place, a->length * p->bytes);
        return;
    }
    a->length = g == BLOCK || g == NAME ? draw_bytes(c, place) : draw_length(place, p->bytes, ROOM);
    from = past_list(c, place, &bytes);
    if (from) {
        memcpy(before(place), from, bytes);
        memset(before(place) + bytes, 0, SPARE);
    } else if (g != POINTS && g != BLOCK && g != NAME) {
        fill(c, place, a->length);
    }
    a->list = lend(place, a->length * p->bytes, a->length * p->bytes, pick(2));
}

static void draw_written(const struct call *c, int place, struct argument *a)
{
    const struct parameter *p = &c->parameters[place];
    size_t bytes, kept_bytes, there = plan->group[place] == NODE_ROOM ? nodes_there : elements_there;
    const uint8_t *from = past_list(c, place, &kept_bytes);
    a->length = draw_length(place, p->bytes, ROOM);
    bytes = a->length * p->bytes;
    memset(before(place), (int)byte(), bytes);
    if (from)
        memcpy(before(place), from, kept_bytes < bytes ? kept_bytes : bytes);
    if (!plan->appends || plan->group[place] == DIAGNOSTICS)
        there = 0;
    a->list = lend(place, bytes, there < a->length / each(place) ? there * each(place) * p->bytes : bytes, pick(2));
}

static void draw_value(const struct call *c, int place, struct argument *a)
{
    const struct parameter *p = &c->parameters[place];
    openrdson_bbox *b = &a->box;
    if (p->type == F64) {
        a->number = number(plan->role[place]);
    } else if (p->type == BBOX) {
        b->min_x = coordinate(-8, 3);
        b->min_y = coordinate(-8, 3);
        b->max_x = coordinate(4, 15);
        b->max_y = coordinate(4, 15);
    } else if (p->type == POINT) {
        a->point.x = coordinate(-8, 15);
        a->point.y = coordinate(-8, 15);
    } else {
        a->whole = whole(c, plan->role[place], 0);
    }
}

/* A place for one answer; the counts of a mesh that is appended to are read as well. */
static void draw_out(const struct call *c, int place, struct argument *a)
{
    const struct parameter *p = &c->parameters[place];
    bool nodes = same(p->name, "nodes"), counted = plan->appends && (nodes || same(p->name, "elements"));
    a->length = 1;
    memset(before(place), (int)byte(), p->bytes);
    if (counted)
        memcpy(before(place), nodes ? &nodes_there : &elements_there, p->bytes);
    a->list = lend(place, p->bytes, counted ? p->bytes : 0, pick(2));
}

void draw(const struct call *c, int place, struct argument *a)
{
    switch (c->parameters[place].lent) {
    case VALUE: draw_value(c, place, a); break;
    case OUT: draw_out(c, place, a); break;
    case READ: draw_read(c, place, a); break;
    case WRITE: draw_written(c, place, a); break;
    }
}

/* What an accepted call gives through the place of this name; 0 if there is none. */
static size_t given(const struct call *c, const struct argument *a, const char *name)
{
    int place = parameter(c, name, OUT);
    return place < 0 ? 0 : *(const size_t *)a[place].list;
}

static size_t read_length(const struct call *c, const struct argument *a, const char *name)
{
    int place = parameter(c, name, READ);
    return place < 0 ? 0 : a[place].length;
}

bool changed(const struct call *c, int place, const struct argument *a, uint64_t answer, size_t *from, size_t *to)
{
    const struct parameter *p = &c->parameters[place];
    *from = 0;
    switch (plan->group[place]) {
    case NODE_ROOM: *from = plan->appends ? nodes_there : 0; *to = given(c, a, "nodes"); break;
    case ELEMENT_ROOM: *from = plan->appends ? elements_there : 0; *to = given(c, a, "elements"); break;
    case ROW_ROOM: *to = given(c, a, "regions"); break;
    case OUTCOMES: *to = read_length(c, a, "layers"); break;
    case DIAGNOSTICS: *to = read_length(c, a, "row_kinds"); break;
    case RING: *to = given(c, a, parameter(c, "vertices", OUT) < 0 ? "points" : "vertices"); break;
    case CORNERS: *to = 3 * given(c, a, "triangles"); break;
    case COPY: *to = answer < a[place].length ? answer : a[place].length; break;
    default: *to = a[place].length; break;
    }
    *from *= each(place) * p->bytes;
    *to *= each(place) * p->bytes;
    return *from <= *to && *to <= a[place].length * p->bytes;
}

void keep(const struct call *c, const struct argument *a)
{
    int i, x = parameter(c, "xs", READ);
    bool meshed = plan->appends || parameter(c, "out_z", WRITE) >= 0;
    if ((meshed && given(c, a, "nodes") > MOST_KEPT) || (plan->stacks && a[x].length > MOST_KEPT))
        return;
    for (i = 0; i < c->count; i++) {
        enum group g = plan->group[i];
        int which = plan->column[i];
        size_t from, to;
        if (g != ROW_ROOM && g != NODE_ROOM && g != ELEMENT_ROOM)
            continue;
        changed(c, i, a, 0, &from, &to);
        memcpy(g == ROW_ROOM ? past.rows[which] : past.mesh[g == NODE_ROOM ? which : 3 + which], a[i].list, to);
    }
    if (plan->stacks) {
        past.row_count = given(c, a, "regions");
        past.point_count = a[x].length;
        for (i = 0; i < 2; i++)
            memcpy(past.points[i], a[x + i].list, past.point_count * sizeof(double));
    }
    if (meshed) {
        past.nodes = given(c, a, "nodes");
        past.elements = given(c, a, "elements");
    }
}

void forget(void)
{
    past.row_count = past.point_count = past.nodes = past.elements = 0;
}
