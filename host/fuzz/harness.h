/* What the parts of the fuzzer share: a call and its arguments, lent lists, and the input as a source of choices. */
#ifndef HARNESS_H
#define HARNESS_H

#include <openrdson.h>

enum lent { VALUE, OUT, READ, WRITE };
enum type { BOOL, F64, I16, I64, U8, U32, U64, USIZE, BBOX, POINT };

enum { MOST_CALLS = 128, MOST_PARAMETERS = 40, ROOM = 1 << 16, SPARE = 64, MOST_ZEROS = 24 << 20 };

struct parameter {
    const char *name;
    enum lent lent;
    enum type type;
    size_t bytes;
};

/* What stands for a parameter: a list, or a value of the parameter's type. */
struct argument {
    void *list;
    size_t length;
    double number;
    uint64_t whole;
    openrdson_bbox box;
    openrdson_point point;
};

struct call {
    const char *name;
    uint64_t (*call)(const struct argument *);
    enum type gives;
    int count;
    struct parameter parameters[MOST_PARAMETERS];
};

/* ---- lend.c: a list a parameter ---- */

/* What a list holds before the call: ROOM bytes that can be filled, and SPARE past them. */
uint8_t *before(int place);
/* Lends its first `bytes` bytes, of which `set` are set: against an unreadable page after it, or before it (`front`). With
   MEMCHECK defined: from an allocation of its own, the bytes past `set` not set. */
void *lend(int place, size_t bytes, size_t set, bool front);
/* Lends so many zeros, which cannot be written. */
void *lend_zeros(int place, size_t bytes);
/* Whether the bytes of a list outside from..to are as before the call, and so is what lies about it. */
bool kept(int place, size_t from, size_t to);
void give_back(int place);

/* ---- input.c ---- */

void begin_input(const uint8_t *data, size_t size);
/* The next byte; past the input's end, of a sequence that its first four bytes begin. */
unsigned byte(void);
unsigned pick(unsigned below);
/* Of 256 things drawn, this many are strange. */
void strange_rate(unsigned rate);
bool strange(void);
double hard_number(void);
uint32_t hard_whole(void);

/* ---- jobs.c: what is lent ---- */

void begin_call(const struct call *c, bool chained);
/* Fills before(place), or the argument's value. */
void draw(const struct call *c, int place, struct argument *a);
/* Bytes of a list that the call may have changed, after it was accepted; false if the counts do not fit the lists. */
bool changed(const struct call *c, int place, const struct argument *a, uint64_t answer, size_t *from, size_t *to);
/* Keeps the regions or the mesh that an accepted call wrote, for a call after it. */
void keep(const struct call *c, const struct argument *a);
void forget(void);

/* ---- plan.c ---- */

/* The place of the parameter with this name, and with this way of being lent; -1 if there is none. */
int parameter(const struct call *c, const char *name, enum lent lent);

/* ---- feedback.c ---- */

/* Traps at the beginnings of the archive's basic blocks, as the file FUZZ_BLOCKS lists them. */
void begin_feedback(void);
void feedback(size_t feature);
size_t blocks_listed(void), blocks_reached(void);
void list_unreached(void);

int LLVMFuzzerTestOneInput(const uint8_t *data, size_t size);

#endif
