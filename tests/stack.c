/* How much stack the calls take: each in a thread whose stack is painted beforehand, on programs that nest as deep as a
 * file allows, and on both graphs of each. Prints the most of each program, and of all; the status is 1 where that is more
 * than LIMIT bytes.
 *
 *     stack LIMIT */
#define _POSIX_C_SOURCE 200809L
#include <pizwoter.h>

#include <pthread.h>
#include <stdio.h>
#include <stdlib.h>
#include <string.h>

#define STACK ((size_t)4 << 20)
#define PAINT 0xA5

/* A program as it is written: the names are x, a variable, and A, an array of 9. */
struct program {
    uint8_t tables[3][512 * 7];
    unsigned entries[3];
    uint8_t file[PIZWOTER_MOST_PROGRAM_BYTES];
    size_t length;
};

enum { NUMBERS, CONDITIONS, COMMANDS };

static unsigned add(struct program *p, int table, unsigned kind, unsigned a, unsigned b, unsigned c) {
    const unsigned operands[] = {a, b, c};
    uint8_t *entry = p->tables[table] + 7 * p->entries[table];
    entry[0] = (uint8_t)kind;
    for (int i = 0; i < 3; i++) {
        entry[1 + 2 * i] = (uint8_t)(operands[i] >> 8);
        entry[2 + 2 * i] = (uint8_t)operands[i];
    }
    return p->entries[table]++;
}

static void put(struct program *p, unsigned tag, const uint8_t *content, size_t length) {
    const uint8_t head[] = {(uint8_t)tag, (uint8_t)(length >> 8), (uint8_t)length};
    memcpy(p->file + p->length, head, 3);
    memcpy(p->file + p->length + 3, content, length);
    p->length += 3 + length;
}

static void finish(struct program *p) {
    static const uint8_t names[] = {0, 0, 0, 9};
    put(p, 1, names, sizeof names);
    for (int table = 0; table < 3; table++)
        put(p, 2 + (unsigned)table, p->tables[table], 7 * p->entries[table]);
}

/* A[A[...A[0]]], so many elements. */
static unsigned elements(struct program *p, unsigned count) {
    unsigned last = add(p, NUMBERS, 0, 0, 0, 0);
    while (count-- > 0)
        last = add(p, NUMBERS, 2, 1, last, 0);
    return last;
}

/* Sums of 0, so many, each the left or the right side of the next. */
static unsigned sums(struct program *p, unsigned count, int left) {
    unsigned last = add(p, NUMBERS, 0, 0, 0, 0);
    while (count-- > 0) {
        unsigned other = add(p, NUMBERS, 0, 0, 0, 0);
        last = left ? add(p, NUMBERS, 3, last, other, 0) : add(p, NUMBERS, 3, other, last, 0);
    }
    return last;
}

/* x := value. */
static void assignment(struct program *p, unsigned value) {
    add(p, COMMANDS, 1, 0, value, 0);
}

/* A[value] := 0. */
static void store(struct program *p, unsigned value) {
    add(p, COMMANDS, 2, 1, value, add(p, NUMBERS, 0, 0, 0, 0));
}

/* Deep conditions, in the first or the last of as many guards as there is room for, each choice the left or the right
 * side of the next. The deep guard has an even number of negations, so many at most, over a comparison of deep elements.
 * The others are true, or false, so that on the deterministic graph a deep one after them is worked out for its result. */
static void guards(struct program *p, unsigned loop, unsigned count, int left, int others_hold) {
    unsigned zero = add(p, NUMBERS, 0, 0, 0, 0);
    unsigned deep = add(p, CONDITIONS, 1, elements(p, 510), zero, 0);
    unsigned room = 255 - (count - 1) * (others_hold ? 1 : 2);
    for (unsigned k = room / 2 * 2; k > 0; k--)
        deep = add(p, CONDITIONS, 6, deep, 0, 0);
    unsigned last = add(p, COMMANDS, 6, deep, add(p, COMMANDS, 0, 0, 0, 0), 0);
    for (unsigned k = 1; k < count; k++) {
        unsigned condition = add(p, CONDITIONS, 0, 0, 0, 0);
        if (!others_hold)
            condition = add(p, CONDITIONS, 6, condition, 0, 0);
        unsigned other = add(p, COMMANDS, 6, condition, add(p, COMMANDS, 0, 0, 0, 0), 0);
        last = left ? add(p, COMMANDS, 7, last, other, 0) : add(p, COMMANDS, 7, other, last, 0);
    }
    add(p, COMMANDS, loop ? 5 : 4, last, 0, 0);
}

/* Conjunctions, of either kind. */
static void conjunctions(struct program *p, unsigned kind, int left) {
    unsigned last = add(p, CONDITIONS, 0, 0, 0, 0);
    for (unsigned k = 0; k < 127; k++) {
        unsigned other = add(p, CONDITIONS, 0, 0, 0, 0);
        last = left ? add(p, CONDITIONS, kind, last, other, 0) : add(p, CONDITIONS, kind, other, last, 0);
    }
    unsigned guarded = add(p, COMMANDS, 6, last, add(p, COMMANDS, 0, 0, 0, 0), 0);
    add(p, COMMANDS, 4, guarded, 0, 0);
}

/* Ifs (4) or dos (5) in one another about a command. */
static unsigned about(struct program *p, unsigned kind, unsigned count, unsigned last) {
    for (unsigned k = 0; k < count; k++) {
        unsigned guarded = add(p, COMMANDS, 6, add(p, CONDITIONS, 0, 0, 0, 0), last, 0);
        last = add(p, COMMANDS, kind, guarded, 0, 0);
    }
    return last;
}

/* Skips in turn with a command. */
static void sequence(struct program *p, unsigned count, int left, unsigned last) {
    for (unsigned k = 0; k < count; k++) {
        unsigned other = add(p, COMMANDS, 0, 0, 0, 0);
        last = left ? add(p, COMMANDS, 3, last, other, 0) : add(p, COMMANDS, 3, other, last, 0);
    }
}

/* A skip (0) or a break (8). */
static unsigned single(struct program *p, unsigned kind) { return add(p, COMMANDS, kind, 0, 0, 0); }

static void build(struct program *p, int which) {
    memset(p, 0, sizeof *p);
    switch (which) {
    case 0: assignment(p, elements(p, 511)); break;
    case 1: store(p, elements(p, 510)); break;
    case 2: case 3: assignment(p, sums(p, 255, which == 2)); break;
    case 4: case 5: guards(p, 1, 85, which == 4, 1); break;
    case 6: case 7: guards(p, 0, 85, which == 6, 1); break;
    case 8: case 9: guards(p, 1, 1 + 2 * (which == 8), 1, 1); break;
    case 10: case 11: case 12: case 13: conjunctions(p, 4 + (unsigned)which % 2, which < 12); break;
    case 14: about(p, 4, 127, single(p, 0)); break;
    case 15: about(p, 5, 127, single(p, 8)); break;
    case 16: case 17: sequence(p, 127, which == 16, single(p, 0)); break;
    case 18: sequence(p, 126, 1, about(p, 5, 1, single(p, 8))); break;
    case 19: case 20: guards(p, which == 19, 85, 0, 0); break;
    default: guards(p, 1, 3, 0, 0);
    }
    finish(p);
}

#define PROGRAMS 22

static struct program program;
static uint32_t construction;
static uint8_t start[] = {PIZWOTER_ZERO, PIZWOTER_ZERO};
static uint8_t sheet[PIZWOTER_MOST_RECORDS * 4], arrows[PIZWOTER_MOST_ARROWS * PIZWOTER_ARROW_BYTES];
static int32_t memory[10];
static int64_t reply[PIZWOTER_REPLY];
static size_t sheet_length;

static void expect(int32_t status) {
    if (status != PIZWOTER_ANSWERED) {
        fprintf(stderr, "stack: refused %d at %d\n", (int)status, (int)reply[PIZWOTER_PLACE]);
        exit(2);
    }
}

/* The calls, each in a thread of its own. The class figures have no depth. */
static void *nothing(void *unused) { return unused; }
static void *validate(void *unused) {
    expect(pizwoter_validate(program.file, program.length, reply, PIZWOTER_REPLY));
    return unused;
}
static void *draw(void *unused) {
    expect(pizwoter_draw(program.file, program.length, construction, arrows, sizeof arrows, reply, PIZWOTER_REPLY));
    return unused;
}
static void *step(void *unused) {
    int64_t count = reply[PIZWOTER_DRAW_ARROWS];
    for (uint16_t k = 0; k < count; k++) {
        uint16_t from = (uint16_t)(arrows[PIZWOTER_ARROW_BYTES * k] << 8 | arrows[PIZWOTER_ARROW_BYTES * k + 1]);
        expect(pizwoter_step(program.file, program.length, construction, from, 0, k, memory, 10, reply,
                             PIZWOTER_REPLY));
    }
    return unused;
}
static void *run(void *unused) {
    expect(pizwoter_run(program.file, program.length, construction, 300, memory, 10, reply, PIZWOTER_REPLY));
    return unused;
}
static void *solve(void *unused) {
    expect(pizwoter_solve(program.file, program.length, construction, start, 2, sheet, sizeof sheet, reply,
                          PIZWOTER_REPLY));
    sheet_length = 4 * (size_t)reply[PIZWOTER_SOLVE_RECORDS];
    return unused;
}
static void *judge(void *unused) {
    expect(pizwoter_judge(program.file, program.length, construction, start, 2, sheet, sheet_length, reply,
                          PIZWOTER_REPLY));
    return unused;
}
static void *mark(void *unused) {
    expect(pizwoter_index_mark(program.file, program.length, sheet, sheet_length, reply, PIZWOTER_REPLY));
    return unused;
}
static void *split(void *unused) {
    expect(pizwoter_split(program.file, program.length, 14, reply, PIZWOTER_REPLY));
    return unused;
}

/* The bytes of its stack that a thread has written. */
static size_t taken(uint8_t *stack, void *(*call)(void *)) {
    pthread_t thread;
    pthread_attr_t attributes;
    size_t untouched = 0;
    memset(stack, PAINT, STACK);
    if (pthread_attr_init(&attributes) != 0 || pthread_attr_setstack(&attributes, stack, STACK) != 0 ||
        pthread_create(&thread, &attributes, call, NULL) != 0 || pthread_join(thread, NULL) != 0) {
        fprintf(stderr, "stack: no thread\n");
        exit(2);
    }
    while (untouched < STACK && stack[untouched] == PAINT)
        untouched++;
    return STACK - untouched;
}

int main(int argc, char **argv) {
    static const struct {
        const char *name;
        void *(*call)(void *);
    } calls[] = {{"validate", validate}, {"draw", draw}, {"step", step},       {"run", run},
                 {"solve", solve},       {"judge", judge}, {"index mark", mark}, {"split", split}};
    uint8_t *stack = aligned_alloc(1 << 16, STACK);
    size_t base, most = 0;
    if (argc != 2 || stack == NULL) {
        fprintf(stderr, "usage: stack LIMIT\n");
        return 2;
    }
    base = taken(stack, nothing);
    for (int which = 0; which < 2 * PROGRAMS; which++) {
        build(&program, which / 2);
        construction = which % 2 == 0 ? PIZWOTER_NONDETERMINISTIC_GRAPH : PIZWOTER_DETERMINISTIC_GRAPH;
        printf("program %2d, %s:", which / 2, which % 2 == 0 ? "nondeterministic" : "deterministic");
        for (size_t i = 0; i < sizeof calls / sizeof *calls; i++) {
            memset(memory, 0, sizeof memory);
            size_t bytes = taken(stack, calls[i].call) - base;
            printf(" %s %u", calls[i].name, (unsigned)bytes);
            most = bytes > most ? bytes : most;
        }
        printf("\n");
    }
    printf("the most: %u bytes of stack\n", (unsigned)most);
    return most > strtoul(argv[1], NULL, 10);
}
