/* A desk in small: loads a lesson, prints its graph, its sheet and the verdict, and steps it from the keyboard or from
 * a script.
 *
 *     lesson [-d] INPUT [CELL ...]
 *
 * INPUT is what the sheet program reads: a program and its start list. The cells are the memory, 0 where they are not
 * given. With -d all is on the deterministic graph. On standard input, a word at a time: the number of an arrow takes a step along it, `r N` runs from node 0 with
 * a budget of N, `q` leaves. The status is 1 where the engine refuses the lesson, and 2 where INPUT cannot be read or a
 * cell is no number.
 *
 * With an installed library: cc lesson.c $(pkg-config --cflags --libs pizwoter); in the repository: examples/run. */
#include <pizwoter.h>

#include <errno.h>
#include <inttypes.h>
#include <stdio.h>
#include <stdlib.h>
#include <string.h>

struct lesson {
    uint8_t input[PIZWOTER_MOST_INPUT_BYTES + 1]; /* one byte more, so that a longer file is seen to be longer */
    const uint8_t *program;
    size_t program_length;
    uint32_t construction;
    const uint8_t *start;
    size_t start_length;
    uint8_t arrows[PIZWOTER_MOST_ARROWS * PIZWOTER_ARROW_BYTES];
    unsigned nodes;
    unsigned arrow_count;
    uint8_t sheet[PIZWOTER_MOST_RECORDS * (2 + PIZWOTER_MOST_NAMES)];
    size_t sheet_length;
    unsigned names;
    size_t width;
    uint16_t sizes[PIZWOTER_MOST_NAMES];
    int32_t memory[PIZWOTER_MOST_CELLS];
    size_t cells;
};

static unsigned word(const uint8_t *bytes) {
    return (unsigned)bytes[0] << 8 | bytes[1];
}

/* A decimal number between two others: 1, and the number; or 0, where the text is no such number. */
static int read_number(const char *text, long least, long most, long *number) {
    char *end;
    errno = 0;
    *number = strtol(text, &end, 10);
    return end != text && *end == '\0' && errno == 0 && least <= *number && *number <= most;
}

/* A number of a reply that is known to be small. */
static unsigned at(const int64_t *reply, int place) {
    return (unsigned)reply[place];
}

/* Ends the program where a call is refused. */
static void check(const char *what, int32_t status, const int64_t *reply) {
    if (status == PIZWOTER_ANSWERED)
        return;
    fprintf(stderr, "lesson: %s: refused %d at %u", what, (int)status, at(reply, PIZWOTER_PLACE));
    if (status == PIZWOTER_WRONG_RECORD)
        fprintf(stderr, " of the %s", reply[PIZWOTER_LIST] == PIZWOTER_START_LIST ? "start list" : "sheet");
    fprintf(stderr, "\n");
    exit(1);
}

/* The names' field comes first: its tag, its length, and two bytes for each name. */
static void read_names(struct lesson *l) {
    l->names = word(l->program + 1) / 2;
    l->width = 2 + l->names;
    l->cells = 0;
    for (unsigned i = 0; i < l->names; i++) {
        l->sizes[i] = (uint16_t)word(l->program + 3 + 2 * i);
        l->cells += l->sizes[i] == 0 ? 1 : l->sizes[i];
    }
}

/* The file's bytes, up to one more than an input can have. */
static size_t read_input(struct lesson *l, const char *path) {
    FILE *file = fopen(path, "rb");
    size_t length = file == NULL ? 0 : fread(l->input, 1, sizeof l->input, file);
    if (file == NULL || ferror(file)) {
        fprintf(stderr, "lesson: %s: %s\n", path, strerror(errno));
        exit(2);
    }
    fclose(file);
    return length;
}

static void load(struct lesson *l, const char *path) {
    int64_t reply[PIZWOTER_REPLY];
    size_t length = read_input(l, path);
    check("the input", pizwoter_input_parts(l->input, length, reply, PIZWOTER_REPLY), reply);
    l->program = l->input;
    l->program_length = (size_t)reply[PIZWOTER_PARTS_PROGRAM_LENGTH];
    l->start = l->input + reply[PIZWOTER_PARTS_START];
    l->start_length = (size_t)reply[PIZWOTER_PARTS_START_LENGTH];
    read_names(l);
}

/* The cells that are given, into the memory. */
static void read_cells(struct lesson *l, int given, char **texts) {
    if ((size_t)given > l->cells) {
        fprintf(stderr, "lesson: %d cells are given, and the memory has %u\n", given, (unsigned)l->cells);
        exit(2);
    }
    for (int i = 0; i < given; i++) {
        long cell;
        if (!read_number(texts[i], INT32_MIN, INT32_MAX, &cell)) {
            fprintf(stderr, "lesson: the cell '%s' is no number of 32 bits\n", texts[i]);
            exit(2);
        }
        l->memory[i] = (int32_t)cell;
    }
}

/* A set of signs. */
static void print_set(unsigned set, int is_array) {
    const char *minus = set & PIZWOTER_MINUS ? "-" : "", *zero = set & PIZWOTER_ZERO ? "0" : "";
    printf(is_array ? " [%s%s%s]" : " %s%s%s", minus, zero, set & PIZWOTER_PLUS ? "+" : "");
}

static void print_signs(const struct lesson *l, const uint8_t *signs) {
    for (unsigned i = 0; i < l->names; i++)
        print_set(signs[i], l->sizes[i] > 0);
}

static void print_arrow(const struct lesson *l, unsigned k) {
    const uint8_t *arrow = l->arrows + PIZWOTER_ARROW_BYTES * k;
    const char *kind = arrow[4] == PIZWOTER_ACTION_COMMAND   ? "command"
                       : arrow[4] == PIZWOTER_ACTION_BOOLEAN ? "condition"
                       : arrow[4] == PIZWOTER_ACTION_EXIT    ? "exit of"
                                                             : "guard of";
    printf("  arrow %u: %u to %u, %s %u\n", k, word(arrow), word(arrow + 2), kind, word(arrow + 5));
}

static void print_graph(struct lesson *l) {
    int64_t reply[PIZWOTER_REPLY];
    int32_t status = pizwoter_draw(l->program, l->program_length, l->construction, l->arrows, sizeof l->arrows,
                                   reply, PIZWOTER_REPLY);
    check("the graph", status, reply);
    l->nodes = at(reply, PIZWOTER_DRAW_NODES);
    l->arrow_count = at(reply, PIZWOTER_DRAW_ARROWS);
    printf("graph: %u nodes, %u arrows\n", l->nodes, l->arrow_count);
    for (unsigned k = 0; k < l->arrow_count; k++)
        print_arrow(l, k);
}

/* The signs at each node. */
static void print_sheet(const struct lesson *l) {
    for (unsigned node = 0; node < l->nodes; node++) {
        printf("  node %u:", node);
        const char *between = "";
        for (size_t at = 0; at < l->sheet_length; at += l->width)
            if (word(l->sheet + at) == node) {
                printf("%s", between);
                print_signs(l, l->sheet + at + 2);
                between = ";";
            }
        printf("\n");
    }
}

static void print_verdict(const struct lesson *l, const int64_t *reply) {
    const unsigned record = at(reply, PIZWOTER_JUDGE_RECORD), offset = at(reply, PIZWOTER_JUDGE_OFFSET);
    switch (reply[PIZWOTER_ANSWER]) {
    case PIZWOTER_START_MISSING:
        printf("verdict: start record %u is missing:", record);
        print_signs(l, l->start + offset);
        printf("\n");
        break;
    case PIZWOTER_RESULT_MISSING:
        printf("verdict: a result of record %u along arrow %u is missing:", record, at(reply, PIZWOTER_JUDGE_ARROW));
        print_signs(l, l->sheet + offset + 2);
        printf(" at node %u\n", word(l->sheet + offset));
        break;
    default:
        if (reply[PIZWOTER_JUDGE_MARK] == PIZWOTER_CLEAN)
            printf("verdict: checked, index clean\n");
        else
            printf("verdict: checked, but an index may be below zero at record %u, arrow %u\n",
                   at(reply, PIZWOTER_JUDGE_MARK_RECORD), at(reply, PIZWOTER_JUDGE_MARK_ARROW));
    }
}

static void solve(struct lesson *l) {
    int64_t reply[PIZWOTER_REPLY];
    int32_t status = pizwoter_solve(l->program, l->program_length, l->construction, l->start, l->start_length,
                                    l->sheet, sizeof l->sheet, reply, PIZWOTER_REPLY);
    check("the solver", status, reply);
    l->sheet_length = (size_t)reply[PIZWOTER_SOLVE_RECORDS] * l->width;
    printf("sheet: %u records, by node\n", at(reply, PIZWOTER_SOLVE_RECORDS));
    print_sheet(l);
    status = pizwoter_judge(l->program, l->program_length, l->construction, l->start, l->start_length, l->sheet,
                            l->sheet_length, reply, PIZWOTER_REPLY);
    check("the sheet", status, reply);
    print_verdict(l, reply);
}

/* The record of the memory at a node, as a sheet has it. */
static void record_of(const struct lesson *l, unsigned node, uint8_t *record) {
    record[0] = (uint8_t)(node >> 8);
    record[1] = (uint8_t)node;
    size_t cell = 0;
    for (unsigned i = 0; i < l->names; i++) {
        unsigned set = 0;
        for (unsigned k = 0; k < (l->sizes[i] == 0 ? 1u : l->sizes[i]); k++, cell++)
            set |= l->memory[cell] < 0 ? PIZWOTER_MINUS : l->memory[cell] == 0 ? PIZWOTER_ZERO : PIZWOTER_PLUS;
        record[2 + i] = (uint8_t)set;
    }
}

static int is_listed(const struct lesson *l, const uint8_t *record) {
    for (size_t at = 0; at < l->sheet_length; at += l->width)
        if (memcmp(l->sheet + at, record, l->width) == 0)
            return 1;
    return 0;
}

static void print_state(const struct lesson *l, unsigned node, unsigned count) {
    uint8_t record[2 + PIZWOTER_MOST_NAMES];
    record_of(l, node, record);
    printf("node %u, %u taken, memory", node, count);
    for (size_t i = 0; i < l->cells; i++)
        printf(" %" PRId32, l->memory[i]);
    printf(", signs");
    print_signs(l, record + 2);
    if (is_listed(l, record))
        printf(": on the sheet\n");
    else
        printf(": NOT on the sheet (do the signs of the first memory stand in the start list?)\n");
    for (unsigned k = 0; k < l->arrow_count; k++)
        if (word(l->arrows + PIZWOTER_ARROW_BYTES * k) == node)
            print_arrow(l, k);
}

static const char *reason(int64_t answer) {
    switch (answer) {
    case PIZWOTER_CONDITION_FALSE: return "condition false";
    case PIZWOTER_DIVISOR_ZERO: return "divisor zero";
    case PIZWOTER_EXPONENT_NEGATIVE: return "exponent negative";
    case PIZWOTER_INDEX_BELOW_ZERO: return "index below zero";
    case PIZWOTER_INDEX_PAST_SIZE: return "index past the size";
    default: return "out of range";
    }
}

/* A run as the desk keeps it: where it is, and how many arrows it has taken. The memory is the lesson's. */
struct run {
    uint16_t node;
    uint16_t count;
};

static struct run step(struct lesson *l, struct run run, uint16_t arrow) {
    int64_t reply[PIZWOTER_REPLY];
    int32_t status = pizwoter_step(l->program, l->program_length, l->construction, run.node, run.count, arrow,
                                   l->memory, l->cells, reply, PIZWOTER_REPLY);
    if (status != PIZWOTER_ANSWERED)
        printf("\narrow %u: refused %d at %u\n", arrow, (int)status, at(reply, PIZWOTER_PLACE));
    else if (reply[PIZWOTER_ANSWER] == PIZWOTER_TAKEN)
        printf("\narrow %u: taken\n", arrow);
    else
        printf("\narrow %u: undefined, %s\n", arrow, reason(reply[PIZWOTER_ANSWER]));
    run.node = (uint16_t)reply[PIZWOTER_STEP_NODE];
    run.count = (uint16_t)reply[PIZWOTER_STEP_COUNT];
    return run;
}

static struct run run_from_start(struct lesson *l, uint16_t budget) {
    int64_t reply[PIZWOTER_REPLY];
    int32_t status = pizwoter_run(l->program, l->program_length, l->construction, budget, l->memory, l->cells,
                                  reply, PIZWOTER_REPLY);
    check("the run", status, reply);
    switch (reply[PIZWOTER_ANSWER]) {
    case PIZWOTER_ARRIVED: printf("\nrun: arrived\n"); break;
    case PIZWOTER_BUDGET_USED_UP: printf("\nrun: budget used up\n"); break;
    default: printf("\nrun: no arrow is defined\n");
    }
    return (struct run){(uint16_t)reply[PIZWOTER_RUN_NODE], (uint16_t)reply[PIZWOTER_RUN_COUNT]};
}

/* Words until there is none, or `q`. The engine's numbers have 16 bits: a wider one would arrive as another number, so
 * it is told and no call is made. */
static void follow(struct lesson *l) {
    char text[32];
    struct run run = {0, 0};
    print_state(l, run.node, run.count);
    while (scanf("%31s", text) == 1 && strcmp(text, "q") != 0) {
        long number;
        int is_run = strcmp(text, "r") == 0;
        if (is_run && scanf("%31s", text) != 1)
            text[0] = '\0';
        if (!read_number(text, 0, UINT16_MAX, &number)) {
            printf("\n'%s' is no number from 0 to %d\n", text, UINT16_MAX);
            continue;
        }
        run = is_run ? run_from_start(l, (uint16_t)number) : step(l, run, (uint16_t)number);
        print_state(l, run.node, run.count);
    }
}

int main(int argc, char **argv) {
    static struct lesson l;
    int is_deterministic = argc > 1 && strcmp(argv[1], "-d") == 0;
    int first = is_deterministic ? 2 : 1;
    if (argc <= first) {
        fprintf(stderr, "usage: lesson [-d] INPUT [CELL ...]\n");
        return 2;
    }
    l.construction = is_deterministic ? PIZWOTER_DETERMINISTIC_GRAPH : PIZWOTER_NONDETERMINISTIC_GRAPH;
    load(&l, argv[first]);
    read_cells(&l, argc - first - 1, argv + first + 1);
    print_graph(&l);
    solve(&l);
    follow(&l);
    return 0;
}
