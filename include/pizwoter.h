/* Pizwoter: the lesson engine of a crane simulator's control desk, as a C library for x86-64 Linux.
 *
 * `install PREFIX` in the repository puts this header, libpizwoter.a, libpizwoter.so and pizwoter.pc below
 * PREFIX. A program is then compiled by one line (PKG_CONFIG_PATH=PREFIX/lib/pkgconfig where pkg-config does
 * not look there by itself):
 *
 *     cc lesson.c $(pkg-config --cflags --libs pizwoter)
 *
 * That takes the shared library, for which the program looks in PREFIX/lib where LD_LIBRARY_PATH or the
 * system names it. With -Wl,-Bstatic before the $(...) and -Wl,-Bdynamic after it, the archive is taken.
 *
 * The library allocates nothing, keeps nothing between calls, and reads no clock and no file. Every call
 * takes any bytes and any numbers whatever: it ends, stays inside the buffers that it is handed, and what it
 * returns and what every buffer holds afterwards is fixed by what is said here. That is proved: each call's
 * contract is an equation for its return value and for every buffer (crates/desk/src in the repository).
 *
 * A USE. A run of at most 1,000 arrows, and how it ended:
 *
 *     #include <pizwoter.h>
 *     #include <stdio.h>
 *
 *     void tell(const uint8_t *program, size_t length, int32_t *memory, size_t cells) {
 *         int64_t reply[PIZWOTER_REPLY];
 *         int32_t status = pizwoter_run(program, length, PIZWOTER_NONDETERMINISTIC_GRAPH, 1000,
 *                                       memory, cells, reply, PIZWOTER_REPLY);
 *         if (status != PIZWOTER_ANSWERED)
 *             printf("question %d: no, place %d\n", (int)status, (int)reply[PIZWOTER_PLACE]);
 *         else if (reply[PIZWOTER_ANSWER] == PIZWOTER_ARRIVED)
 *             printf("arrived, %d arrows taken\n", (int)reply[PIZWOTER_RUN_COUNT]);
 *         else
 *             printf("stopped at node %d\n", (int)reply[PIZWOTER_RUN_NODE]);
 *     }
 *
 * THE PROGRAM. A program file begins with its names: the byte 1, a length of two bytes (high byte first),
 * and two bytes for each name, 0 for a variable or the size of an array, 1 to 64. So a program that is fit
 * has length / 2 names, and a memory for it has one cell for a variable and one for each element of an
 * array, in name order. The rest of the file, its expressions and commands, is the editor's business.
 *
 * THE GRAPHS. A program has two graphs. Their nodes and arrows are the same; only what a guard's arrow does
 * is not. In the nondeterministic graph it passes where its guard is true, so that several arrows out of a
 * node may be defined at once. In the deterministic graph it passes where its guard is true and all earlier
 * guards of the same if or do are false. The earlier ones are worked out in text order and its own last, each
 * of them whatever the others are; the first that is undefined gives the arrow's reason, and where none is it
 * is 31. There at most one arrow out of a node is defined, in any memory. Commands and exits do the same in
 * both graphs.
 *
 * Five calls take the number of a graph, `construction`: pizwoter_draw, pizwoter_step, pizwoter_run,
 * pizwoter_judge and pizwoter_solve. 1 is the nondeterministic graph, 2 the deterministic one. Any other
 * number names none: it is not refused, and the call is as with 1. The other calls take no graph, since what
 * they answer is the same for both; so is the index mark of a sheet.
 *
 * THE RETURN VALUE is 0 (PIZWOTER_ANSWERED) where the call is answered; the number of the question that is
 * answered no, 1 to 18, 20, 23 or 24, where it is refused; and -1 (PIZWOTER_SHORT_REPLY) where the reply is
 * too short for the call's row: then nothing is written, in no buffer whatever.
 *
 * THE REPLY. Every call but pizwoter_version writes one row of numbers at the front of `reply`, answered or
 * refused. A call's row has one length, PIZWOTER_..._ROW, and each place of it one meaning; the numbers of
 * `reply` after the row stay as they were. A reply of PIZWOTER_REPLY numbers is long enough for every call.
 * The first three places are the same in all rows: the answer, which is -1 (PIZWOTER_REFUSED) where the call
 * is refused; the place of the question that is answered no, otherwise 0; and question 17's list, otherwise
 * 0. The call's own places follow. A place that does not apply is 0, unless it is said otherwise.
 *
 * REFUSALS. Questions are asked in this order, and the first no ends the asking: of each field of the file
 * in turn 1, 2, 3 and 4; then 5; then 6 of each name in turn; then of each entry of the tables in turn 7, 8
 * and 9; then 10, then 11, then 20. After these pizwoter_step asks 12, 14 and 15, pizwoter_run 12,
 * pizwoter_draw 13, pizwoter_judge and pizwoter_index_mark 16 and 17, pizwoter_solve 16, 17 and 18, each in
 * that order. The calls for class figures ask 23 and then, of a list, 24, and nothing else. A refusal
 * changes no buffer but the reply, with one exception: after 18 the buffer holds the records that found
 * room.
 *
 * SLICES. A slice is a pointer and a number of elements. The pointer must not be NULL, also where the number
 * is 0, and must be aligned for its element. A slice that is written (a pointer without const) must not
 * overlap another slice of the same call.
 *
 * NUMBERS OF 16 BITS. Node, count, arrow and budget are uint16_t. C converts an argument that is wider
 * modulo 65,536 before the call, so that 65,536 arrives as 0 and -1 as 65,535: the caller tests wider
 * numbers first. The same goes for the numbers of 32 bits: a construction, a place and the counts of a join.
 *
 * THREADS. Calls may be made from several threads at once, as long as none writes a buffer that another
 * uses. On the largest programs a call takes less than 130 KB of stack (measured, not proved): a thread that
 * makes calls should have 256 KB.
 *
 * VERSIONS. A later version may add a call, a question, a place at a row's end, or a parameter, and may have
 * a call that names no graph take the deterministic one; it moves no place. A program is linked with the
 * library of the header that it was compiled with: pizwoter_version() is PIZWOTER_VERSION.
 */
#ifndef PIZWOTER_H
#define PIZWOTER_H

#include <stddef.h>
#include <stdint.h>

#ifdef __cplusplus
extern "C" {
#endif

#define PIZWOTER_VERSION 3

/* Return values beside the numbers of the questions. */
#define PIZWOTER_ANSWERED 0
#define PIZWOTER_SHORT_REPLY (-1)

/* The places of every row, and the answer of a call that is refused. */
#define PIZWOTER_ANSWER 0
#define PIZWOTER_PLACE 1
#define PIZWOTER_LIST 2
#define PIZWOTER_REFUSED (-1)

/* The longest row: a reply of so many numbers is long enough for every call. */
#define PIZWOTER_REPLY 10

/* Limits. */
#define PIZWOTER_MOST_PROGRAM_BYTES 7244 /* the largest program file that is fit */
#define PIZWOTER_MOST_INPUT_BYTES 23631  /* the largest input of five fields that is fit */
#define PIZWOTER_MOST_NAMES 32
#define PIZWOTER_MOST_CELLS 512
#define PIZWOTER_MOST_NODES 129
#define PIZWOTER_MOST_ARROWS 255
#define PIZWOTER_ARROW_BYTES 7           /* from (2), to (2), action kind (1), entry (2); high byte first */
#define PIZWOTER_MOST_RECORDS 4096       /* of a start list and of a sheet */
#define PIZWOTER_MOST_MARKS 4096         /* of a class, and of two classes joined */
#define PIZWOTER_HIGHEST_MARK 10000      /* the lowest is -10,000 */

/* Questions. The place of 1 to 11 and 20 is the byte of the file where the head or the entry starts, unless
 * it is said otherwise; 12 to 16, 18 and 23 have none. */
#define PIZWOTER_NO_HEAD 1            /* fewer than three bytes are left for a field's head */
#define PIZWOTER_WRONG_TAG 2          /* the tag is not the one due */
#define PIZWOTER_WRONG_LENGTH 3       /* the length is not whole entries, as many as allowed */
#define PIZWOTER_CONTENT_CUT 4        /* not all of the content is there; the place is the head's */
#define PIZWOTER_TOO_LONG 5           /* bytes after the last field; the place is the first of them */
#define PIZWOTER_WRONG_SIZE 6         /* a name's size is above 64, or there are more than 512 cells */
#define PIZWOTER_UNKNOWN_KIND 7
#define PIZWOTER_WRONG_OPERAND 8      /* an unused operand is not zero, or a name is not there or of the
                                         wrong sort */
#define PIZWOTER_WRONG_REFERENCE 9    /* a reference does not point to a lower or earlier entry of its sort */
#define PIZWOTER_NOT_USED_ONCE 10     /* an entry is never used, or more than once; the first such */
#define PIZWOTER_LAST_NOT_COMMAND 11  /* the last command entry is a guarded command */
#define PIZWOTER_WRONG_MEMORY 12      /* the memory has not as many cells as the program */
#define PIZWOTER_NO_ROOM_FOR_ARROWS 13
#define PIZWOTER_NO_SUCH_NODE 14
#define PIZWOTER_NO_SUCH_ARROW 15     /* the arrow does not exist, or does not leave the node */
#define PIZWOTER_NOT_WHOLE_RECORDS 16 /* start list or sheet is not whole records, or has more than 4,096 */
#define PIZWOTER_WRONG_RECORD 17      /* a byte of a record is wrong, in the list that the row tells, start
                                         list first; the place counts from the list's first byte, and of a
                                         wrong node it is the node's first byte */
#define PIZWOTER_NO_ROOM_FOR_RECORD 18
#define PIZWOTER_LOOSE_JUMP 20        /* a break or continue is outside every do; the lowest such entry */
#define PIZWOTER_WRONG_CLASS 23       /* no mark or more than 4,096; in a join, totals past their limits */
#define PIZWOTER_WRONG_MARK 24        /* a mark is outside the range; the place is its number, from 0 */

/* The lists that question 17 tells. */
#define PIZWOTER_NO_LIST 0
#define PIZWOTER_START_LIST 1
#define PIZWOTER_SHEET 2

/* Sign sets: minus, zero and plus, added up. */
#define PIZWOTER_MINUS 1
#define PIZWOTER_ZERO 2
#define PIZWOTER_PLUS 4

/* The graphs of a program, by their numbers. */
#define PIZWOTER_UNNAMED_GRAPH 0          /* as any number but 1 and 2: none is named */
#define PIZWOTER_NONDETERMINISTIC_GRAPH 1
#define PIZWOTER_DETERMINISTIC_GRAPH 2

/* The number of the library's version. */
uint32_t pizwoter_version(void);

/* Questions 1 to 11 and 20 of a program file.
 * Answer: 0, the file is fit. */
#define PIZWOTER_VALIDATE_ROW 3
int32_t pizwoter_validate(const uint8_t *program, size_t program_length,
                          int64_t *reply, size_t reply_length);

/* Questions 1 to 11 and 20 of an input of five fields: a program file, then a field of tag 5 with a start
 * list of 0 to 512 records. 1 to 4 are asked of the fifth field too, and 5 after it.
 * Answer: 0, the input is fit. The row is that of pizwoter_validate. */
int32_t pizwoter_validate_input(const uint8_t *input, size_t input_length,
                                int64_t *reply, size_t reply_length);

/* Where the two parts of such an input lie: the program file is its first bytes.
 * Answer: 0. Refused: 1 to 11, 20. */
#define PIZWOTER_PARTS_ROW 6
#define PIZWOTER_PARTS_PROGRAM_LENGTH 3
#define PIZWOTER_PARTS_START 4        /* the offset in the input at which the start list begins */
#define PIZWOTER_PARTS_START_LENGTH 5
int32_t pizwoter_input_parts(const uint8_t *input, size_t input_length,
                             int64_t *reply, size_t reply_length);

/* A graph of the program: its arrows, PIZWOTER_ARROW_BYTES each, at the front of `buffer`, whose other bytes
 * stay. Node 0 is the start, node 1 the end. A guard's arrow is of kind 2 in the nondeterministic graph and
 * of kind 4 in the deterministic one, the first of an if or do too. A buffer of PIZWOTER_MOST_ARROWS *
 * PIZWOTER_ARROW_BYTES holds any graph.
 * Answer: 0. Refused: 1 to 11, 20, 13. */
#define PIZWOTER_DRAW_ROW 5
#define PIZWOTER_DRAW_NODES 3         /* how many nodes there are */
#define PIZWOTER_DRAW_ARROWS 4        /* how many arrows */
#define PIZWOTER_ACTION_COMMAND 1     /* action kinds: the command of that command entry, a skip, assignment,
                                         store, break or continue; the last two act as skip */
#define PIZWOTER_ACTION_BOOLEAN 2     /* the condition of that boolean entry */
#define PIZWOTER_ACTION_EXIT 3        /* the exit of the do whose operand is that command entry */
#define PIZWOTER_ACTION_GUARD 4       /* the guard of that guarded entry, a command entry of kind 6, after the
                                         earlier guards of the same if or do: those of the lower arrows of
                                         kind 4 that leave the same node */
int32_t pizwoter_draw(const uint8_t *program, size_t program_length, uint32_t construction,
                      uint8_t *buffer, size_t buffer_length,
                      int64_t *reply, size_t reply_length);

/* One step of a run that is at `node` with `count` arrows taken, along the arrow of that number; a fresh run
 * is at node 0 with 0. A run belongs to neither graph: a step is on the one that it names. A step that is
 * taken changes at most one cell of `memory`, any other none.
 * Answer: 0, the step is taken; or the reason for which it is undefined. Refused: 1 to 11, 20, 12, 14, 15. */
#define PIZWOTER_STEP_ROW 5
#define PIZWOTER_STEP_NODE 3          /* the run afterwards: as handed in where the step is undefined or */
#define PIZWOTER_STEP_COUNT 4         /* refused; the count stays at 65,535 once it is there */
#define PIZWOTER_TAKEN 0
#define PIZWOTER_CONDITION_FALSE 31
#define PIZWOTER_DIVISOR_ZERO 32
#define PIZWOTER_EXPONENT_NEGATIVE 33
#define PIZWOTER_INDEX_BELOW_ZERO 34
#define PIZWOTER_INDEX_PAST_SIZE 35   /* the index is the array's size or above */
#define PIZWOTER_OUT_OF_RANGE 36      /* the exact result is not in the range of 32 bits */
int32_t pizwoter_step(const uint8_t *program, size_t program_length, uint32_t construction,
                      uint16_t node, uint16_t count, uint16_t arrow, int32_t *memory, size_t memory_length,
                      int64_t *reply, size_t reply_length);

/* A run from node 0 that takes the lowest-numbered defined arrow each time, at most `budget` of them.
 * `memory` is as the run leaves it.
 * Answer: how the run ended, asked in the order of the numbers. Refused: 1 to 11, 20, 12. */
#define PIZWOTER_RUN_ROW 5
#define PIZWOTER_RUN_NODE 3           /* the node where it ended, and the number of arrows taken; */
#define PIZWOTER_RUN_COUNT 4          /* both 0 where the call is refused */
#define PIZWOTER_ARRIVED 0            /* at node 1 */
#define PIZWOTER_BUDGET_USED_UP 1
#define PIZWOTER_NO_ARROW_DEFINED 2
int32_t pizwoter_run(const uint8_t *program, size_t program_length, uint32_t construction,
                     uint16_t budget, int32_t *memory, size_t memory_length,
                     int64_t *reply, size_t reply_length);

/* The verdict on a sheet. A record of the start list has one byte for each name: a variable's sign (1, 2 or
 * 4), an array's set of signs (1 to 7). A record of a sheet has a node before that, two bytes, high byte
 * first. A memory's record has its variables' signs and exactly the signs of each array's elements.
 * Answer: accepted, or 41 or 42. Refused: 1 to 11, 20, 16, 17.
 *
 * What "accepted" means, and it is proved. It is about the graph that the sheet was judged on, and steps and
 * runs on that one. Take any memory whose record is in the start list. Whatever steps are called on it from a
 * fresh run, and however many, refused and undefined ones among them: the sheet has a record with the node
 * that is then reached and exactly the memory's signs there. The same holds of where pizwoter_run ends, with
 * any budget. And where the mark is clean: no step that is called is undefined for reason 34, and no arrow
 * out of the node then reached is, taken or not; nor is any arrow out of the node where pizwoter_run ends. */
#define PIZWOTER_JUDGE_ROW 10
#define PIZWOTER_JUDGE_RECORD 3       /* the record of 41 in the start list, or of 42 in the sheet, from 0 */
#define PIZWOTER_JUDGE_ARROW 4        /* the arrow of 42 */
#define PIZWOTER_JUDGE_OFFSET 5       /* the offending record's bytes: in the start list after 41, */
#define PIZWOTER_JUDGE_LENGTH 6       /* in the sheet after 42 */
#define PIZWOTER_JUDGE_MARK 7         /* of an accepted sheet its index mark, otherwise 0 */
#define PIZWOTER_JUDGE_MARK_RECORD 8  /* of an unclean mark the lowest record, and then its lowest arrow, */
#define PIZWOTER_JUDGE_MARK_ARROW 9   /* with an index that may be below zero */
#define PIZWOTER_ACCEPTED 0
#define PIZWOTER_START_MISSING 41     /* a start record is missing at node 0; the first such */
#define PIZWOTER_RESULT_MISSING 42    /* a result of an arrow is missing at its target; the lowest record,
                                         then its lowest arrow */
#define PIZWOTER_CLEAN 1              /* index marks */
#define PIZWOTER_UNCLEAN 2
int32_t pizwoter_judge(const uint8_t *program, size_t program_length, uint32_t construction,
                       const uint8_t *start_list, size_t start_list_length,
                       const uint8_t *sheet, size_t sheet_length,
                       int64_t *reply, size_t reply_length);

/* The index mark of a sheet by itself, accepted or not. It is the same for both graphs.
 * Answer: PIZWOTER_CLEAN or PIZWOTER_UNCLEAN. Refused: 1 to 11, 20, 16, 17. */
#define PIZWOTER_MARK_ROW 5
#define PIZWOTER_MARK_RECORD 3        /* of an unclean mark, as of pizwoter_judge */
#define PIZWOTER_MARK_ARROW 4
int32_t pizwoter_index_mark(const uint8_t *program, size_t program_length,
                            const uint8_t *sheet, size_t sheet_length,
                            int64_t *reply, size_t reply_length);

/* The solver's sheet for a start list, at the front of `buffer`, whose other bytes stay. There is room for
 * the buffer's whole records, at most 4,096.
 * Answer: 0. Refused: 1 to 11, 20, 16, 17, and 18 where there was no room for the next record. */
#define PIZWOTER_SOLVE_ROW 4
#define PIZWOTER_SOLVE_RECORDS 3      /* how many records the buffer holds: after 18 the leading ones */
int32_t pizwoter_solve(const uint8_t *program, size_t program_length, uint32_t construction,
                       const uint8_t *start_list, size_t start_list_length,
                       uint8_t *buffer, size_t buffer_length,
                       int64_t *reply, size_t reply_length);

/* A byte place in a sheet of the program, any number, as the record and the column that it lies in.
 * Answer: 0. Refused: 1 to 11, 20. */
#define PIZWOTER_SPLIT_ROW 5
#define PIZWOTER_SPLIT_RECORD 3
#define PIZWOTER_SPLIT_COLUMN 4
int32_t pizwoter_split(const uint8_t *program, size_t program_length, uint32_t place,
                       int64_t *reply, size_t reply_length);

/* The figures of a class: mean and variance of its marks, 1 to 4,096 of them, each from -10,000 to 10,000,
 * without rounding. The mean is the sum over the number of marks; the variance is the number times the sum
 * of squares, less the square of the sum, over the number squared. Both are fractions in lowest terms with a
 * positive denominator, zero as 0 over 1.
 * Answer: 0. Refused: 23, 24; the numbers from place 3 on are then 0, 0, 0, 0, 1, 0, 1. */
#define PIZWOTER_FIGURES_ROW 10
#define PIZWOTER_FIGURES_COUNT 3
#define PIZWOTER_FIGURES_SUM 4
#define PIZWOTER_FIGURES_SQUARES 5    /* the sum of the squares */
#define PIZWOTER_FIGURES_MEAN 6       /* numerators and denominators */
#define PIZWOTER_FIGURES_MEAN_OVER 7
#define PIZWOTER_FIGURES_VARIANCE 8
#define PIZWOTER_FIGURES_VARIANCE_OVER 9
int32_t pizwoter_figures(const int32_t *marks, size_t marks_length,
                         int64_t *reply, size_t reply_length);

/* The figures of two classes joined, by count, sum and sum of squares of each, as the rows of these two
 * calls give them; those of no mark are 0, 0, 0. Where each class's are those of a list of marks in the
 * range, the row is the one that pizwoter_figures writes of the two lists as one. Question 23 is answered no
 * where both together have no mark or more than 4,096, or where either has a sum beyond 10,000 per mark
 * either way, a sum of squares below zero or beyond 100,000,000 per mark, or a variance below zero.
 * Answer: 0. Refused: 23. The row is that of pizwoter_figures. */
int32_t pizwoter_join(uint32_t first_count, int64_t first_sum, int64_t first_squares,
                      uint32_t second_count, int64_t second_sum, int64_t second_squares,
                      int64_t *reply, size_t reply_length);

#ifdef __cplusplus
}
#endif

#endif
