/* A board's record to an IPASIR solver and back.
 *
 *     round_trip FILE.record             values that keep to every rule
 *     round_trip FILE.record VARIABLE    the least value of an integer variable, counted from 0, and values that have it
 *
 * What is printed can be read by `board show` beside the text that `board text FILE.record` writes.
 * Status 0: a solution is printed. 1: refused. 2: wrong words or file, or no memory. 3: there is no solution. 4: the solver
 * says neither yes nor no. 6: its model does not bear out its yes.
 */
#include <basmuthar.h>
#include <errno.h>
#include <inttypes.h>
#include <stdio.h>
#include <stdlib.h>
#include <string.h>

#include "ipasir.h"

struct board {
    uint8_t record[BASMUTHAR_LONGEST_RECORD + 1]; /* a byte more than is admitted, so that a longer file is refused */
    size_t record_len;
    size_t variables;                   /* N: SAT variables */
    size_t integers, booleans;          /* the board's own variables */
    uint8_t *model, *truths;            /* a byte for each SAT variable, and for each Boolean variable */
    int32_t *values;                    /* a value for each integer variable */
};

static void stop(int status, const char *what, const char *why) {
    fprintf(stderr, "round_trip: %s: %s\n", what, why);
    exit(status);
}

/* Goes on only if the library accepted the call. */
static void accepted(const char *call, const uint64_t answer[4], int status) {
    if (answer[0] == 0) return;
    fprintf(stderr, "round_trip: %s: refused %" PRIu64 " %" PRIu64 " (basmuthar.h says what the numbers mean)\n", call,
            answer[0], answer[1]);
    exit(status);
}

/* Memory for so many things. There is none where there are none, and a list of length 0 may be NULL. */
static void *room(size_t count, size_t each) {
    void *memory = count == 0 ? NULL : calloc(count, each);
    if (count != 0 && memory == NULL) stop(2, "no memory", "the clause list and the model do not fit");
    return memory;
}

/* Two bytes of the record as a count. */
static size_t count_at(const struct board *board, size_t place) {
    return (size_t)board->record[place] * 256 + board->record[place + 1];
}

/* Two bytes of the record as a bound, which may be negative. */
static int bound_at(const struct board *board, size_t place) {
    int bound = (int)count_at(board, place);
    return bound < 32768 ? bound : bound - 65536;
}

static void read_record(struct board *board, const char *file) {
    FILE *in = fopen(file, "rb");
    if (in == NULL) stop(2, file, strerror(errno));
    board->record_len = fread(board->record, 1, sizeof board->record, in);
    if (ferror(in)) stop(2, file, "it cannot be read");
    fclose(in);
}

/* Size, memory for the list, Compile, and every number of the list to the solver. The list is not needed after that. */
static void hand_over(struct board *board, void *solver) {
    uint64_t answer[4];
    basmuthar_size(board->record, board->record_len, answer);
    accepted("Size", answer, 1);
    size_t numbers = (size_t)answer[3];
    int32_t *list = room(numbers, sizeof *list);
    basmuthar_compile(board->record, board->record_len, list, numbers, answer);
    accepted("Compile", answer, 1);
    for (size_t i = 0; i < numbers; i++) ipasir_add(solver, list[i]);
    free(list);

    board->variables = (size_t)answer[1];
    board->integers = count_at(board, 5);
    board->booleans = count_at(board, 7);
    board->model = room(board->variables, sizeof *board->model);
    board->values = room(board->integers, sizeof *board->values);
    board->truths = room(board->booleans, sizeof *board->truths);
    printf("# %zu SAT variables, %d clauses, a list of %zu numbers\n", board->variables, (int)answer[2], numbers);
}

/* Whether the solver says yes; other replies than yes and no end the program. */
static int says_yes(void *solver) {
    int reply = ipasir_solve(solver);
    if (reply != IPASIR_YES && reply != IPASIR_NO) stop(4, "the solver", "it says neither yes nor no");
    return reply == IPASIR_YES;
}

/* The solver's model, through Decode and Judge. What Decode accepts is a solution; Judge says so of the values alone. */
static void read_back(struct board *board, void *solver) {
    uint64_t answer[4];
    for (size_t i = 0; i < board->variables; i++) board->model[i] = ipasir_val(solver, (int)i + 1) > 0;
    basmuthar_decode(board->record, board->record_len, board->model, board->variables, board->values, board->integers,
                     board->truths, board->booleans, answer);
    accepted("Decode", answer, 6);
    basmuthar_judge(board->record, board->record_len, board->values, board->integers, board->truths, board->booleans, answer);
    accepted("Judge", answer, 6);
}

static int print_values(const struct board *board) {
    printf("# a solution, decoded and judged\n");
    for (size_t i = 0; i < board->integers; i++) printf("x%zu = %d\n", i, (int)board->values[i]);
    for (size_t i = 0; i < board->booleans; i++) printf("b%zu = %s\n", i + 1, board->truths[i] ? "yes" : "no");
    return 0;
}

static int no_solution(void) {
    printf("# none: there is no solution\n");
    return 3;
}

/* The number of p(x,c), "x is at most c": the header's m + w + (c - lower + 2). */
static int at_most(const struct board *board, size_t x, int c) {
    size_t before = board->booleans;
    for (size_t y = 0; y < x; y++) before += (size_t)(bound_at(board, 13 + 4 * y) - bound_at(board, 11 + 4 * y) + 2);
    return (int)before + c - bound_at(board, 11 + 4 * x) + 2;
}

static int place(struct board *board, void *solver) {
    if (!says_yes(solver)) return no_solution();
    read_back(board, solver);
    return print_values(board);
}

/* Closing's questions one after another. Each is p(x,h), assumed for one call: the solver keeps the list and all it learned. */
static int earliest(struct board *board, void *solver, size_t x) {
    uint8_t replies[BASMUTHAR_MOST_REPLIES];
    uint64_t answer[4];
    int32_t hours[3];
    size_t asked = 0;
    for (;;) {
        basmuthar_closing(board->record, board->record_len, x, replies, asked, hours, answer);
        accepted("Closing", answer, 1);
        if (answer[1] != BASMUTHAR_UNFINISHED) break;
        ipasir_assume(solver, at_most(board, x, hours[2]));
        int yes = says_yes(solver);
        printf("# x%zu at most %d? %s\n", x, (int)hours[2], yes ? "yes" : "no");
        if (yes) read_back(board, solver);
        if (yes && board->values[x] > hours[2]) stop(6, "the solver", "its model does not keep to the question");
        replies[asked++] = (uint8_t)yes;
    }
    if (answer[1] == BASMUTHAR_NONE) return no_solution();
    printf("# the earliest: x%zu = %d, after %zu questions\n", x, (int)hours[0], asked);
    /* The last yes was at this hour, and its values are still there. */
    return print_values(board);
}

int main(int words, char **word) {
    static struct board board;
    if (words < 2 || words > 3) stop(2, "usage", "round_trip FILE.record [VARIABLE]");
    if (words == 3 && (word[2][0] == '\0' || word[2][strspn(word[2], "0123456789")] != '\0'))
        stop(2, word[2], "expected an integer variable's number, counted from 0");
    read_record(&board, word[1]);
    void *solver = ipasir_init();
    hand_over(&board, solver);
    int status = words == 3 ? earliest(&board, solver, strtoul(word[2], NULL, 10)) : place(&board, solver);
    ipasir_release(solver);
    free(board.model), free(board.values), free(board.truths);
    return status;
}
