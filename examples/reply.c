/* A solver's reply on standard input, as values of a record's board.
 *
 *     reply FILE.record < REPLY
 *
 * The reply has to be in the header's form, without comments. What is printed can be read by `board show` beside the text that
 * `board text FILE.record` writes.
 * Status 0: a solution is printed. 1: record or reply is refused. 2: wrong words or file, or no memory. 3: the solver says that there
 * is no solution. 6: its model is none.
 */
#include <basmuthar.h>
#include <inttypes.h>
#include <stdio.h>
#include <stdlib.h>

static void stop(int status, const char *what) {
    fprintf(stderr, "reply: %s\n", what);
    exit(status);
}

/* Goes on only if the library accepted the call. */
static void accepted(const char *call, const uint64_t answer[4], int status) {
    if (answer[0] == 0) return;
    fprintf(stderr, "reply: %s: refused %" PRIu64 " %" PRIu64 " (basmuthar.h says what the numbers mean)\n", call, answer[0],
            answer[1]);
    exit(status);
}

/* Memory for so many bytes, in the place of what was there before. */
static void *room(void *before, size_t bytes) {
    void *memory = realloc(before, bytes + 1);
    if (memory == NULL) stop(2, "no memory");
    return memory;
}

/* All that a file has, up to its end. */
static uint8_t *whole(FILE *in, size_t *length) {
    uint8_t *bytes = room(NULL, BUFSIZ);
    size_t more;
    *length = 0;
    while ((more = fread(bytes + *length, 1, BUFSIZ, in)) > 0) {
        *length += more;
        bytes = room(bytes, *length + BUFSIZ);
    }
    if (ferror(in)) stop(2, "a file cannot be read");
    return bytes;
}

/* A solution: the model decoded, and printed value by value. */
static void print_values(const uint8_t *record, size_t record_len, const uint8_t *model, size_t variables) {
    uint64_t answer[4];
    size_t integers = record[5] * 256u + record[6], booleans = record[7] * 256u + record[8];
    int32_t *values = room(NULL, integers * sizeof *values);
    uint8_t *truths = room(NULL, booleans);
    basmuthar_decode(record, record_len, model, variables, values, integers, truths, booleans, answer);
    accepted("Decode", answer, 6);
    printf("# a solution, decoded\n");
    for (size_t i = 0; i < integers; i++) printf("x%zu = %d\n", i, (int)values[i]);
    for (size_t i = 0; i < booleans; i++) printf("b%zu = %s\n", i + 1, truths[i] ? "yes" : "no");
    free(values), free(truths);
}

int main(int words, char **word) {
    uint64_t answer[4];
    FILE *in = words == 2 ? fopen(word[1], "rb") : NULL;
    if (in == NULL) stop(2, "expected a file that can be read: reply FILE.record < REPLY");
    size_t record_len, text_len;
    uint8_t *record = whole(in, &record_len), *text = whole(stdin, &text_len);
    fclose(in);
    basmuthar_size(record, record_len, answer);
    accepted("Size", answer, 1);
    uint32_t variables = (uint32_t)answer[1]; /* a record has fewer than 2^24 */
    uint8_t *model = room(NULL, variables);
    basmuthar_read_reply(variables, text, text_len, model, variables, answer);
    accepted("Read reply", answer, 1);
    int is_none = answer[1] == BASMUTHAR_NONE;
    if (is_none) printf("# none: there is no solution\n");
    else print_values(record, record_len, model, variables);
    free(record), free(text), free(model);
    return is_none ? 3 : 0;
}
