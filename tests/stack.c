/* How much stack each of the nine functions takes, on the records named, on their text, and on a long reply: each runs on a painted
 * stack of its own, and what has lost its paint was used. Fails where it is more than docs/LIMITS.md says.
 */
#define _XOPEN_SOURCE 600
#include <basmuthar.h>
#include <stdio.h>
#include <stdlib.h>
#include <string.h>
#include <ucontext.h>

enum { ROOM = 1 << 20, MOST = 16 * 1024, MOST_OF_REPLY = 64 * 1024, PAINT = 0xA5, TOLD = 100000 };

static uint8_t stack[ROOM], record[BASMUTHAR_LONGEST_RECORD + 1], replies[1];
static size_t bytes, variables, numbers, integers, booleans, letters;
static int32_t *list, *values, hours[3];
static uint8_t *model, *truths, *text;
/* The numbers from TOLD down to 1, the hardest order, and the model that they are. */
static char reply[8 * TOLD];
static size_t reply_len;
static uint8_t told[TOLD];
static uint64_t answer[4];
static ucontext_t caller, called;

static void size(void) { basmuthar_size(record, bytes, answer); }
static void compile(void) { basmuthar_compile(record, bytes, list, numbers, answer); }
static void decode(void) { basmuthar_decode(record, bytes, model, variables, values, integers, truths, booleans, answer); }
static void judge(void) { basmuthar_judge(record, bytes, values, integers, truths, booleans, answer); }
static void image(void) { basmuthar_image(record, bytes, values, integers, truths, booleans, model, variables, answer); }
static void closing(void) { basmuthar_closing(record, bytes, 0, replies, 0, hours, answer); }
static void write_text(void) { basmuthar_write_text(record, bytes, text, letters, answer); }
static void read_text(void) { basmuthar_read_text(text, letters, list, numbers, answer); }
static void read_reply(void) { basmuthar_read_reply(TOLD, (const uint8_t *)reply, reply_len, told, TOLD, answer); }

static size_t used_by(void (*call)(void)) {
    size_t kept = 0;
    memset(stack, PAINT, sizeof stack);
    getcontext(&called);
    called.uc_stack.ss_sp = stack;
    called.uc_stack.ss_size = sizeof stack;
    called.uc_link = &caller;
    makecontext(&called, call, 0);
    swapcontext(&caller, &called);
    while (kept < sizeof stack && stack[kept] == PAINT) kept++;
    return sizeof stack - kept;
}

/* Reads a record; what is refused is looked at too, with lists of length 0. */
static void take(const char *file) {
    FILE *in = fopen(file, "rb");
    if (in == NULL) perror(file), exit(2);
    bytes = fread(record, 1, sizeof record, in);
    fclose(in);
    size();
    variables = answer[0] == 0 ? answer[1] : 0;
    numbers = answer[0] == 0 ? answer[3] : 0;
    integers = bytes < 11 ? 0 : record[5] * 256u + record[6];
    booleans = bytes < 11 ? 0 : record[7] * 256u + record[8];
    list = calloc(numbers + 1, sizeof *list), values = calloc(integers + 1, sizeof *values);
    model = calloc(variables + 1, 1), truths = calloc(booleans + 1, 1);
    letters = 0, write_text();
    letters = answer[0] == 10 ? answer[1] : 0;
    text = calloc(letters + 1, 1);
}

static int bound_at(size_t place) {
    int bound = record[place] * 256 + record[place + 1];
    return bound < 32768 ? bound : bound - 65536;
}

/* Each variable at its upper bound, and a model that says so: the axioms hold, and Decode goes on to the rules. */
static void set_to_upper_bounds(void) {
    size_t last = booleans;
    for (size_t x = 0; x < integers && variables > 0; x++) {
        values[x] = bound_at(13 + 4 * x);
        last += (size_t)(values[x] - bound_at(11 + 4 * x) + 2);
        model[last - 1] = 1;
    }
}

static size_t used_by_reply(void) {
    reply_len = (size_t)sprintf(reply, "s SATISFIABLE\nv");
    for (int number = TOLD; number >= 0; number--) reply_len += (size_t)sprintf(reply + reply_len, " %d", number);
    reply_len += (size_t)sprintf(reply + reply_len, "\n");
    return used_by(read_reply);
}

int main(int words, char **word) {
    void (*calls[])(void) = {size, compile, decode, judge, image, closing, write_text, read_text};
    size_t most = 0, most_of_reply = used_by_reply();
    int decoded = 0, read = 0, replied = answer[0] == 0 && answer[1] == BASMUTHAR_MODEL && told[0] && told[TOLD - 1];
    for (int i = 1; i < words; i++) {
        take(word[i]);
        set_to_upper_bounds();
        for (size_t call = 0; call < sizeof calls / sizeof *calls; call++) {
            size_t used = used_by(calls[call]);
            if (used > most) most = used;
            decoded += calls[call] == decode && answer[0] == 0;
            read += calls[call] == read_text && answer[0] == 0;
        }
        free(list), free(values), free(model), free(truths), free(text);
    }
    printf("stack: at most %zu bytes for a call, in %d records, %d of them with a model and %d with text; %zu for a reply\n", most, words - 1,
           decoded, read, most_of_reply);
    if (decoded == 0 || read == 0 || !replied) return printf("stack: no model, no text or no reply was read\n"), 1;
    return most == 0 || most > MOST || most_of_reply == 0 || most_of_reply > MOST_OF_REPLY;
}
