/* Calls the nine functions as a C or C++ program does: cases 12, 13 and 14 of 01, a driver of Closing, text and replies, some refusals, and
 * no lists. */

#include "basmuthar.h"

#include <stdio.h>
#include <string.h>

/* x, y in 0..2; x - y at most -1, or -x + y at most -1. */
static const uint8_t RECORD[44] = {
    1, 0, 0, 0, 0x27, 0, 2, 0, 0, 0, 1, 0, 0, 0, 2, 0, 0, 0, 2, 2, 2, 2,
    1, 0, 0, 0xFF, 0, 1, 0xFF, 0xFF, 0xFF, 0xFF, 2, 2, 0xFF, 0, 0, 1, 0, 1, 0xFF, 0xFF, 0xFF, 0xFF};

static const uint8_t MODEL[10] = {0, 1, 1, 1, 0, 0, 1, 1, 1, 0};

static int failures = 0;

static void expect(const char *what, int is_so) {
    if (!is_so) {
        printf("not so: %s\n", what);
        failures++;
    }
}

static int answers(const uint64_t answer[4], uint64_t first, uint64_t second, uint64_t third, uint64_t fourth) {
    return answer[0] == first && answer[1] == second && answer[2] == third && answer[3] == fourth;
}

static void size_and_compile(void) {
    uint64_t answer[4] = {7, 7, 7, 7};
    int32_t list[54];
    int i;
    basmuthar_size(RECORD, sizeof RECORD, answer);
    expect("size is 10 17 53", answers(answer, 0, 10, 17, 53));
    basmuthar_size(RECORD, 4, answer);
    expect("four bytes are refused with 2", answers(answer, 2, 0, 0, 0));
    for (i = 0; i < 54; i++) list[i] = 77;
    basmuthar_compile(RECORD, sizeof RECORD, list, 52, answer);
    expect("a list of 52 is refused with 10, 53", answers(answer, 10, 53, 0, 0));
    expect("and is left", list[0] == 77 && list[51] == 77);
    basmuthar_compile(RECORD, sizeof RECORD, list, 54, answer);
    expect("a list of 54 is accepted", answers(answer, 0, 10, 17, 53));
    expect("and its last place is left", list[0] == -1 && list[51] == 5 && list[52] == 0 && list[53] == 77);
}

static void decode_judge_and_image(void) {
    uint64_t answer[4] = {7, 7, 7, 7};
    int32_t values[2] = {77, 77};
    uint8_t none[1] = {77}, model[10];
    basmuthar_decode(RECORD, sizeof RECORD, MODEL, 10, values, 2, none, 0, answer);
    expect("the model is accepted", answers(answer, 0, 0, 0, 0));
    expect("and is x = 0, y = 1", values[0] == 0 && values[1] == 1 && none[0] == 77);
    basmuthar_judge(RECORD, sizeof RECORD, values, 2, none, 0, answer);
    expect("the values are a solution", answers(answer, 0, 0, 0, 0));
    basmuthar_image(RECORD, sizeof RECORD, values, 2, none, 0, model, 10, answer);
    expect("their image is accepted", answers(answer, 0, 0, 0, 0));
    expect("and is the model", memcmp(model, MODEL, 10) == 0);
    model[9] = 1;
    basmuthar_decode(RECORD, sizeof RECORD, model, 10, values, 2, none, 0, answer);
    expect("both selectors are refused with 13, 15", answers(answer, 13, 15, 0, 0));
    values[1] = 0;
    basmuthar_judge(RECORD, sizeof RECORD, values, 2, none, 0, answer);
    expect("equal starts are refused with 13, 0", answers(answer, 13, 0, 0, 0));
}

/* x in -4..3, x at least -2: -x at most 2. */
static const uint8_t LATE[25] = {
    1, 0, 0, 0, 0x14, 0, 1, 0, 0, 0, 1, 0xFF, 0xFC, 0, 3, 1, 2, 1, 0xFF, 0, 0, 0, 0, 0, 2};

/* Whether a value of LATE that is at most h is a solution. */
static uint8_t is_solved_by(int32_t h) {
    uint64_t answer[4];
    const uint8_t none[1] = {0};
    int32_t x;
    for (x = -4; x <= h; x++) {
        basmuthar_judge(LATE, sizeof LATE, &x, 1, none, 0, answer);
        if (answer[0] == 0) return 1;
    }
    return 0;
}

/* Begins with no reply, and asks as long as the answer is unfinished. */
static void closing_driven(void) {
    uint64_t answer[4] = {7, 7, 7, 7};
    int32_t hours[3] = {77, 77, 77};
    uint8_t replies[BASMUTHAR_MOST_REPLIES] = {0};
    size_t n = 0;
    basmuthar_closing(LATE, sizeof LATE, 0, replies, 0, hours, answer);
    expect("the first question is at the upper bound", hours[0] == -4 && hours[1] == 3 && hours[2] == 3);
    while (answer[0] == 0 && answer[1] == BASMUTHAR_UNFINISHED && n < BASMUTHAR_MOST_REPLIES) {
        replies[n++] = is_solved_by(hours[2]);
        basmuthar_closing(LATE, sizeof LATE, 0, replies, n, hours, answer);
    }
    expect("a value is found", answers(answer, 0, BASMUTHAR_FOUND, 0, 0));
    expect("by four questions", n == 4);
    expect("and it is -2", hours[0] == -2 && hours[1] == -2 && hours[2] == -2);
}

static void closing_ends(void) {
    uint64_t answer[4] = {7, 7, 7, 7};
    int32_t hours[3] = {77, 78, 79};
    const uint8_t no[2] = {0, 0}, wrong[2] = {0, 2};
    basmuthar_closing(LATE, sizeof LATE, 0, no, 1, hours, answer);
    expect("a first no is none", answers(answer, 0, BASMUTHAR_NONE, 0, 0));
    basmuthar_closing(LATE, sizeof LATE, 0, no, 2, hours, answer);
    expect("a reply after it is refused with 23, 1", answers(answer, 23, 1, 0, 0));
    basmuthar_closing(LATE, sizeof LATE, 0, wrong, 2, hours, answer);
    expect("a byte 2 is refused with 12 before that", answers(answer, 12, 1, 0, 0));
    basmuthar_closing(LATE, sizeof LATE, 1, wrong, 2, hours, answer);
    expect("an unknown variable with 22 before that", answers(answer, 22, 1, 0, 0));
    expect("and all of them leave the hours", hours[0] == 77 && hours[1] == 78 && hours[2] == 79);
}

/* The text's length, the text, and Compile's list read from it. */
static void text_written_and_read(void) {
    uint64_t answer[4] = {7, 7, 7, 7};
    uint8_t text[200];
    int32_t compiled[53], list[54];
    size_t length;
    memset(text, 77, sizeof text);
    list[53] = 77;
    basmuthar_write_text(RECORD, sizeof RECORD, text, 9, answer);
    length = (size_t)answer[1];
    expect("text of 9 bytes is refused with 10 and the length", answers(answer, 10, 142, 0, 0));
    expect("and is left", text[0] == 77 && text[8] == 77);
    basmuthar_write_text(RECORD, sizeof RECORD, text, sizeof text, answer);
    expect("longer text is accepted", answers(answer, 0, 142, 0, 0));
    expect("its first line is 01's", memcmp(text, "p cnf 10 17\n-1 0\n", 17) == 0);
    expect("and its later bytes are left", text[141] == '\n' && text[142] == 77);
    basmuthar_read_text(text, length, list, 52, answer);
    expect("a list of 52 is refused with 10, 53", answers(answer, 10, 53, 0, 0));
    basmuthar_read_text(text, length, list, 54, answer);
    expect("a list of 54 is accepted", answers(answer, 0, 10, 17, 53) && list[53] == 77);
    basmuthar_compile(RECORD, sizeof RECORD, compiled, 53, answer);
    expect("and is Compile's", memcmp(compiled, list, sizeof compiled) == 0);
    basmuthar_read_text(text, length - 2, list, 54, answer);
    expect("text without its last 0 is refused with 18 at its end", answers(answer, 18, 140, 0, 0));
}

static void read_reply(uint32_t n, const char *reply, uint8_t *model, size_t model_len, uint64_t answer[4]) {
    basmuthar_read_reply(n, (const uint8_t *)reply, strlen(reply), model, model_len, answer);
}

static void replies_read(void) {
    uint64_t answer[4] = {7, 7, 7, 7};
    uint8_t model[10] = {77, 77, 77, 77, 77, 77, 77, 77, 77, 77};
    read_reply(10, "s UNSATISFIABLE\n", model, 3, answer);
    expect("a no is none, with any model", answers(answer, 0, BASMUTHAR_NONE, 0, 0));
    read_reply(10, "s SATISFIABLE\nv 11 0\n", model, 3, answer);
    expect("a number beyond N is refused with 18 at its place", answers(answer, 18, 16, 0, 0));
    read_reply(10, "s SATISFIABLE\nv 1 2 -2 0\n", model, 3, answer);
    expect("both signs are refused with 19", answers(answer, 19, 2, 0, 0));
    read_reply(10, "s SATISFIABLE\nv -1 2 3 4 -5 -6\nv 7 8 9 -10 0\n", model, 3, answer);
    expect("a model of another length is refused with 11", answers(answer, 11, 10, 0, 0));
    expect("and all of them leave the model", model[0] == 77 && model[2] == 77);
    read_reply(10, "s SATISFIABLE\nv -1 2 3 4 -5 -6\nv 7 8 9 -10 0\n", model, 10, answer);
    expect("the reply is a model", answers(answer, 0, BASMUTHAR_MODEL, 0, 0));
    expect("that of case 14", memcmp(model, MODEL, 10) == 0);
}

/* A list of length 0 may be NULL: refused with the record, refused for its length, and accepted. */
static void nothing_lent(void) {
    static const uint8_t EMPTY[11] = {1, 0, 0, 0, 6, 0, 0, 0, 0, 0, 0};
    uint64_t answer[4] = {7, 7, 7, 7};
    int32_t hours[3] = {77, 77, 77};
    basmuthar_size(NULL, 0, answer);
    expect("size: no record is refused with 2", answers(answer, 2, 0, 0, 0));
    basmuthar_compile(NULL, 0, NULL, 0, answer);
    expect("compile: no record is refused with 2", answers(answer, 2, 0, 0, 0));
    basmuthar_compile(RECORD, sizeof RECORD, NULL, 0, answer);
    expect("compile: no list is refused with 10, 53", answers(answer, 10, 53, 0, 0));
    basmuthar_compile(EMPTY, sizeof EMPTY, NULL, 0, answer);
    expect("compile: no list is enough for no clause", answers(answer, 0, 0, 0, 0));
    basmuthar_decode(NULL, 0, NULL, 0, NULL, 0, NULL, 0, answer);
    expect("decode: no record is refused with 2", answers(answer, 2, 0, 0, 0));
    basmuthar_decode(RECORD, sizeof RECORD, NULL, 0, NULL, 0, NULL, 0, answer);
    expect("decode: no model is refused with 11, 10", answers(answer, 11, 10, 0, 0));
    basmuthar_decode(EMPTY, sizeof EMPTY, NULL, 0, NULL, 0, NULL, 0, answer);
    expect("decode: the model of no variable is accepted", answers(answer, 0, 0, 0, 0));
    basmuthar_judge(NULL, 0, NULL, 0, NULL, 0, answer);
    expect("judge: no record is refused with 2", answers(answer, 2, 0, 0, 0));
    basmuthar_judge(RECORD, sizeof RECORD, NULL, 0, NULL, 0, answer);
    expect("judge: no values are refused with 11, 2", answers(answer, 11, 2, 0, 0));
    basmuthar_judge(EMPTY, sizeof EMPTY, NULL, 0, NULL, 0, answer);
    expect("judge: no value is a solution of nothing", answers(answer, 0, 0, 0, 0));
    basmuthar_image(NULL, 0, NULL, 0, NULL, 0, NULL, 0, answer);
    expect("image: no record is refused with 2", answers(answer, 2, 0, 0, 0));
    basmuthar_image(EMPTY, sizeof EMPTY, NULL, 0, NULL, 0, NULL, 0, answer);
    expect("image: no value has the model of nothing", answers(answer, 0, 0, 0, 0));
    basmuthar_closing(NULL, 0, 0, NULL, 0, hours, answer);
    expect("closing: no record is refused with 2", answers(answer, 2, 0, 0, 0) && hours[0] == 77);
    basmuthar_closing(LATE, sizeof LATE, 0, NULL, 0, hours, answer);
    expect("closing: no reply is unfinished", answers(answer, 0, BASMUTHAR_UNFINISHED, 0, 0) && hours[2] == 3);
}

static void no_text_lent(void) {
    uint64_t answer[4] = {7, 7, 7, 7};
    basmuthar_write_text(NULL, 0, NULL, 0, answer);
    expect("write text: no record is refused with 2", answers(answer, 2, 0, 0, 0));
    basmuthar_write_text(RECORD, sizeof RECORD, NULL, 0, answer);
    expect("write text: no text is refused with 10, 142", answers(answer, 10, 142, 0, 0));
    basmuthar_read_text(NULL, 0, NULL, 0, answer);
    expect("read text: no text is refused with 18", answers(answer, 18, 0, 0, 0));
    basmuthar_read_text((const uint8_t *)"p cnf 3 0\n", 10, NULL, 0, answer);
    expect("read text: no list is enough for no clause", answers(answer, 0, 3, 0, 0));
    basmuthar_read_reply(0, NULL, 0, NULL, 0, answer);
    expect("read reply: no reply is refused with 18", answers(answer, 18, 0, 0, 0));
    read_reply(0, "s SATISFIABLE\nv 0\n", NULL, 0, answer);
    expect("read reply: no model is enough for no variable", answers(answer, 0, BASMUTHAR_MODEL, 0, 0));
}

int main(void) {
    size_and_compile();
    decode_judge_and_image();
    closing_driven();
    closing_ends();
    text_written_and_read();
    replies_read();
    nothing_lent();
    no_text_lent();
    return failures != 0;
}
