/* basmuthar.h: nine operations on board records, their text and solvers' replies, for programs in C and C++.
 *
 * A board record has bounded integer variables, Boolean variables and clauses. Basmuthar writes it as CNF by the
 * order encoding, as a list or as text, and reads models and solvers' replies back. The library is linked as
 * libbasmuthar.a, or where it is installed as libbasmuthar.so. It keeps nothing between calls: every list is lent by the
 * caller.
 *
 * THE RECORD
 *   All numbers are big-endian, signed ones in two's complement.
 *     byte 0           the version, 1
 *     bytes 1 to 4     how many bytes follow
 *     2 bytes each     how many integer variables (0 to 1,024), Boolean variables m (0 to 4,096), clauses (0 to 4,096)
 *     each integer variable: lower and upper bound, 2 bytes each, signed, from -4,096 to 4,095, lower not above upper
 *     each clause: 1 byte, how many literals (0 to 64), and the literals, one of which has to hold:
 *       0 and 2 bytes  the Boolean variable of that number, 1 to m, is true
 *       1 and 2 bytes  it is false
 *       2              a comparison: 1 byte, how many terms (1 to 3); each term, 1 byte, signed, its coefficient (-64 to 64,
 *                      not 0) and 2 bytes, its integer variable counted from 0 (no variable twice); 4 bytes, signed, a
 *                      constant from -1,000,000 to 1,000,000. The sum of the terms is at most the constant.
 *
 * THE SAT VARIABLES
 *   1 to m are the Boolean variables. Then come, one integer variable x after another, p(x,c) for c from its lower bound
 *   less 1 to its upper bound: "x is at most c". Then the selectors, in the order of clauses and literals: each comparison
 *   in a clause of two or more literals has one.
 *   So p(x,c) has the number m + w + (c - lower + 2), where lower is x's own lower bound and w adds up, over the integer
 *   variables before x, upper - lower + 2.
 *
 * THE TEXT
 *   Clause text is DIMACS CNF: the line `p cnf N M`, then the numbers of M clauses, each clause its literals and then 0.
 *   Write text gives each clause a line, its numbers parted by one space. Read text wants the first line just so, with its
 *   newline, N and M at most 2,147,483,647; after it numbers are parted by runs of spaces or newlines, which may also stand
 *   before and after them. There is no comment, tab, carriage return, plus or leading zero.
 *   A reply is the line `s SATISFIABLE`, then lines of `v` and one or more numbers, each after one space, with one 0, the
 *   last number; or it is the line `s UNSATISFIABLE` alone. Every line ends with a newline, also the last.
 *   Text is bad exactly if it departs from its form, holds a number beyond N, or has more or fewer clauses than M.
 *
 * WHAT A CALLER OWES
 *   Every pointer points to as many places as the length beside it says, `answer` to four, and `hours` to three. A list
 *   of length 0 may be NULL, as data() of an empty C++ vector may be: nothing is read or written through it. That is
 *   tested, not proved: no contract speaks of NULL. `answer` and `hours` are never NULL. `answer` overlaps nothing, and
 *   a list that is written no other list of the call; `hours` is such a list. A text is a list of bytes.
 *   What the lists hold is free: every content has an answer.
 *
 * THE ANSWER
 *   answer[0] is 0 where the call was accepted, and otherwise the number of the refusal.
 *     accepted, Size, Compile and Read text:   { 0, N, M, K }
 *     accepted, Decode, Judge and Image:       { 0, 0, 0, 0 }
 *     accepted, Closing:                       { 0, found 0 or none 1 or unfinished 2, 0, 0 }
 *     accepted, Write text:                    { 0, the text's length in bytes, 0, 0 }
 *     accepted, Read reply:                    { 0, a model 0 or none 1, 0, 0 }
 *     refused:                                 { number, detail, 0, 0 }
 *   N is how many SAT variables there are, M how many clauses, K how many numbers the clause list has.
 *   All four places are written by every call; what they held before does not matter.
 *
 * WHAT A REFUSAL LEAVES
 *   A refused call changes nothing that was lent to it, `answer` apart. An accepted call changes exactly the places
 *   that it is said to write.
 *
 * THE REFUSALS
 *   number  when                                                                         detail
 *        1  the record has more than 65,536 bytes                                        0
 *        2  it has fewer than 5 bytes, or its stated length is not its length less 5     0
 *        3  its version is not 1                                                         0
 *        4  a count is outside its range                                                 place
 *        5  a bound is outside its range, or an upper is below its lower                 place
 *        6  a kind byte is above 2, or a Boolean number is outside 1 to m                place
 *        7  a coefficient is 0 or outside -64 to 64                                      place
 *        8  a field runs past the end, or bytes remain after the last clause             place
 *        9  K is above 2,000,000,000                                                     0
 *       10  the lent clause list or text is too short                                    length wanted
 *       11  another lent list has the wrong length                                       length wanted
 *       12  a model, Boolean or reply byte is not 0 or 1                                 index
 *       13  a clause does not hold                                                       its number from 0
 *       14  a value is outside its bounds                                                index
 *       15  a term's variable is unknown: the record does not have so many               place
 *       16  a term's variable stands in an earlier term of its comparison                place
 *       17  a comparison's constant is outside -1,000,000 to 1,000,000                   place
 *       18  clause text or a reply is bad                                                place in the text
 *       19  a reply lacks a variable, or has it more than once, with either sign         the least such number
 *       22  the record has no integer variable of this number                            its number
 *       23  replies are left over after the last question                                how many
 *   m is how many Boolean variables the record has. A place is the offset in the record of the first byte of the field
 *   that is wrong (the upper's, where it is below its lower), or of the first byte left over. A place in the text is the
 *   offset of the first number beyond N (as soon as its digits are, whatever follows) or past clause M, of its minus where
 *   it has one; or of an earlier byte with which no good text can go on. Where the text is good as far as it goes, something
 *   is missing, and the place is the text's length.
 *   All operations on a record look at it first, in this order: 1; fewer than 5 bytes (2); 3; the stated length (2); the
 *   body from left to right with 4 to 8 and 15 to 17, a field's missing bytes (8) before its value; bytes left over (8); 9. The
 *   first condition that is met is the refusal given. What each operation tests after that stands with it.
 */

#ifndef BASMUTHAR_H
#define BASMUTHAR_H

#include <stddef.h>
#include <stdint.h>

#ifdef __cplusplus
extern "C" {
#endif

/* The greatest number of bytes of a record that is not refused with 1. */
#define BASMUTHAR_LONGEST_RECORD 65536

/* The greatest K that is not refused with 9. */
#define BASMUTHAR_LONGEST_LIST 2000000000

/* What Closing answers: answer[1]. */
#define BASMUTHAR_FOUND 0
#define BASMUTHAR_NONE 1
#define BASMUTHAR_UNFINISHED 2

/* The greatest number of replies that Closing asks for. */
#define BASMUTHAR_MOST_REPLIES 14

/* What Read reply answers: answer[1], this or BASMUTHAR_NONE. */
#define BASMUTHAR_MODEL 0

/* Size: the three numbers of a record.
 *
 *   Reads    record.
 *   Writes   nothing but the answer, { 0, N, M, K } where accepted.
 *   Refuses  with 1 to 9 and 15 to 17, as said above.
 */
void basmuthar_size(const uint8_t *record, size_t record_len, uint64_t answer[4]);

/* Compile: the clause list of a record.
 *
 *   Reads    record.
 *   Writes   list[0] to list[K - 1]: each clause is its literals and then 0, a negated literal is a negative number.
 *            Later places keep their numbers. The answer is { 0, N, M, K }, the same as Size's.
 *   Refuses  with 1 to 9 and 15 to 17; then with 10 and detail K where list_len is below K. A longer list is welcome.
 *
 *   The numbers can be handed to the `add` of an IPASIR solver one after another.
 */
void basmuthar_compile(const uint8_t *record, size_t record_len, int32_t *list, size_t list_len, uint64_t answer[4]);

/* Decode: the values of a model.
 *
 *   Reads    record, and model: N bytes, each 0 or 1; byte i is the truth of SAT variable i + 1.
 *   Writes   all of values, one number for each integer variable: the least c within its bounds whose p(x,c) is true;
 *            all of booleans, one byte for each Boolean variable, 0 or 1.
 *   Refuses  with 1 to 9 and 15 to 17; then with 11 where model_len is not N, then where values_len is not the number of
 *            integer variables, then where booleans_len is not the number of Boolean variables; then with 12 at the
 *            first model byte that is neither 0 nor 1; then with 13 at the first clause of Compile's list, axioms among
 *            them and counted from 0, none of whose literals holds in the model.
 *
 *   So exactly the models of the clause list are accepted, and what is written is a solution of the board.
 */
void basmuthar_decode(const uint8_t *record, size_t record_len, const uint8_t *model, size_t model_len,
                      int32_t *values, size_t values_len, uint8_t *booleans, size_t booleans_len, uint64_t answer[4]);

/* Judge: whether values and Booleans are a solution.
 *
 *   Reads    record, values (one for each integer variable) and booleans (one byte for each Boolean variable).
 *   Writes   nothing but the answer.
 *   Refuses  with 1 to 9 and 15 to 17; then with 11 where values_len is not the number of integer variables, then where
 *            booleans_len is not the number of Boolean variables; then with 12 at the first Boolean byte that is
 *            neither 0 nor 1; then with 14 at the first value outside its variable's bounds; then with 13 at the
 *            first clause of the record, counted from 0, none of whose literals holds.
 *
 *   So exactly the solutions of the board are accepted.
 */
void basmuthar_judge(const uint8_t *record, size_t record_len, const int32_t *values, size_t values_len,
                     const uint8_t *booleans, size_t booleans_len, uint64_t answer[4]);

/* Image: the plain model of a solution.
 *
 *   Reads    record, values and booleans, as Judge does.
 *   Writes   all of model, N bytes, each 0 or 1: every SAT variable is true exactly where what it stands for holds, a
 *            Boolean variable itself, p(x,c) where x is at most c, a selector where its comparison holds.
 *   Refuses  as Judge does, and with 11 where model_len is not N, after the lengths of values and booleans and before
 *            12, 14 and 13.
 *
 *   Decode of the model gives the same values and Booleans back.
 */
void basmuthar_image(const uint8_t *record, size_t record_len, const int32_t *values, size_t values_len,
                     const uint8_t *booleans, size_t booleans_len, uint8_t *model, size_t model_len,
                     uint64_t answer[4]);

/* Closing: the least value of an integer variable over all solutions, by a solver's replies to questions 'at most h?'.
 *
 *   Reads    record; variable, counted from 0; and replies: a byte for each question so far, 1 yes, 0 no.
 *   Writes   hours, where a value is found or the replies are too few. The answer is
 *              { 0, BASMUTHAR_FOUND, 0, 0 }        hours is the value, three times
 *              { 0, BASMUTHAR_NONE, 0, 0 }         there is no solution; hours keeps its numbers
 *              { 0, BASMUTHAR_UNFINISHED, 0, 0 }   hours is low, high, and h, the question to put next
 *   Refuses  with 1 to 9 and 15 to 17; then with 22 where the record has no such variable; then with 12 at the first
 *            reply, used or left over, that is neither 0 nor 1; then with 23 where replies are left over after the last
 *            question.
 *
 *   Begin with no reply. As long as the answer is unfinished, ask the solver whether the board has a solution with the
 *   variable at most hours[2], put its reply at the end of replies, and call again. If every reply is true, the value
 *   found is the least of all solutions, and 'none' is told exactly where there is no solution.
 *   The first question is at the upper bound, and each later one halves the range: h is half of low + high, rounded down
 *   also where that is negative. Do not work it out by C's division, which rounds toward 0.
 *   No question needs a new list: it is Compile's list with the clause p(x,h) added, or with p(x,h) assumed.
 */
void basmuthar_closing(const uint8_t *record, size_t record_len, size_t variable, const uint8_t *replies,
                       size_t replies_len, int32_t hours[3], uint64_t answer[4]);

/* Write text: the clause list of a record as text, for a solver that is a program of its own.
 *
 *   Reads    record.
 *   Writes   the first bytes of text, as many as answer[1] says: what the program `basmuthar` prints. Later bytes stay.
 *   Refuses  with 1 to 9 and 15 to 17; then with 10 and the length wanted where text_len is below it. Longer text is
 *            welcome.
 *
 *   To learn the length, lend none (NULL, 0): every text has a first line, so 10 tells it. It can be above 2^32.
 */
void basmuthar_write_text(const uint8_t *record, size_t record_len, uint8_t *text, size_t text_len, uint64_t answer[4]);

/* Read text: clause text as a clause list.
 *
 *   Reads    text, which need not come from Write text.
 *   Writes   list[0] to list[K - 1], the numbers of the text behind its first line. Later places keep their numbers. The
 *            answer is { 0, N, M, K }: N and M as the first line says, K how many numbers there are, zeros among them.
 *   Refuses  with 18; then with 10 and detail K where list_len is below K. A longer list is welcome. There is no limit to
 *            K as 9 is one.
 *
 *   Of what Write text wrote, it gives Compile's list and answer.
 */
void basmuthar_read_text(const uint8_t *text, size_t text_len, int32_t *list, size_t list_len, uint64_t answer[4]);

/* Read reply: a solver's reply as a model, or that there is none.
 *
 *   Reads    text, the reply; n is how many SAT variables there are, N of Size or Compile, and any number is taken.
 *   Writes   all of model, n bytes, each 0 or 1, where the reply is a model: byte i is 1 exactly if the reply has i + 1
 *            without a minus. The answer is
 *              { 0, BASMUTHAR_MODEL, 0, 0 }   the reply says yes, and model is written
 *              { 0, BASMUTHAR_NONE, 0, 0 }    it says no; model may have any length, and keeps its bytes
 *   Refuses  with 18; then, where the reply says yes, with 19, and then with 11 where model_len is not n.
 *
 *   What solvers print besides, such as comments, has to be taken out before. Whether the model is one, Decode says.
 */
void basmuthar_read_reply(uint32_t n, const uint8_t *text, size_t text_len, uint8_t *model, size_t model_len,
                          uint64_t answer[4]);

#ifdef __cplusplus
}
#endif

#endif /* BASMUTHAR_H */
