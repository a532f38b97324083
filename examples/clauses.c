/* Prints the three numbers of the record on standard input, and its clause list. */
#include <basmuthar.h>
#include <stdio.h>
#include <stdlib.h>

int main(void) {
    static uint8_t record[BASMUTHAR_LONGEST_RECORD + 1];
    uint64_t answer[4];
    size_t bytes = fread(record, 1, sizeof record, stdin);
    basmuthar_size(record, bytes, answer);
    size_t numbers = answer[3]; /* 0 where the record is refused, which Compile says once more */
    int32_t *list = calloc(numbers + 1, sizeof *list);
    if (list == NULL) return fprintf(stderr, "no memory for %zu numbers\n", numbers), 2;
    basmuthar_compile(record, bytes, list, numbers, answer);
    if (answer[0] != 0) return printf("refused %d %d\n", (int)answer[0], (int)answer[1]), 1;
    printf("%d SAT variables, %d clauses:", (int)answer[1], (int)answer[2]);
    for (size_t i = 0; i < numbers; i++) printf(" %d", (int)list[i]);
    return printf("\n"), 0;
}
