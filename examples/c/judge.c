/* judge FILE..: for each drawing file its name, the twelve numbers of the answer, and the serial order if one was given. */
#include <stdio.h>
#include <stdlib.h>

#include "jitumwala.h"

enum { LONGEST = 17022 };

static void print_order(const uint8_t *order, size_t n)
{
    printf("order");
    for (size_t i = 0; i < n; i++)
        printf(" %d", order[i]);
    printf("\n");
}

static void judge(const char *path)
{
    /* One byte more than the longest drawing: what is longer is refused all the same. */
    static uint8_t file[LONGEST + 1];
    static uint64_t store[JITUMWALA_STORE];
    static uint8_t order[JITUMWALA_ORDER];
    static uint32_t answer[JITUMWALA_ANSWER];

    FILE *in = fopen(path, "rb");
    if (!in) {
        perror(path);
        exit(1);
    }
    size_t length = fread(file, 1, sizeof file, in);
    fclose(in);

    if (!jitumwala_judge(file, length, store, JITUMWALA_STORE, order, JITUMWALA_ORDER, answer, JITUMWALA_ANSWER))
        abort();
    printf("%s\nanswer", path);
    for (int i = 0; i < JITUMWALA_ANSWER; i++)
        printf(" %u", answer[i]);
    printf("\n");
    if (answer[JITUMWALA_ORDERED])
        print_order(order, file[6]); /* a judged file's N is its byte 6 */
    else
        printf("no order\n");
}

int main(int count, char **paths)
{
    for (int i = 1; i < count; i++)
        judge(paths[i]);
    return 0;
}
