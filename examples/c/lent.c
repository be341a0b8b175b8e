/* lent FILE: judges a good drawing with at least one action, with room to spare and with too little of it, of each edition and of one that there is not, and with an edge that is refused, and sees that memory which is to stay stays. */
#include <stdio.h>
#include <stdlib.h>
#include <string.h>

#include "jitumwala.h"

enum { SPARE = 5 };

static uint8_t file[17023];
static uint64_t store[JITUMWALA_STORE + SPARE];
static uint8_t order[JITUMWALA_ORDER + SPARE];
static uint32_t answer[JITUMWALA_ANSWER + SPARE];

static void fill(void)
{
    memset(store, 0xA5, sizeof store);
    memset(order, 0xA5, sizeof order);
    memset(answer, 0xA5, sizeof answer);
}

static bool stays(const void *from, size_t bytes)
{
    for (size_t i = 0; i < bytes; i++)
        if (((const uint8_t *)from)[i] != 0xA5)
            return false;
    return true;
}

static void expect(bool holds, const char *what)
{
    if (!holds) {
        fprintf(stderr, "lent: not so: %s\n", what);
        exit(1);
    }
}

int main(int count, char **paths)
{
    FILE *in = count == 2 ? fopen(paths[1], "rb") : NULL;
    expect(in != NULL, "one file is due");
    size_t length = fread(file, 1, sizeof file, in);
    fclose(in);

    fill();
    expect(!jitumwala_judge(file, length, store, JITUMWALA_STORE, order, JITUMWALA_ORDER, answer, JITUMWALA_ANSWER - 1), "eleven numbers are too few");
    expect(stays(store, sizeof store) && stays(order, sizeof order) && stays(answer, sizeof answer), "a call that answers false touches nothing");

    fill();
    expect(jitumwala_judge(file, length, store, JITUMWALA_STORE - 1, order, JITUMWALA_ORDER, answer, JITUMWALA_ANSWER), "a short store is answered");
    expect(answer[JITUMWALA_JUDGED] == 0 && answer[JITUMWALA_REFUSAL] == 9 && answer[JITUMWALA_POSITION] == 0, "a short store is refusal 9 at 0");
    expect(stays(store, sizeof store) && stays(order, sizeof order), "refusal 9 leaves store and order");

    fill();
    expect(jitumwala_judge(file, length, store, JITUMWALA_STORE, order, JITUMWALA_ORDER - 1, answer, JITUMWALA_ANSWER), "a short order is answered");
    expect(answer[JITUMWALA_REFUSAL] == 9, "a short order is refusal 9");
    expect(stays(store, sizeof store) && stays(order, sizeof order), "refusal 9 leaves store and order");

    fill();
    expect(jitumwala_judge(file, length - 1, store, JITUMWALA_STORE, order, JITUMWALA_ORDER, answer, JITUMWALA_ANSWER), "a cut file is answered");
    expect(answer[JITUMWALA_JUDGED] == 0 && answer[JITUMWALA_REFUSAL] == 1 && answer[JITUMWALA_POSITION] == length - 4, "a file cut in its end record is refusal 1 there");
    expect(stays(store, sizeof store) && stays(order, sizeof order), "a refusal leaves store and order");

    fill();
    expect(jitumwala_judge(file, length, store, JITUMWALA_STORE + SPARE, order, JITUMWALA_ORDER + SPARE, answer, JITUMWALA_ANSWER + SPARE), "a good file is answered");
    expect(answer[JITUMWALA_JUDGED] == 1, "a good file is judged");
    expect(stays(store + JITUMWALA_STORE, sizeof *store * SPARE), "numbers beyond 4,608 stay");
    expect(!stays(store, sizeof *store * JITUMWALA_STORE), "the store is filled");
    size_t given = answer[JITUMWALA_ORDERED] ? file[6] : 0;
    expect(stays(order + given, sizeof order - given), "bytes beyond the order stay");
    expect(stays(answer + JITUMWALA_ANSWER, sizeof *answer * SPARE), "numbers beyond the answer's twelve stay");

    /* The edition is the header's first number, in bytes 4 and 5. */
    for (int edition = 0; edition <= 3; edition++) {
        bool known = edition == 1 || edition == 2;
        file[4] = edition;
        fill();
        expect(jitumwala_judge(file, length, store, JITUMWALA_STORE, order, JITUMWALA_ORDER, answer, JITUMWALA_ANSWER), "a file of any edition is answered");
        expect(answer[JITUMWALA_JUDGED] == known && answer[JITUMWALA_REFUSAL] == (known ? 0 : 4) && answer[JITUMWALA_POSITION] == 0, "editions 1 and 2 are judged, others are refusal 4 at 0");
        expect(known || (stays(store, sizeof store) && stays(order, sizeof order)), "refusal 4 leaves store and order");
    }
    file[4] = 2;

    /* The record of asw stands after header, P places, N actions and sb; 6 bytes into it is row 0. */
    size_t n = file[6], p = file[10], asw = 12 + (4 + p) + 20 * n + (6 + 8 * n);
    file[asw + 6] |= 1;
    fill();
    expect(jitumwala_judge(file, length, store, JITUMWALA_STORE, order, JITUMWALA_ORDER, answer, JITUMWALA_ANSWER), "a file with asw from action 0 to itself is answered");
    expect(answer[JITUMWALA_JUDGED] == 0 && answer[JITUMWALA_REFUSAL] == 11 && answer[JITUMWALA_POSITION] == asw, "asw inside one thread is refusal 11 at its record");
    expect(stays(store, sizeof store) && stays(order, sizeof order), "refusal 11 leaves store and order");
    return 0;
}
