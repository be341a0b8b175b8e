/* Jitumwala: a judge of candidate executions under the C++ memory model.

   Link with the archive that `rt lib` in crates/face writes (crates/face/out/libface.a, for x86-64 Linux). */
#ifndef JITUMWALA_H
#define JITUMWALA_H

#include <stdbool.h>
#include <stddef.h>
#include <stdint.h>

#ifdef __cplusplus
extern "C" {
#endif

/* The least lengths of what is lent. */
enum {
    JITUMWALA_STORE = 4608, /* numbers of the store */
    JITUMWALA_ORDER = 128,  /* bytes of the order */
    JITUMWALA_ANSWER = 12   /* numbers of the answer */
};

/* The numbers of the answer; numbers that do not apply are 0. */
enum {
    JITUMWALA_JUDGED = 0,        /* 1 if the file was judged, 0 if it was refused */
    JITUMWALA_REFUSAL = 1,       /* the refusal's number, 1 to 9 or 11; 0 if judged. 4: the file's edition is neither 1 nor 2 */
    JITUMWALA_POSITION = 2,      /* the refusal's position: the first byte of the record in which the check failed, for 8 the first byte after the end record, for 9 0 */
    JITUMWALA_RULE = 3,          /* the lowest rule broken of those that the file's edition has, 1 to 36; 0 if every one holds */
    JITUMWALA_A = 4,             /* its least offending pair a, b */
    JITUMWALA_B = 5,
    JITUMWALA_INDETERMINATE = 6, /* indeterminate reads */
    JITUMWALA_UNSEQUENCED = 7,   /* unsequenced races, pairs a < b */
    JITUMWALA_DATA_RACES = 8,    /* data races, pairs a < b */
    JITUMWALA_ORDERED = 9,       /* 1 if a serial order was given */
    JITUMWALA_MIDDLE_NAMED = 10, /* 1 if the rule is 4, 6, 10 or 14 and the order that it tests (in 4 the first of sb, dd, cd to offend at a, b) has a to z to b for some z, but not a to b */
    JITUMWALA_MIDDLE = 11        /* the least such z; 0 if none is named */
};

/* Judges a drawing file of any bytes, by the edition that its header names: 1, the paper's, has rules 1 to 26; 2, the final one, has rules 1 to 14, 16 to 18 and 24 to 36.

   Returns false, and touches nothing, if the answer has fewer than 12 numbers. Else it returns true and writes the first 12 numbers of the answer; those beyond stay.

   Refused (answer[0] is 0): store and order keep what they held. A store of fewer than 4,608 numbers or an order of fewer than 128 bytes is refusal 9, before the file is looked at.

   Judged (answer[0] is 1), whether a rule is broken or not: the first 4,608 numbers of the store hold the 18 relations, each of 128 rows of two numbers:
   a to b in relation k is bit b % 64 of number 256 k + 2 a + b / 64
   (0 sb, 1 asw, 2 dd, 3 cd, 4 rf, 5 sc, 6 mo as in the file; worked out: 7 release sequence, 8 hypothetical release sequence, 9 sw, 10 cad, 11 dob, 12 ithb, 13 hb, 14 vse, 15 vsse,
   16 data races, 17 unsequenced races); those beyond stay.
   The order's first N bytes are the serial order of the N actions if answer[9] is 1, and the bytes beyond stay; else all its bytes stay.

   Each pointer is to memory of the length that follows it, which the caller owns throughout the call; no two of the four overlap.
   A pointer is not null, also where its length is 0, and is aligned for its type. The call keeps no pointer and allocates nothing. */
bool jitumwala_judge(const uint8_t *file, size_t file_length,
                     uint64_t *store, size_t store_length,
                     uint8_t *order, size_t order_length,
                     uint32_t *answer, size_t answer_length);

#ifdef __cplusplus
}
#endif

#endif
