/* What the tests here have in common: claims that are counted, answers that are compared, and plant W of the reference as a text. */
#ifndef CLAIMS_H
#define CLAIMS_H

#include "jugastilum.h"

#include <stdio.h>
#include <stdlib.h>
#include <string.h>

static int failures, claims;
static const char *at = "";

static inline void claim(int ok, const char *what)
{
    claims++;
    if (ok)
        return;
    failures++;
    if (failures <= 20)
        printf("c: fails on %s: %s\n", at, what);
}

static inline int is(jug_answer a, uint64_t number, uint64_t place, uint64_t count, uint64_t value)
{
    return a.number == number && a.place == place && a.count == count && a.value == value;
}

static inline int same(jug_answer a, jug_answer b)
{
    return is(a, b.number, b.place, b.count, b.value);
}

#define TEXT(s) (const uint8_t *)(s), strlen(s)

static const char W[] = "props=2\nstates=3\nstart=0000000000000001\njust=0\n"
                        "label0=00\nnext0=0000000000000003\nlabel1=01\nnext1=0000000000000006\nlabel2=02\nnext2=0000000000000005\n";

/* What main returns: whether all claims hold. */
static inline int told(const char *test)
{
    (void)same; /* not every test compares two answers */
    if (failures)
        printf("c: %s: %d of %d claims fail\n", test, failures, claims);
    else
        printf("c: %s: %d claims hold\n", test, claims);
    return failures != 0;
}

#endif
