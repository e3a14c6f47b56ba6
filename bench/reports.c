// A neighbour's report judged by the library for C programs, for bench/reports.
// usage: reports NODES STATES LINES TURNS   A report on a table of 64 states, each followed by all, with four fairness sets, a rule of NODES (4 or 32) operators and leaves, and a
// log of LINES lines of which nothing is seen. It claims inconclusive and shows two runs of STATES states each. It is judged TURNS times, and accepted each time, else the status is 1.
#include "jugastilum.h"
#include <stdio.h>
#include <stdlib.h>
#include <string.h>

static const char *const rules[] = { "F(p0&p1)", "F(p0&p1&X(p0|p1|X(p0|p1|X(p0|p1|X(p0|p1|p0|p1|p0|p1)))))" };
static const char line[] = "see=00 val=00 new=0\n";

// A state's label is its number's two lowest bits, so a run in state 3 keeps either rule and one in state 0 breaks it.
static size_t whole_table(uint8_t *text, size_t room)
{
    uint64_t fair[4], next[64];
    uint16_t label[64];
    for (int i = 0; i < 64; i++) {
        label[i] = i & 3;
        next[i] = ~(uint64_t)0;
    }
    for (int i = 0; i < 4; i++)
        fair[i] = ~(uint64_t)0;
    return jug_write_table(2, 64, ~(uint64_t)0, 4, fair, 4, label, 64, next, 64, text, room).count;
}

int main(int argc, char **argv)
{
    static uint8_t table[JUG_TABLE], keeps[JUG_RUN], breaks[JUG_RUN];
    if (argc != 5)
        return 2;
    const char *rule = rules[atoi(argv[1]) == 32];
    size_t states = strtoull(argv[2], NULL, 10), lines = strtoull(argv[3], NULL, 10), turns = strtoull(argv[4], NULL, 10), table_len = whole_table(table, sizeof table), stem = states / 2;
    uint8_t *log = malloc(lines * (sizeof line - 1) + 1);
    if (!log || states > JUG_RUN)
        return 2;
    for (size_t i = 0; i < lines; i++)
        memcpy(log + i * (sizeof line - 1), line, sizeof line - 1);
    memset(keeps, 3, sizeof keeps);
    for (size_t i = 0; i < turns; i++) {
        jug_answer a = jug_judge(table, table_len, (const uint8_t *)rule, strlen(rule), log, lines * (sizeof line - 1), 0, keeps, stem, keeps + stem, states - stem, breaks, stem, breaks + stem, states - stem);
        if (a.number || a.value != JUG_ACCEPTED)
            return 1;
    }
    return 0;
}
