/* Reports judged. What our own box shows is accepted: its lamp as the claim, and as runs what jug_goes_on writes behind a walk along the events. Then one thing is spoilt, and the
   answer names that thing. */
#include "claims.h"

static uint64_t seed = 20260901;

static unsigned below(unsigned n)
{
    seed = seed * 6364136223846793005u + 1442695040888963407u;
    return (unsigned)(seed >> 33) % n;
}

/* A run: its states, and how many of them are the stem. */
typedef struct {
    uint8_t states[JUG_WITNESS + 8];
    size_t stem, loop;
} run;

static uint8_t table[JUG_TABLE];
static size_t table_len;
static char log_text[400];
static const char *rule;
static unsigned states;

static jug_answer judged(uint8_t claim, const run *keeps, const run *breaks)
{
    return jug_judge(table, table_len, TEXT(rule), TEXT(log_text), claim, keeps->states, keeps->stem, keeps->states + keeps->stem, keeps->loop,
                     breaks->states, breaks->stem, breaks->states + breaks->stem, breaks->loop);
}

static const run none;

/* Finds a walk of `walked` states before what the box wrote, so that the whole is a run of the kind. */
static int joined(const run *ahead, unsigned walked, int keeps, run *whole)
{
    unsigned ways = 1;
    for (unsigned i = 0; i < walked; i++)
        ways *= states;
    for (unsigned way = 0; way < ways; way++) {
        unsigned w = way;
        for (unsigned i = 0; i < walked; i++, w /= states)
            whole->states[i] = (uint8_t)(w % states);
        memcpy(whole->states + walked, ahead->states, ahead->stem + ahead->loop);
        whole->stem = ahead->stem + walked;
        whole->loop = ahead->loop;
        if (judged(keeps ? 1 : 2, keeps ? whole : &none, keeps ? &none : whole).value != JUG_WRONG_RUN)
            return 1;
    }
    return 0;
}

static const char *const rules[] = { "Fp1", "G!p1", "G(p0->Fp1)", "p0Up1", "Xp0", "p1Rp0", "F(p0&Xp1)", "GFp0", "1" };

/* A plant, a rule and a log of up to four events, of which some may restart. The events follow no walk, so some leave the table. */
static unsigned drawn(jug_box *box, jug_answer *lamp)
{
    uint64_t fair[1], next[3];
    uint16_t label[3];
    states = 1 + below(3);
    for (unsigned i = 0; i < states; i++) {
        label[i] = (uint16_t)below(4);
        next[i] = 1 + below((1u << states) - 1);
    }
    fair[0] = 1 + below((1u << states) - 1);
    unsigned just = below(2);
    table_len = jug_write_table(2, states, 1 + below((1u << states) - 1), just, fair, just, label, states, next, states, table, sizeof table).count;
    rule = rules[below(sizeof rules / sizeof *rules)];
    *lamp = jug_open(table, table_len, TEXT(rule), box);
    unsigned events = below(5);
    char *end = log_text;
    *end = 0;
    for (unsigned i = 0; i < events; i++) {
        unsigned see = below(4), val = see & label[below(states)], again = below(4) == 0;
        end += sprintf(end, "see=%02x val=%02x new=%u\n", see, val, again);
        *lamp = jug_step(box, (uint16_t)see, (uint16_t)val, (uint8_t)again);
    }
    return events;
}

static void own_reports(unsigned cases)
{
    static run ahead, shown[2];
    unsigned accepted[4] = { 0 };
    for (unsigned k = 0; k < cases; k++) {
        jug_box box;
        jug_answer lamp;
        unsigned events = drawn(&box, &lamp);
        uint8_t claim_ = (uint8_t)lamp.value;
        for (int kind = 0; kind < 2; kind++) {
            shown[kind].stem = shown[kind].loop = 0;
            jug_answer a = jug_goes_on(&box, kind == 0, ahead.states, JUG_WITNESS);
            int needed = claim_ == 0 || claim_ == kind + 1;
            claim(a.number == (needed ? 0u : 13u), "there is a run of a kind exactly if the lamp says so");
            if (a.number)
                continue;
            ahead.stem = a.value;
            ahead.loop = a.count;
            claim(joined(&ahead, events ? events - 1 : 0, kind == 0, &shown[kind]), "some walk leads to what the box writes");
        }
        claim(is(judged(claim_, &shown[0], &shown[1]), 0, 0, 0, JUG_ACCEPTED), "our own report is accepted");
        accepted[claim_ & 3]++;
        for (uint8_t other = 0; other < 4; other++)
            if (other != claim_)
                claim(judged(other, &shown[0], &shown[1]).value != JUG_ACCEPTED, "another claim is not");
        claim(is(judged(4, &shown[0], &shown[1]), 9, 0, 0, 0), "a claim that is no verdict is 9");
    }
    for (int v = 0; v < 4; v++)
        claim(accepted[v] > cases / 40, "each verdict is claimed often");
}

/* One thing spoilt, on plant W: 0 may be followed by 0 or 1, 1 by 1 or 2, 2 by 0 or 2; 0 starts; p0 holds at 1, p1 at 2. */
static void spoilt(void)
{
    static run long_;
    run keeps = { { 0, 1, 2, 0, 1 }, 2, 3 }, breaks = { { 0, 1 }, 1, 1 }, x;
    table_len = sizeof W - 1;
    memcpy(table, W, table_len);
    rule = "Fp1";
    strcpy(log_text, "see=03 val=00 new=0\nsee=01 val=01 new=0\n");
    claim(is(judged(0, &keeps, &breaks), 0, 0, 0, JUG_ACCEPTED), "a right report");
    claim(is(judged(1, &keeps, &none), 0, 0, 0, JUG_WRONG_VERDICT), "one run does not make it true");
    claim(is(judged(3, &none, &none), 0, 0, 0, JUG_WRONG_VERDICT), "nor is it out-of-model");
    claim(is(judged(0, &none, &breaks), 0, JUG_START, 1, JUG_WRONG_RUN), "a run with no state fails start");
    claim(is(judged(0, &keeps, &none), 0, JUG_START, 2, JUG_WRONG_RUN), "so does the second");
    x = keeps, x.states[0] = 3;
    claim(is(judged(0, &x, &breaks), 0, JUG_START, 1, JUG_WRONG_RUN), "a run can't start in a state that there is not");
    x = keeps, x.states[0] = 1;
    claim(is(judged(0, &x, &none), 0, JUG_START, 1, JUG_WRONG_RUN), "1 does not start, and the first run is told first");
    x = keeps, x.states[1] = 200;
    claim(is(judged(0, &x, &breaks), 0, JUG_MOVES, 1, JUG_WRONG_RUN), "a later state beyond the table fails moves");
    x = keeps, x.stem = 5, x.loop = 0;
    claim(is(judged(0, &x, &breaks), 0, JUG_MOVES, 1, JUG_WRONG_RUN), "an empty loop fails moves");
    x = keeps, x.loop = 2;
    claim(is(judged(0, &x, &breaks), 0, JUG_MOVES, 1, JUG_WRONG_RUN), "the loop's last state has to lead to its first");
    x = breaks, x.states[1] = 0;
    claim(is(judged(0, &keeps, &x), 0, JUG_AGREEMENT, 2, JUG_WRONG_RUN), "p0 was seen, and 0 has it not");
    claim(is(judged(0, &keeps, &keeps), 0, JUG_VALUE, 2, JUG_WRONG_RUN), "a run that keeps the rule does not break it");
    long_.stem = 0, long_.loop = JUG_RUN + 1;
    claim(is(judged(0, &keeps, &long_), 22, 0, 0, 0), "a run of more than 4,096 states is 22");
    claim(is(judged(1, &keeps, &long_), 0, 0, 0, JUG_WRONG_VERDICT), "but not where it is not needed");
    long_.loop = JUG_RUN;
    claim(is(judged(0, &keeps, &long_), 0, JUG_AGREEMENT, 2, JUG_WRONG_RUN), "one of 4,096 is looked at");
}

/* The same plant with a fairness set, state 2: a run has to come there again and again. Then restarts, and a log that is longer than the run. */
static void spoilt_elsewhere(void)
{
    uint64_t fair[1] = { 4 }, next[3] = { 3, 6, 5 };
    uint16_t label[3] = { 0, 1, 2 };
    run keeps = { { 0, 1, 2, 0, 1 }, 2, 3 }, breaks = { { 0, 1 }, 1, 1 }, x;
    table_len = jug_write_table(2, 3, 1, 1, fair, 1, label, 3, next, 3, table, sizeof table).count;
    claim(is(judged(0, &keeps, &breaks), 0, JUG_FAIRNESS, 2, JUG_WRONG_RUN), "a loop that misses a fairness set");
    claim(is(judged(1, &keeps, &breaks), 0, 0, 0, JUG_ACCEPTED), "so all runs keep the rule, and the other one is not looked at");
    x = breaks, x.stem = 2, x.loop = 0;
    claim(is(judged(2, &none, &x), 0, JUG_MOVES, 2, JUG_WRONG_RUN), "moves come before fairness");
    x = breaks, x.states[1] = 0;
    claim(is(judged(2, &none, &x), 0, JUG_FAIRNESS, 2, JUG_WRONG_RUN), "and fairness before agreement");
    table_len = sizeof W - 1;
    memcpy(table, W, table_len);
    rule = "p0";
    strcpy(log_text, "see=03 val=00 new=0\nsee=01 val=01 new=1\n");
    claim(is(judged(1, &keeps, &none), 0, 0, 0, JUG_ACCEPTED), "the rule is judged at the restart");
    claim(is(judged(2, &none, &keeps), 0, JUG_VALUE, 2, JUG_WRONG_RUN), "and not at position 0, where it is broken");
    rule = "Fp1";
    strcpy(log_text, "see=03 val=00 new=0\nsee=01 val=01 new=0\nsee=00 val=00 new=0\nsee=00 val=00 new=0\nsee=00 val=00 new=0\nsee=02 val=02 new=0\n");
    claim(is(judged(1, &keeps, &none), 0, 0, 0, JUG_ACCEPTED), "position 5 is round the loop, at its first state");
    strcpy(log_text, "see=03 val=00 new=0\nsee=01 val=01 new=0\nsee=00 val=00 new=0\nsee=00 val=00 new=0\nsee=00 val=00 new=0\nsee=02 val=00 new=0\n");
    claim(is(judged(0, &keeps, &breaks), 0, JUG_AGREEMENT, 1, JUG_WRONG_RUN), "and there too it has to be as was seen");
}

int main(void)
{
    at = "a report";
    spoilt();
    spoilt_elsewhere();
    own_reports(2000);
    return told("reports judged");
}
