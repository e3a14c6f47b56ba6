/* A rule as a fixed machine: it is walked beside the box on drawn events, and what is refused leaves what the header says. */
#include "claims.h"

static uint64_t work[JUG_MACHINE_WORK];
static uint8_t machine[JUG_MACHINE];
static const char *rules[] = { "1", "p0", "Fp0", "Fp1", "Gp0", "G!p1", "Xp0", "p0R!p1", "p0Up1", "G(p0->Fp1)", "F(p0&Xp1)", "XXp0|Gp1" };

static int words_are(uint64_t w, size_t from, size_t upto)
{
    for (size_t i = from; i < upto; i++)
        if (work[i] != w)
            return 0;
    return 1;
}

static jug_answer make(const char *table, const char *rule, size_t words, size_t room)
{
    for (size_t i = 0; i < JUG_MACHINE_WORK; i++)
        work[i] = 7;
    memset(machine, 0xee, sizeof machine);
    return jug_machine(TEXT(table), TEXT(rule), work, words, machine, room);
}

static void walk(const char *rule)
{
    jug_answer made = make(W, rule, JUG_MACHINE_WORK, sizeof machine);
    claim(!made.number && made.value == 20, "plant W is made a machine of rows of 20 bytes");
    claim(words_are(0, 0, JUG_MACHINE_WORK), "the words end 0");
    size_t size = made.count * made.value;
    claim(machine[size] == 0xee, "bytes behind the machine stay");
    uint64_t dice = 12345;
    for (int turn = 0; turn < 50; turn++) {
        jug_box box;
        jug_answer lamp = jug_open(TEXT(W), TEXT(rule), &box);
        uint64_t row = 0;
        uint8_t events[12], one_by_one[24], shown[25] = {0};
        claim(machine[0] == lamp.value && machine[1] == lamp.count, "row 0 shows the opening");
        for (int n = 0; n < 12; n++) {
            dice = dice * 6364136223846793005u + 1442695040888963407u;
            uint16_t see = dice >> 60 & 3, val = see & (dice >> 50 & 3);
            uint8_t new_ = (dice >> 40) % 8 == 0;
            lamp = jug_step(&box, see, val, new_);
            jug_answer next = jug_machine_step(machine, size, 2, row, see, val, new_);
            claim(!next.number && next.value == lamp.value && next.count == lamp.count, "machine and box show the same");
            row = next.place;
            events[n] = JUG_EVENT(see, val, new_);
            one_by_one[n * 2] = (uint8_t)next.value;
            one_by_one[n * 2 + 1] = (uint8_t)next.count;
        }
        shown[24] = 0xee;
        claim(is(jug_machine_steps(machine, size, 2, 0, events, 12, shown, sizeof shown), 0, row, 12, 0), "many events in one call lead where they lead one by one");
        claim(!memcmp(shown, one_by_one, 24) && shown[24] == 0xee, "they show the same, and the byte behind stays");
        claim(same(jug_look(&box), lamp), "the box is asked by events alone");
    }
}

/* Events looked up many at a time: what is refused, and what is written before it. */
static void many(size_t size)
{
    const uint8_t events[] = { JUG_EVENT(1, 1, 0), JUG_EVENT(0, 0, 1), JUG_EVENT(3, 4, 0), JUG_EVENT(0, 0, 0) };
    uint8_t shown[8];
    jug_answer first = jug_machine_step(machine, size, 2, 0, 1, 1, 0), second = jug_machine_step(machine, size, 2, first.place, 0, 0, 1);
    memset(shown, 0xee, sizeof shown);
    claim(is(jug_machine_steps(machine, size, 2, 0, events, 4, shown, 7), 11, 0, 0, 0) && shown[0] == 0xee, "a byte too few for what is shown is 11, and nothing is written");
    claim(is(jug_machine_steps(machine, size, 4, 0, events, 4, shown, 8), 1, 0, 0, 0) && shown[0] == 0xee, "many events of four signals are 1");
    claim(is(jug_machine_steps(machine, size - 1, 2, 0, events, 0, shown, 8), 9, 0, 0, 0), "a part of a row is 9, with no event too");
    claim(is(jug_machine_steps(machine, size, 2, size / 20, events, 4, shown, 7), 9, size / 20, 0, 0), "a row beyond the last is 9, before 11");
    claim(is(jug_machine_steps(machine, size, 2, 0, events, 4, shown, 8), 10, second.place, 2, 0), "an event that is refused is told behind those before it");
    claim(shown[0] == first.value && shown[1] == first.count && shown[2] == second.value && shown[3] == second.count && shown[4] == 0xee, "and what they show is written, and no more");
    claim(is(jug_machine_steps(machine, size, 2, second.place, events + 3, 1, shown, 2), 0, jug_machine_step(machine, size, 2, second.place, 0, 0, 0).place, 1, 0), "it may be left out");
    claim(is(jug_machine_steps(machine, size, 2, 1, events, 0, shown, 0), 0, 1, 0, 0), "no event leads nowhere");
    claim(JUG_EVENT(8, 0, 0) == 255 && JUG_EVENT(0, 8, 0) == 255 && JUG_EVENT(7, 7, 9) == 127, "what three signals have not is no event");
}

/* A ring of 64 states, all of which start: more than 256 sets of them are told apart by p0, which the first alone has. */
static void too_many_states(void)
{
    static char ring[4096];
    size_t len = (size_t)sprintf(ring, "props=1\nstates=64\nstart=ffffffffffffffff\njust=0\n");
    for (unsigned s = 0; s < 64; s++)
        len += (size_t)sprintf(ring + len, "label%u=%02x\nnext%u=%016llx\n", s, s == 0, s, 1ull << (s + 1) % 64);
    claim(is(make(ring, "p0", JUG_MACHINE_WORK, sizeof machine), 15, 0, 0, 0) && machine[0] == 0xee && words_are(0, 0, JUG_MACHINE_WORK), "over 256 states is 15, and the words end 0");
    claim(is(make(ring, "p0", JUG_MACHINE_WORK, 0), 15, 0, 0, 0), "15 comes before 11 for the bytes");
    claim(is(make(ring, "p0", JUG_MACHINE_WORK - 1, 0), 11, 0, 0, 0) && words_are(7, 0, JUG_MACHINE_WORK), "11 for the words comes before 15, and they stay");
}

int main(void)
{
    for (size_t i = 0; i < sizeof rules / sizeof *rules; i++) {
        at = rules[i];
        walk(at);
    }
    at = "refusals";
    jug_answer whole = make(W, "Fp1", JUG_MACHINE_WORK, sizeof machine);
    size_t size = whole.count * whole.value;
    claim(is(make(W, "Fp1", JUG_MACHINE_WORK, size), 0, 0, whole.count, 20), "a buffer of the machine's own length is enough");
    claim(is(jug_machine_step(machine, size, 2, 0, 4, 0, 0), 10, 0, 0, 0), "a signal beyond the table is 10");
    claim(is(jug_machine_step(machine, size, 2, 0, 1, 2, 0), 10, 0, 0, 0), "a value that was not seen is 10");
    claim(is(jug_machine_step(machine, size, 2, whole.count, 0, 0, 0), 9, 0, 0, 0), "a row beyond the last is 9");
    claim(is(jug_machine_step(machine, size - 1, 2, 0, 0, 0, 0), 9, 0, 0, 0), "a part of a row is 9");
    claim(is(jug_machine_step(machine, size, 4, 0, 0, 0, 0), 1, 0, 0, 0), "four signals are 1");
    claim(is(jug_machine_step(machine, 0, 2, 0, 0, 0, 0), 9, 0, 0, 0), "no bytes are 9");
    many(size);
    machine[2] = (uint8_t)whole.count;
    claim(is(jug_machine_step(machine, size, 2, 0, 0, 0, 0), 9, 0, 0, 0), "a cell beyond the rows is 9");
    claim(is(make(W, "Fp1", JUG_MACHINE_WORK, size - 1), 11, 0, 0, 0) && machine[0] == 0xee && words_are(0, 0, JUG_MACHINE_WORK), "a byte too few is 11, and the words end 0");
    claim(is(make(W, "Fp1", JUG_MACHINE_WORK - 1, size), 11, 0, 0, 0) && words_are(7, 0, JUG_MACHINE_WORK), "a word too few is 11, and the words stay");
    claim(is(make(W, "Fp1&", JUG_MACHINE_WORK, size), 5, 4, 0, 0) && words_are(7, 0, JUG_MACHINE_WORK), "a bad rule is 5, and the words stay");
    claim(is(make("props=4\nstates=1\nstart=0000000000000001\njust=0\nlabel0=00\nnext0=0000000000000001\n", "p3", 0, 0), 1, 0, 0, 0), "four propositions are 1, before 11");
    too_many_states();
    return told("fixed machines");
}
