/* A day sheet beside a box: what is noted, what is refused, and the sheet as its text. */
#include "claims.h"

static jug_box box, old_box;
static jug_day day, old_day;

static int stays(void)
{
    return !memcmp(&box, &old_box, sizeof box) && !memcmp(&day, &old_day, sizeof day);
}

static jug_answer note(uint16_t see, uint16_t val, uint8_t new_)
{
    old_box = box;
    old_day = day;
    return jug_note(&box, &day, 0, 0, see, val, new_);
}

static jug_answer note_numbered(uint32_t num, uint16_t see, uint16_t val, uint8_t new_)
{
    old_box = box;
    old_day = day;
    return jug_note(&box, &day, 1, num, see, val, new_);
}

static int sheet_is(const char *wanted)
{
    static uint8_t text[JUG_DAY_SHEET];
    size_t long_ = strlen(wanted);
    memset(text, 0xee, sizeof text);
    if (long_ && (!is(jug_day_sheet(&day, text, long_ - 1), 11, 0, 0, 0) || text[0] != 0xee))
        return 0;
    return is(jug_day_sheet(&day, text, long_), 0, 0, long_, 0) && !memcmp(text, wanted, long_) && text[long_] == 0xee;
}

static void begin(const char *rule)
{
    memset(&day, 0, sizeof day);
    jug_open((const uint8_t *)W, sizeof W - 1, TEXT(rule), &box);
}

static void stretches(void)
{
    at = "stretches";
    begin("Fp1");
    claim(sheet_is(""), "with no events there are no lines");
    claim(is(note(3, 0, 1), 0, 0, 1, JUG_INCONCLUSIVE), "a flag on the first event changes nothing");
    claim(sheet_is("first=0 events=1 verdict=inconclusive decided=-\n"), "and begins one stretch");
    claim(is(note(3, 1, 0), 0, 0, 1, JUG_INCONCLUSIVE), "state 1 may last");
    claim(is(note(3, 2, 0), 0, 0, 1, JUG_TRUE), "state 2 decides the rule");
    claim(is(note(3, 3, 0), 0, 0, 0, JUG_OUT_OF_MODEL), "a label that no state has");
    claim(sheet_is("first=0 events=4 verdict=out-of-model decided=2\n"), "what was decided stays");
    claim(is(note(3, 0, 1), 0, 0, 0, JUG_OUT_OF_MODEL), "a restart does not lead out of it");
    claim(sheet_is("first=0 events=4 verdict=out-of-model decided=2\nfirst=4 events=1 verdict=out-of-model decided=-\n"), "but begins a stretch");
    claim(is(note(4, 0, 0), 10, 0, 0, 0) && stays(), "a proposition beyond the table is 10");
}

static void unseen(void)
{
    at = "unseen events";
    begin("G!p1");
    claim(is(note_numbered(7, 3, 1, 0), 0, 0, 0, JUG_OUT_OF_MODEL), "W does not start in state 1");
    begin("G!p1");
    claim(is(note_numbered(7, 3, 0, 0), 0, 0, 1, JUG_INCONCLUSIVE), "a log begins at any number");
    claim(note_numbered(10, 0, 0, 1).number == 0, "two are missing before a restart");
    claim(sheet_is("first=7 events=3 verdict=inconclusive decided=-\nfirst=10 events=1 verdict=inconclusive decided=-\n"), "they belong to the stretch before");
    claim(is(note_numbered(10, 0, 0, 0), 16, 0, 0, 0) && stays(), "a number that comes again is 16");
    claim(is(note_numbered(28, 0, 0, 0), 16, 0, 0, 0) && stays(), "one that skips 17 too");
}

static void as_steps(void)
{
    jug_box other;
    at = "notes beside steps";
    begin("G(p0->Fp1)");
    other = box;
    for (uint32_t k = 0; k < 40; k++) {
        uint32_t num = k + k / 3;
        uint16_t see = (uint16_t)(k % 4), val = (uint16_t)(see & (k / 4));
        uint8_t new_ = k % 5 == 4;
        claim(same(note_numbered(num, see, val, new_), jug_step_numbered(&other, num, see, val, new_)), "a note answers what a step answers");
        claim(!memcmp(&box, &other, sizeof box), "and leaves the same box");
    }
}

static void full(void)
{
    at = "a full sheet";
    begin("1");
    for (int k = 0; k < 64; k++)
        claim(note(0, 0, 1).number == 0, "64 stretches are taken");
    claim(is(note(0, 0, 1), 23, 0, 0, 0) && stays(), "the event that would begin a 65th is 23");
    claim(is(note_numbered(66, 0, 0, 1), 23, 0, 0, 0) && stays(), "also where unseen events would come first");
    claim(is(note_numbered(63, 0, 0, 1), 16, 0, 0, 0) && stays(), "16 goes before 23");
    claim(is(note(4, 0, 1), 10, 0, 0, 0) && stays(), "and 10 too");
    claim(note(0, 0, 0).number == 0, "the last stretch goes on");
}

static void other_words(void)
{
    uint8_t text[8];
    at = "other words";
    begin("1");
    day.word[0] = 65;
    claim(is(note(4, 0, 0), 9, 0, 0, 0) && stays(), "a day that counts 65 is 9, before 10");
    claim(is(jug_day_sheet(&day, text, 0), 9, 0, 0, 0), "and so it is for the sheet, before 11");
    box.word[0] = 0;
    claim(is(note(0, 0, 0), 1, 0, 0, 0) && stays(), "1 goes before 9");
    begin("1");
    note(0, 0, 0);
    day.word[129] = 4;
    claim(is(note(0, 0, 0), 9, 0, 0, 0) && stays(), "a word that is no verdict is 9");
    day.word[129] = 1;
    day.word[65] = UINT64_MAX;
    claim(note(0, 0, 0).number == 0 && day.word[65] == UINT64_MAX, "a count of events does not run over");
}

int main(void)
{
    stretches();
    unseen();
    as_steps();
    full();
    other_words();
    return told("a day noted");
}
