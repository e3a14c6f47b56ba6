/* Logs that come in scraps: every cutting gives what the whole log gives, a box that was stored and loaded goes on, and of the refusals those of events and bytes stick. */
#include "claims.h"

static const char LOG[] = "num=00000007 see=03 val=00 new=0\nnum=00000009 see=00 val=00 new=0\nnum=0000000A see=02 val=02 new=0\nnum=0000000b see=03 val=00 new=1\n";
static const char ILLEGAL[] = "see=03 val=00 new=0\nsee=04 val=04 new=0\nsee=00 val=00 new=0\n";
static const char MIXED[] = "see=03 val=00 new=0\nnum=00000001 see=00 val=00 new=0\n";

/* The log in scraps of `size` bytes. Between two of them the box is written to bytes, forgotten, and read back, as over a power cut. */
static jug_answer in_scraps(const char *log, size_t size, uint8_t *verdicts, size_t *count, jug_answer *end, jug_answer *lamp)
{
    jug_box box;
    uint8_t flash[sizeof box];
    jug_answer last = { 0, 0, 0, 0 };
    size_t len = strlen(log);
    *count = 0;
    jug_open(TEXT(W), TEXT("Fp0"), &box);
    for (size_t from = 0; from < len; from += size) {
        size_t part = len - from < size ? len - from : size;
        memcpy(flash, &box, sizeof box);
        memset(&box, 0xa5, sizeof box);
        memcpy(&box, flash, sizeof box);
        last = jug_take(&box, (const uint8_t *)log + from, part, verdicts + *count, 10 - *count);
        *count += last.count;
    }
    *end = jug_end(&box);
    *lamp = jug_look(&box);
    return last;
}

static void every_cutting(const char *log)
{
    uint8_t whole[10] = { 9, 9, 9, 9, 9, 9, 9, 9, 9, 9 };
    jug_answer all = jug_watch_log(TEXT(W), TEXT("Fp0"), TEXT(log), whole, sizeof whole);
    jug_answer first_lamp = { 0, 0, 0, 0 };
    for (size_t size = 1; size <= strlen(log) + 1; size++) {
        uint8_t verdicts[10] = { 9, 9, 9, 9, 9, 9, 9, 9, 9, 9 };
        size_t count;
        jug_answer end, lamp, last = in_scraps(log, size, verdicts, &count, &end, &lamp);
        if (all.number != 12) {
            claim(count == all.count, "as many verdicts as of the whole log");
            claim(!memcmp(verdicts, whole, sizeof whole), "the same verdicts as of the whole log");
        }
        claim(end.number == all.number && end.place == all.place, "the end says what the whole log is refused by, and where");
        claim(all.number ? last.number == all.number && last.place == all.place : !last.number, "the last scrap too");
        if (size == 1)
            first_lamp = lamp;
        claim(same(lamp, first_lamp), "the lamp does not go by the cutting");
    }
}

static void refusals(void)
{
    uint8_t verdicts[4] = { 7, 7, 7, 7 };
    jug_box box, old;
    jug_open(TEXT(W), TEXT("Fp0"), &box);
    claim(is(jug_end(&box), 0, 0, 0, 0), "a log of no bytes may end");
    claim(is(jug_take(&box, TEXT(""), verdicts, 0), 0, 0, 0, 0), "a scrap of no bytes is taken");
    claim(is(jug_take(&box, TEXT("see=03 val"), verdicts, 0), 0, 0, 0, 0), "a part of a line needs no byte");
    claim(is(jug_end(&box), 12, 10, 0, 0), "a line that is not whole is 12 at the length");
    old = box;
    claim(is(jug_take(&box, TEXT("\n\n"), verdicts, 1), 11, 0, 0, 0), "all line ends count for 11, before the bytes");
    claim(!memcmp(&old, &box, sizeof box), "11 takes nothing");
    claim(is(jug_take(&box, TEXT("=00 new=0\n"), verdicts, 1), 0, 0, 1, 0), "11 and 12 at the end do not stick");
    box.word[369] = 4294967295u - 5;
    old = box;
    claim(is(jug_take(&box, TEXT("see=03"), verdicts, 0), 24, 0, 0, 0), "a byte beyond 4,294,967,295 is 24");
    claim(is(jug_take(&box, TEXT("see=0\n"), verdicts, 0), 11, 0, 0, 0), "11 comes before 24");
    claim(!memcmp(&old, &box, sizeof box), "24 takes nothing");
    claim(is(jug_take(&box, TEXT("see=0"), verdicts, 0), 0, 0, 0, 0), "the last byte is taken, 24 does not stick");
    claim(is(jug_end(&box), 12, 4294967295u, 0, 0), "the length of the longest log");
    jug_open(TEXT(W), TEXT("Fp0"), &box);
    claim(is(jug_take(&box, TEXT("see=03 val=00 new=0\nsee=03 w"), verdicts, 4), 12, 27, 1, 0), "a byte that begins no line, behind a verdict");
    claim(is(jug_take(&box, TEXT("see=03 val=00 new=0\n"), verdicts, 0), 12, 27, 0, 0), "sticks, before 11");
    claim(is(jug_end(&box), 12, 27, 0, 0), "and at the end");
    claim(verdicts[1] == 7, "and no byte behind is written");
    box.word[0] = 17;
    claim(is(jug_take(&box, TEXT(""), verdicts, 0), 1, 0, 0, 0), "but 1 comes before it");
}

static void handed_in(void)
{
    uint8_t verdicts[4];
    jug_box box, fresh;
    jug_open(TEXT(W), TEXT("Fp0"), &fresh);
    for (unsigned i = 363; i < 373; i++)
        claim(!fresh.word[i], "a radio that has heard nothing is zeros");
    box = fresh;
    box.word[363] = 'x', box.word[368] = 1;
    claim(is(jug_take(&box, TEXT("\n\n"), verdicts, 0), 9, 0, 0, 0), "a part that begins no line is 9");
    claim(is(jug_end(&box), 9, 0, 0, 0), "at the end too");
    box.word[363] = 's', box.word[370] = 2;
    claim(is(jug_end(&box), 9, 0, 0, 0), "and so is one of the other form than the first line's");
    box.word[370] = 1;
    claim(is(jug_end(&box), 12, 1, 0, 0), "of its own form it is a line that is not whole");
    box.word[368] = 41;
    claim(is(jug_end(&box), 9, 0, 0, 0), "and one longer than a line is 9");
    box = fresh;
    box.word[369] = 4294967296u;
    claim(is(jug_end(&box), 9, 0, 0, 0), "more bytes than a log may have are 9");
    box = fresh;
    box.word[370] = 3;
    claim(is(jug_end(&box), 1, 0, 0, 0), "a form that there is not makes the box count nothing");
    box = fresh;
    box.word[371] = 11;
    claim(is(jug_take(&box, TEXT(""), verdicts, 0), 1, 0, 0, 0), "and so does a refusal that can't stand");
    box = fresh;
    memcpy(&box.word[363], "see=03 val=00 new=0\n", 20);
    box.word[368] = 20;
    claim(is(jug_end(&box), 9, 0, 0, 0), "a whole line is 9");
}

int main(void)
{
    at = "a numbered log";
    every_cutting(LOG);
    at = "a log with an event that is refused";
    every_cutting(ILLEGAL);
    at = "a log that mixes";
    every_cutting(MIXED);
    at = "refusals";
    refusals();
    at = "boxes handed in";
    handed_in();
    return told("logs in scraps");
}
