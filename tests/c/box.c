/* Calls each function that takes a box, and the one for a whole log, with good input and with bad, and says which claim of the header fails.
   usage: box FOLDER..   each with plant.txt, rule.txt and log.txt that are accepted */
#include "claims.h"

/* A fixed seed: each run tries the same boxes. */
static uint64_t seed = 20261115;
static uint64_t draw(void)
{
    seed ^= seed << 13;
    seed ^= seed >> 7;
    seed ^= seed << 17;
    return seed;
}

/* ---- one plant in a few lines */

static void small_plant(void)
{
    jug_box box, old;
    uint8_t states[JUG_WITNESS + 16];
    at = "the small plant";
    memset(&box, 0xa5, sizeof box);
    old = box;
    claim(is(jug_open(TEXT("props=9\n"), TEXT("1"), &box), 3, 8, 0, 0), "a table that stops too soon is 3 at its length");
    claim(is(jug_open(TEXT(W), TEXT(""), &box), 5, 0, 0, 0), "an empty rule is 5 at 0");
    claim(is(jug_open(TEXT(W), TEXT("p0\n"), &box), 5, 2, 0, 0), "a line end of the rule is not dropped");
    claim(is(jug_open(TEXT(W), TEXT("p2"), &box), 6, 0, 0, 0), "a signal that the plant has not is 6");
    claim(!memcmp(&old, &box, sizeof box), "a refused opening leaves the box");

    claim(is(jug_open(TEXT(W), TEXT("Fp1"), &box), 0, 0, 1, JUG_INCONCLUSIVE), "open");
    claim(same(jug_look(&box), (jug_answer){0, 0, 1, JUG_INCONCLUSIVE}), "look shows what open showed");
    old = box;
    claim(is(jug_step(&box, 4, 0, 0), 10, 0, 0, 0), "an event that sees a signal beyond the plant's is 10");
    claim(is(jug_step(&box, 1, 2, 0), 10, 0, 0, 0), "an event that gives on to what was not seen is 10");
    claim(is(jug_goes_on(&box, 1, states, JUG_WITNESS - 1), 11, 0, 0, 0), "a short buffer is 11");
    claim(!memcmp(&old, &box, sizeof box), "refused calls leave the box");
    claim(is(jug_step(&box, 3, 0, 0), 0, 0, 1, JUG_INCONCLUSIVE), "first event");

    memset(states, 0xee, sizeof states);
    jug_answer run = jug_goes_on(&box, 1, states, JUG_WITNESS);
    claim(run.number == 0 && run.count >= 1 && run.value + run.count < JUG_WITNESS, "a run that keeps the rule");
    for (size_t i = run.value + run.count; i < sizeof states; i++)
        if (states[i] != 0xee) {
            claim(0, "bytes behind the run stay");
            break;
        }
    for (size_t i = 0; i < run.value + run.count && i < sizeof states; i++)
        if (states[i] > 2) {
            claim(0, "each byte is a state of the table");
            break;
        }

    claim(is(jug_step(&box, 3, 1, 0), 0, 0, 1, JUG_INCONCLUSIVE), "second event");
    claim(is(jug_step(&box, 3, 2, 0), 0, 0, 1, JUG_TRUE), "third event");
    memset(states, 0xee, sizeof states);
    claim(is(jug_goes_on(&box, 0, states, sizeof states), 13, 0, 0, 0), "no run breaks the rule any more: 13");
    claim(states[0] == 0xee, "a refused call leaves the buffer");
    claim(is(jug_step(&box, 3, 3, 0), 0, 0, 0, JUG_OUT_OF_MODEL), "what no run does is out-of-model");
    claim(is(jug_step(&box, 0, 0, 7), 0, 0, 0, JUG_OUT_OF_MODEL), "and a restart does not lead out of it");
}

static void numbers(void)
{
    jug_box one, other, old;
    at = "events with numbers";
    jug_open(TEXT(W), TEXT("Fp1"), &one);
    other = one;
    claim(jug_step_numbered(&one, 4294967290u, 3, 0, 0).number == 0, "a log begins at any number");
    jug_step(&other, 3, 0, 0);
    jug_answer gap = jug_step_numbered(&one, 4294967293u, 0, 0, 0);
    jug_step(&other, 0, 0, 0);
    jug_step(&other, 0, 0, 0);
    claim(same(gap, jug_step(&other, 0, 0, 0)), "two missing are two events of which nothing was seen");
    old = one;
    claim(is(jug_step_numbered(&one, 4294967293u, 0, 0, 0), 16, 0, 0, 0), "a number that comes again is 16");
    claim(is(jug_step_numbered(&one, 0, 0, 0, 0), 16, 0, 0, 0), "a number that goes back is 16");
    claim(is(jug_step_numbered(&one, 0, 4, 0, 0), 10, 0, 0, 0), "10 comes before 16");
    claim(!memcmp(&old, &one, sizeof one), "refused events leave the box");
    claim(jug_step_numbered(&one, 4294967295u, 0, 0, 0).number == 0, "the last number");
    claim(is(jug_step(&one, 0, 0, 0), 16, 0, 0, 0), "then every event is 16");

    jug_open(TEXT(W), TEXT("1"), &one);
    jug_step_numbered(&one, 100, 0, 0, 0);
    claim(is(jug_step_numbered(&one, 118, 0, 0, 0), 16, 0, 0, 0), "17 missing are too many");
    claim(jug_step_numbered(&one, 117, 0, 0, 0).number == 0, "16 missing are not");
}

/* ---- whole logs that are refused: by which number first, where, and what is written */

#define LINE "see=03 val=00 new=0\n"
#define BAD "see=04 val=00 new=0\n"

static void refused_logs(void)
{
    uint8_t bytes[8], old[8];
    at = "refused logs";
    memset(bytes, 0xee, sizeof bytes);
    memcpy(old, bytes, sizeof old);
    claim(is(jug_watch_log(TEXT("props=9\n"), TEXT(""), TEXT("s"), bytes, 0), 3, 8, 0, 0), "the table is looked at first");
    claim(is(jug_watch_log(TEXT(W), TEXT("p0\n"), TEXT("s"), bytes, 0), 5, 2, 0, 0), "then the rule, of which no line end is dropped");
    claim(is(jug_watch_log(TEXT(W), TEXT("Fp1"), TEXT(LINE LINE "see=03 val=00 new=2\n"), bytes, 0), 12, 58, 0, 0), "then the log's form, and after it the room");
    claim(is(jug_watch_log(TEXT(W), TEXT("Fp1"), TEXT(LINE BAD), bytes, 1), 11, 0, 0, 0), "then the room, before any event");
    claim(!memcmp(bytes, old, sizeof bytes), "all of these write nothing");
    claim(is(jug_watch_log(TEXT(W), TEXT("Fp1"), TEXT(BAD LINE), bytes, 8), 10, 0, 0, 0), "the first event is refused at 0, behind none");
    claim(!memcmp(bytes, old, sizeof bytes), "and has no byte before it");
    claim(is(jug_watch_log(TEXT(W), TEXT("Fp1"), TEXT(LINE LINE BAD LINE), bytes, 8), 10, 40, 2, 0), "event 2 is refused at its line, behind two");
    claim(bytes[0] == JUG_INCONCLUSIVE && bytes[1] == JUG_INCONCLUSIVE && !memcmp(bytes + 2, old, 6), "the two have their bytes, and the rest stays");
    memset(bytes, 0xee, sizeof bytes);
    claim(is(jug_watch_log(TEXT(W), TEXT("Fp1"), TEXT("num=00000007 " LINE "num=00000009 " LINE "num=00000009 " LINE), bytes, 8), 16, 66, 2, 0), "a number that comes again is 16, and what was lost is not counted");
    claim(bytes[1] != 0xee && !memcmp(bytes + 2, old, 6), "nor has it a byte");
    claim(is(jug_watch_log(TEXT(W), TEXT("Fp1"), TEXT(""), bytes, 0), 0, 0, 0, 0), "a log of no line asks for no byte");
}

/* ---- whatever stands in a box, each call answers, and what it refuses it leaves */

static void any_box(void)
{
    static uint8_t states[JUG_WITNESS];
    jug_box good, box, old;
    at = "any box";
    jug_open(TEXT(W), TEXT("G(p0->Fp1)"), &good);
    for (int turn = 0; turn < 3000; turn++) {
        if (turn % 3 == 0) {
            for (int i = 0; i < 384; i++)
                box.word[i] = turn % 2 ? draw() : draw() % 4;
        } else {
            box = good;
            for (int k = 0; k <= turn % 3; k++)
                box.word[draw() % 384] = turn % 2 ? draw() : draw() % 70;
        }
        old = box;
        jug_answer look = jug_look(&box);
        claim(look.number == 0 || look.number == 1 || look.number == 2 || look.number == 9, "look is refused by 1, 2 or 9");
        claim(look.number ? look.count == 0 && look.value == 0 : look.value <= 3 && look.count <= 64, "and gives a verdict, or nothing");
        if (turn % 10 == 0) {
            jug_answer run = jug_goes_on(&box, (uint8_t)(turn % 4), states, sizeof states);
            claim(run.number == 0 || run.number == 13 || run.number == look.number, "a run is refused as a look is, or by 13");
        }
        claim(!memcmp(&old, &box, sizeof box), "look and goes_on leave the box");
        jug_answer step = jug_step(&box, (uint16_t)draw() % 4, 0, (uint8_t)(draw() % 2));
        claim(step.number == 0 || !memcmp(&old, &box, sizeof box), "a refused step leaves the box");
        if (step.number == 0)
            claim(same(jug_look(&box), step), "a look shows what the step showed");
    }
}

/* ---- whole logs beside steps, on the worked plants, with a power cut behind each event */

static size_t read_file(const char *folder, const char *name, uint8_t *to, size_t room)
{
    char path[4096];
    snprintf(path, sizeof path, "%s/%s", folder, name);
    FILE *file = fopen(path, "rb");
    if (!file) {
        printf("c: %s cannot be read\n", path);
        exit(1);
    }
    size_t len = fread(to, 1, room, file);
    fclose(file);
    return len;
}

/* What is in the box goes to a file, and a new box takes it from there. */
static void power_cut(jug_box *box)
{
    jug_box kept;
    FILE *file = tmpfile();
    if (!file || fwrite(box, sizeof *box, 1, file) != 1) {
        claim(0, "a box is written to a file");
        return;
    }
    rewind(file);
    memset(box, 0x77, sizeof *box);
    claim(fread(&kept, sizeof kept, 1, file) == 1, "and read again");
    fclose(file);
    *box = kept;
}

static void worked_plant(const char *folder)
{
    static uint8_t plant[2477], rule[513], log[65520], verdicts[4000];
    jug_box box;
    at = folder;
    size_t plant_len = read_file(folder, "plant.txt", plant, sizeof plant);
    size_t rule_len = read_file(folder, "rule.txt", rule, sizeof rule);
    size_t log_len = read_file(folder, "log.txt", log, sizeof log);
    if (rule_len && rule[rule_len - 1] == '\n')
        rule_len--;
    size_t lines = 0;
    for (size_t i = 0; i < log_len; i++)
        lines += log[i] == '\n';

    memset(verdicts, 0xee, sizeof verdicts);
    if (lines)
        claim(is(jug_watch_log(plant, plant_len, rule, rule_len, log, log_len, verdicts, lines - 1), 11, 0, 0, 0), "fewer bytes than lines is 11");
    claim(is(jug_watch_log(plant, plant_len, rule, rule_len, log, log_len - 1, verdicts, sizeof verdicts), 12, log_len - 1, 0, 0), "a log that stops too soon is 12");
    claim(verdicts[0] == 0xee, "what is refused so writes nothing");
    claim(is(jug_watch_log(plant, plant_len, rule, rule_len, log, log_len, verdicts, lines), 0, 0, lines, 0), "a whole log");
    claim(verdicts[lines] == 0xee, "bytes behind the verdicts stay");

    claim(jug_open(plant, plant_len, rule, rule_len, &box).number == 0, "open");
    const char *line = (const char *)log;
    for (size_t k = 0; k < lines; k++) {
        unsigned num, see, val, new_;
        jug_answer step;
        if (sscanf(line, "num=%8x see=%4x val=%4x new=%1u", &num, &see, &val, &new_) == 4)
            step = jug_step_numbered(&box, num, (uint16_t)see, (uint16_t)val, (uint8_t)new_);
        else if (sscanf(line, "see=%4x val=%4x new=%1u", &see, &val, &new_) == 3)
            step = jug_step(&box, (uint16_t)see, (uint16_t)val, (uint8_t)new_);
        else
            break;
        claim(step.number == 0 && step.value == verdicts[k], "byte k is what step k shows");
        power_cut(&box);
        claim(same(jug_look(&box), step), "a box read back shows the same");
        line = (const char *)memchr(line, '\n', (size_t)((const char *)log + log_len - line)) + 1;
    }
}

int main(int argc, char **argv)
{
    small_plant();
    numbers();
    refused_logs();
    any_box();
    for (int i = 1; i < argc; i++)
        worked_plant(argv[i]);
    return told("box and whole logs");
}
