/* How much stack each function of jugastilum.h takes: it is called on a stack that was painted, and what is still painted was not touched.
   cc -std=gnu11 -O1 -static -Iinclude -o target/stack bench/stack.c target/staticlib/libjugastilum.a -lpthread; target/stack FOLDER
   FOLDER has plant.txt, rule.txt and log.txt that are accepted. A line for each call: its name, the number that it answered, and the bytes of stack. */
#include "jugastilum.h"
#include <pthread.h>
#include <stdio.h>
#include <stdlib.h>
#include <string.h>
#define SIZE (8u << 20)
#define TABLE plant, plant_len, rule, rule_len
#define LOG log_, log_len

static uint8_t plant[JUG_TABLE], rule[513], log_[65520], verdicts[4000], states[JUG_WITNESS], text[JUG_DAY_SHEET], machine[JUG_MACHINE];
static uint64_t work[JUG_MACHINE_WORK];
static size_t plant_len, rule_len, log_len;
static jug_box box, radio;
static jug_store store;
static jug_day day;
static jug_answer made, keeps, breaks;
static uint8_t kept[JUG_WITNESS], broken[JUG_WITNESS];
static const uint8_t sheet[] = "edition=9\nrule=G(p0->Fp1)\nclosing=2\n";
static const size_t sheet_len = sizeof sheet - 1;
/* A table of 64 states and 4 fairness sets, all of them full. */
static uint64_t full[64];
static uint16_t label[64];

static jug_answer nothing(void) { return (jug_answer){0, 0, 0, 0}; }
static jug_answer watch_log(void) { return jug_watch_log(TABLE, LOG, verdicts, sizeof verdicts); }
static jug_answer open_(void) { return jug_open(TABLE, &box); }
static jug_answer look(void) { return jug_look(&box); }
static jug_answer step(void) { return jug_step(&box, 0, 0, 0); }
static jug_answer first(void) { jug_open(TABLE, &box); return jug_step(&box, 0, 0, 0); }
static jug_answer restart(void) { return jug_step_numbered(&box, 12, 0, 0, 1); }
static jug_answer goes_on(void) { return jug_goes_on(&box, 1, states, sizeof states); }
static jug_answer goes_wrong(void) { return jug_goes_on(&box, 0, states, sizeof states); }
static jug_answer write_table(void) { return jug_write_table(16, 64, full[0], 4, full, 4, label, 64, full, 64, text, sizeof text); }
static jug_answer setting(void) { return jug_setting(sheet, sheet_len, sheet, sheet_len, JUG_CLOSING); }
static jug_answer keep_sheet(void) { return jug_keep_sheet(&store, sheet, sheet_len); }
static jug_answer kept_sheet(void) { return jug_kept_sheet(&store, 9, states, sizeof states); }
static jug_answer close_log(void) { return jug_close_log(TABLE, LOG, 2); }
static jug_answer make_machine(void) { return made = jug_machine(TABLE, work, JUG_MACHINE_WORK, machine, sizeof machine); }
static uint64_t props(void) { return made.value == 8 ? 1 : made.value == 20 ? 2 : 3; }
static jug_answer machine_step(void) { return jug_machine_step(machine, made.count * made.value, props(), 0, 0, 0, 0); }
static jug_answer machine_steps(void) { static const uint8_t events[64]; return jug_machine_steps(machine, made.count * made.value, props(), 0, events, sizeof events, text, sizeof text); }
static jug_answer note(void) { return jug_note(&box, &day, 0, 0, 0, 0, 0); }
static jug_answer note_missing(void) { return jug_note(&box, &day, 1, 20, 0, 0, 1); }
static jug_answer day_sheet(void) { return jug_day_sheet(&day, text, sizeof text); }
static jug_answer judge_of(size_t len)
{
    return jug_judge(TABLE, log_, len, JUG_INCONCLUSIVE, kept, keeps.value, kept + keeps.value, keeps.count, broken, breaks.value, broken + breaks.value, breaks.count);
}
static jug_answer judge(void) { return judge_of(log_len); }
static jug_answer judge_runs(void) { return judge_of(0); }
static jug_answer take(void) { return jug_take(&radio, LOG, verdicts, sizeof verdicts); }
static jug_answer end(void) { return jug_end(&radio); }

static const struct {
    const char *name;
    jug_answer (*call)(void);
} calls[] = {
    {"nothing", nothing}, {"watch_log", watch_log}, {"open", open_}, {"look", look}, {"open, step", first}, {"step", step}, {"step, restart", restart},
    {"goes_on, keeps", goes_on}, {"goes_on, breaks", goes_wrong}, {"write_table", write_table}, {"setting", setting}, {"keep_sheet", keep_sheet}, {"kept_sheet", kept_sheet},
    {"close_log", close_log}, {"machine", make_machine}, {"machine_step", machine_step}, {"machine_steps", machine_steps}, {"note", note}, {"note, missing", note_missing}, {"day_sheet", day_sheet},
    {"judge", judge}, {"judge, no event", judge_runs}, {"take", take}, {"end", end},
};
static size_t now;
static jug_answer answer;

static void *call(void *unused)
{
    (void)unused;
    answer = calls[now].call();
    return NULL;
}

static size_t read_file(const char *folder, const char *name, uint8_t *to, size_t room)
{
    char path[4096];
    snprintf(path, sizeof path, "%s/%s", folder, name);
    FILE *file = fopen(path, "rb");
    if (!file)
        exit(2);
    size_t len = fread(to, 1, room, file);
    fclose(file);
    return len;
}

/* What each call needs beside the texts: a full store, a box for the radio, and a run of each kind from the start on. */
static void ready(void)
{
    for (uint8_t n = '1'; n <= '8'; n++)
        jug_keep_sheet(&store, (const uint8_t[]){'e', 'd', 'i', 't', 'i', 'o', 'n', '=', n, '\n'}, 10);
    for (int i = 0; i < 64; i++)
        full[i] = UINT64_MAX, label[i] = UINT16_MAX;
    jug_open(TABLE, &radio);
    keeps = jug_goes_on(&radio, 1, kept, sizeof kept);
    breaks = jug_goes_on(&radio, 0, broken, sizeof broken);
}

int main(int argc, char **argv)
{
    if (argc != 2)
        return 2;
    plant_len = read_file(argv[1], "plant.txt", plant, sizeof plant);
    rule_len = read_file(argv[1], "rule.txt", rule, sizeof rule);
    log_len = read_file(argv[1], "log.txt", log_, sizeof log_);
    if (rule_len && rule[rule_len - 1] == '\n')
        rule_len--;
    ready();
    uint8_t *stack = aligned_alloc(4096, SIZE);
    size_t none = 0;
    for (now = 0; now < sizeof calls / sizeof *calls; now++) {
        pthread_attr_t on;
        pthread_t thread;
        memset(stack, 0xc3, SIZE);
        pthread_attr_init(&on);
        pthread_attr_setstack(&on, stack, SIZE);
        if (pthread_create(&thread, &on, call, NULL))
            return 3;
        pthread_join(thread, NULL);
        size_t painted = 0;
        while (painted < SIZE && stack[painted] == 0xc3)
            painted++;
        if (!now)
            none = SIZE - painted;
        printf("%-16s number=%-2llu stack=%zu\n", calls[now].name, (unsigned long long)answer.number, SIZE - painted - none);
    }
    return 0;
}
