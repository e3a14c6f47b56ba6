/* Calls the functions of jugastilum.h as lines of standard input ask, and writes a line for each answer.
   A line is the name of a function and its arguments, parted by spaces: bytes in hexadecimal, `-` for none, numbers in decimal, a list as its length and its numbers.
   An answer is the four numbers number, place, count, value, and then what was lent to be written. */
#include "jugastilum.h"

#include <stdio.h>
#include <stdlib.h>
#include <string.h>

static char *word(void)
{
    char *w = strtok(NULL, " \n");
    if (!w) {
        printf("driver: an argument is missing\n");
        exit(1);
    }
    return w;
}

static uint64_t number(void)
{
    return strtoull(word(), NULL, 10);
}

/* Bytes have a length of their own, so that nothing lies behind them by accident. */
typedef struct {
    uint8_t *at;
    size_t len;
} bytes;

static bytes text(void)
{
    char *w = word();
    bytes b = { NULL, strcmp(w, "-") ? strlen(w) / 2 : 0 };
    b.at = malloc(b.len ? b.len : 1);
    for (size_t i = 0; i < b.len; i++) {
        unsigned x;
        sscanf(w + 2 * i, "%2x", &x);
        b.at[i] = (uint8_t)x;
    }
    return b;
}

static void tell(jug_answer a)
{
    printf("%llu %llu %llu %llu", (unsigned long long)a.number, (unsigned long long)a.place, (unsigned long long)a.count, (unsigned long long)a.value);
}

static void tell_bytes(bytes b)
{
    putchar(' ');
    if (!b.len)
        putchar('-');
    for (size_t i = 0; i < b.len; i++)
        printf("%02x", b.at[i]);
}

/* ---- the functions, by name */

static void whole(void)
{
    bytes table = text(), rule = text(), log = text(), verdicts = text();
    tell(jug_watch_log(table.at, table.len, rule.at, rule.len, log.at, log.len, verdicts.at, verdicts.len));
    tell_bytes(verdicts);
    free(table.at);
    free(rule.at);
    free(log.at);
    free(verdicts.at);
}

static void write_table(void)
{
    uint64_t props = number(), states = number(), start = number(), just = number();
    uint64_t fair[80], next[80];
    uint16_t label[80];
    size_t fairs = number();
    for (size_t i = 0; i < fairs; i++)
        fair[i] = number();
    size_t labels = number();
    for (size_t i = 0; i < labels; i++)
        label[i] = (uint16_t)number();
    size_t nexts = number();
    for (size_t i = 0; i < nexts; i++)
        next[i] = number();
    bytes b = text();
    tell(jug_write_table(props, states, start, just, fair, fairs, label, labels, next, nexts, b.at, b.len));
    tell_bytes(b);
    free(b.at);
}

static void setting(void)
{
    bytes local = text(), shared = text();
    tell(jug_setting(local.at, local.len, shared.at, shared.len, (uint8_t)number()));
    free(local.at);
    free(shared.at);
}

/* From the empty store on: `a SHEET` keeps one, `g EDITION BUFFER` copies one out, `w INDEX VALUE` damages a word. A refused call must leave every word. */
static void store(void)
{
    jug_store kept;
    memset(&kept, 0, sizeof kept);
    const char *between = "";
    for (char *op = strtok(NULL, " \n"); op; op = strtok(NULL, " \n")) {
        if (*op == 'w') {
            uint64_t index = number();
            kept.word[index] = number();
            continue;
        }
        jug_store before = kept;
        printf("%s", between);
        between = " ; ";
        if (*op == 'a') {
            bytes sheet = text();
            jug_answer a = jug_keep_sheet(&kept, sheet.at, sheet.len);
            tell(a);
            if (a.number && memcmp(&before, &kept, sizeof kept))
                printf(" the store was changed");
            free(sheet.at);
        } else {
            uint64_t edition = number();
            bytes buffer = text();
            tell(jug_kept_sheet(&kept, edition, buffer.at, buffer.len));
            tell_bytes(buffer);
            if (memcmp(&before, &kept, sizeof kept))
                printf(" the store was changed");
            free(buffer.at);
        }
    }
    if (!*between)
        putchar('-');
}

static void closing(void)
{
    bytes table = text(), rule = text(), log = text();
    tell(jug_close_log(table.at, table.len, rule.at, rule.len, log.at, log.len, number()));
    free(table.at);
    free(rule.at);
    free(log.at);
}

static void machine(void)
{
    bytes t = text(), r = text();
    size_t words = number();
    bytes b = text();
    uint64_t *work = malloc((words + 1) * sizeof *work);
    for (size_t i = 0; i <= words; i++)
        work[i] = 0xa5a5a5a5a5a5a5a5u;
    tell(jug_machine(t.at, t.len, r.at, r.len, work, words, b.at, b.len));
    tell_bytes(b);
    size_t zero = 0, kept = 0;
    for (size_t i = 0; i < words; i++) {
        zero += work[i] == 0;
        kept += work[i] == 0xa5a5a5a5a5a5a5a5u;
    }
    printf(" %s%s", zero == words ? "zero" : kept == words ? "kept" : "mixed", work[words] == 0xa5a5a5a5a5a5a5a5u ? "" : " beyond");
    free(work);
    free(t.at);
    free(r.at);
    free(b.at);
}

static void machine_step(void)
{
    bytes m = text();
    uint64_t props = number(), row = number();
    uint16_t see = (uint16_t)number(), val = (uint16_t)number();
    tell(jug_machine_step(m.at, m.len, props, row, see, val, (uint8_t)number()));
    free(m.at);
}

/* A day, event by event, and then its sheet; with a number for `short` the buffer has so many bytes too few. A refused event must leave all words. */
static void day(void)
{
    static uint8_t sheet[8192];
    bytes table = text(), rule = text();
    jug_box box, old_box;
    jug_day kept, old_kept;
    memset(&kept, 0, sizeof kept);
    jug_open(table.at, table.len, rule.at, rule.len, &box);
    size_t few = number(), events = number();
    for (size_t i = 0; i < events; i++) {
        uint8_t numbered = (uint8_t)number();
        uint32_t num = (uint32_t)number();
        uint16_t see = (uint16_t)number(), val = (uint16_t)number();
        uint8_t new_ = (uint8_t)number();
        old_box = box;
        old_kept = kept;
        jug_answer a = jug_note(&box, &kept, numbered, num, see, val, new_);
        tell(a);
        if (a.number && (memcmp(&box, &old_box, sizeof box) || memcmp(&kept, &old_kept, sizeof kept)))
            printf(" changed");
        printf(" ; ");
    }
    memset(sheet, 0xee, sizeof sheet);
    jug_answer whole = jug_day_sheet(&kept, sheet, sizeof sheet);
    if (few && whole.count) {
        memset(sheet, 0xee, sizeof sheet);
        tell(jug_day_sheet(&kept, sheet, whole.count > few ? whole.count - few : 0));
        if (sheet[0] != 0xee)
            printf(" written");
    } else {
        bytes b = { sheet, whole.count };
        tell(whole);
        tell_bytes(b);
        if (sheet[whole.count] != 0xee)
            printf(" beyond");
    }
    free(table.at);
    free(rule.at);
}

static void judge(void)
{
    bytes t = text(), r = text(), l = text();
    uint8_t claim = (uint8_t)number();
    bytes a = text(), b = text(), c = text(), d = text();
    tell(jug_judge(t.at, t.len, r.at, r.len, l.at, l.len, claim, a.at, a.len, b.at, b.len, c.at, c.len, d.at, d.len));
    bytes all[] = { t, r, l, a, b, c, d };
    for (size_t i = 0; i < sizeof all / sizeof *all; i++)
        free(all[i].at);
}

/* One box: `t SCRAP BUFFER` is a scrap, `e` asks for the end, and at last the lamp. The log had so many bytes before. A call that takes nothing must leave the box. */
static void scraps(void)
{
    bytes table = text(), rule = text();
    jug_box box, before;
    jug_open(table.at, table.len, rule.at, rule.len, &box);
    box.word[369] = number();
    uint64_t standing = 0;
    for (char *op = strtok(NULL, " \n"); op; op = strtok(NULL, " \n")) {
        before = box;
        if (*op == 't') {
            bytes scrap = text(), buffer = text();
            jug_answer a = jug_take(&box, scrap.at, scrap.len, buffer.at, buffer.len);
            tell(a);
            tell_bytes(buffer);
            int kept = standing || a.number == 9 || a.number == 11 || a.number == 24;
            if (kept && memcmp(&before, &box, sizeof box))
                printf(" the box was changed");
            standing |= kept ? 0 : a.number;
            free(scrap.at);
            free(buffer.at);
        } else {
            tell(jug_end(&box));
        }
        printf(" ; ");
    }
    tell(jug_look(&box));
    free(table.at);
    free(rule.at);
}

static const struct {
    const char *name;
    void (*call)(void);
} functions[] = {
    { "whole", whole },
    { "write_table", write_table },
    { "setting", setting },
    { "store", store },
    { "closing", closing },
    { "machine", machine },
    { "machine_step", machine_step },
    { "day", day },
    { "judge", judge },
    { "scraps", scraps },
};

int main(void)
{
    static char line[1 << 22];
    while (fgets(line, sizeof line, stdin)) {
        char *name = strtok(line, " \n");
        size_t i = 0, many = sizeof functions / sizeof *functions;
        while (i < many && strcmp(functions[i].name, name ? name : ""))
            i++;
        if (i == many) {
            printf("driver: no function %s\n", name ? name : "");
            return 1;
        }
        functions[i].call();
        putchar('\n');
    }
    return 0;
}
