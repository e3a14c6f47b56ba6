// A whole log by the library for C programs, for bench/whole.
// usage: whole MODE LINES, in a folder with plant.txt, rule.txt and log.txt, of which the first LINES lines are taken. MODE is
//     call    the proved `jug_watch_log`
//     steps   the proved `jug_open`, and a `jug_step` for each line
//     take-N  the proved `jug_open`, a `jug_take` for each N bytes, and `jug_end`
//     twin    the same work in C by the same algorithms, the tables made once
//     none    the files are read, and nothing more is done
// It writes how many events were taken, and a digest of their verdicts.
#define main twin_main
#include "twin.c"
#undef main
#include "jugastilum.h"
#include <stdlib.h>

typedef struct { char *bytes; size_t len; } Bytes;

static Bytes whole_file(const char *name) {
    FILE *f = fopen(name, "rb");
    if (!f) exit(1);
    fseek(f, 0, SEEK_END);
    Bytes b = {NULL, (size_t)ftell(f)};
    rewind(f);
    b.bytes = malloc(b.len + 1);
    if (!b.bytes || fread(b.bytes, 1, b.len, f) != b.len) exit(1);
    fclose(f);
    return b;
}
static size_t by_steps(Bytes table, Bytes rule, Bytes log, uint8_t *verdicts) {
    jug_box box;
    Text t = {log.bytes, log.bytes + log.len, 0};
    size_t n = 0;
    if (jug_open((uint8_t *)table.bytes, table.len, (uint8_t *)rule.bytes, rule.len, &box).number) return 0;
    for (; t.at < t.end; n++) {
        Event e = read_line(&t);
        jug_answer a = jug_step(&box, e.see, e.val, (uint8_t)e.new);
        if (a.number) return n;
        verdicts[n] = (uint8_t)a.value;
    }
    return n;
}
static size_t by_scraps(Bytes table, Bytes rule, Bytes log, size_t size, uint8_t *verdicts, size_t room) {
    jug_box box;
    size_t n = 0;
    if (!size || jug_open((uint8_t *)table.bytes, table.len, (uint8_t *)rule.bytes, rule.len, &box).number) return 0;
    for (size_t at = 0; at < log.len; at += size) {
        jug_answer a = jug_take(&box, (uint8_t *)log.bytes + at, log.len - at < size ? log.len - at : size, verdicts + n, room - n);
        n += a.count;
        if (a.number) return n;
    }
    return jug_end(&box).number ? 0 : n;
}
int main(int argc, char **argv) {
    if (argc != 3) return 2;
    Bytes table = whole_file("plant.txt"), rule = whole_file("rule.txt"), log = whole_file("log.txt");
    if (rule.len && rule.bytes[rule.len - 1] == '\n') rule.len--;
    if (!twin_read(table.bytes, table.len, rule.bytes, rule.len)) return 1;
    size_t lines = strtoull(argv[2], NULL, 10), bytes = digits() > 2 ? 24 : 20, taken = 0;
    if (log.len < lines * bytes) return 1;
    log.len = lines * bytes;
    uint8_t *verdicts = calloc(lines + 1, 1);
    if (!verdicts) return 1;
    if (!strcmp(argv[1], "call")) {
        jug_answer a = jug_watch_log((uint8_t *)table.bytes, table.len, (uint8_t *)rule.bytes, rule.len, (uint8_t *)log.bytes, log.len, verdicts, lines);
        taken = a.number ? 0 : a.count;
    } else if (!strcmp(argv[1], "steps")) taken = by_steps(table, rule, log, verdicts);
    else if (!strncmp(argv[1], "take-", 5)) taken = by_scraps(table, rule, log, strtoull(argv[1] + 5, NULL, 10), verdicts, lines);
    else if (!strcmp(argv[1], "twin")) taken = twin_watch_log(log.bytes, log.len, verdicts);
    else return 0;
    u64 digest = 0;
    for (size_t n = 0; n < taken; n++) digest = digest * 5 + verdicts[n];
    printf("%zu %" PRIu64 "\n", taken, digest);
    return taken != lines;
}
