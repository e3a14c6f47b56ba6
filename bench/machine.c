// A rule as a fixed machine, by the library for C programs and in plain C, for bench/machine.
// usage: machine MODE TURNS, in a folder with plant.txt and rule.txt. MODE is
//     make    the proved `jug_machine`, so many times
//     twin    the same work in C by the same algorithms: prepare, the states that are reached, with a row's moves made once, rows told apart round by
//             round, numbers, bytes; it tells on the error stream how many states there are before rows are joined
//     look    so many events, drawn by a fixed seed along the machine, looked up by the proved `jug_machine_step`
//     checked the same in C with the same checks, by a call for each event as with the library
//     inside  the same, with the checks within the loop
//     bare    the same in C with none: a loop over a table of bytes
//     step    the same events by the proved `jug_step`, in a box
//     none    the machine is made and the events are drawn, and nothing more is done
//     steps   the same events as bytes, MANY of them in a call of the proved `jug_machine_steps`, which writes two bytes for each
//     through the same in C with the same checks, by a call for as many
//     over    the same in C with none: a loop over the bytes of the events and a table of bytes, by a call for as many
//     shown   nothing is looked up, and the bytes behind events are gone through as behind a call
// Compiled with TWIN_ALONE it needs no library, and has the modes in C alone.
// It writes the rows and a digest of the bytes; of events, a digest of the verdicts and of what is left.
#define main twin_main
#include "twin.c"
#undef main
#include "jugastilum.h"
#include <stdlib.h>

enum { STATES = 256, WORDS = 130 };
static u64 work[JUG_MACHINE_WORK];
static uint8_t machine[JUG_MACHINE];

// ---- the twin

// What is seen and given by each two columns, and which two columns an event has.
static const uint8_t sees[27] = {0, 1, 1, 2, 2, 3, 3, 3, 3, 4, 4, 5, 5, 5, 5, 6, 6, 6, 6, 7, 7, 7, 7, 7, 7, 7, 7};
static const uint8_t vals[27] = {0, 0, 1, 0, 2, 0, 1, 2, 3, 0, 4, 0, 1, 4, 5, 0, 2, 4, 6, 0, 1, 2, 3, 4, 5, 6, 7};
static uint8_t twos[64];

static size_t columns_of(size_t props) { return props == 1 ? 6 : props == 2 ? 18 : 54; }
static Event event_at(size_t k) { return (Event){sees[k / 2], vals[k / 2], k % 2}; }

// Words that mostly differ in the first: a digest, whether an event came, and both sets.
NOINLINE static void block_of(const Monitor *m, u64 *block) {
    u64 d = m->seen;
    block[1] = m->seen;
    memcpy(block + 2, m->keeps.words, 512);
    memcpy(block + 66, m->breaks.words, 512);
    for (int i = 2; i < WORDS; i++) d = (d & (ALL >> 8)) * 31 + (block[i] & 0xffffffff) + (block[i] >> 32);
    block[0] = d;
}
NOINLINE static size_t find(const u64 *room, size_t rows, const u64 *block) {
    size_t at = 0;
    while (at < rows && (room[at * WORDS] != block[0] || memcmp(room + at * WORDS, block, WORDS * 8))) at++;
    return at;
}
// The states that are reached and their cells; 0 where there are more than 256.
NOINLINE static size_t explore(size_t c, const Ways *ways, const u64 *holds, u64 *room, u64 *cells, u64 *outputs) {
    size_t rows = 1;
    Monitor m;
    opened(p.start, holds, live, &m);
    block_of(&m, room);
    for (size_t place = 0; place < rows * c; place++) {
        u64 block[WORDS];
        const u64 *from = room + place / c * WORDS;
        Event e = event_at(place % c);
        u64 agree = agreeing(label, p.states, e);
        m.seen = from[1];
        memcpy(m.keeps.words, from + 2, 512);
        memcpy(m.breaks.words, from + 66, 512);
        if (place % c == 0) {
            Answer a = lamp(&m);
            outputs[place / c] = a.verdict * 256 + a.left;
        }
        if (!m.seen) kept(live, agree, &m);
        else if (place % c == 0) moved(next, p.states, ways, live, agree, &m);
        else {
            // what the first column leads to, of which nothing was seen, narrowed to what agrees
            const u64 *wide = room + cells[place - place % c] * WORDS;
            for (int v = 0; v < 64; v++) {
                u64 k = wide[2 + v], b = wide[66 + v];
                m.keeps.words[v] = (e.new ? (k | b) & holds[v] : k) & agree;
                m.breaks.words[v] = (e.new ? (k | b) & ~holds[v] : b) & agree;
            }
        }
        m.seen = 1;
        block_of(&m, block);
        size_t row = find(room, rows, block);
        if (row == STATES) return 0;
        if (row == rows) memcpy(room + rows++ * WORDS, block, sizeof block);
        cells[place] = row;
    }
    return rows;
}
// Each row's leader: the first row of its class whose cells are of the same classes.
NOINLINE static void refine(const u64 *cells, const u64 *class, size_t n, size_t c, u64 *fresh) {
    for (size_t r = 0; r < n; r++) {
        size_t s = 0;
        for (; s < r; s++) {
            if (fresh[s] != s || class[s] != class[r]) continue;
            size_t k = 0;
            while (k < c && class[cells[s * c + k]] == class[cells[r * c + k]]) k++;
            if (k == c) break;
        }
        fresh[r] = s;
    }
}
NOINLINE static size_t join(const u64 *outputs, const u64 *cells, size_t n, size_t c, u64 *class) {
    u64 fresh[STATES];
    size_t count = 0;
    for (size_t r = 0; r < n; r++) for (class[r] = 0; outputs[class[r]] != outputs[r]; ) class[r]++;
    for (;;) {
        refine(cells, class, n, c, fresh);
        if (!memcmp(class, fresh, n * 8)) break;
        memcpy(class, fresh, n * 8);
    }
    for (size_t r = 0; r < n; r++) class[r] = class[r] == r ? count++ : class[class[r]];
    return count;
}
// How many states there are before rows are joined.
static size_t before;
// The machine in the lent bytes: how many rows.
NOINLINE static size_t twin_machine(void) {
    static Ways ways;
    static u64 words[2112];
    u64 *cells = work + STATES * WORDS, outputs[STATES], class[STATES];
    size_t c = columns_of(p.props), count = 0;
    Shape s;
    if (prepare(p, fair, label, next, &r, live)) return 0;
    shape(&r, &s);
    truths(&r, label, p.states, &s, words);
    ways_of(&r, &s, words, &ways);
    size_t n = explore(c, &ways, words + r.len * 64, work, cells, outputs);
    before = n;
    if (n) {
        count = join(outputs, cells, n, c, class);
        // a class is met first at its first row
        for (size_t q = 0, j = 0; q < n; q++) {
            if (class[q] != j) continue;
            uint8_t *row = machine + j++ * (c + 2);
            row[0] = outputs[q] / 256;
            row[1] = outputs[q] % 256;
            for (size_t k = 0; k < c; k++) row[2 + k] = class[cells[q * c + k]];
        }
    }
    memset(work, 0, sizeof work);
    return count;
}

// ---- events looked up

typedef struct { uint64_t row, verdict, left; int refused; } Stand;

// Where the two cells of an event begin, a word for what it sees and a byte for what it gives: 56 where that is not legal. main fills it.
static u64 firsts[8];

// The rows of so many bytes, 0 where they are not whole rows of that width or more than 256: a share is 2^32 by the width, rounded up.
static inline size_t rows_in(size_t len, size_t width, size_t share) {
    if (len > width * STATES) return 0;
    u64 shares = (u64)len * share;
    return (shares & 0xffffffff) < share ? shares >> 32 : 0;
}
__attribute__((always_inline)) static inline Stand look_inside(const uint8_t *bytes, size_t len, size_t props, size_t row, Event e) {
    Stand none = {0, 0, 0, 9};
    size_t width, rows;
    if (props == 3) width = 56, rows = rows_in(len, 56, 76695845);
    else if (props == 2) width = 20, rows = rows_in(len, 20, 214748365);
    else if (props == 1) width = 8, rows = rows_in(len, 8, 536870912);
    else return none.refused = 1, none;
    if (row >= rows) return none;
    size_t first = (e.see | e.val) > 7 ? 56 : firsts[e.see] >> e.val * 8 & 255;
    if (first >= width) return none.refused = 10, none;
    size_t to = bytes[row * width + first + !!e.new];
    if (to >= rows || bytes[to * width] > 3 || bytes[to * width + 1] > 64) return none;
    return (Stand){to, bytes[to * width], bytes[to * width + 1], 0};
}
NOINLINE static Stand look_up(const uint8_t *bytes, size_t len, size_t props, size_t row, Event e) { return look_inside(bytes, len, props, row, e); }

// The same for many events, a byte each, with two bytes for what each shows: how many were looked up, and where they led.
typedef struct { size_t done, row; int refused; } Through;

NOINLINE static Through look_through(const uint8_t *bytes, size_t len, size_t props, size_t row, const uint8_t *events, size_t many, uint8_t *told, size_t room) {
    if (props < 1 || props > 3) return (Through){0, row, 1};
    size_t width = columns_of(props) + 2, rows = len % width || len / width > STATES ? 0 : len / width;
    if (row >= rows) return (Through){0, row, 9};
    if (room / 2 < many) return (Through){0, row, 11};
    for (size_t i = 0; i < many; i++) {
        size_t see = events[i] >> 4, val = events[i] >> 1 & 7;
        if (row >= rows) return (Through){i, row, 9};
        size_t first = see > 7 ? 56 : firsts[see] >> val * 8 & 255;
        if (first >= width) return (Through){i, row, 10};
        size_t to = bytes[row * width + first + (events[i] & 1)];
        if (to >= rows || bytes[to * width] > 3 || bytes[to * width + 1] > 64) return (Through){i, row, 9};
        row = to;
        told[i * 2] = bytes[to * width];
        told[i * 2 + 1] = bytes[to * width + 1];
    }
    return (Through){many, row, 0};
}
// With no check: where the cell of each byte stands in a row. main fills it.
static uint8_t cell_of[256];

NOINLINE static size_t look_over(const uint8_t *bytes, size_t width, size_t row, const uint8_t *events, size_t many, uint8_t *told) {
    for (size_t i = 0; i < many; i++) {
        row = bytes[row * width + cell_of[events[i]]];
        told[i * 2] = bytes[row * width];
        told[i * 2 + 1] = bytes[row * width + 1];
    }
    return row;
}

// So many in a call, out of so many that are drawn and gone through again and again.
enum { MANY = 1024, DRAWN = 65536 };
static Event *drawn;
static uint8_t *packed, told[MANY * 2];
static u64 shows;

static void show(u64 verdict, u64 left) { shows = shows * 5 + verdict * 65 + left; }
// As many events, along which the plant stays in its table where it can.
static int draw_events(size_t count, size_t c) {
    u64 dice = 12345;
    size_t row = 0;
    drawn = malloc(count * sizeof *drawn + 1);
    packed = malloc(count + 1);
    for (size_t i = 0; drawn && packed && i < count; i++) {
        size_t k, tries = 0;
        do {
            dice = dice * 6364136223846793005u + 1442695040888963407u;
            k = tries++ < 8 ? (dice >> 33) % c : 0;
        } while (k && machine[machine[row * (c + 2) + 2 + k] * (c + 2)] == 3);
        drawn[i] = event_at(k);
        packed[i] = JUG_EVENT(sees[k / 2], vals[k / 2], k % 2);
        row = machine[row * (c + 2) + 2 + k];
    }
    return drawn && packed;
}
// So many events in a call each time, and then what was written for them.
static void look_many(const char *mode, size_t turns, size_t size, size_t c) {
    size_t row = 0;
    for (size_t i = 0; i < turns; i += MANY) {
        size_t many = turns - i < MANY ? turns - i : MANY;
        const uint8_t *events = packed + i % DRAWN;
        if (!strcmp(mode, "through")) row = look_through(machine, size, p.props, row, events, many, told, sizeof told).row;
        if (!strcmp(mode, "over")) row = look_over(machine, c + 2, row, events, many, told);
#ifndef TWIN_ALONE
        if (!strcmp(mode, "steps")) row = jug_machine_steps(machine, size, p.props, row, events, many, told, sizeof told).place;
#endif
        for (size_t k = 0; k < many; k++) show(told[k * 2], told[k * 2 + 1]);
    }
}

typedef struct { uint8_t bytes[2479]; size_t len; } Whole;
static Whole whole_file(const char *name) {
    Whole w = {{0}, 0};
    FILE *f = fopen(name, "rb");
    if (!f) exit(1);
    w.len = fread(w.bytes, 1, sizeof w.bytes, f);
    fclose(f);
    return w;
}

int main(int argc, char **argv) {
    if (argc != 3) return 2;
    static Whole table, rule;
    table = whole_file("plant.txt"), rule = whole_file("rule.txt");
    if (rule.len && rule.bytes[rule.len - 1] == '\n') rule.len--;
    if (!twin_read((char *)table.bytes, table.len, (char *)rule.bytes, rule.len) || p.props > 3) return 1;
    size_t turns = strtoull(argv[2], NULL, 10), rows = 0, c = columns_of(p.props), row = 0, size;
    const char *mode = argv[1];
    int made = !strcmp(mode, "make") || !strcmp(mode, "twin");
    for (size_t q = 0; q < 8; q++) firsts[q] = 0x3838383838383838;
    for (size_t q = 0; q < 27; q++) {
        twos[sees[q] * 8 + vals[q]] = q;
        firsts[sees[q]] ^= (56 ^ (q * 2 + 2)) << vals[q] * 8;
        for (size_t new = 0; new < 2; new++) cell_of[JUG_EVENT(sees[q], vals[q], new)] = q * 2 + 2 + new;
    }
#ifndef TWIN_ALONE
    if (strcmp(mode, "twin")) {
        size_t times = made ? turns : 1;
        for (size_t i = 0; i < times; i++) {
            jug_answer a = jug_machine(table.bytes, table.len, rule.bytes, rule.len, work, JUG_MACHINE_WORK, machine, sizeof machine);
            rows = a.number ? 0 : a.count;
        }
    }
#else
    if (!made) rows = twin_machine();
#endif
    if (!strcmp(mode, "twin")) for (size_t i = 0; i < turns; i++) rows = twin_machine();
    size = rows * (c + 2);
    if (made) {
        u64 d = 0;
        for (size_t i = 0; i < size; i++) d = d * 31 + machine[i];
        printf("%zu %" PRIu64 "\n", rows, d);
        if (before) fprintf(stderr, "states=%zu\n", before);
        return 0;
    }
    int by_many = !strcmp(mode, "steps") || !strcmp(mode, "through") || !strcmp(mode, "over") || !strcmp(mode, "shown");
    if (!draw_events(by_many && turns > DRAWN ? DRAWN : turns, c)) return 1;
#ifndef TWIN_ALONE
    jug_box box;
    jug_answer a;
    if (!strcmp(mode, "look")) for (size_t i = 0; i < turns; i++) {
        Event e = drawn[i];
        a = jug_machine_step(machine, size, p.props, row, e.see, e.val, (uint8_t)e.new);
        row = a.place;
        show(a.value, a.count);
    } else if (!strcmp(mode, "step")) {
        if (jug_open(table.bytes, table.len, rule.bytes, rule.len, &box).number) return 1;
        for (size_t i = 0; i < turns; i++) {
            Event e = drawn[i];
            a = jug_step(&box, e.see, e.val, (uint8_t)e.new);
            show(a.value, a.count);
        }
    }
#endif
    if (!strcmp(mode, "checked")) for (size_t i = 0; i < turns; i++) {
        Stand s = look_up(machine, size, p.props, row, drawn[i]);
        row = s.row;
        show(s.verdict, s.left);
    } else if (!strcmp(mode, "inside")) for (size_t i = 0; i < turns; i++) {
        Stand s = look_inside(machine, size, p.props, row, drawn[i]);
        row = s.row;
        show(s.verdict, s.left);
    } else if (!strcmp(mode, "bare")) for (size_t i = 0; i < turns; i++) {
        Event e = drawn[i];
        row = machine[row * (c + 2) + 2 + twos[e.see * 8 + e.val] * 2 + e.new];
        show(machine[row * (c + 2)], machine[row * (c + 2) + 1]);
    } else if (by_many) look_many(mode, turns, size, c);
    printf("%" PRIu64 "\n", shows);
    return 0;
}
