// The proved code's work in C, by the same algorithms, for the benches. Two modes:
//     twin         what crate `timing` does, prepare, open and step, on twin.txt in place of the texts: each step makes its tables
//     twin watch   what the program `watch` does, on the same three texts and with the same output: the tables are made once
// `twin_watch_log` is what `watch_log` does, the tables made once: bench/whole.c has it beside the proved call.
// Functions have the names of the proved code, and the larger ones stay calls (NOINLINE), so that no turn of the loop in `turns` can be saved.
// As in the proved code, a step leaves out the table `settled`, which only prepare has a use for.
#include <inttypes.h>
#include <stdio.h>
#include <string.h>
// How `left` is counted, as the proved code does it: 0, each state is looked for until a word has it; 1, by the ones of a word.
#ifndef ONES
#define ONES 1
#endif
typedef uint64_t u64;
typedef struct { size_t props, states; u64 start; size_t just; } Plant;
typedef struct { uint8_t op, prop; } Node;
typedef struct { size_t len; Node nodes[32]; } Rule;
typedef struct { u64 words[64]; } Pairs;
typedef struct { int seen; Pairs keeps, breaks; } Monitor;
typedef struct { uint16_t see, val; int new; } Event;
typedef struct { size_t begins[33], order[6], numbers[32], parts; u64 nexts; } Shape;
// What a move goes by.
typedef struct { size_t count; u64 leave[1024], enter[1024]; } Ways;
enum { False, True, Prop, Not, Next, Finally, Globally, Until, Release, And, Or, Implies };
enum { Low, High, Operand, Settled };
#define ALL (~0ull)
#define NOINLINE __attribute__((noinline))

static int takes(int op) { return op < Not ? 0 : op < Until ? 1 : 2; }
static int is_part(int op) { return op >= Next && op <= Release; }

static int check_table(Plant p, const u64 *fair, const uint16_t *label, const u64 *next) {
    if (p.props < 1 || p.props > 16 || p.states < 1 || p.states > 64 || p.just > 4) return 1;
    u64 all = ALL >> (64 - p.states);
    if (p.start > all) return 2;
    for (size_t i = 0; i < p.just; i++) if (fair[i] > all) return 2;
    for (size_t i = 0; i < p.states; i++) if (label[i] > ALL >> (64 - p.props)) return 2;
    for (size_t i = 0; i < p.states; i++) if (next[i] > all) return 2;
    return 0;
}
static int is_valid(const Rule *r, size_t props) {
    if (r->len > 32) return 0;
    size_t depth = 0, parts = 0;
    for (size_t i = 0; i < r->len; i++) {
        size_t t = takes(r->nodes[i].op);
        if (depth < t) return 0;
        depth = depth + 1 - t;
        parts += is_part(r->nodes[i].op);
        if (r->nodes[i].op == Prop && r->nodes[i].prop >= props) return 0;
    }
    for (size_t i = r->len; i < 32; i++) if (r->nodes[i].op != False) return 0;
    return depth == 1 && parts <= 6;
}
NOINLINE static void shape(const Rule *r, Shape *s) {
    size_t counts[33];
    memset(s, 0, sizeof *s);
    memset(counts, 0, sizeof counts);
    for (size_t i = 0; i < r->len; i++) {
        int op = r->nodes[i].op, t = takes(op);
        s->begins[i + 1] = t == 0 ? i : t == 1 ? s->begins[i] : s->begins[s->begins[i]];
        counts[i + 1] = counts[i] + is_part(op);
    }
    for (size_t i = 0; i < r->len; i++)
        if (is_part(r->nodes[i].op)) {
            size_t at = counts[s->begins[i]];
            for (size_t k = 5; k > at; k--) s->order[k] = s->order[k - 1];
            s->order[at] = i;
        }
    s->parts = counts[r->len];
    for (size_t i = 0; i < 32; i++) {
        s->numbers[i] = 6;
        for (size_t k = 0; k < s->parts; k++) if (s->order[k] == i) { s->numbers[i] = k; break; }
    }
    for (size_t k = 0; k < s->parts; k++) if (r->nodes[s->order[k]].op == Next) s->nexts |= 1ull << k;
}
static u64 own(size_t v, size_t k) { return k < 6 && (v >> k & 1) ? ALL : 0; }
static u64 leaf(Node n, const uint16_t *label, size_t states) {
    u64 having = 0;
    if (n.op == Prop) for (size_t i = 0; i < states; i++) having |= (u64)(label[i] >> n.prop & 1) << i;
    return having;
}
NOINLINE static void truths(const Rule *r, const uint16_t *label, size_t states, const Shape *s, u64 *words) {
    u64 having = 0;
    memset(words, 0, 2112 * 8);
    for (size_t i = 0; i < r->len * 64; i++) {
        size_t node = i / 64, v = i % 64;
        if (v == 0) having = leaf(r->nodes[node], label, states);
        u64 x = words[s->begins[node] * 64 + v], y = words[i], m, o = own(v, s->numbers[node]);
        switch (r->nodes[node].op) {
        case False: m = 0; break;
        case True: m = ALL; break;
        case Prop: m = having; break;
        case Not: m = ~y; break;
        case And: m = x & y; break;
        case Or: m = x | y; break;
        case Implies: m = ~x | y; break;
        default: m = o;
        }
        words[i + 64] = m;
    }
}
NOINLINE static void rows(int asked, const Rule *r, const Shape *s, const u64 *words, u64 *table) {
    for (size_t at = 0; at < 384; at++) {
        size_t k = at % 6, v = at / 6, i = s->order[k];
        u64 x = words[s->begins[i] * 64 + v], y = words[i * 64 + v], o = own(v, k), m = 0;
        int op = r->nodes[i].op;
        if (asked == Low) m = op == Next ? o : op == Finally || op == Until ? y : op == Release ? y & x : 0;
        else if (asked == High) m = op == Next ? o : op == Finally ? ALL : op == Globally || op == Release ? y : op == Until ? y | x : 0;
        else if (asked == Operand) m = op == Next ? y : ALL;
        else m = op == Next ? ALL : op == Finally || op == Until ? ~o | y : op == Globally || op == Release ? o | ~y : 0;
        table[at] = m;
    }
}
static u64 fitting(size_t a, size_t e, const u64 *low, const u64 *high, size_t v, size_t w) {
    u64 f = ALL;
    for (size_t k = a; k < e; k++) {
        u64 x = w >> k & 1 ? high[v * 6 + k] : low[v * 6 + k];
        f &= v >> k & 1 ? x : ~x;
    }
    return f;
}
static u64 meeting(size_t a, size_t e, u64 nexts, const u64 *operand, size_t v, size_t w) {
    u64 f = ALL;
    for (size_t k = a; k < e; k++) {
        u64 x = operand[w * 6 + k];
        u64 y = v >> k & 1 ? x : ~x;
        f &= nexts >> k & 1 ? y : ALL;
    }
    return f;
}
NOINLINE static void leaving(size_t parts, const u64 *low, const u64 *high, u64 *words) {
    size_t mid = parts < 3 ? parts : 3;
    for (size_t i = 0; i < 512; i++) {
        words[i] = fitting(0, mid, low, high, i / 8, i % 8);
        words[i + 512] = fitting(mid, parts, low, high, i / 8, i % 8 * 8);
    }
}
NOINLINE static void entering(size_t parts, u64 nexts, const u64 *operand, u64 *words) {
    size_t mid = parts < 3 ? parts : 3;
    for (size_t i = 0; i < 512; i++) {
        words[i] = meeting(0, mid, nexts, operand, i % 8, i / 8);
        words[i + 512] = meeting(mid, parts, nexts, operand, i % 8 * 8, i / 8);
    }
}
static void ways_of(const Rule *r, const Shape *s, const u64 *words, Ways *ways) {
    u64 low[384], high[384], operand[384];
    rows(Low, r, s, words, low);
    rows(High, r, s, words, high);
    rows(Operand, r, s, words, operand);
    leaving(s->parts, low, high, ways->leave);
    entering(s->parts, s->nexts, operand, ways->enter);
    ways->count = 1ull << s->parts;
}
static u64 both(const u64 *h, size_t x, size_t y) { return h[x * 8 + y % 8] & h[x * 8 + y / 8 + 512]; }
NOINLINE static void image(const u64 *next, size_t states, const u64 *leave, const u64 *enter, size_t count, const u64 *old, const u64 *live, u64 agree, u64 *out) {
    memset(out, 0, 512);
    for (size_t w = 0; w < count; w++) {
        u64 kept = live[w] & agree, reached = 0;
        if (!kept) continue;
        for (size_t v = 0; v < count; v++) {
            if (!old[v]) continue;
            u64 from = old[v] & both(leave, v, w), moved = 0;
            if (!from) continue;
            for (; from; from &= from - 1) { size_t s = __builtin_ctzll(from); moved |= s < states ? next[s] : 0; }
            reached |= moved & both(enter, w, v);
        }
        out[w] = kept & reached;
    }
}
static u64 scan(const u64 *next, size_t states, const u64 *leave, const u64 *enter, size_t count, const u64 *set, u64 within, size_t v) {
    u64 rest = within;
    if (!within) return 0;
    for (size_t w = 0; w < count; w++) {
        u64 target = set[w] & both(enter, w, v), tried = target ? rest & both(leave, v, w) : 0;
        for (; tried; tried &= tried - 1) {
            size_t s = __builtin_ctzll(tried);
            if ((s < states ? next[s] : 0) & target) {
                rest &= ~(1ull << s);
                if (!rest) goto done;
            }
        }
    }
done:
    return within & ~rest;
}
NOINLINE static void movers(const u64 *next, size_t states, const u64 *leave, const u64 *enter, size_t count, const u64 *set, const u64 *within, u64 *out) {
    memset(out, 0, 512);
    for (size_t v = 0; v < count; v++) out[v] = scan(next, states, leave, enter, count, set, within[v], v);
}
NOINLINE static void reaching(const u64 *next, size_t states, const u64 *leave, const u64 *enter, size_t count, const u64 *within, const u64 *goal, u64 *set) {
    u64 left[64], more[64];
    for (int v = 0; v < 64; v++) set[v] = within[v] & goal[v];
    for (;;) {
        u64 any = 0;
        for (int v = 0; v < 64; v++) left[v] = within[v] & ~set[v];
        movers(next, states, leave, enter, count, set, left, more);
        for (int v = 0; v < 64; v++) any |= more[v];
        if (!any) return;
        for (int v = 0; v < 64; v++) set[v] |= more[v];
    }
}
NOINLINE static int prepare(Plant p, const u64 *fair, const uint16_t *label, const u64 *next, const Rule *r, u64 *live) {
    memset(live, 0, 512);
    int refused = check_table(p, fair, label, next);
    if (refused) return refused;
    if (!is_valid(r, p.props)) return 9;
    Shape s;
    Ways ways;
    u64 words[2112], settled[384], set[64], less[64], goal[64];
    shape(r, &s);
    truths(r, label, p.states, &s, words);
    ways_of(r, &s, words, &ways);
    rows(Settled, r, &s, words, settled);
    size_t count = ways.count;
    memset(set, 0, 512);
    for (size_t v = 0; v < count; v++) set[v] = ALL >> (64 - p.states);
    for (;;) {
        movers(next, p.states, ways.leave, ways.enter, count, set, set, less);
        for (size_t g = 0; g < p.just + s.parts; g++) {
            u64 reach[64];
            memset(goal, 0, 512);
            for (size_t v = 0; v < count; v++) goal[v] = g < p.just ? fair[g] : settled[v * 6 + g - p.just];
            reaching(next, p.states, ways.leave, ways.enter, count, less, goal, reach);
            memcpy(less, reach, 512);
        }
        u64 differ = 0;
        for (int v = 0; v < 64; v++) differ |= less[v] ^ set[v];
        if (!differ) break;
        memcpy(set, less, 512);
    }
    memcpy(live, set, 512);
    return 0;
}
static int fits(const u64 *words, u64 all, size_t count) {
    u64 beyond = 0;
    for (size_t v = 0; v < 64; v++) beyond |= words[v] & ~(v < count ? all : 0);
    return !beyond;
}
static size_t left(const Monitor *m, u64 states) {
    size_t n = 0;
    if (ONES) return __builtin_popcountll(states);
    for (int s = 0; s < 64; s++)
        for (int v = 0; v < 64; v++)
            if ((m->keeps.words[v] | m->breaks.words[v]) >> s & 1) { n++; break; }
    return n;
}
// Where runs can begin; `holds` says where the rule holds.
static void opened(u64 start, const u64 *holds, const u64 *live, Monitor *m) {
    m->seen = 0;
    for (int v = 0; v < 64; v++) {
        m->keeps.words[v] = live[v] & start & holds[v];
        m->breaks.words[v] = live[v] & start & ~holds[v];
    }
}
typedef struct { int refused, verdict; size_t left; } Answer;
// A call of its own, so that bench/count can tell what it takes.
NOINLINE static Answer lamp(const Monitor *m) {
    u64 k = 0, b = 0;
    for (int v = 0; v < 64; v++) k |= m->keeps.words[v], b |= m->breaks.words[v];
    return (Answer){0, k ? b ? 0 : 1 : b ? 2 : 3, left(m, k | b)};
}
static int is_legal(Event e, size_t props) { return e.see <= ALL >> (64 - props) && (e.val & e.see) == e.val; }
static u64 agreeing(const uint16_t *label, size_t states, Event e) {
    u64 agree = 0;
    for (size_t i = 0; i < states; i++) agree |= (u64)(((label[i] ^ e.val) & e.see) == 0) << i;
    return agree;
}
// The three ways on: nothing moves; both sets do; and at a restart both as one, and what they reach is split by where the rule holds.
static void kept(const u64 *live, u64 agree, Monitor *m) {
    for (int v = 0; v < 64; v++) m->keeps.words[v] &= live[v] & agree, m->breaks.words[v] &= live[v] & agree;
    m->seen = 1;
}
static void moved(const u64 *next, size_t states, const Ways *ways, const u64 *live, u64 agree, Monitor *m) {
    Monitor to = {.seen = 1};
    image(next, states, ways->leave, ways->enter, ways->count, m->keeps.words, live, agree, to.keeps.words);
    image(next, states, ways->leave, ways->enter, ways->count, m->breaks.words, live, agree, to.breaks.words);
    *m = to;
}
static void restarted(const u64 *next, size_t states, const Ways *ways, const u64 *holds, const u64 *live, u64 agree, Monitor *m) {
    u64 both[64], reached[64];
    for (int v = 0; v < 64; v++) both[v] = m->keeps.words[v] | m->breaks.words[v];
    image(next, states, ways->leave, ways->enter, ways->count, both, live, agree, reached);
    for (int v = 0; v < 64; v++) m->keeps.words[v] = reached[v] & holds[v], m->breaks.words[v] = reached[v] & ~holds[v];
}
NOINLINE static Answer begin(Plant p, const u64 *fair, const uint16_t *label, const u64 *next, const Rule *r, const u64 *live, Monitor *m) {
    Answer a = {check_table(p, fair, label, next), 0, 0};
    if (a.refused) return a;
    if (!is_valid(r, p.props)) return a.refused = 9, a;
    Shape s;
    shape(r, &s);
    if (!fits(live, ALL >> (64 - p.states), 1ull << s.parts)) return a.refused = 9, a;
    u64 words[2112];
    truths(r, label, p.states, &s, words);
    opened(p.start, words + r->len * 64, live, m);
    return lamp(m);
}
NOINLINE static Answer step(Plant p, const u64 *fair, const uint16_t *label, const u64 *next, const Rule *r, const u64 *live, Monitor *m, Event e) {
    Answer a = {check_table(p, fair, label, next), 0, 0};
    if (a.refused) return a;
    if (!is_valid(r, p.props)) return a.refused = 9, a;
    Shape s;
    shape(r, &s);
    size_t count = 1ull << s.parts;
    u64 all = ALL >> (64 - p.states);
    if (!fits(live, all, count) || !fits(m->keeps.words, all, count) || !fits(m->breaks.words, all, count)) return a.refused = 9, a;
    if (!is_legal(e, p.props)) return a.refused = 10, a;
    u64 agree = agreeing(label, p.states, e);
    if (!m->seen) kept(live, agree, m);
    else {
        u64 words[2112];
        Ways ways;
        truths(r, label, p.states, &s, words);
        ways_of(r, &s, words, &ways);
        if (e.new) restarted(next, p.states, &ways, words + r->len * 64, live, agree, m);
        else moved(next, p.states, &ways, live, agree, m);
    }
    return lamp(m);
}
// Each word counts twice as much as the one behind it.
static u64 digest(const u64 *w) {
    u64 t = 0;
    for (int v = 0; v < 64; v++) t = t + t + w[v];
    return t;
}
static int numbers(FILE *f, Plant *p, u64 *fair, uint16_t *label, u64 *next, Rule *r, Event *log, size_t *lines) {
    if (fscanf(f, "%zu %zu %" SCNu64 " %zu", &p->props, &p->states, &p->start, &p->just) != 4) return 0;
    for (size_t i = 0; i < p->just; i++) if (fscanf(f, "%" SCNu64, &fair[i]) != 1) return 0;
    for (size_t i = 0; i < p->states; i++) if (fscanf(f, "%hu %" SCNu64, &label[i], &next[i]) != 2) return 0;
    if (fscanf(f, "%zu", &r->len) != 1) return 0;
    for (size_t i = 0; i < r->len; i++) if (fscanf(f, "%hhu %hhu", &r->nodes[i].op, &r->nodes[i].prop) != 2) return 0;
    if (fscanf(f, "%zu", lines) != 1 || *lines > 3276) return 0;
    for (size_t i = 0; i < *lines; i++) if (fscanf(f, "%hu %hu %d", &log[i].see, &log[i].val, &log[i].new) != 3) return 0;
    return 1;
}
// What both modes go by.
static Plant p;
static u64 fair[4], next[64], live[64];
static uint16_t label[64];
static Rule r;
static Event events[3276];
static size_t lines;
// What a step shows goes here, so that no compiler saves working it out.
static volatile size_t shown;

static int turns(void) {
    unsigned prepares, logs;
    FILE *f = fopen("twin.txt", "r"), *g = fopen("turns.txt", "r");
    if (!f || !g || !numbers(f, &p, fair, label, next, &r, events, &lines) || fscanf(g, "prepares=%u logs=%u", &prepares, &logs) != 2) {
        puts("twin.txt or turns.txt can't be read");
        return 1;
    }
    u64 total = 0;
    for (unsigned i = 0; i < prepares; i++) {
        prepare(p, fair, label, next, &r, live);
        total += digest(live);
    }
    printf("%" PRIu64 "\n", total);
    prepare(p, fair, label, next, &r, live);
    total = 0;
    for (unsigned i = 0; i < logs; i++) {
        Monitor m;
        begin(p, fair, label, next, &r, live, &m);
        for (size_t e = 0; e < lines; e++) {
            Answer a = step(p, fair, label, next, &r, live, &m, events[e]);
            shown = a.left + a.verdict;
        }
        total += digest(m.keeps.words) + digest(m.breaks.words);
    }
    printf("%" PRIu64 "\n", total);
    return 0;
}

// The texts. Each is read from its beginning on; what is not of its form makes it bad, and then nothing more of it is looked at.
typedef struct { const char *at, *end; int bad; } Text;

static int peek(const Text *t) { return t->bad || t->at == t->end ? -1 : (unsigned char)*t->at; }
static void expect(Text *t, const char *word) {
    size_t len = strlen(word);
    if (t->bad || (size_t)(t->end - t->at) < len || memcmp(t->at, word, len)) t->bad = 1;
    else t->at += len;
}
// A decimal number with no leading zero.
static size_t count(Text *t, size_t least, size_t most) {
    size_t n = 0;
    const char *from = t->at;
    for (; peek(t) >= '0' && peek(t) <= '9' && n <= most; t->at++) n = n * 10 + *t->at - '0';
    if (t->at == from || (*from == '0' && t->at - from > 1) || n < least || n > most) t->bad = 1;
    return n;
}
static u64 hex(Text *t, int digits) {
    u64 n = 0;
    for (; digits > 0 && !t->bad; digits--, t->at++) {
        int c = peek(t);
        if (c >= '0' && c <= '9') n = n * 16 + c - '0';
        else if (c >= 'a' && c <= 'f') n = n * 16 + c - 'a' + 10;
        else return t->bad = 1, 0;
    }
    return n;
}
// How many digits a label, `see` and `val` have.
static int digits(void) { return p.props > 8 ? 4 : 2; }
// A line `NAMEk=` with that many digits.
static u64 field(Text *t, const char *name, size_t k, int digits) {
    expect(t, name);
    count(t, k, k);
    expect(t, "=");
    u64 n = hex(t, digits);
    expect(t, "\n");
    return n;
}
static int read_table(Text t) {
    expect(&t, "props=");
    p.props = count(&t, 1, 16);
    expect(&t, "\nstates=");
    p.states = count(&t, 1, 64);
    expect(&t, "\nstart=");
    p.start = hex(&t, 16);
    expect(&t, "\njust=");
    p.just = count(&t, 0, 4);
    expect(&t, "\n");
    if (t.bad) return 0;
    for (size_t i = 0; i < p.just; i++) fair[i] = field(&t, "j", i, 16);
    for (size_t i = 0; i < p.states; i++) {
        label[i] = field(&t, "label", i, digits());
        next[i] = field(&t, "next", i, 16);
    }
    return !t.bad && t.at == t.end && !check_table(p, fair, label, next);
}
// The byte behind the spaces.
static int token(Text *t) {
    while (peek(t) == ' ') t->at++;
    return peek(t);
}
static void add_node(Text *t, int op, int prop) {
    if (r.len == 32) t->bad = 1;
    else r.nodes[r.len++] = (Node){op, prop};
}
// The levels of a rule, the one that binds loosest first. Nodes come operands first.
enum { ArrowLevel, OrLevel, AndLevel, UntilLevel, PrefixLevel };
static void read_level(Text *t, int level);
static void read_prefix(Text *t) {
    int c = token(t);
    if (c < 0) { t->bad = 1; return; }
    t->at++;
    if (c == '!' || c == 'X' || c == 'F' || c == 'G') {
        read_prefix(t);
        add_node(t, c == '!' ? Not : c == 'X' ? Next : c == 'F' ? Finally : Globally, 0);
    } else if (c == '(') {
        read_level(t, ArrowLevel);
        token(t);
        expect(t, ")");
    } else if (c == 'p') add_node(t, Prop, count(t, 0, 15));
    else if (c == '0' || c == '1') add_node(t, c == '1' ? True : False, 0);
    else t->bad = 1;
}
// The two-sided operator of the level that comes next in the text; 0 if there is none.
static int operator_at(Text *t, int level) {
    int c = token(t);
    switch (level) {
    case ArrowLevel: return c == '-' ? Implies : 0;
    case OrLevel: return c == '|' ? Or : 0;
    case AndLevel: return c == '&' ? And : 0;
    default: return c == 'U' ? Until : c == 'R' ? Release : 0;
    }
}
static void read_level(Text *t, int level) {
    int op, to_right = level == ArrowLevel || level == UntilLevel;
    if (level == PrefixLevel) { read_prefix(t); return; }
    read_level(t, level + 1);
    while ((op = operator_at(t, level))) {
        expect(t, op == Implies ? "->" : op == Or ? "|" : op == And ? "&" : op == Until ? "U" : "R");
        read_level(t, to_right ? level : level + 1);
        add_node(t, op, 0);
    }
}
static int read_rule(Text t) {
    if (t.end > t.at && t.end[-1] == '\n') t.end--;
    if (t.end - t.at > 512) return 0;
    read_level(&t, ArrowLevel);
    return token(&t) < 0 && !t.bad && is_valid(&r, p.props);
}
static Event read_line(Text *t) {
    Event e;
    expect(t, "see=");
    e.see = hex(t, digits());
    expect(t, " val=");
    e.val = hex(t, digits());
    expect(t, " new=");
    e.new = count(t, 0, 1);
    expect(t, "\n");
    return e;
}
static int read_log(Text t) {
    for (lines = 0; t.at < t.end && !t.bad; lines++) events[lines] = read_line(&t);
    return !t.bad;
}
// A whole file of at most `most` bytes.
static Text read_file(const char *name, char *bytes, size_t most) {
    Text t = {bytes, bytes, 1};
    FILE *f = fopen(name, "r");
    if (!f) return t;
    size_t len = fread(bytes, 1, most + 1, f);
    t.bad = ferror(f) || len > most;
    t.end = bytes + len;
    fclose(f);
    return t;
}

// The output, made whole and then written.
static char out[229460];
static size_t out_len;

static void put(const char *text) {
    size_t len = strlen(text);
    memcpy(out + out_len, text, len);
    out_len += len;
}
static void put_number(size_t n) {
    char digits[20];
    size_t at = 20;
    do digits[--at] = '0' + n % 10; while (n /= 10);
    memcpy(out + out_len, digits + at, 20 - at);
    out_len += 20 - at;
}
static void put_lamp(Answer a) {
    static const char *words[] = {"inconclusive", "true", "false", "out-of-model"};
    put(" verdict=");
    put(words[a.verdict]);
    put(" left=");
    put_number(a.left);
    put("\n");
}
// The log from the opened monitor on, up to an event that is refused: how many were taken.
static size_t follow(Monitor *m) {
    static Ways ways;
    static u64 words[2112];
    Shape s;
    shape(&r, &s);
    truths(&r, label, p.states, &s, words);
    ways_of(&r, &s, words, &ways);
    for (size_t n = 0; n < lines; n++) {
        if (!is_legal(events[n], p.props)) return n;
        u64 agree = agreeing(label, p.states, events[n]);
        if (!m->seen) kept(live, agree, m);
        else if (events[n].new) restarted(next, p.states, &ways, words + r.len * 64, live, agree, m);
        else moved(next, p.states, &ways, live, agree, m);
        put("n=");
        put_number(n);
        put_lamp(lamp(m));
    }
    return lines;
}
// A verdict byte for each line of a text, which is checked whole before the first: how many were taken.
size_t twin_watch_log(const char *log, size_t len, uint8_t *verdicts) {
    static Ways ways;
    static u64 words[2112];
    Shape s;
    Monitor m;
    size_t bytes = digits() > 2 ? 24 : 20, n = 0;
    if (prepare(p, fair, label, next, &r, live) || begin(p, fair, label, next, &r, live, &m).refused) return 0;
    Text t = {log, log + len, 0};
    while (t.at < t.end && !t.bad) read_line(&t);
    if (t.bad) return 0;
    shape(&r, &s);
    truths(&r, label, p.states, &s, words);
    ways_of(&r, &s, words, &ways);
    for (t.at = log; n < len / bytes; n++) {
        Event e = read_line(&t);
        if (!is_legal(e, p.props)) return n;
        u64 agree = agreeing(label, p.states, e);
        if (!m.seen) kept(live, agree, &m);
        else if (e.new) restarted(next, p.states, &ways, words + r.len * 64, live, agree, &m);
        else moved(next, p.states, &ways, live, agree, &m);
        verdicts[n] = lamp(&m).verdict;
    }
    return n;
}
int twin_read(const char *table, size_t table_len, const char *rule, size_t rule_len) {
    return read_table((Text){table, table + table_len, 0}) && read_rule((Text){rule, rule + rule_len, 0});
}
// Of what is refused, only that it is: the benches hand in nothing that is.
static int watch(void) {
    static char plant_text[2478], rule_text[514], log_text[65521];
    Text plant = read_file("plant.txt", plant_text, 2477), rule = read_file("rule.txt", rule_text, 513), log = read_file("log.txt", log_text, 65520);
    Monitor m;
    int good = read_table(plant) && read_rule(rule) && read_log(log) && !prepare(p, fair, label, next, &r, live);
    if (good) {
        Answer a = begin(p, fair, label, next, &r, live, &m);
        put("start");
        put_lamp(a);
        good = !a.refused && follow(&m) == lines;
    }
    fwrite(out, 1, out_len, stdout);
    if (!good) fputs("twin: refused\n", stderr);
    return !good;
}
int main(int argc, char **argv) { return argc > 1 && !strcmp(argv[1], "watch") ? watch() : turns(); }
