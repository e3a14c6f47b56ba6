/* Settings and kept sheets: which sheet a value is from and where, each refusal, and a store that is filled, overfilled and damaged. */
#include "claims.h"

static void settings(void)
{
    static uint8_t long_[JUG_SHEET + 1];
    at = "two sheets";
    const char *own = "edition=7\nclosing=2\n", *common = "edition=12\nrule=G(p0->Fp1)\nclosing=1\n";
    claim(is(jug_setting(TEXT(own), TEXT(common), JUG_CLOSING), 0, 18, 1, 1), "the local line goes first");
    claim(is(jug_setting(TEXT(own), TEXT(common), JUG_EDITION), 0, 8, 1, 1), "an edition is a value like others");
    claim(is(jug_setting(TEXT(own), TEXT(common), JUG_RULE), 0, 16, 10, 2), "what the local sheet has not is the shared one's");
    claim(is(jug_setting(TEXT(common), TEXT(own), JUG_EDITION), 0, 8, 2, 1), "the other way round");
    claim(is(jug_setting(TEXT(""), TEXT(""), JUG_RULE), 17, 0, 0, 0), "empty sheets are in order, and have no key");
    claim(is(jug_setting(TEXT(own), TEXT("closing=100\n"), JUG_CLOSING), 18, 10, 0, 2), "the shared sheet is checked even if it is not needed");
    claim(is(jug_setting(TEXT("edition=65536\n"), TEXT("x"), JUG_RULE), 18, 12, 0, 1), "the local sheet is refused before the shared one");
    claim(is(jug_setting(TEXT("rule=p0"), TEXT(""), JUG_EDITION), 18, 7, 0, 1), "18 goes before 17");
    claim(is(jug_setting(TEXT("x"), TEXT("x"), 0), 9, 0, 0, 0), "key 0 is 9, before the sheets");
    claim(is(jug_setting(TEXT(own), TEXT(common), 4), 9, 0, 0, 0), "key 4 is 9");
    claim(is(jug_setting(TEXT(own), TEXT(common), 255), 9, 0, 0, 0), "key 255 is 9");
    memset(long_, 'x', sizeof long_);
    claim(is(jug_setting(long_, JUG_SHEET + 1, TEXT(""), JUG_RULE), 18, JUG_SHEET, 0, 1), "a sheet that is too long is not looked at");
    claim(is(jug_setting(long_, JUG_SHEET, TEXT(""), JUG_RULE), 18, 0, 0, 1), "one byte fewer is");
}

static jug_answer keep(jug_store *store, unsigned edition)
{
    char text[80];
    snprintf(text, sizeof text, "edition=%u\nrule=p%u\n", edition, edition % 10);
    return jug_keep_sheet(store, TEXT(text));
}

/* Whether the sheet of an edition comes out, byte for byte. */
static int holds(const jug_store *store, unsigned edition)
{
    char text[80];
    uint8_t out[90];
    size_t len = (size_t)snprintf(text, sizeof text, "edition=%u\nrule=p%u\n", edition, edition % 10);
    memset(out, 0xee, sizeof out);
    jug_answer a = jug_kept_sheet(store, edition, out, sizeof out);
    return is(a, 0, 0, len, 0) && !memcmp(out, text, len) && out[len] == 0xee;
}

static void stores(void)
{
    jug_store store, old;
    uint8_t out[20];
    at = "a store";
    memset(&store, 0, sizeof store);
    memset(out, 0xee, sizeof out);
    claim(is(jug_kept_sheet(&store, 1, out, sizeof out), 20, 0, 0, 0), "the empty store holds nothing");
    claim(is(jug_kept_sheet(&store, 0, out, 0), 20, 0, 0, 0), "edition 0 is never held");
    for (unsigned n = 1; n <= 20; n++) {
        claim(is(keep(&store, 10 * n), 0, 0, n < 8 ? n : 8, 0), "a newer sheet is kept");
        for (unsigned m = 1; m <= n; m++)
            claim(holds(&store, 10 * m) == (m + 8 > n), "the last eight are held, and no others");
    }
    old = store;
    claim(is(keep(&store, 200), 19, 0, 0, 0), "the same edition is 19");
    claim(is(keep(&store, 95), 19, 0, 0, 0), "an older one is 19, even if it is not held");
    claim(is(jug_keep_sheet(&store, TEXT("rule=p0\n")), 17, 0, 0, 0), "a sheet without an edition is 17");
    claim(is(jug_keep_sheet(&store, TEXT("rule=p0\nedition=300\n")), 18, 8, 0, 1), "a sheet that is none is 18, sheet 1");
    claim(is(jug_kept_sheet(&store, 200, out, 0), 11, 0, 0, 0), "a short buffer is 11");
    claim(is(jug_kept_sheet(&store, 201, out, 0), 20, 0, 0, 0), "20 goes before 11");
    claim(is(jug_kept_sheet(&store, 65536 + 200, out, sizeof out), 20, 0, 0, 0), "an edition is not cut off");
    claim(is(jug_kept_sheet(&store, UINT64_MAX, out, sizeof out), 20, 0, 0, 0), "the greatest number is no edition");
    claim(!memcmp(&store, &old, sizeof store), "refused calls leave the store");
    for (size_t i = 0; i < sizeof out; i++)
        claim(out[i] == 0xee, "and the buffer");

    store.word[0] = 9;
    old = store;
    claim(is(keep(&store, 300), 9, 0, 0, 0) && is(jug_kept_sheet(&store, 200, out, sizeof out), 9, 0, 0, 0), "nine sheets are 9");
    claim(is(jug_keep_sheet(&store, TEXT("x")), 9, 0, 0, 0), "9 goes before 18");
    store.word[0] = 8;
    store.word[3] = JUG_SHEET + 1;
    claim(is(keep(&store, 300), 9, 0, 0, 0) && is(jug_kept_sheet(&store, 200, out, sizeof out), 9, 0, 0, 0), "a sheet of more than 1,024 bytes is 9");
    store.word[0] = 2;
    claim(is(keep(&store, 300), 0, 0, 3, 0) && holds(&store, 300), "what is not counted is not looked at");
}

/* Any words: a call answers, and a refused one leaves them. */
static void any_words(void)
{
    uint64_t seed = 20261116;
    jug_store store, old;
    uint8_t out[JUG_SHEET];
    at = "any words";
    for (int round = 0; round < 300; round++) {
        for (size_t i = 0; i < 1040; i++) {
            seed = seed * 6364136223846793005u + 1442695040888963407u;
            store.word[i] = i < 9 ? (seed >> 33) % (i ? 1100 : 10) : seed;
        }
        old = store;
        jug_answer a = keep(&store, 65535), b = jug_kept_sheet(&store, 65535, out, sizeof out);
        if (a.number)
            claim(a.number == 9 && !memcmp(&store, &old, sizeof store), "a refusal is 9, and leaves the words");
        else
            claim(b.number == 0 && holds(&store, 65535), "what was kept comes out");
    }
}

int main(void)
{
    settings();
    stores();
    any_words();
    return told("sheets");
}
