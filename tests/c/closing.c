/* A day's end: the last verdict, and what is presumed where that is inconclusive. */
#include "claims.h"

#define LINE(see, val, new_) "see=0" see " val=0" val " new=" new_ "\n"
#define NUMBERED(num, see, val) "num=0000000" num " " LINE(see, val, "0")

static jug_answer close_(const char *rule, const char *log, uint64_t edition)
{
    return jug_close_log(TEXT(W), TEXT(rule), TEXT(log), edition);
}

/* What edition 2 says; edition 1 must then be inconclusive. */
static int presumes(const char *rule, const char *log, uint64_t verdict)
{
    return is(close_(rule, log, 1), 0, 0, 0, JUG_INCONCLUSIVE) && is(close_(rule, log, 2), 0, 0, 0, verdict);
}

static int both(const char *rule, const char *log, uint64_t verdict)
{
    return is(close_(rule, log, 1), 0, 0, 0, verdict) && is(close_(rule, log, 2), 0, 0, 0, verdict);
}

int main(void)
{
    const char *two = LINE("3", "0", "0") LINE("3", "1", "0");
    at = "finite-trace logic";
    claim(presumes("Fp1", two, JUG_PRESUMABLY_FALSE), "F that was not met");
    claim(presumes("G!p1", two, JUG_PRESUMABLY_TRUE), "G up to the last event");
    claim(presumes("XXp1", two, JUG_PRESUMABLY_FALSE), "X needs a next event");
    claim(presumes("!XXp1", two, JUG_PRESUMABLY_TRUE), "its negation is true");
    claim(presumes("XX!p1", two, JUG_PRESUMABLY_FALSE), "X of a negation is not");
    claim(presumes("!p1Up1", two, JUG_PRESUMABLY_FALSE), "U must be met");
    claim(presumes("p1R!p1", two, JUG_PRESUMABLY_TRUE), "R need not let go");
    at = "decided";
    claim(both("Xp0", two, JUG_TRUE), "true");
    claim(both("p0Up1", two, JUG_FALSE), "false");
    claim(both("Fp1", LINE("3", "3", "0"), JUG_OUT_OF_MODEL), "out-of-model");
    at = "the stretch";
    claim(both("Fp1", "", JUG_INCONCLUSIVE), "no event: nothing is presumed");
    claim(both("Fp1", LINE("3", "0", "0") LINE("1", "1", "0"), JUG_INCONCLUSIVE), "an event that did not see p1");
    claim(presumes("Fp1", LINE("1", "0", "0") LINE("3", "1", "1"), JUG_PRESUMABLY_FALSE), "it stands before the restart");
    claim(presumes("G!p1", LINE("2", "0", "0") LINE("2", "0", "0"), JUG_PRESUMABLY_TRUE), "p0 is not in the rule");
    claim(presumes("XFp1", LINE("3", "0", "0") LINE("3", "1", "1"), JUG_PRESUMABLY_FALSE), "a restart's own event is its stretch's first");
    claim(both("Fp1", NUMBERED("1", "3", "0") NUMBERED("3", "3", "1"), JUG_INCONCLUSIVE), "a lost event spoils");
    claim(presumes("Fp1", NUMBERED("1", "3", "0") NUMBERED("2", "3", "1"), JUG_PRESUMABLY_FALSE), "none is lost");
    at = "refusals";
    claim(is(close_("Fp1", two, 0), 21, 0, 0, 0), "edition 0");
    claim(is(close_("Fp1", two, 3), 21, 0, 0, 0), "edition 3");
    claim(is(close_("Fp1", two, 4294967298u), 21, 0, 0, 0), "an edition is not cut off");
    claim(is(close_("Fp1\n", two, 3), 5, 3, 0, 0), "the rule's text goes before the edition");
    claim(is(close_("Fp2", two, 3), 6, 1, 0, 0), "a proposition beyond");
    claim(is(close_("Fp1", "see=03", 3), 12, 6, 0, 0), "the log's form goes before the edition");
    claim(is(close_("Fp1", LINE("3", "0", "0") LINE("1", "2", "0"), 3), 10, 20, 1, 0), "an event goes before the edition");
    claim(is(close_("Fp1", NUMBERED("1", "3", "0") NUMBERED("1", "3", "1"), 2), 16, 33, 1, 0), "a number that comes again");
    claim(is(jug_close_log(TEXT("props=0"), TEXT("Fp1"), TEXT(two), 2), 3, 6, 0, 0), "no table");
    return told("a day's end");
}
