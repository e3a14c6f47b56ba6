/* A table written as its text: what is written is read again, and what is refused leaves the buffer. */
#include "claims.h"

static uint64_t fair[5];
static uint16_t label[65] = { 0, 1, 2 };
static uint64_t next[65] = { 3, 6, 5 };

static jug_answer write_w(uint64_t props, uint64_t states, uint64_t just, size_t fairs, size_t labels, uint8_t *to, size_t room)
{
    return jug_write_table(props, states, 1, just, fair, fairs, label, labels, next, 3, to, room);
}

int main(void)
{
    uint8_t text[200], old[200];
    jug_box box;
    size_t long_ = sizeof W - 1;
    at = "a table written";
    memset(text, 0xee, sizeof text);
    memcpy(old, text, sizeof old);
    claim(is(write_w(2, 3, 0, 0, 3, text, long_ - 1), 11, 0, 0, 0), "a byte too few is 11");
    claim(is(write_w(0, 3, 0, 0, 3, text, long_), 1, 0, 0, 0), "no proposition is 1");
    claim(is(write_w(2, 65, 0, 0, 3, text, long_), 1, 0, 0, 0), "65 states are 1");
    claim(is(write_w(2, 4294967299u, 0, 0, 3, text, long_), 1, 0, 0, 0), "a count of more than 32 bits is not cut off");
    claim(is(write_w(2, 3, 1, 0, 3, text, long_), 1, 0, 0, 0), "fewer sets than counted are 1");
    claim(is(write_w(2, 3, 0, 0, 2, text, long_), 1, 0, 0, 0), "fewer labels than states are 1");
    claim(is(write_w(1, 3, 0, 0, 3, text, 0), 2, 0, 0, 0), "a label beyond the propositions is 2, before 11");
    claim(!memcmp(text, old, sizeof text), "refused calls leave the buffer");
    claim(is(write_w(2, 3, 0, 0, 3, text, long_), 0, 0, long_, 0), "a buffer of the text's own length is enough");
    claim(!memcmp(text, W, long_), "the text is that of plant W");
    claim(text[long_] == 0xee, "bytes behind the text stay");
    claim(is(jug_open(text, long_, TEXT("Fp1"), &box), 0, 0, 1, JUG_INCONCLUSIVE), "what was written is read");
    return told("tables written");
}
