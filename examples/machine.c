/* A controller without the box: the rule is an array of bytes that the program `machine` wrote. It reads a log's lines from standard input and prints the lamps,
   as `watch` does.

   usage: target/bin/machine FOLDER >machine.h; cc -I. -o machine examples/machine.c; ./machine <FOLDER/log.txt */
#include "machine.h"

#include <stdio.h>

int main(void)
{
    static const char *const lamps[] = {"inconclusive", "true", "false", "out-of-model"};
    unsigned row = 0, see, val, restart;
    printf("start verdict=%s left=%d\n", lamps[jug_machine_bytes[0][0]], jug_machine_bytes[0][1]);
    for (int n = 0; scanf("see=%x val=%x new=%u\n", &see, &val, &restart) == 3; n++) {
        unsigned cell = 2 + restart; /* behind the verdict, `left`, and two cells for each legal event that comes before */
        if (see > 7 || val & ~see || restart > 1)
            return 1; /* no event */
        for (unsigned before = 0; before < see * 8 + val; before++)
            cell += before % 8 & ~(before / 8) ? 0 : 2;
        if (cell >= sizeof jug_machine_bytes[0])
            return 1; /* none of this plant */
        row = jug_machine_bytes[row][cell];
        printf("n=%d verdict=%s left=%d\n", n, lamps[jug_machine_bytes[row][0]], jug_machine_bytes[row][1]);
    }
    return 0;
}
