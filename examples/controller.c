/* A controller's program: it watches a plant event by event and prints the lamps, as `watch` does.

   usage: controller FOLDER   with plant.txt, rule.txt and log.txt in it, as the folders beside this file have them

   The box is the caller's, and so is every buffer: no heap is used. The log is read line by line, as events would come from sensors. */
#include "jugastilum.h"

#include <inttypes.h>
#include <stdio.h>
#include <string.h>

static const char *const lamps[] = {"inconclusive", "true", "false", "out-of-model"};

/* The bytes of a file of the folder; -1 if it cannot be read or is longer than the room for it. */
static long read_file(const char *folder, const char *name, uint8_t *to, size_t room)
{
    char path[4096];
    if ((size_t)snprintf(path, sizeof path, "%s/%s", folder, name) >= sizeof path)
        return -1;
    FILE *file = fopen(path, "rb");
    if (!file)
        return -1;
    size_t len = fread(to, 1, room, file);
    int whole = !ferror(file) && fgetc(file) == EOF;
    fclose(file);
    return whole ? (long)len : -1;
}

static void show(const char *when, jug_answer answer)
{
    printf("%s verdict=%s left=%" PRIu64 "\n", when, lamps[answer.value], answer.count);
}

static int refused(jug_answer answer, uint64_t place)
{
    printf("refused=%" PRIu64 " place=%" PRIu64 "\n", answer.number, place);
    return 1;
}

int main(int argc, char **argv)
{
    static uint8_t plant[2477], rule[513], log[65520];
    static jug_box box;
    if (argc != 2) {
        fprintf(stderr, "usage: controller FOLDER\n");
        return 2;
    }
    long plant_len = read_file(argv[1], "plant.txt", plant, sizeof plant);
    long rule_len = read_file(argv[1], "rule.txt", rule, sizeof rule);
    long log_len = read_file(argv[1], "log.txt", log, sizeof log);
    if (plant_len < 0 || rule_len < 0 || log_len < 0) {
        fprintf(stderr, "controller: a file of %s cannot be read\n", argv[1]);
        return 2;
    }
    if (rule_len > 0 && rule[rule_len - 1] == '\n')
        rule_len--; /* an editor's line end; the call takes the rule alone */

    jug_answer answer = jug_open(plant, (size_t)plant_len, rule, (size_t)rule_len, &box);
    if (answer.number)
        return refused(answer, answer.place);
    show("start", answer);

    uint64_t n = 0;
    for (long at = 0; at < log_len;) {
        char line[64];
        const uint8_t *end = memchr(log + at, '\n', (size_t)(log_len - at));
        size_t len = end ? (size_t)(end - (log + at)) : 0;
        if (!end || len >= sizeof line)
            break;
        memcpy(line, log + at, len);
        line[len] = 0;

        /* A line of the log stands for what the sensors say: which signals were seen, which of them were on, and whether the rule is judged anew. */
        unsigned num, see, val, new_;
        if (sscanf(line, "num=%8x see=%4x val=%4x new=%1u", &num, &see, &val, &new_) == 4) {
            n = num;
            answer = jug_step_numbered(&box, num, (uint16_t)see, (uint16_t)val, (uint8_t)new_);
        } else if (sscanf(line, "see=%4x val=%4x new=%1u", &see, &val, &new_) == 3) {
            answer = jug_step(&box, (uint16_t)see, (uint16_t)val, (uint8_t)new_);
        } else {
            break;
        }
        if (answer.number)
            return refused(answer, (uint64_t)at);
        char when[32];
        snprintf(when, sizeof when, "n=%" PRIu64, n);
        show(when, answer);
        n++;
        at += (long)len + 1;
    }
    return 0;
}
