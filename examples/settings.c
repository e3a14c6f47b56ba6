/* A parish's settings: its own sheet goes before the one that all parishes share. And the shared sheets of earlier years, kept by their editions.

   usage: settings FOLDER   with local.txt and shared.txt in it, as the folder sluice beside this file has them */
#include "jugastilum.h"

#include <inttypes.h>
#include <stdio.h>

/* One byte more than a sheet may have is read, so that a longer one is refused as such. */
static size_t read_sheet(const char *folder, const char *name, uint8_t *to)
{
    char path[4096];
    size_t len = 0;
    snprintf(path, sizeof path, "%s/%s", folder, name);
    FILE *file = fopen(path, "rb");
    if (file) {
        len = fread(to, 1, JUG_SHEET + 1, file);
        fclose(file);
    }
    return len; /* a sheet that is not there is an empty one, which is in order */
}

int main(int argc, char **argv)
{
    static const char *const names[] = {"", "edition", "rule", "closing"};
    static const char *const sheets[] = {"", "local", "shared"};
    static uint8_t local[JUG_SHEET + 1], shared[JUG_SHEET + 1], older[JUG_SHEET];
    static jug_store store; /* all zero: empty */
    if (argc != 2) {
        fprintf(stderr, "usage: settings FOLDER\n");
        return 2;
    }
    size_t local_len = read_sheet(argv[1], "local.txt", local);
    size_t shared_len = read_sheet(argv[1], "shared.txt", shared);

    for (uint8_t key = JUG_EDITION; key <= JUG_CLOSING; key++) {
        jug_answer a = jug_setting(local, local_len, shared, shared_len, key);
        if (a.number == 17)
            printf("%s is in neither sheet\n", names[key]);
        else if (a.number) {
            printf("the %s sheet is refused at byte %" PRIu64 "\n", sheets[a.value], a.place);
            return 1;
        } else {
            const uint8_t *value = (a.value == 1 ? local : shared) + a.place; /* the very bytes of that sheet */
            printf("%s=%.*s from the %s sheet\n", names[key], (int)a.count, (const char *)value, sheets[a.value]);
        }
    }

    jug_answer kept = jug_keep_sheet(&store, shared, shared_len);
    if (kept.number) {
        printf("the shared sheet is not kept: %" PRIu64 "\n", kept.number);
        return 1;
    }
    jug_answer out = jug_kept_sheet(&store, 12, older, sizeof older);
    if (out.number)
        printf("edition 12 is not kept\n");
    else
        printf("edition 12 is kept, with %" PRIu64 " bytes\n", out.count);
    return 0;
}
