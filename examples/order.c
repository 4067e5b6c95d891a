/* Puts an older model file in order from C: order OLD NEW writes NEW, which must not exist yet, and prints its
 * length; or it prints the refusal, and writes nothing. */
#include "riser.h"

#include <errno.h>
#include <stdio.h>
#include <string.h>

/* Names the file and what was wrong, and gives the exit status. */
static int fails(const char *path)
{
    fprintf(stderr, "order: %s: %s\n", path, strerror(errno));
    return 1;
}

int main(int count, char **arguments)
{
    /* One byte more than the longest model has, so that a longer file is refused for its length. */
    static uint8_t old[RISER_MODEL_LONGEST + 1], new[RISER_MODEL_LONGEST];

    if (count != 3) {
        fprintf(stderr, "usage: order OLD NEW\n");
        return 2;
    }
    FILE *file = fopen(arguments[1], "rb");
    if (file == NULL)
        return fails(arguments[1]);
    size_t old_length = fread(old, 1, sizeof old, file);
    if (ferror(file))
        return fails(arguments[1]);
    fclose(file);

    uint64_t answer = riser_order(old, old_length, new, sizeof new);
    if (riser_kind(answer) != RISER_WRITTEN) {
        printf("refused %u %u\n", riser_part(answer, 0), riser_part(answer, 1));
        return 1;
    }
    size_t length = riser_part(answer, 0);
    file = fopen(arguments[2], "wbx");
    if (file == NULL)
        return fails(arguments[2]);
    size_t written = fwrite(new, 1, length, file);
    if (fclose(file) != 0 || written != length) {
        fails(arguments[2]);
        remove(arguments[2]);
        return 1;
    }
    printf("written %zu\n", length);
    return 0;
}
