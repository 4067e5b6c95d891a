/* Reads a typed pattern from C: type TEXT NEW writes the pattern file NEW, which must not exist yet, and prints its
 * length; or it prints the refusal, and writes nothing. */
#include "riser.h"

#include <errno.h>
#include <stdio.h>
#include <string.h>

/* Names the file and what was wrong, and gives the exit status. */
static int fails(const char *path)
{
    fprintf(stderr, "type: %s: %s\n", path, strerror(errno));
    return 1;
}

int main(int count, char **arguments)
{
    static uint8_t new[RISER_PATTERN_LONGEST];

    if (count != 3) {
        fprintf(stderr, "usage: type TEXT NEW\n");
        return 2;
    }
    uint64_t answer = riser_type((const uint8_t *)arguments[1], strlen(arguments[1]), new, sizeof new);
    if (riser_kind(answer) != RISER_WRITTEN) {
        printf("refused %u %u\n", riser_part(answer, 0), riser_part(answer, 1));
        return 1;
    }
    size_t length = riser_part(answer, 0);
    FILE *file = fopen(arguments[2], "wbx");
    if (file == NULL)
        return fails(arguments[2]);
    size_t written = fwrite(new, 1, length, file);
    if (fclose(file) != 0 || written != length) {
        fails(arguments[2]);
        remove(arguments[2]);
        return 1;
    }
    printf("written %zu\n", length);
    return 0;
}
