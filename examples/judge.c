/* Judges a proposal from C: judge PATTERN PROPOSAL prints the line that the bench program prints. */
#include "riser.h"

#include <errno.h>
#include <stdio.h>
#include <string.h>

/* The longest files of document 01, and one byte more, so that a longer file is refused for its length. */
#define PATTERN_BYTES 1027
#define PROPOSAL_BYTES 24585

/* Reads up to `size` bytes of a file; on failure names the file and what was wrong. */
static int load(const char *path, uint8_t *bytes, size_t size, size_t *length)
{
    FILE *file = fopen(path, "rb");
    if (file == NULL) {
        fprintf(stderr, "judge: %s: %s\n", path, strerror(errno));
        return 0;
    }
    *length = fread(bytes, 1, size, file);
    int failed = ferror(file);
    if (failed)
        fprintf(stderr, "judge: %s: %s\n", path, strerror(errno));
    fclose(file);
    return !failed;
}

static void print(uint64_t answer)
{
    static const struct {
        const char *word;
        unsigned parts;
    } kinds[] = {
        [RISER_REFUSED] = {"refused", 2}, [RISER_READ] = {"read", 1},     [RISER_MET] = {"met", 2},
        [RISER_UNMET] = {"unmet", 0},     [RISER_CLOSED] = {"closed", 4},
    };
    enum riser_kind kind = riser_kind(answer);
    fputs(kinds[kind].word, stdout);
    for (unsigned k = 0; k < kinds[kind].parts; k++)
        printf(" %u", riser_part(answer, k));
    putchar('\n');
}

int main(int count, char **arguments)
{
    /* Room for a tableau's working area; of it a model is lent what its pattern wants. */
    static uint8_t area[RISER_TABLEAU_AREA];
    static uint8_t pattern[PATTERN_BYTES], proposal[PROPOSAL_BYTES];
    size_t pattern_length, proposal_length;

    if (count != 3) {
        fprintf(stderr, "usage: judge PATTERN PROPOSAL\n");
        return 2;
    }
    if (!load(arguments[1], pattern, sizeof pattern, &pattern_length)
        || !load(arguments[2], proposal, sizeof proposal, &proposal_length))
        return 1;
    if (proposal_length >= 3 && memcmp(proposal, "TAB", 3) == 0)
        print(riser_judge_tableau(pattern, pattern_length, proposal, proposal_length, area, sizeof area));
    else
        print(riser_judge_model(pattern, pattern_length, proposal, proposal_length, area,
                                riser_model_area(pattern, pattern_length)));
    return 0;
}
