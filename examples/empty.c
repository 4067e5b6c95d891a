/* Judges nothing at all from C, puts nothing in order and reads nothing typed: a pointer may be NULL where its
 * length is 0, and no bytes are no pattern, no model and no text. */
#include "riser.h"

#include <stdio.h>

/* Whether the answer is the refusal of no bytes, by this number; if not, names the function. */
static int refuses(const char *function, uint64_t answer, unsigned number)
{
    if (riser_kind(answer) == RISER_REFUSED && riser_part(answer, 0) == number)
        return 1;
    fprintf(stderr, "empty: %s answered kind %d, number %u for no bytes\n", function, riser_kind(answer),
            riser_part(answer, 0));
    return 0;
}

int main(void)
{
    int read = refuses("riser_read", riser_read(NULL, 0), 1);
    int model = refuses("riser_judge_model", riser_judge_model(NULL, 0, NULL, 0, NULL, 0), 1);
    int tableau = refuses("riser_judge_tableau", riser_judge_tableau(NULL, 0, NULL, 0, NULL, 0), 1);
    int order = refuses("riser_order", riser_order(NULL, 0, NULL, 0), 10);
    int type = refuses("riser_type", riser_type(NULL, 0, NULL, 0), 30);
    size_t area = riser_model_area(NULL, 0);
    if (area != 0)
        fprintf(stderr, "empty: riser_model_area answered %zu for no bytes\n", area);
    return read && model && tableau && order && type && area == 0 ? 0 : 1;
}
