/* The proved judge, to link from C or C++: target/staticlib/libjudge.a, written by
 * tools/library.sh.
 *
 * Each function takes any bytes of any length and answers one number: riser_model_area a number of bytes,
 * the others a packed finding. A pointer may be anything, NULL included, where its length is 0. The working
 * area must overlap neither of the other byte strings, and the destination must not overlap the old file or
 * the text. Nothing outside the given lengths is read or written. Of whoever links it, the library wants
 * memcpy and memset alone.
 *
 * Stack that was enough on the deepest inputs: 2.5 KB for reading and for riser_model_area, 60 KB for judging
 * a model, 16 KB for judging a tableau, 4.5 KB for putting a model in order, 22 KB for a typed pattern. 64 KB
 * are enough for all. */
#ifndef RISER_H
#define RISER_H

#include <stddef.h>
#include <stdint.h>

#ifdef __cplusplus
extern "C" {
#endif

/* The bytes of working area that are always enough for judging a model, for judging a tableau;
 * riser_model_area says how many are enough for the models of one pattern. */
#define RISER_MODEL_AREA 2040
#define RISER_TABLEAU_AREA 8192

/* The bytes of the longest model file: a destination of so many is enough for putting any model in order. */
#define RISER_MODEL_LONGEST 13321

/* The bytes of the longest text that is read into a pattern file, and of the longest pattern file: a
 * destination of so many is enough for any typed pattern. */
#define RISER_TEXT_LONGEST 1024
#define RISER_PATTERN_LONGEST 1026

/* What an answer is: its lowest 4 bits. The numbers that go with it are its parts, in this order. */
enum riser_kind {
    RISER_REFUSED = 1, /* refusal number, place */
    RISER_READ = 2,    /* number of entries */
    RISER_MET = 3,     /* lowest node, number of nodes */
    RISER_UNMET = 4,   /* none */
    RISER_CLOSED = 5,  /* steps, clashes, forks, most lines on a branch */
    RISER_WRITTEN = 6  /* length of the file that was written; the same kind will serve later files */
};

/* The kind of an answer. */
static inline enum riser_kind riser_kind(uint64_t answer) { return (enum riser_kind)(answer & 15); }

/* Part k (0 to 3) of an answer: 14 bits each, part 0 lowest. */
static inline unsigned riser_part(uint64_t answer, unsigned k) { return (answer >> (4 + 14 * k)) & 0x3fff; }

/* Reads a pattern: RISER_READ, or RISER_REFUSED with number 1 to 8. It takes entries of the kinds 1 to 12. */
uint64_t riser_read(const uint8_t *pattern, size_t pattern_length);

/* The bytes of working area that judging a model of a pattern wants: 8 for each entry that is a node, reached
 * by the root or not, so 8 to RISER_MODEL_AREA; 0 for a pattern that is refused, which any area is enough
 * for. */
size_t riser_model_area(const uint8_t *pattern, size_t pattern_length);

/* Judges a model of a pattern: RISER_MET, RISER_UNMET, or RISER_REFUSED with number 1 to 14, 27 or 28,
 * which leaves the area unchanged. An area shorter than riser_model_area says is refused with 9. Met and
 * unmet leave as many of its first bytes zero as that says, and the rest unchanged. A model must list every
 * name that the pattern uses: 27 gives the lowest that isn't listed as its place. Its edges must rise by
 * from, then axis, then to, each once: 28 gives the first record that doesn't come after the one before it. */
uint64_t riser_judge_model(const uint8_t *pattern, size_t pattern_length, const uint8_t *model,
                           size_t model_length, uint8_t *area, size_t area_length);

/* Judges a tableau for a pattern: RISER_CLOSED, or RISER_REFUSED with number 1 to 9 or 15 to 26. It takes
 * steps of the rules 1 to 25. Refusals up to 18 leave the area unchanged; the others, and closed, leave its
 * first 8,192 bytes zero and the rest unchanged. Closed says that the root of the pattern holds at no node of
 * any data model, finite or infinite, with any equivalence relation on each channel. */
uint64_t riser_judge_tableau(const uint8_t *pattern, size_t pattern_length, const uint8_t *tableau,
                             size_t tableau_length, uint8_t *area, size_t area_length);

/* Puts an older model file in order, one whose edges stand in any order and may be repeated: RISER_WRITTEN,
 * or RISER_REFUSED with number 10 to 14 or 29, which leaves the destination unchanged. The new file has the
 * nodes and names as they stand and each edge once, rising by from, then axis, then to. It is in the first
 * bytes of the destination, as many as its length says, and the bytes beyond are unchanged. Judged with any
 * pattern, it gets the finding that the old file would get if 28 were never given. A file that is already in
 * order is copied unchanged. 29 says that the destination is shorter than the new file, which may be shorter
 * than the old one; RISER_MODEL_LONGEST bytes, or as many as the old file has, are always enough. */
uint64_t riser_order(const uint8_t *old, size_t old_length, uint8_t *destination, size_t destination_length);

/* Reads a typed pattern, such as (p0&!<1>n2), into a pattern file: RISER_WRITTEN, or RISER_REFUSED with number
 * 30 to 32, which leaves the destination unchanged. The file is in the first bytes of the destination, as many
 * as its length says, and the bytes beyond are unchanged; at every node of every data model, finite or
 * infinite, it holds exactly where the text does. 30 says that the text has over RISER_TEXT_LONGEST bytes, with
 * place 0, or is outside the grammar, with the place of the first byte, or of the end, that no text could have
 * there; a newline at the end is such a byte. 31 says that a number is out of range, with the place of the
 * first digit of the first such number. 32 says that there are over 255 different entries, or that the
 * destination is shorter than the file; RISER_PATTERN_LONGEST bytes are always enough. */
uint64_t riser_type(const uint8_t *text, size_t text_length, uint8_t *destination, size_t destination_length);

#ifdef __cplusplus
}
#endif

#endif
