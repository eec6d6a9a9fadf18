/* The modeller as one call: words and an input go in, an output and a note come out. It reads and writes nothing but what
 * it is given, and keeps nothing between calls.
 *
 * It takes memory by malloc, realloc and free. It may be called from several threads at once, if each has rooms of its
 * own; not from a signal handler. No two of the five places may overlap, but for `line` and `input`, which are only read. */
#ifndef MODELLER_H
#define MODELLER_H

#include <stddef.h>
#include <stdint.h>

#ifdef __cplusplus
extern "C" {
#endif

/* How a run ended: the number with which the program on the command line would end. */
enum {
    MODELLER_DONE = 0,       /* the output is whole */
    MODELLER_USAGE = 2,      /* the words are refused, and the note says which one, and why */
    MODELLER_BAD_MODEL = 3,  /* the text is refused, and the note says at which line, and why */
    MODELLER_BAD_SCRIPT = 4, /* the script is refused, and the note says at which line, and why */
    MODELLER_TOO_LONG = 5,   /* the input has more than 8,388,608 bytes */
    MODELLER_NO_MEMORY = 8   /* memory was refused; `out` may have the first frames of a script */
};

struct modeller_ran {
    uint64_t status; /* one of the numbers above */
    uint64_t out;    /* how many bytes the output has; where that is more than `out_length`, `out` was too short for it */
    uint64_t note;   /* how many bytes the note has, which are fewer than 128 */
};

/* Runs the modeller on the words of `line`, as "shade w=400 h=400", over an input. The words are separated by spaces, tabs
 * or carriage returns, and end at a line feed; where one is no UTF-8, there are none.
 *
 * A room that is too short is left as it was: call again with one as long as `ran` says. Behind what `ran` says a room is
 * left as it was, too. A room without bytes has any address but a null pointer. */
void modeller_run(const uint8_t *line, size_t line_length, const uint8_t *input, size_t input_length, uint8_t *out,
                  size_t out_length, uint8_t *note, size_t note_length, struct modeller_ran *ran);

#ifdef __cplusplus
}
#endif

#endif
