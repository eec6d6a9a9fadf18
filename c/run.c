/* Runs the modeller on the words of its command line, over the standard input, as the program does: run WORD.. < INPUT
 *
 *     cc -o run run.c libmodeller_c.a liblibc_c.a
 *
 * `rt lib` makes the first archive, in crates/modeller_c/out/; the second is the kit's, in its folder c/. */
#include "modeller.h"

#include <stdio.h>
#include <stdlib.h>
#include <string.h>

int main(int count, char **words)
{
    static char line[4096];
    static uint8_t input[8388609], note[128]; /* of an input one byte more than is accepted is enough */
    for (int i = 1; i < count; i++) {
        if (strlen(line) + strlen(words[i]) + 2 > sizeof line) return MODELLER_USAGE;
        strcat(strcat(line, words[i]), " ");
    }
    size_t length = fread(input, 1, sizeof input, stdin);
    struct modeller_ran ran;
    uint8_t *out = NULL;
    size_t room = 1 << 16;
    for (;; room = ran.out) {
        free(out);
        if (!(out = malloc(room))) return MODELLER_NO_MEMORY;
        modeller_run((uint8_t *)line, strlen(line), input, length, out, room, note, sizeof note, &ran);
        if (ran.out <= room) break; /* else it was too short */
    }
    fwrite(out, 1, ran.out, stdout);
    fwrite(note, 1, ran.note, stderr);
    free(out);
    return (int)ran.status;
}
