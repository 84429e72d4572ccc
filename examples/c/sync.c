/* What a sync service does with what it carries: reads a mesh and the script after it from standard input, runs the script, and writes
 * the mesh that the cutters get to standard output: after the whole script, or, where it is refused, as it came. What happened goes to
 * standard error: the first lines of the program `pattern` and, where something is refused, a sentence for whoever is asked about it. */
#include "mbyasoka.h"
#include <stdio.h>

static uint8_t input[65536], mesh[MBYASOKA_MESH_BYTES];
static mbyasoka_pattern pattern, before;

/* Ends a line; where there is a place, with it between these words. */
static void end_line(const char *words, uint32_t place, const char *more)
{
    if (place != MBYASOKA_NO_PLACE)
        fprintf(stderr, "%s%lu%s", words, (unsigned long)place, more);
    fputc('\n', stderr);
}

static void explain(uint8_t refusal, uint32_t place, const char *of)
{
    fputs(mbyasoka_refusal_text(refusal), stderr);
    end_line(" at byte ", place, of);
}

int main(void)
{
    size_t length = fread(input, 1, sizeof input, stdin), used, written;
    uint16_t ran;
    int16_t euler;
    uint32_t place;
    uint8_t refusal = mbyasoka_pattern_read(&pattern, input, length, &used, &place);
    if (refusal != MBYASOKA_ACCEPTED) {
        fprintf(stderr, "mesh refusal %d", refusal);
        end_line(" at ", place, "");
        explain(refusal, place, " of the mesh");
        return 1;
    }
    before = pattern;
    refusal = mbyasoka_pattern_run(&pattern, input + used, length - used, &ran, &place);
    if (refusal != MBYASOKA_ACCEPTED)
        pattern = before;
    fprintf(stderr, "ran %d refusal %d", ran, refusal);
    end_line(" at ", place, "");
    if (mbyasoka_pattern_euler(&pattern, &euler) == MBYASOKA_ACCEPTED) {
        const uint8_t *n = pattern.counts;
        fprintf(stderr, "cells %d %d %d %d\neuler %d\n", n[0], n[1], n[2], n[3], euler);
    }
    if (refusal != MBYASOKA_ACCEPTED)
        explain(refusal, place, " of the script");
    if (mbyasoka_pattern_write(&pattern, mesh, sizeof mesh, &written) != MBYASOKA_ACCEPTED)
        return 1;
    return fwrite(mesh, 1, written, stdout) == written && fflush(stdout) == 0 && refusal == MBYASOKA_ACCEPTED ? 0 : 1;
}
