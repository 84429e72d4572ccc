/* Tidies an OFF file: reads one from standard input and writes it to standard output as the engine exports it. What is refused is told in a
 * sentence on standard error, and then nothing is written. */
#include "mbyasoka.h"
#include <stdio.h>

static uint8_t input[1 << 20], text[MBYASOKA_OFF_BYTES];
static mbyasoka_pattern pattern;
static int32_t coordinates[MBYASOKA_COORDINATES];

int main(void)
{
    size_t length = fread(input, 1, sizeof input, stdin), written = 0;
    uint8_t refusal = mbyasoka_pattern_import_off(&pattern, coordinates, input, length);
    if (refusal == MBYASOKA_ACCEPTED)
        refusal = mbyasoka_pattern_export_off(&pattern, coordinates, text, sizeof text, &written);
    if (refusal != MBYASOKA_ACCEPTED) {
        fprintf(stderr, "%s\n", mbyasoka_refusal_text(refusal));
        return 1;
    }
    return fwrite(text, 1, written, stdout) == written && fflush(stdout) == 0 ? 0 : 1;
}
