/* What an editor keeps for each panel, here millimetres of padding, follows the pattern through the editor's operators. Prints the padding
 * of each panel, and the step that it makes at each seam. */
#include "mbyasoka.h"
#include <stdio.h>
#include <string.h>

/* The triangle of docs/FORMATS.md, and the two operators of its script. */
static const uint8_t mesh[] = {3, 3, 0, 2, 0, 1, 1, 2, 1, 3, 0, 2, 1, 1, 2, 1, 0};
static const uint8_t split_seam[] = {0x31, 0}, split_panel[] = {0x32, 0, 2, 2, 3}, kill_panel[] = {0x22, 0};

static mbyasoka_pattern pattern;
static int32_t padding[MBYASOKA_SIDE], carried[MBYASOKA_SIDE], steps[MBYASOKA_SIDE];

/* An operator on pattern and padding: carried first, since carrying takes the pattern as it is before. A refusal leaves both. */
static uint8_t edit(const uint8_t *bytes, size_t bytes_length)
{
    uint32_t place;
    uint8_t refusal = mbyasoka_pattern_carry(&pattern, bytes, bytes_length, 2, padding, carried, &place);
    if (refusal == MBYASOKA_ACCEPTED)
        refusal = mbyasoka_pattern_apply(&pattern, bytes, bytes_length, &place);
    if (refusal == MBYASOKA_ACCEPTED)
        memcpy(padding, carried, sizeof padding);
    return refusal;
}

int main(void)
{
    size_t used;
    uint32_t place;
    int i;
    if (mbyasoka_pattern_read(&pattern, mesh, sizeof mesh, &used, &place) != MBYASOKA_ACCEPTED)
        return 1;
    padding[0] = 12;
    printf("split seam 0: refusal %d\n", edit(split_seam, sizeof split_seam));
    printf("split panel 0: refusal %d\n", edit(split_panel, sizeof split_panel));
    printf("kill panel 0: refusal %d\n", edit(kill_panel, sizeof kill_panel));
    for (i = 0; i < pattern.counts[2]; i++)
        printf("panel %d padding %d\n", i, (int)padding[i]);
    puts("panel 1 thinner by 5");
    padding[1] -= 5;
    if (mbyasoka_pattern_boundary(&pattern, 2, padding, steps) != MBYASOKA_ACCEPTED)
        return 1;
    for (i = 0; i < pattern.counts[1]; i++)
        printf("seam %d step %d\n", i, (int)steps[i]);
    return mbyasoka_pattern_check(&pattern) == MBYASOKA_ACCEPTED ? 0 : 1;
}
