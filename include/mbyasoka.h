/* The engine for C: sewn-panel patterns that are processed or refused by a number. Link target/staticlib/libmbyasoka.a.
 *
 * docs/FORMATS.md says what a good pattern is, the bytes of a mesh, a script and an operator, and when each refusal is given; docs/OFF.md says
 * the same of OFF texts.
 * A pattern is four counts (corners, seams, panels, blocks) and three matrices of MBYASOKA_SIZE signed bytes. Matrix k has a row for
 * each cell of dimension k - 1 and a column for each cell of dimension k; row i of column j stands at MBYASOKA_SIDE * j + i.
 *
 * Every call takes any bytes, counts, lengths and coefficients whatever, tests them, and ends. It answers 0, or the number of a refusal
 * below; the first that applies, in the order that is given at the call.
 *
 * WARNING: a script that is refused at an operator HAS CHANGED the pattern, see mbyasoka_run_script.
 *
 * What the caller must see to is only what C itself asks:
 * - A pointer and its length name memory that the caller may use. A length counts elements, not bytes: for a chain it is 96 and for a list
 *   of coordinates 288, and `sizeof` of the array, four times as much, gives refusal 1.
 * - No pointer may be NULL, not even with length 0.
 * - What a call writes to overlaps nothing else that is passed to it. So no chain is carried in place: chain and out are two arrays.
 * - During a call nothing else writes to what is passed to it, or reads what it writes to. No state is kept between calls, so calls on
 *   different patterns may run at once in several threads, and calls that only read may share a pattern.
 * - A call takes no heap. Of stack, mbyasoka_carry takes less than 32 KiB, any other less than 2 KiB; docs/SPEED.md has the figures.
 * - Of the C library the archive for x86-64 needs memcpy and memset alone.
 */
#ifndef MBYASOKA_H
#define MBYASOKA_H

#include <stddef.h>
#include <stdint.h>

#ifdef __cplusplus
extern "C" {
#endif

/* Raised by one with each change that a caller can see: of a call and its arguments, the struct, an answer, a refusal, or the bytes. */
#define MBYASOKA_VERSION 4

enum {
    MBYASOKA_SIDE = 96,                 /* most cells of a dimension; coefficients of a chain */
    MBYASOKA_SIZE = 9216,               /* entries of a matrix */
    MBYASOKA_MESH_BYTES = 37252,        /* the longest mesh */
    MBYASOKA_SCRIPT_BYTES = 24576,      /* the longest script */
    MBYASOKA_OPERATORS = 1024,          /* most operators of a script */
    MBYASOKA_OPERATOR_BYTES = 194,      /* the longest operator */
    MBYASOKA_BOUNDARY_LIMIT = 1000000,  /* largest coefficient of a chain whose boundary is asked for, plus or minus */
    MBYASOKA_CARRY_LIMIT = 100000000,   /* largest coefficient of a chain that is carried, plus or minus */
    MBYASOKA_COORDINATES = 288,         /* coordinates of a list: x, y, z of each of 96 corners */
    MBYASOKA_COORDINATE_LIMIT = 1048576, /* largest coordinate, plus or minus */
    MBYASOKA_OFF_BYTES = 29581          /* the longest OFF text that is exported; one that is imported may have any length */
};

/* mbyasoka_refusal_text says what each means. */
enum {
    MBYASOKA_ACCEPTED = 0,
    MBYASOKA_WRONG_LENGTH = 1,   /* a matrix is not 9,216, a chain not 96 or a list of coordinates not 288 long; a script is over 24,576
                                    bytes */
    MBYASOKA_NOT_GOOD = 2,
    MBYASOKA_BYTES_END = 3,
    MBYASOKA_WRONG_FORM = 4,     /* a count over 96, over 1,024 operators, base count not 4, unknown code, sign not 1 or 2, list not
                                    rising, or a chain dimension that is not offered */
    MBYASOKA_NO_SUCH_CELL = 5,
    MBYASOKA_NO_ROOM = 6,
    MBYASOKA_NOT_CLOSED = 7,
    MBYASOKA_IN_USE = 8,
    MBYASOKA_WRONG_PART = 9,
    MBYASOKA_WRONG_DIVIDER = 10,
    MBYASOKA_NOT_BETWEEN = 11,
    MBYASOKA_WRONG_SUM = 12,     /* no call answers it since version 4: where the two cells of a merge share one face alone, their sum is
                                    always a boundary */
    MBYASOKA_STALE = 13,         /* the script's base counts differ from the pattern's */
    MBYASOKA_BYTES_LEFT = 14,
    MBYASOKA_SHORT_OUTPUT = 15,
    MBYASOKA_WRONG_CHAIN = 16,
    MBYASOKA_NOT_CARRIED = 17,
    MBYASOKA_WRONG_OFF = 18,     /* text that is no plain OFF text or goes on after its end, a corner or panel count over 96, or a
                                    coordinate out of range */
    MBYASOKA_NOT_PLAIN = 19,     /* a block, a seam in no panel, two seams with the same two ends, or a panel that is not one ring */
    MBYASOKA_SHARED_FACE = 20
};

/* What an answer means, for people to read; of any number. Where the answer has a place, " at byte " and the place may follow. */
static inline const char *mbyasoka_refusal_text(uint8_t refusal)
{
    switch (refusal) {
    case MBYASOKA_ACCEPTED: return "accepted";
    case MBYASOKA_WRONG_LENGTH: return "a lent matrix, chain or list of coordinates has a wrong length, or the script is too long";
    case MBYASOKA_NOT_GOOD: return "the lent pattern is not good";
    case MBYASOKA_BYTES_END: return "the bytes end too early";
    case MBYASOKA_WRONG_FORM: return "an impossible value was given";
    case MBYASOKA_NO_SUCH_CELL: return "a cell is named that is not there";
    case MBYASOKA_NO_ROOM: return "there is no room for a new cell, 96 of a dimension are the most";
    case MBYASOKA_NOT_CLOSED: return "a panel or block has no faces, does not sew shut or is no ring, or a seam ends where it begins";
    case MBYASOKA_IN_USE: return "a cell that is to be killed is a face of another";
    case MBYASOKA_WRONG_PART: return "a split lists no face of the cell, all of them, or one that it does not have";
    case MBYASOKA_WRONG_DIVIDER: return "the dividing cell of a split would be no seam or no panel";
    case MBYASOKA_NOT_BETWEEN: return "a merge is at a cell that does not lie between two others with opposite signs";
    case MBYASOKA_WRONG_SUM: return "the sum of a merge leaves -1 to +1, or is all 0";
    case MBYASOKA_STALE: return "the script was written for another state of the pattern";
    case MBYASOKA_BYTES_LEFT: return "there are bytes left over";
    case MBYASOKA_SHORT_OUTPUT: return "the output buffer is too short";
    case MBYASOKA_WRONG_CHAIN: return "a coefficient of the chain is out of limits, or not 0 at or past the count of its cells";
    case MBYASOKA_NOT_CARRIED: return "no chain is carried through a kill or a merge";
    case MBYASOKA_WRONG_OFF: return "the text does not have the form of a plain OFF text, or a coordinate is out of range";
    case MBYASOKA_NOT_PLAIN: return "no OFF text has a block, a loose seam, two seams with the same ends, or a panel that is not one ring";
    case MBYASOKA_SHARED_FACE: return "the two cells of a merge share another face, which would be left loose";
    default: return "no answer of this version has this number";
    }
}

/* Where the bytes went wrong. The calls that read a mesh, a script or an operator write to *place, whatever they answer. It counts from
 * 0, the first byte of the mesh, script or operator: for 3 it is the length of the bytes, for 4 the first byte of the faulty field, for
 * 14 the first byte left over. With any other answer, and with a 4 for a chain's dimension, it is this number. */
#define MBYASOKA_NO_PLACE ((uint32_t)4294967295u)

/* The calls on lent lists. Most callers need only those on mbyasoka_pattern, at the end. */

/* Whether the pattern is good. Refusals: 1, 2. Nothing is written. */
uint8_t mbyasoka_check(const uint8_t counts[4],
                       const int8_t *m1, size_t m1_length, const int8_t *m2, size_t m2_length, const int8_t *m3, size_t m3_length);

/* Reads a mesh from the front of the bytes. Out: the counts, every byte of the matrices, how many bytes were used, and the place.
 * Refusals: 1; then from the front, a section's count when it is reached, before its cells (3, 4), and each cell by itself: its form
 * (3, 4), then 5, then 7. A refusal answers counts 0 and used 0; after 1 the matrices are unchanged, after another all three are zero. */
uint8_t mbyasoka_read_mesh(uint8_t counts[4],
                           int8_t *m1, size_t m1_length, int8_t *m2, size_t m2_length, int8_t *m3, size_t m3_length,
                           const uint8_t *bytes, size_t bytes_length, size_t *used, uint32_t *place);

/* Writes the pattern as a mesh. Out: the first `*written` bytes of out, and no other. Refusals: 1, 2, 15; a refusal answers written 0
 * and touches no byte of out. MBYASOKA_MESH_BYTES are enough for every pattern. */
uint8_t mbyasoka_write_mesh(const uint8_t counts[4],
                            const int8_t *m1, size_t m1_length, const int8_t *m2, size_t m2_length, const int8_t *m3, size_t m3_length,
                            uint8_t *out, size_t out_length, size_t *written);

/* The Euler number, corners - seams + panels - blocks. Refusals: 1, 2; a refusal answers number 0. */
uint8_t mbyasoka_euler(const uint8_t counts[4],
                       const int8_t *m1, size_t m1_length, const int8_t *m2, size_t m2_length, const int8_t *m3, size_t m3_length,
                       int16_t *number);

/* One operator, of which these are the bytes. In and out: counts and matrices. Out: the place. Refusals: 1, 2, the first of 3 and 4 in
 * byte order, 14, 5, 6, 7 to 11 or 20; a refusal changes no count and no byte. */
uint8_t mbyasoka_apply_operator(uint8_t counts[4],
                                int8_t *m1, size_t m1_length, int8_t *m2, size_t m2_length, int8_t *m3, size_t m3_length,
                                const uint8_t *bytes, size_t bytes_length, uint32_t *place);

/* A script. In and out: counts and matrices. Out: how many operators were accepted, and the place. Refusals: 1, 2, the first of 3 and 4
 * in byte order, 14, 13: then nothing runs, *ran is 0 and no count and no byte changes. Otherwise operators run in order up to the first
 * that is refused, by 5, 6, 7 to 11 or 20; that one changes nothing.
 *
 * WARNING: after a refusal by 5 to 11 or 20 the first *ran operators HAVE CHANGED the pattern, and nothing takes them back. What is
 * left is a good pattern, but neither the one lent nor the one meant. Whoever wants all or nothing keeps a copy of the counts and the
 * matrices, or writes the mesh, before the call. */
uint8_t mbyasoka_run_script(uint8_t counts[4],
                            int8_t *m1, size_t m1_length, int8_t *m2, size_t m2_length, int8_t *m3, size_t m3_length,
                            const uint8_t *bytes, size_t bytes_length, uint16_t *ran, uint32_t *place);

/* The boundary of a chain of cells of a dimension, 1 to 3. In: 96 coefficients within ±MBYASOKA_BOUNDARY_LIMIT, 0 at and past the count.
 * Out: 96 coefficients, within 96 times that. Refusals: 1, 2, 4, 16; a refusal leaves out unchanged. */
uint8_t mbyasoka_boundary(const uint8_t counts[4],
                          const int8_t *m1, size_t m1_length, const int8_t *m2, size_t m2_length, const int8_t *m3, size_t m3_length,
                          uint8_t dimension, const int32_t *chain, size_t chain_length, int32_t *out, size_t out_length);

/* A chain of cells of a dimension, 0 to 3, carried through one make, split or flip, of which these are the bytes; the pattern stays as
 * it is. In: 96 coefficients within ±MBYASOKA_CARRY_LIMIT, 0 at and past the count. Out: 96 coefficients: the new cell of a make and the
 * dividing cell of a split get 0, the other new cell of a split gets what the split one has, and a flipped cell's changes its sign; and
 * the place.
 * Refusals: 1, 2, 4 for the dimension, the first of 3 and 4 in byte order, 14, 17, 5, 6, 7, 9, 10, and last 16; a refusal leaves out
 * unchanged. */
uint8_t mbyasoka_carry(const uint8_t counts[4],
                       const int8_t *m1, size_t m1_length, const int8_t *m2, size_t m2_length, const int8_t *m3, size_t m3_length,
                       const uint8_t *bytes, size_t bytes_length,
                       uint8_t dimension, const int32_t *chain, size_t chain_length, int32_t *out, size_t out_length,
                       uint32_t *place);

/* Imports a plain OFF text: the keyword OFF; how many corners, panels and seams; x, y, z of each corner; each panel as a length and that
 * many corner numbers, its way round. The count of seams is not used. Spaces, tabs, CR and LF separate, and line breaks mean no more than a
 * blank. A number has one to seven digits, a coordinate also a minus. Seams are numbered as first met and directed that way. Out: the
 * counts, every byte of the matrices, and all 288 coordinates, corner i having x, y, z at 3 * i and 0 standing past the last.
 * Refusals: 1; 18 for the whole text; then panel by panel 5, 7 for fewer than three corners or one that comes twice, 6 where seams would
 * pass 96. No place is told. A refusal answers counts 0; after 1 matrices and coordinates are unchanged, after another all are zero. */
uint8_t mbyasoka_import_off(uint8_t counts[4],
                            int8_t *m1, size_t m1_length, int8_t *m2, size_t m2_length, int8_t *m3, size_t m3_length,
                            int32_t *coordinates, size_t coordinates_length, const uint8_t *text, size_t text_length);

/* Exports the pattern, with its corners at these coordinates, as an OFF text: one line for each item, LF ending it, one blank between
 * numbers; each ring starts at its lowest corner and goes the panel's way round. In: 288 coordinates, within ±MBYASOKA_COORDINATE_LIMIT
 * for each corner that there is; past the last corner any value is taken and none looked at. Out: the first `*written` bytes of out, and no
 * other; no zero byte ends them. Refusals: 1, 2, 18 for a coordinate, 19, 15; no place is told. A refusal answers written 0 and touches no
 * byte of out. MBYASOKA_OFF_BYTES are enough for every pattern. */
uint8_t mbyasoka_export_off(const uint8_t counts[4],
                            const int8_t *m1, size_t m1_length, const int8_t *m2, size_t m2_length, const int8_t *m3, size_t m3_length,
                            const int32_t *coordinates, size_t coordinates_length, uint8_t *out, size_t out_length, size_t *written);

/* A whole pattern. `= {0}` (in C++ `= {}`) makes the empty one, which is good, and `=` a copy. Callers that keep to it and to the calls
 * below change no line when a later version stores more beside the matrices. It takes 27 KiB: where stacks are small make it static. */
typedef struct mbyasoka_pattern {
    uint8_t counts[4];
    int8_t matrices[3][MBYASOKA_SIZE];
} mbyasoka_pattern;

/* Each is the call above of that name, with its refusals; 1 is left only for a script that is too long. */

#define MBYASOKA_LENT_(p) \
    (p)->counts, (p)->matrices[0], MBYASOKA_SIZE, (p)->matrices[1], MBYASOKA_SIZE, (p)->matrices[2], MBYASOKA_SIZE

static inline uint8_t mbyasoka_pattern_check(const mbyasoka_pattern *p)
{
    return mbyasoka_check(MBYASOKA_LENT_(p));
}

/* A refused mesh leaves the empty pattern. */
static inline uint8_t mbyasoka_pattern_read(mbyasoka_pattern *p, const uint8_t *bytes, size_t bytes_length, size_t *used,
                                            uint32_t *place)
{
    return mbyasoka_read_mesh(MBYASOKA_LENT_(p), bytes, bytes_length, used, place);
}

static inline uint8_t mbyasoka_pattern_write(const mbyasoka_pattern *p, uint8_t *out, size_t out_length, size_t *written)
{
    return mbyasoka_write_mesh(MBYASOKA_LENT_(p), out, out_length, written);
}

static inline uint8_t mbyasoka_pattern_euler(const mbyasoka_pattern *p, int16_t *number)
{
    return mbyasoka_euler(MBYASOKA_LENT_(p), number);
}

static inline uint8_t mbyasoka_pattern_apply(mbyasoka_pattern *p, const uint8_t *bytes, size_t bytes_length, uint32_t *place)
{
    return mbyasoka_apply_operator(MBYASOKA_LENT_(p), bytes, bytes_length, place);
}

/* WARNING: as at mbyasoka_run_script, a refusal by 5 to 11 or 20 HAS CHANGED the pattern. All or nothing: copy it before, by `=`. */
static inline uint8_t mbyasoka_pattern_run(mbyasoka_pattern *p, const uint8_t *bytes, size_t bytes_length, uint16_t *ran,
                                           uint32_t *place)
{
    return mbyasoka_run_script(MBYASOKA_LENT_(p), bytes, bytes_length, ran, place);
}

static inline uint8_t mbyasoka_pattern_boundary(const mbyasoka_pattern *p, uint8_t dimension,
                                                const int32_t chain[MBYASOKA_SIDE], int32_t out[MBYASOKA_SIDE])
{
    return mbyasoka_boundary(MBYASOKA_LENT_(p), dimension, chain, MBYASOKA_SIDE, out, MBYASOKA_SIDE);
}

static inline uint8_t mbyasoka_pattern_carry(const mbyasoka_pattern *p, const uint8_t *bytes, size_t bytes_length, uint8_t dimension,
                                             const int32_t chain[MBYASOKA_SIDE], int32_t out[MBYASOKA_SIDE], uint32_t *place)
{
    return mbyasoka_carry(MBYASOKA_LENT_(p), bytes, bytes_length, dimension, chain, MBYASOKA_SIDE, out, MBYASOKA_SIDE, place);
}

/* A refused text leaves the empty pattern and all coordinates 0. */
static inline uint8_t mbyasoka_pattern_import_off(mbyasoka_pattern *p, int32_t coordinates[MBYASOKA_COORDINATES],
                                                  const uint8_t *text, size_t text_length)
{
    return mbyasoka_import_off(MBYASOKA_LENT_(p), coordinates, MBYASOKA_COORDINATES, text, text_length);
}

static inline uint8_t mbyasoka_pattern_export_off(const mbyasoka_pattern *p, const int32_t coordinates[MBYASOKA_COORDINATES],
                                                  uint8_t *out, size_t out_length, size_t *written)
{
    return mbyasoka_export_off(MBYASOKA_LENT_(p), coordinates, MBYASOKA_COORDINATES, out, out_length, written);
}

#undef MBYASOKA_LENT_

#ifdef __cplusplus
}
#endif

#endif
