/* Mubdrax for C: a survey over tables that the caller keeps.
 *
 * Everything is the caller's: the three tables, and the counts that a survey remembers between calls. The library
 * keeps nothing, and only mubdrax_report allocates (and frees what it allocated). The survey is under the plain
 * measure and graded by assay; docs/RULES.md has the rules and the meaning of each refusal.
 *
 * Nothing handed in is trusted: tables of any content, of any length, are answered by the rules, and counts that no
 * survey can have are refused with 15. What a caller owes is what C cannot check: every pointer is valid for as many
 * records as the length beside it says, is aligned and never NULL (also where the length is 0), and memory that is
 * written overlaps no other argument. mubdrax_add needs half a megabyte of stack.
 */
#ifndef MUBDRAX_H
#define MUBDRAX_H

#include <stddef.h>
#include <stdint.h>

#ifdef __cplusplus
extern "C" {
#endif

/* Most records that a table can have. */
#define MUBDRAX_MOST_POINTS 1024
#define MUBDRAX_MOST_TETS 16384

/* Written as a neighbour where a face has no record across it. */
#define MUBDRAX_NONE 65535

/* A point: coordinates in decimetres. Points 0 to 3 are the corners, sites are numbered from 4. 16 bytes. */
typedef struct {
    uint16_t x, y, z;
    uint32_t penalty;
    uint16_t mark; /* 0 in every used record */
} mubdrax_point;

/* A tetrahedron: neighbour i is the record across the face that lacks point i. 18 bytes. */
typedef struct {
    uint16_t points[4];
    uint16_t neighbours[4];
    uint16_t mark; /* 0 in every used record */
} mubdrax_tet;

/* The reading at a site, in milligrams per kilogram. Other kinds are not admitted; one that stands in a table counts
 * as missing. The amount of a missing reading is not looked at. 16 bytes. */
enum { MUBDRAX_MEASURED = 0, MUBDRAX_BELOW = 1, MUBDRAX_MISSING = 2 };
typedef struct {
    uint32_t kind;
    double amount;
} mubdrax_reading;

/* What a survey remembers. mubdrax_create writes it, mubdrax_add keeps it; hand it back unchanged. */
typedef struct {
    size_t points;        /* used point records */
    size_t tets;          /* used tetrahedron records */
    size_t point_records; /* lengths at creation */
    size_t tet_records;
} mubdrax_counts;

/* refusal is 0 where the call is accepted, and value is then what it returns. Refusals are 1 to 13 as in the rules
 * (12 comes with the vanishing point as its value), and 15: the counts are those of no survey. A refused call has
 * changed nothing. */
typedef struct {
    uint32_t refusal;
    uint32_t value;
} mubdrax_answer;

/* Line k of a statement: the tetrahedra of class k and their volume, in sixths of a cubic decimetre. */
typedef struct {
    uint32_t tetrahedra;
    int64_t units;
} mubdrax_line;

typedef struct {
    mubdrax_line lines[8];
    int64_t margin; /* the volume of the tetrahedra that have a corner */
} mubdrax_statement;

/* status is 0 where the statement was written, 1 where it is the line of a refusal, 2 where the text does not fit and
 * 3 where memory ran out; 2 and 3 write nothing. length is the text's, also with 2, and 0 with 3. */
typedef struct {
    uint32_t status;
    size_t length;
} mubdrax_text;

/* Creates a survey without sites and writes its counts: 5 to 1,024 point records, as many readings (else 1), and 1 to
 * 16,384 tetrahedron records (else 2). Returns 0. */
mubdrax_answer mubdrax_create(mubdrax_counts *counts, mubdrax_point *points, size_t point_records,
                              mubdrax_reading *readings, size_t reading_records, mubdrax_tet *tets,
                              size_t tet_records);

/* Adds a site. Returns its number. Refused with 3 to 12 and 15. */
mubdrax_answer mubdrax_add(mubdrax_counts *counts, mubdrax_point *points, size_t point_records,
                           mubdrax_reading *readings, size_t reading_records, mubdrax_tet *tets, size_t tet_records,
                           uint16_t x, uint16_t y, uint16_t z, uint32_t penalty, mubdrax_reading reading);

/* Returns the lowest record that owns a place. Refused with 3, 4, 13 and 15. */
mubdrax_answer mubdrax_locate(const mubdrax_counts *counts, const mubdrax_point *points, size_t point_records,
                              const mubdrax_reading *readings, size_t reading_records, const mubdrax_tet *tets,
                              size_t tet_records, uint16_t x, uint16_t y, uint16_t z);

/* Fills the statement. Returns 0. Refused with 3 and 15, which leave the statement as it is. */
mubdrax_answer mubdrax_state(const mubdrax_counts *counts, const mubdrax_point *points, size_t point_records,
                             const mubdrax_reading *readings, size_t reading_records, const mubdrax_tet *tets,
                             size_t tet_records, mubdrax_statement *statement);

/* Reads a survey file and writes what the program mubdrax prints of it: 512 bytes are room enough for any. No NUL is
 * written behind the text. */
mubdrax_text mubdrax_report(const uint8_t *file, size_t file_bytes, uint8_t *room, size_t room_bytes);

#ifdef __cplusplus
}
#endif

#endif
