/*
 * Fenalukki: part files, and casts of a ray through a part, for hosts and
 * viewers in C or C++.
 *
 * A part is a tree of soft points, handed over as the bytes of a part file.
 * The field of a point of weight w and radius r, at the distance d from its
 * centre, is where d < r
 *
 *   w * (1 - d*d / (r*r))^2   in a file of version 1, which is degree 4
 *   w * (1 - d*d / (r*r))^3   in a file of version 2, which is degree 6
 *
 * and 0 elsewhere. All points of a file have its degree; degree 6 is the softer
 * blend, flatter at the radius. An operator joins two fields, an earlier and a
 * later one, to one field: their sum, the greater of them, the lesser of them,
 * or a cut, which is the lesser of the earlier and twice the iso-value minus the
 * later. The part is solid where the tree's field is at least the iso-value:
 * greater joins two solids, lesser leaves what both have in common, cut takes
 * the later out of the earlier, and sum blends them. Weight, iso-value and field
 * have one unit. Lengths are whole steps of 1/64 mm.
 *
 * A ray runs from end A to end B and is cut into 1,024 equal ticks, 0 to 1,023;
 * tick t is the closed stretch from t/1024 to (t + 1)/1024 of the way. Each
 * tick has a mark. If it is empty, the field is below the iso-value at every
 * place of the tick; if it is inside, at or above it at every place. If it is
 * crossing, neither is known, and at every place the field differs from the
 * iso-value by at most the sum, over the part's points, of the size of the
 * weight times
 *
 *   S/(256 r) + 1/16384       in a file of version 1
 *   3S/(512 r) + 7/65536      in a file of version 2
 *
 * where S adds the sizes of the ray's three coordinate differences and r is the
 * point's radius, both in steps. The ends may coincide: every tick is then that
 * one place, and S is 0.
 *
 * The fifteen entries
 *
 *   fenalukki_check                      a file's version, nodes and iso-value
 *   fenalukki_read                       the same, and the nodes' numbers
 *   fenalukki_write                      a part file from the nodes' numbers
 *   fenalukki_place_bounds               the field's bounds at a place
 *   fenalukki_full_cast                  the mark of every tick
 *   fenalukki_marching_cast              the same, by forward steps from A
 *   fenalukki_first_hit                  the first tick that is not empty
 *   fenalukki_column                     a bit for each tick, by its middle
 *   fenalukki_viewer_first_hit           the first hit, by floats in mm
 *   fenalukki_full_cast_counted          each of the five casting calls,
 *   fenalukki_marching_cast_counted        with running totals
 *   fenalukki_first_hit_counted
 *   fenalukki_column_counted
 *   fenalukki_viewer_first_hit_counted
 *   fenalukki_restore_totals             totals from a saved record
 *
 * They are compiled from code that is proved. What is inline at the end of this
 * header (readers of the numbers, a budget, texts, rounding) is C: it is tested,
 * and is no part of what is proved.
 *
 * The part file
 *
 *   fenalukki_write makes one, and fenalukki_read takes it apart: six numbers a
 *   node, its kind, r, x, y, z and w. docs/FORMAT.md, installed as
 *   share/doc/fenalukki/FORMAT.md, says how to build a part and has a worked
 *   file byte by byte. In short: numbers are little-endian. Records of 12 bytes,
 *   one for each node, are in postfix order: a point adds a held value, an
 *   operator replaces the last two by one, the last being its later operand,
 *   and one is left at the end.
 *
 *     byte 0       kind: 1 point, or an operator: 2 sum, 3 greater, 4 lesser,
 *                  5 cut
 *     byte 1       0
 *     bytes 2-3    r, unsigned; this and the rest are 0 unless it is a point
 *     bytes 4-9    x, y, z, signed
 *     bytes 10-11  w, signed
 *
 *   The last 12 bytes of the file are the trailer; bytes before the first
 *   record are ignored.
 *
 *     bytes 0-1    iso-value
 *     bytes 2-3    version: 1 for degree 4, 2 for degree 6
 *     bytes 4-7    distance in bytes from the first record's first byte to the
 *                  file's end: 12 for each record and 12 for the trailer
 *     bytes 8-11   hexadecimal 54 52 45 45
 *
 * Parameters
 *
 *   file, file_len      the part file's bytes, any bytes at all
 *   ax .. az, bx .. bz  the ray's ends: in steps, any numbers, or, in the
 *                       viewer's calls, in millimetres, any floats
 *   x, y, z             a place in steps, any numbers
 *   budget              the most probes that the call may make; 2,047 is
 *                       always enough, in a marching cast 2,052, and for a
 *                       first hit at tick h 2 h + 11
 *   marks, marks_len    the buffer of a full or a marching cast, 1,024 bytes
 *                       or more
 *   bits, bits_len      the buffer of a column, 128 bytes or more
 *   numbers, numbers_len
 *                       of a write: the nodes' numbers, any numbers, and how
 *                       many they are (not how many bytes)
 *   numbers             of a read: 3,066 numbers, six for each of 511 nodes
 *   iso                 of a write: the iso-value, any number
 *   version             of a write: the file's version, any number
 *   buffer, buffer_len  of a write: the buffer that the file is written into
 *   place               of a write: the first record's offset in the buffer,
 *                       any number
 *   bounds              two numbers
 *   totals              three numbers: casts, probes and refusals
 *   saved, saved_len    the saved record's bytes, any bytes at all
 *
 * What the caller owes
 *
 *   Each pointer is valid for its length, for reading, and a buffer's for
 *   writing too. Nothing is read or written through a pointer whose length is
 *   0, and such a pointer may be null. bounds, totals and the numbers of a read
 *   have no length: they are never null, and valid for two, three and 3,066
 *   numbers. The file, the saved record, the numbers, the buffer, bounds and
 *   totals do not overlap. Nobody else writes the file, the saved record or the
 *   numbers of a write, or reads or writes what is written, during a call. The
 *   contents of totals are set beforehand, for a restore too, since it leaves
 *   them as they are where it is refused; those of a buffer, of bounds and of
 *   the numbers of a read need not be.
 *   In the viewer's calls the floating-point environment is the default one:
 *   exceptions masked, rounding to nearest, denormals not flushed to zero
 *   (gcc's -ffast-math, given when linking, flushes them).
 *   Nothing else has to be checked beforehand: every other fault is refused.
 *
 * What the caller can count on
 *
 *   Every call comes back, whatever it is handed. It keeps no pointer and no
 *   state, uses no heap and no global data, and writes nothing but its buffer,
 *   bounds, totals or, in a read, numbers. Calls may run at the same time on
 *   several threads, on one file too, as long as what they write differs.
 *   A cast or the bounds at a place need about 18 KiB of stack, the other calls
 *   less than 1 KiB, measured on the compiled archive; 64 KiB are tested to be
 *   enough.
 *
 * The number that a call returns
 *
 *   Below 65,536 it is a refusal number; the readers at the end of this header
 *   take any other apart. A refused call leaves its buffer, bounds and numbers
 *   as they were, and a restore its totals. Each call asks its questions in
 *   this order, 6 to 10 of each node in file order; the first one answered no
 *   decides.
 *
 *     a check, a read             1 to 11
 *     a write                     16, then 3, then 5 to 11 of what is given,
 *                                 then 17
 *     bounds at a place           1 to 12
 *     a first hit                 1 to 12
 *     a full cast, a column       1 to 12, then 14
 *     a marching cast             1 to 12, then 14
 *     a viewer's first hit        1 to 11, then 15
 *     a saved record              18
 *
 *    1  Is the file 24 to 65,536 bytes long?
 *    2  Are its last four bytes hexadecimal 54 52 45 45?
 *    3  Is the version 1 or 2?
 *    4  Is the distance back to the first record 24 to 6,144, a multiple of 12
 *       and no more than the file's length?
 *    5  Is the iso-value 1 to 4,096?
 *    6  Is the node's kind 1 (point) or an operator's, 2 to 5?
 *    7  Are its zero bytes zero: byte 1 of a point, 1 to 11 of an operator? In a
 *       write: are an operator's five other numbers 0?
 *    8  Of a point: is the radius 1 to 1,024, each coordinate -2,047 to 2,047
 *       and the weight -4,096 to 4,096?
 *    9  Of an operator: are at least two values held?
 *   10  Of a point: are fewer than 64 values held before it?
 *   11  Is exactly one value held at the end?
 *   12  Are the place's or the ray's coordinates -2,047 to 2,047?
 *   14  Has the buffer room: 1,024 bytes for marks, 128 for a column?
 *   15  Is each float finite and 64 times it whole, from -2,047 to 2,047?
 *   16  Is the count of numbers a multiple of six from 6 to 3,066?
 *   17  Do records and trailer, 12 bytes a node and 12, end within the buffer
 *       and by byte 65,536 of it?
 *   18  Is the saved record exactly 12 bytes long?
 *
 *   13 is not given: it was document 01's question whether the ray's ends differ.
 *
 * A ray whose ends coincide
 *
 *   It asks about a place, as a viewer's cursor does. Every tick is that place,
 *   and all have one mark, by the low and the high that fenalukki_place_bounds
 *   gives there:
 *
 *     empty       high is below iso * 2^32; a first hit is clear, and a column's
 *                 bits are all 0
 *     inside      low is at least iso * 2^32; a first hit is at tick 0, and a
 *                 column's bits are all 1
 *     crossing    neither; a first hit is at tick 0, and a column's bits are all
 *                 1 if low + high is at least 2 * iso * 2^32, else all 0
 *
 *   An empty or inside place takes 1 probe, in a marching cast 5. A crossing one
 *   takes 11 in a first hit, 2,047 in a full cast or a column and 2,052 in a
 *   marching cast. So a first hit, the viewer's too, tells what is at a place with
 *   a budget of 11, and fenalukki_place_bounds gives the bounds themselves.
 *
 * What a call costs
 *
 *   A probe is one working out of the field's bounds over a stretch of ticks.
 *   A cast goes through the part's records twice, for the check and for the ray.
 *   Beyond that its time goes by its probes times the points within whose radius
 *   the ray comes. The most are 2,047 probes, in a marching cast 2,052, of 511
 *   records; a first hit at tick h takes at most 2 h + 11 probes. A column also
 *   works out the bounds at the middle of each crossing tick, at most 1,024
 *   times; each is as much work as a probe and is not counted as one. On a part
 *   of 256 points, 3 sums and 252 cuts that leave every tick undecided, a column
 *   takes 97 million instructions by callgrind, which is 62 for a record and each
 *   of the 3,071 times that the bounds are worked out; a full or a marching cast
 *   takes 65 million. No call tried took more. With 255 sums a column takes 73
 *   million, and 78 million in a file of version 2. A smaller budget makes fewer
 *   probes and so bounds a call's time; a column has no budget.
 *   docs/BENCHMARKS.md has the figures of other parts.
 *
 * Coming from version 4
 *
 *   fenalukki_write takes the part file's version after the iso-value: pass
 *   FENALUKKI_FILE_VERSION_DEGREE_4, which is 1, for the files of before. The name
 *   FENALUKKI_FILE_VERSION is gone. A part file of version 2, which was refused
 *   with 3, is read by every call. The number of its check or read is from 2 * 2^32
 *   on: a host that takes 2^32 off such a number itself uses fenalukki_nodes,
 *   fenalukki_iso and fenalukki_file_version. Nothing else changes: on a part file
 *   of version 1 every call has version 4's answers.
 *
 * Coming from version 3
 *
 *   A ray whose ends coincide is answered; version 3 refused it with 13. A host
 *   that counted on this refusal compares the ends itself, and one that names
 *   FENALUKKI_REFUSED_EQUAL_ENDS leaves the name out. A counted call on such a ray
 *   is a cast with its probes, no longer a refusal. Where the place is crossing, a
 *   full cast, a march or a column takes the most probes there are: for the place
 *   alone a first hit is enough. Writes and part files of version 2 change as from
 *   version 4. Nothing else changes: every ray whose ends differ has version 3's
 *   answers.
 *
 * Coming from version 2
 *
 *   A column's bit of a crossing tick goes by the tick's middle; in version 2 it
 *   was always 1. Parts come out up to a tick thinner at each face, and a strut
 *   thinner than a tick may have no bit. A host that took the bits for all that
 *   may be solid takes the ticks that a full cast does not mark empty. A ray
 *   whose ends coincide changes as from version 3, writes and part files of
 *   version 2 as from version 4. Nothing else changes: marks, probes, numbers and
 *   totals are version 2's.
 *
 * Coming from version 1
 *
 *   Columns change as from version 2, a ray whose ends coincide as from version 3,
 *   writes and part files of version 2 as from version 4. A host that makes counted
 *   calls keeps, copies, prints and saves its totals as uint64_t, no longer as
 *   uint32_t, and is compiled again: a linker does not see the difference, and 24
 *   bytes are written where 12 were lent. What version 1 saved is read by
 *   fenalukki_restore_totals; a host that saves its totals tells it from what it
 *   saves now, by the length for one. Nothing else changes.
 *
 * Platform
 *
 *   The archive libfenalukki.a is for x86-64 Linux; of the C library it needs
 *   memset alone. This header is C99 and C++. ./install PREFIX places both,
 *   with a pkg-config file:
 *
 *     cc host.c $(pkg-config --cflags --libs fenalukki)
 *
 *   examples/tour.c, installed as share/doc/fenalukki/examples/tour.c, makes
 *   every call of this header and has every refusal answered.
 */
#ifndef FENALUKKI_H
#define FENALUKKI_H

#include <stddef.h>
#include <stdint.h>

/* The version of this header and of the archive beside it. The major number
 * changes where a host has to change, the minor where names are added. */
#define FENALUKKI_VERSION_MAJOR 5
#define FENALUKKI_VERSION_MINOR 0
#define FENALUKKI_VERSION_PATCH 0
#define FENALUKKI_VERSION "5.0.0"
#define FENALUKKI_VERSION_NUMBER \
    (FENALUKKI_VERSION_MAJOR * 10000 + FENALUKKI_VERSION_MINOR * 100 + FENALUKKI_VERSION_PATCH)

/* Rays, and what a call is lent. */
#define FENALUKKI_TICKS 1024
#define FENALUKKI_MARKS_BYTES 1024 /* the buffer of a full or a marching cast */
#define FENALUKKI_COLUMN_BYTES 128 /* the buffer of a column */
#define FENALUKKI_STEPS_PER_MM 64
#define FENALUKKI_COORDINATE_MAX 2047 /* in steps; the least is its negative */

/* The most probes of a cast: a budget that is always enough. */
#define FENALUKKI_ENOUGH 2047 /* of any cast but a marching one */
#define FENALUKKI_MARCHING_ENOUGH 2052 /* of a marching cast */

/* The part file. */
#define FENALUKKI_FILE_BYTES_MIN 24
#define FENALUKKI_FILE_BYTES_MAX 65536
#define FENALUKKI_FILE_VERSION_DEGREE_4 1
#define FENALUKKI_FILE_VERSION_DEGREE_6 2
#define FENALUKKI_RECORD_BYTES 12
#define FENALUKKI_TRAILER_BYTES 12
#define FENALUKKI_RECORDS_MAX 511
#define FENALUKKI_HELD_MAX 64
#define FENALUKKI_RADIUS_MAX 1024
#define FENALUKKI_WEIGHT_MAX 4096 /* the least is its negative */
#define FENALUKKI_ISO_MAX 4096
#define FENALUKKI_KIND_POINT 1
#define FENALUKKI_KIND_SUM 2
#define FENALUKKI_KIND_GREATER 3
#define FENALUKKI_KIND_LESSER 4
#define FENALUKKI_KIND_CUT 5 /* the earlier value without the later */

/* A node's numbers, in a write and a read: how many, which is which, and the
 * most of a part; and the most bytes that a write writes. */
#define FENALUKKI_NUMBERS_PER_NODE 6
#define FENALUKKI_NODE_KIND 0
#define FENALUKKI_NODE_RADIUS 1
#define FENALUKKI_NODE_X 2
#define FENALUKKI_NODE_Y 3
#define FENALUKKI_NODE_Z 4
#define FENALUKKI_NODE_WEIGHT 5
#define FENALUKKI_NUMBERS_MAX 3066
#define FENALUKKI_WRITE_BYTES_MAX 6144 /* 511 records and the trailer */

/* Marks: a tick's byte after a full or a marching cast. */
#define FENALUKKI_EMPTY 0
#define FENALUKKI_CROSSING 1
#define FENALUKKI_INSIDE 2
#define FENALUKKI_NOT_LOOKED_AT 3

/* k of a first hit's number. */
#define FENALUKKI_K_CROSSING 1
#define FENALUKKI_K_INSIDE 2
#define FENALUKKI_K_CLEAR 3
#define FENALUKKI_K_SPENT 4

/* The bounds at a place: how many, which is which, and the field 1 in them. */
#define FENALUKKI_BOUNDS 2
#define FENALUKKI_BOUNDS_LOW 0
#define FENALUKKI_BOUNDS_HIGH 1
#define FENALUKKI_BOUNDS_ONE ((int64_t)1 << 32)

/* The running totals: how many, which is which, where each one stays, and the
 * bytes of a saved record. */
#define FENALUKKI_TOTALS 3
#define FENALUKKI_TOTALS_CASTS 0
#define FENALUKKI_TOTALS_PROBES 1
#define FENALUKKI_TOTALS_REFUSALS 2
#define FENALUKKI_TOTALS_MAX UINT64_C(18446744073709551615) /* 2^64 - 1 */
#define FENALUKKI_SAVED_BYTES 12

/* Refusal numbers, and the greatest of them; 13 is not given. */
#define FENALUKKI_REFUSED_LENGTH 1
#define FENALUKKI_REFUSED_FILE_MARK 2
#define FENALUKKI_REFUSED_VERSION 3
#define FENALUKKI_REFUSED_DISTANCE 4
#define FENALUKKI_REFUSED_ISO 5
#define FENALUKKI_REFUSED_KIND 6
#define FENALUKKI_REFUSED_ZERO_BYTES 7
#define FENALUKKI_REFUSED_POINT 8
#define FENALUKKI_REFUSED_TOO_FEW_HELD 9
#define FENALUKKI_REFUSED_TOO_MANY_HELD 10
#define FENALUKKI_REFUSED_NOT_ONE_HELD 11
#define FENALUKKI_REFUSED_COORDINATE 12
#define FENALUKKI_REFUSED_ROOM 14
#define FENALUKKI_REFUSED_FLOAT 15
#define FENALUKKI_REFUSED_NUMBERS 16
#define FENALUKKI_REFUSED_WRITE_ROOM 17
#define FENALUKKI_REFUSED_SAVED 18
#define FENALUKKI_REFUSALS 18

#ifdef __cplusplus
extern "C" {
#endif

/*
 * Check of a file: its version, its node count and its iso-value.
 *
 * Returns
 *   1 to 11                                  the refusal number
 *   version * 2^32 + nodes * 65,536 + iso    version is 1 or 2, and nodes the
 *                                            count of records, 1 to 511
 *
 * A file that passes is refused by no other call for its bytes.
 */
uint64_t fenalukki_check(const uint8_t *file, size_t file_len);

/*
 * Read of a file: the check, and the numbers of its nodes.
 *
 * Returns what fenalukki_check returns:
 *   1 to 11                                  the refusal number
 *   version * 2^32 + nodes * 65,536 + iso    version is 1 or 2, and nodes the
 *                                            count of records, 1 to 511
 *
 * Unless refused, numbers[6 * i] to numbers[6 * i + 5] are the kind, r, x, y, z
 * and w of node i, for i from 0 to nodes - 1 in file order; an operator's last
 * five are 0. numbers[6 * nodes] and those after it are never written.
 */
uint64_t fenalukki_read(const uint8_t *file, size_t file_len,
                        int32_t numbers[3066]);

/*
 * Write of a part file: the records and the trailer of the nodes whose numbers
 * are given, from a place in the buffer on. The version, 1 for points of degree 4
 * or 2 for points of degree 6, is the file's.
 *
 * numbers[6 * i] to numbers[6 * i + 5] are the kind, r, x, y, z and w of node i,
 * in file order; an operator's last five are 0.
 *
 * Returns
 *   3, 5 to 11, 16 or 17             the refusal number
 *   65,536 + end                     end is place + 12 * nodes + 12, at most
 *                                    65,536: the place just after the trailer
 *
 * Unless refused, record i is buffer[place + 12 * i] and the 11 bytes after it,
 * and the trailer is the last 12 bytes before end. Bytes before place and from
 * end on are never written.
 *
 * buffer[0] to buffer[end - 1] are then a part file, whatever stands before
 * place. fenalukki_check and fenalukki_read of it return the version, the nodes
 * and the iso-value given, and fenalukki_read gives back the numbers given. The
 * other way round, what fenalukki_read gives of a file that begins with its first
 * record (it is 12 * nodes + 12 bytes long), the version and the iso-value
 * included, written at place 0 of a buffer that is no shorter, is that file byte
 * by byte.
 */
uint32_t fenalukki_write(const int32_t *numbers, size_t numbers_len,
                         uint32_t iso, uint32_t version,
                         uint8_t *buffer, size_t buffer_len, size_t place);

/*
 * Bounds at a place: two numbers between which the exact field lies there.
 *
 * Returns
 *   1 to 12    the refusal number
 *   65,536     bounds[0] is the low and bounds[1] the high, in units of 2^-32
 *
 * Unless refused, low <= field * 2^32 <= high. Where low is at least
 * iso * 2^32 the place is solid, where high is below it the place is empty, and
 * otherwise the bounds leave it open.
 *
 * Of each point 1 - d*d / (r*r) is rounded to a multiple of 1/65536, down and
 * up, and in version 2 its cube to a unit, down and up. So high - low is at most
 * 131,071 times the sum of the sizes of the part's weights, and in version 2
 * 196,606 times.
 */
uint32_t fenalukki_place_bounds(const uint8_t *file, size_t file_len,
                                int32_t x, int32_t y, int32_t z,
                                int64_t bounds[2]);

/*
 * Full cast: the mark of every tick, as far as the budget goes.
 *
 * Returns
 *   1 to 12 or 14      the refusal number
 *   65,536 + probes    complete
 *   131,072 + probes   spent: the budget was used up and another probe needed
 *
 * Unless refused, byte t of marks is the mark of tick t, for t from 0 to
 * 1,023: 0 empty, 1 crossing, 2 inside, 3 not looked at. A complete cast has
 * no 3. Of a spent one probes is the budget, the tick reached is the first
 * byte that is 3 (byte 0 if budget is 0), all bytes from it on are 3, and those
 * before it are as a larger budget would leave them.
 * Bytes from 1,024 on are never written.
 *
 * Where the ends coincide, all marks are that of the place, and a complete cast
 * takes 1 probe if the place is empty or inside and 2,047 if it is crossing.
 */
uint32_t fenalukki_full_cast(const uint8_t *file, size_t file_len,
                             int32_t ax, int32_t ay, int32_t az,
                             int32_t bx, int32_t by, int32_t bz,
                             uint32_t budget,
                             uint8_t *marks, size_t marks_len);

/*
 * Marching cast: a full cast by forward steps from A, with other probes.
 *
 * The first candidate is the 64 ticks from tick 0 on. A candidate is cut to what
 * is left of the ray, and is one probe. If it is decided, its ticks are marked,
 * and the next one begins after it and is twice its length. If it is undecided,
 * it is halved, rounding down; but one undecided tick is crossing, and the next
 * candidate is the two ticks after it.
 *
 * Returns
 *   1 to 12 or 14      the refusal number
 *   65,536 + probes    complete
 *   131,072 + probes   spent: the budget was used up and another probe needed
 *
 * Unless refused, byte t of marks is the mark of tick t, for t from 0 to
 * 1,023: 0 empty, 1 crossing, 2 inside, 3 not looked at. A complete cast has
 * no 3, and leaves the bytes that a complete full cast leaves. Of a spent one
 * probes is the budget, the tick reached is the first byte that is 3 (byte 0 if
 * budget is 0), all bytes from it on are 3, and those before it are as a larger
 * budget would leave them.
 * Bytes from 1,024 on are never written.
 *
 * Its probes are at most 2,052, and some ray takes them; 2,047 is not always
 * enough. Where the first 64 ticks are decided together, the first probe marks
 * them. The first probe of a full cast marks nothing, unless the whole ray is
 * decided together: then it is the only one, and a march takes five. So with a
 * budget of a handful of probes a march may be further along than a full cast.
 * For all ticks of a ray a full cast takes fewer probes on most rays tried, and
 * for the first hit alone there is fenalukki_first_hit. docs/BENCHMARKS.md has
 * the figures of both casts.
 *
 * Where the ends coincide, all marks are that of the place, and a complete cast
 * takes 5 probes if the place is empty or inside and 2,052 if it is crossing.
 */
uint32_t fenalukki_marching_cast(const uint8_t *file, size_t file_len,
                                 int32_t ax, int32_t ay, int32_t az,
                                 int32_t bx, int32_t by, int32_t bz,
                                 uint32_t budget,
                                 uint8_t *marks, size_t marks_len);

/*
 * First hit: the first tick that is not empty. It probes in the same order as
 * a full cast and stops as soon as that tick is known.
 *
 * Returns 1 to 12, the refusal number, or k * 2^32 + tick * 65,536 + probes:
 *   k = 1   the hit's tick is crossing
 *   k = 2   the hit's tick is inside
 *   k = 3   clear: every tick is empty; tick is 0
 *   k = 4   spent: tick is the one reached, every tick before it is empty, and
 *           probes is the budget
 *
 * How long it can take: a hit at tick h takes at most 2 h + 11 probes. With a
 * budget of 2 h + 11 or more, ticks 0 to h are looked at, unless the call is
 * refused or a hit comes before: if the first tick that is not empty is h or an
 * earlier one, the answer is that hit with its mark, never spent. A call that is
 * spent all the same has reached a tick after h, so that 0 to h are empty.
 *
 * To be sure of every hit in the first 100 ticks, which are 0 to 99, a budget of
 * 2 * 99 + 11 = 209 is enough. fenalukki_hit_budget, below, works the figure out;
 * from tick 1,018 on it would be 2,047 or more, and 2,047 is always enough.
 *
 * A ray whose tick 0 is crossing takes exactly 11 probes, and with a budget of 0
 * to 10 it is spent at tick 0: nothing less than 11 would do in the figure. It is
 * a figure of hits. A clear ray may take up to 2,047 probes, and is spent with a
 * budget of fewer than it takes.
 *
 * Where the ends coincide, the call asks about a place. With a budget of 11 or
 * more it is clear if the place is empty, and else a hit at tick 0 with the place's
 * mark: 1 probe if the place is empty or inside, 11 if it is crossing.
 */
uint64_t fenalukki_first_hit(const uint8_t *file, size_t file_len,
                             int32_t ax, int32_t ay, int32_t az,
                             int32_t bx, int32_t by, int32_t bz,
                             uint32_t budget);

/*
 * Column: a bit for each tick, solid or not. It has no budget and is never
 * spent.
 *
 * Returns
 *   1 to 12 or 14      the refusal number
 *   65,536 + probes    complete; the probes are those of a full cast
 *
 * Unless refused, bit t mod 8 of byte t / 8 of bits (the lowest bit is bit 0) is
 * that of tick t, for t from 0 to 1,023. Bytes from 128 on are never written.
 *
 *   inside      1
 *   empty       0
 *   crossing    1 if the field's low and high bounds at the tick's exact middle,
 *               (2 t + 1)/2048 of the way, add up to at least 2 * iso * 2^32,
 *               else 0
 *
 * The bounds at a middle are worked out as fenalukki_place_bounds does, enclose
 * the field there, and are not counted as probes. But for their rounding the bit
 * of any tick, crossing or not, tells whether the middle is solid: where it is 1
 * the field there is at least the iso-value minus, and where it is 0 it is below
 * the iso-value plus, the sum over the part's points of the size of the weight
 * divided by 16,384. In version 2 it is 7/65536 of the size of the weight.
 *
 * So a wall is printed to within a tick of its exact thickness on the ray, but
 * for that rounding; with all its crossing ticks it would be up to a tick more
 * at each face, or more still where several stand in a row. But a strut thinner
 * than a tick may have no bit, where it lies between two middles. Its ticks are
 * marked crossing all the same: a host that must not lose a strut looks at the
 * marks of a full cast.
 *
 * Where the ends coincide, every middle is that one place, and the bits are all 1
 * or all 0.
 */
uint32_t fenalukki_column(const uint8_t *file, size_t file_len,
                          int32_t ax, int32_t ay, int32_t az,
                          int32_t bx, int32_t by, int32_t bz,
                          uint8_t *bits, size_t bits_len);

/*
 * Viewer's first hit: a first hit on a ray that is given in millimetres.
 *
 * A camera's coordinates are as a rule no multiples of 1/64 mm, and such a ray
 * is refused with 15: the call rounds nothing. fenalukki_round_to_step, below,
 * rounds a coordinate to the nearest step before the call. Minus zero is 0.
 *
 * A coordinate beyond 2047/64 = 31.984375 mm either way is refused with 15 as
 * well: a camera farther out clips its ray to that cube first, and the entry
 * lies between the ends that are handed over.
 *
 * A cursor asks about a place by a ray whose ends coincide: with a budget of 11 or
 * more it is clear if the place is empty and a hit at tick 0 if it is inside or
 * crossing, for 1 probe or, crossing, 11. Zero and minus zero are one coordinate.
 *
 * Returns 1 to 11 or 15, the refusal number, or k * 2^32 + tick * 65,536 +
 * probes, as fenalukki_first_hit does for the ray in steps:
 *   k = 1   the hit's tick is crossing
 *   k = 2   the hit's tick is inside
 *   k = 3   clear: every tick is empty; tick is 0
 *   k = 4   spent: tick is the one reached, every tick before it is empty, and
 *           probes is the budget
 *
 * The entry of a hit, or the place that a spent call reached, is tick / 1024 of
 * the way from A to B exactly; fenalukki_place gives it as a float.
 *
 * How long it can take is said at fenalukki_first_hit: a hit at tick h takes at
 * most 2 h + 11 probes, and with that budget or more it is never spent.
 */
uint64_t fenalukki_viewer_first_hit(const uint8_t *file, size_t file_len,
                                    float ax, float ay, float az,
                                    float bx, float by, float bz,
                                    uint32_t budget);

/*
 * The counted calls: each returns the number of the call that it is named for
 * and leaves the same bytes, whatever the totals are, and adds to the totals.
 *
 *   totals[0]   casts: one more, unless refused
 *   totals[1]   probes: the call's probes more, unless refused
 *   totals[2]   refusals: one more, if refused
 *
 * A total that would pass 2^64 - 1 = 18,446,744,073,709,551,615 becomes that
 * number and stays there; the others go on. The totals are the host's: it sets
 * them to 0 beforehand, or restores them by the call after these.
 *
 * The totals can be checked by a rule. From 0 on, where these calls alone have
 * changed them and no saved record was read, the probes are at most 2,047 times
 * the casts if every marching cast among the calls was refused, and at most 2,052
 * times in any case, while no total has reached its ceiling and afterwards too.
 * In C these products can wrap; totals[1] / 2047 <= totals[0] and
 * totals[1] / 2052 <= totals[0], which follow, cannot.
 */
uint32_t fenalukki_full_cast_counted(const uint8_t *file, size_t file_len,
                                     int32_t ax, int32_t ay, int32_t az,
                                     int32_t bx, int32_t by, int32_t bz,
                                     uint32_t budget,
                                     uint8_t *marks, size_t marks_len,
                                     uint64_t totals[3]);

uint32_t fenalukki_marching_cast_counted(const uint8_t *file, size_t file_len,
                                         int32_t ax, int32_t ay, int32_t az,
                                         int32_t bx, int32_t by, int32_t bz,
                                         uint32_t budget,
                                         uint8_t *marks, size_t marks_len,
                                         uint64_t totals[3]);

uint64_t fenalukki_first_hit_counted(const uint8_t *file, size_t file_len,
                                     int32_t ax, int32_t ay, int32_t az,
                                     int32_t bx, int32_t by, int32_t bz,
                                     uint32_t budget,
                                     uint64_t totals[3]);

uint32_t fenalukki_column_counted(const uint8_t *file, size_t file_len,
                                  int32_t ax, int32_t ay, int32_t az,
                                  int32_t bx, int32_t by, int32_t bz,
                                  uint8_t *bits, size_t bits_len,
                                  uint64_t totals[3]);

uint64_t fenalukki_viewer_first_hit_counted(const uint8_t *file, size_t file_len,
                                            float ax, float ay, float az,
                                            float bx, float by, float bz,
                                            uint32_t budget,
                                            uint64_t totals[3]);

/*
 * Restore of totals: a saved record takes the place of what they were, and what
 * was counted until then is lost.
 *
 * A saved record is 12 bytes: casts, probes and refusals, 32 bits each,
 * little-endian. It is what a host of version 1 had in memory as
 * uint32_t totals[3].
 *
 * Returns
 *   18         the refusal number: the saved record is not exactly 12 bytes
 *   65,536     totals[0] is the record's casts, totals[1] its probes and
 *              totals[2] its refusals
 *
 * Each number is unchanged, 4,294,967,295 too, which then means this many or
 * more, since a total of 32 bits stayed there. The counted calls go on from it.
 * Refused, the call leaves the totals as they were; its refusal is not counted.
 *
 * Totals of 64 bits are the host's to save and to set again: their 24 bytes are
 * no saved record, and refused.
 */
uint32_t fenalukki_restore_totals(const uint8_t *saved, size_t saved_len,
                                  uint64_t totals[3]);

#ifdef __cplusplus
}
#endif

/*
 * Readers of the numbers. None of this is proved.
 */

/* Of any call: its refusal number, or 0 where it was not refused. */
static inline int fenalukki_refusal(uint64_t number)
{
    return number < 65536 ? (int)number : 0;
}

/* Of a casting call: its probes; 0 where it was refused. */
static inline uint32_t fenalukki_probes(uint64_t number)
{
    return number < 65536 ? 0 : (uint32_t)(number & 0xffff);
}

/* Of a casting call: 1 if it is spent, else 0. */
static inline int fenalukki_is_spent(uint64_t number)
{
    uint64_t k = number >> 32;

    return k > 0 ? k == FENALUKKI_K_SPENT : number >= 131072;
}

/* Of the marks that a full or a marching cast left, if it was not refused: the
 * tick reached, which is the first byte that is 3, or 1,024 where none is:
 * complete. */
static inline int fenalukki_tick_reached(const uint8_t *marks)
{
    int tick = 0;

    while (tick < FENALUKKI_TICKS && marks[tick] != FENALUKKI_NOT_LOOKED_AT)
        tick++;
    return tick;
}

/* Of the bits that a column left, if it was not refused: 1 if the tick, 0 to
 * 1,023, is inside, or crossing and solid by its middle, else 0. */
static inline int fenalukki_bit(const uint8_t *bits, int tick)
{
    return bits[tick / 8] >> (tick % 8) & 1;
}

/* Of a first hit, the viewer's too: k, 1 to 4; 0 where it was refused. */
static inline int fenalukki_k(uint64_t number)
{
    return (int)(number >> 32);
}

/* Of a first hit, the viewer's too: the hit's tick or the tick reached; 0 where
 * it is clear or was refused. */
static inline int fenalukki_tick(uint64_t number)
{
    return (int)(number >> 16 & 0xffff);
}

/* Of a first hit, the viewer's too: the mark of the hit's tick. Where it is
 * clear every tick is empty, and the tick that a spent one reached was not
 * looked at; nor was any where it was refused. */
static inline int fenalukki_mark(uint64_t number)
{
    switch (fenalukki_k(number)) {
    case FENALUKKI_K_CROSSING:
        return FENALUKKI_CROSSING;
    case FENALUKKI_K_INSIDE:
        return FENALUKKI_INSIDE;
    case FENALUKKI_K_CLEAR:
        return FENALUKKI_EMPTY;
    default:
        return FENALUKKI_NOT_LOOKED_AT;
    }
}

/* Of a first hit, the viewer's too: how far along the ray its tick begins, 0 at
 * A and 1 at B, without rounding; 0 where it is clear or was refused. */
static inline float fenalukki_place(uint64_t number)
{
    return (float)fenalukki_tick(number) / FENALUKKI_TICKS;
}

/* Before a first hit, the viewer's too: a hit at the tick, 0 to 1,023, takes at
 * most so many probes, and with a budget of so many or more a hit there or before
 * is never answered as spent: 2 tick + 11, or 2,047 where that is less. */
static inline uint32_t fenalukki_hit_budget(int tick)
{
    return tick < (FENALUKKI_ENOUGH - 11) / 2 ? 2 * (uint32_t)tick + 11 : FENALUKKI_ENOUGH;
}

/* Of a check or a read: the file's version, 1 or 2; 0 where it was refused. */
static inline int fenalukki_file_version(uint64_t number)
{
    return (int)(number >> 32);
}

/* Of a check or a read: the file's node count; 0 where it was refused. */
static inline int fenalukki_nodes(uint64_t number)
{
    return (int)(number >> 16 & 0xffff);
}

/* Of a check or a read: the iso-value; 0 where it was refused. */
static inline int fenalukki_iso(uint64_t number)
{
    return number < 65536 ? 0 : (int)(number & 0xffff);
}

/* Of a write: the place just after the trailer; 0 where it was refused. From a
 * buffer's start it is the part file's length. */
static inline size_t fenalukki_end(uint64_t number)
{
    return number < 65536 ? 0 : (size_t)(number - 65536);
}

/* Of any call's number, or of a refusal number alone: why it was refused. */
static inline const char *fenalukki_refusal_text(uint64_t number)
{
    static const char *const texts[FENALUKKI_REFUSALS + 1] = {
        "no refusal number",
        "the file is shorter than 24 or longer than 65,536 bytes",
        "the file's last four bytes are not hexadecimal 54 52 45 45",
        "the version is not 1 or 2",
        "the distance to the first record is outside 24 to 6,144, not a multiple of 12, or more than the file's length",
        "the iso-value is outside 1 to 4,096",
        "a node's kind is outside 1 to 5",
        "a record's zero bytes, or an operator's five other numbers, are not all zero",
        "a point's radius is outside 1 to 1,024, a coordinate outside -2,047 to 2,047, or the weight outside -4,096 to 4,096",
        "an operator comes where fewer than two values are held",
        "a point comes where 64 values are held",
        "the values held at the end are not exactly one",
        "a coordinate of the place or ray is outside -2,047 to 2,047",
        "no refusal number", /* 13 is not given */
        "the buffer is smaller than 1,024 bytes for marks or 128 for a column",
        "a float in millimetres is not a multiple of 1/64 from -2,047/64 to 2,047/64",
        "the count of numbers is not a multiple of six from 6 to 3,066",
        "records and trailer do not end within the buffer and by byte 65,536",
        "the saved record is not exactly 12 bytes long"
    };

    if (number >= 65536)
        return "not refused";
    return texts[number <= FENALUKKI_REFUSALS ? number : 0];
}

/*
 * For the viewer's calls. None of this is proved: what is proved speaks of the
 * ray that is handed over.
 *
 * A coordinate in millimetres, rounded to the nearest step; half a step goes
 * away from zero. What rounds to no step from -2,047 to 2,047 comes back as it
 * is (beyond the range of a float, as an infinity), and so does a NaN: the call
 * refuses it with 15. An end moves by less than 0.014 mm, and ends that round
 * to one place ask about that place.
 */
static inline float fenalukki_round_to_step(double mm)
{
    double steps = mm * FENALUKKI_STEPS_PER_MM, rest;
    int32_t whole;

    if (!(steps > -2047.5 && steps < 2047.5))
        return (float)mm;
    whole = (int32_t)steps; /* towards zero */
    rest = steps - whole; /* exact */
    whole += (rest >= 0.5) - (rest <= -0.5);
    return (float)whole / FENALUKKI_STEPS_PER_MM;
}

#endif
