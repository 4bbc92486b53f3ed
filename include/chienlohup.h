/* Hulls of touched blocks: the calls of the archive.

   A touch is three numbers x, y, z, each from -30000 to 30000. A touch list holds at
   most 64 touches, three int32_t to a touch; touches are numbered from 0. A face is
   three touch numbers. A face table holds three uint16_t to a face; faces are numbered
   from 0. A face looks outward: a place q is in front of face (a, b, c) if
   ((b - a) cross (c - a)) dot (q - a) is positive.

   Every length is a count of elements, not of bytes. Any length is allowed; a length
   that does not do is refused. No pointer may be null, even where its length is 0, and
   each must be aligned for its type. A lent table, `out`, `plane`, `reading` and
   `heights` must not overlap each other or anything else handed in.

   Every call writes all of its `out`. out[0] is the refusal number, 0 if the call was
   not refused. out[1] is the place of the refusal: the touch number for refusal 3, else
   0. On a refusal every later value of `out` is 0, every double is plus zero and no
   lent table is changed. On success a lent table begins with the result, and all
   numbers after the result stay as they were.

   The refusal numbers:
     1  the coordinate list's length is no multiple of 3
     2  more than 64 touches
     3  a coordinate is out of range; the place is the first such touch's number
     4  flat: all touches lie in one plane (fewer than four touches always do)
     5  the face table has no room for all faces of the hull; never with room for 124
     6  the face table is empty, its length is no multiple of 3, it has more than 1344
        faces, or a touch number in it is not below the touch count; for a single face:
        such a touch number, or three corners in line
     7  the asked place is out of range; for a plumb line: its x or its y
     8  the record is shorter than 3 bytes, or its count is not that of the bytes after
        the count
     9  the record's version byte is not 1
    10  the record's bytes after the version byte are no multiple of 6
    11  the lent coordinate list is too short for the record's touches
    12  the lent record buffer is too short
    17  the asked place is in front of no face and on the plane of one, but in no triangle
        on whose plane it lies; for a table that building wrote this is never given

   A call gives the first refusal, in its own order, that applies.

   Doubles are worked in the processor's usual rounding, to nearest, and all that is said
   of them here is said for it. With the caller's rounding mode set otherwise they are not
   covered: rounding downward, a reading of zero comes out as minus zero.

   Of the C library the archive needs memcpy and memset, and nothing else. */

#ifndef CHIENLOHUP_H
#define CHIENLOHUP_H

#if __STDC_HOSTED__
#include <stddef.h>
#include <stdint.h>
#else
/* The same names where a compiler comes without any headers. */
typedef __UINT8_TYPE__ uint8_t;
typedef __UINT16_TYPE__ uint16_t;
typedef __UINT32_TYPE__ uint32_t;
typedef __UINT64_TYPE__ uint64_t;
typedef __INT32_TYPE__ int32_t;
typedef __INT64_TYPE__ int64_t;
typedef __SIZE_TYPE__ size_t;
#endif

#ifdef __cplusplus
extern "C" {
#endif

/* Builds the hull of the touches. Refusals in order: 1, 2, 3, 4, 5.
   out[2]: the count of faces. out[3]: six times the hull's volume.
   `faces` is lent: it then begins with out[2] faces. Its room is faces_len / 3 faces,
   rounded down; a length that is no multiple of 3 is no fault here. n touches give at
   most 2 * n - 4 faces, so with room for these the call is never refused 5; room for
   124 faces, 372 numbers, is enough for every list. */
void chienlohup_build(const int32_t *touches, size_t touches_len,
                      uint16_t *faces, size_t faces_len, int64_t out[4]);

/* Says where the place (x, y, z) lies against a face table, be it a hull or not.
   Refusals in order: 1, 2, 3, 6, 7, 17.
   out[2]: the kind, 0 refused, 1 outside, 2 on, 3 inside. These are no refusal numbers.
   out[3]: outside, the number of the worst face, the one that the place is most in front
   of: the one with the greatest out[4], of equals the first; on, the number of the first
   face whose plane holds the place and whose triangle contains it, border included;
   inside, 0. A face with its corners in line contains the smallest segment that has
   them, one whose corners are one point that point.
   out[4]: outside, ((b - a) cross (c - a)) dot (q - a) of that face and the place q, which
   is minus V and above zero: six times the volume between the place and the face. A
   large face counts for more than a small one, and it is no length. Else 0.
   Nothing is lent. */
void chienlohup_place(const int32_t *touches, size_t touches_len,
                      const uint16_t *faces, size_t faces_len,
                      int32_t x, int32_t y, int32_t z, int64_t out[5]);

/* The plane of the face with the touch numbers a, b, c. Refusals in order: 1, 2, 3, 6.
   plane[0] to plane[2]: the normal (b - a) cross (c - a). plane[3]: its dot product
   with a. Each is exactly that whole number, a zero being plus zero; all four are plus
   zero on a refusal. Nothing is lent. */
void chienlohup_plane(const int32_t *touches, size_t touches_len,
                      uint16_t a, uint16_t b, uint16_t c,
                      int64_t out[2], double plane[4]);

/* Reads the plane of the face a, b, c at the place (x, y, z).
   Refusals in order: 1, 2, 3, 6, 7.
   reading[0]: normal dot place minus plane[3], exactly that whole number: above zero in
   front of the face, below zero behind it, plus zero on its plane and on a refusal.
   Nothing is lent. */
void chienlohup_plane_reading(const int32_t *touches, size_t touches_len,
                              uint16_t a, uint16_t b, uint16_t c,
                              int32_t x, int32_t y, int32_t z,
                              int64_t out[2], double reading[1]);

/* Builds the hull of the touches and drops a plumb line at (x, y): at which heights z
   is (x, y, z) on the hull or inside it. Refusals in order: 1, 2, 3, 4, 7.
   out[2]: the kind, 0 refused, 1 misses, 2 touches, 3 goes through. These are no refusal
   numbers, and no kinds of a place.
   heights[0]: where the line enters, the upper height. heights[1]: where it leaves, the
   lower one. A line that touches has one height, and both are that. Each is the double
   nearest to the exact height; a height of zero is plus zero, and both are plus zero for
   a line that misses and on a refusal. The kind is decided on the exact heights: a line
   that goes through can have two heights that are the same double.
   A line along an upright side or edge goes through. The hull is kept within the call,
   which always has room for it. Nothing is lent. */
void chienlohup_plumb(const int32_t *touches, size_t touches_len,
                      int32_t x, int32_t y, int64_t out[3], double heights[2]);

/* Reads a touch record. Refusals in order: 8, 9, 10, 2, 3, 11.
   out[2]: the count of touches.
   `touches` is lent: it then begins with 3 * out[2] coordinates. Any length that holds
   them will do, 0 for a record without touches. */
void chienlohup_read(const uint8_t *record, size_t record_len,
                     int32_t *touches, size_t touches_len, int64_t out[3]);

/* Writes the touches as a record. Refusals in order: 1, 2, 3, 12.
   out[2]: the count of bytes, 3 + 6 * touches.
   `record` is lent: it then begins with those bytes. */
void chienlohup_write(const int32_t *touches, size_t touches_len,
                      uint8_t *record, size_t record_len, int64_t out[3]);

/* Reads a touch record and writes it again. Refusals in order: 8, 9, 10, 2, 3, 12.
   out[2]: the count of bytes, 3 + 6 * touches.
   `copy` is lent: it then begins with the record's bytes. */
void chienlohup_copy(const uint8_t *record, size_t record_len,
                     uint8_t *copy, size_t copy_len, int64_t out[3]);

#ifdef __cplusplus
}
#endif

#endif
