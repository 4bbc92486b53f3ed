/* Reads requests from standard input, makes the calls and writes the answers to
   standard output, until the input ends. All numbers are little-endian. A list is a u32
   count and then its elements; in an answer a list is the lent table as it stands after
   the call, without a count.

     B  i32 list touches, u16 list faces
        -> u8 number, u16 place, u16 face count, i64 volume, u16 faces
     P  i32 list touches, u16 list faces, i32 x, y, z
        -> u8 number, u16 place, u8 kind, u16 face number, i64 minus V
     L  i32 list touches, u16 a, b, c
        -> u8 number, u16 place, 4 doubles
     Q  i32 list touches, u16 a, b, c, i32 x, y, z
        -> u8 number, u16 place, 1 double
     R  u8 list record, i32 list touches
        -> u8 number, u16 place, u16 touch count, i32 touches
     W  i32 list touches, u8 list record
        -> u8 number, u16 place, u32 byte count, u8 record
     C  u8 list record, u8 list copy
        -> u8 number, u16 place, u32 byte count, u8 copy
     D  i32 list touches, i32 x, y
        -> u8 number, u16 place, u8 kind, 2 doubles

   Ends with 2 if the input is no such stream or the output cannot be written, with 3 if
   a call gave a number that its place in the answer cannot hold, and with 4 if a call
   wrote past the end of what it was lent. */

#include "chienlohup.h"

#if __STDC_HOSTED__
#include <unistd.h>
#else
long read(int file, void *to, size_t count);
long write(int file, const void *from, size_t count);
void _exit(int status);
#endif

enum { MOST = 70000, GUARD = 16, PIECE = 65536, OUTS = 5, DOUBLES = 4 };

static uint8_t in_piece[PIECE], out_piece[PIECE];
static size_t in_at, in_end, out_end;

/* Each table stands between two guards. */
static int32_t guarded_touches[GUARD + MOST + GUARD];
static uint16_t guarded_faces[GUARD + MOST + GUARD];
static uint8_t guarded_bytes[GUARD + MOST + GUARD];
static int32_t *const touches = guarded_touches + GUARD;
static uint16_t *const faces = guarded_faces + GUARD;
static uint8_t *const bytes = guarded_bytes + GUARD;
static uint8_t record[MOST];

/* The results, one more than any call gives, to see a call that gives too much. */
static int64_t out[OUTS + 1];
static double doubles[DOUBLES + 1];

/* Stands in every result and guard before a call. No right answer holds it. */
static const uint64_t MARK = 0x7A5C35A3CA5C35A3ULL;

static void flush(void)
{
    size_t at = 0;
    while (at < out_end) {
        long done = (long)write(1, out_piece + at, out_end - at);
        if (done <= 0)
            _exit(2);
        at += (size_t)done;
    }
    out_end = 0;
}

/* The answers given so far are written first: they show how far it came. */
static void stop(int status)
{
    flush();
    _exit(status);
}

static int at_end(void)
{
    if (in_at == in_end) {
        long got = (long)read(0, in_piece, PIECE);
        if (got < 0)
            stop(2);
        in_at = 0;
        in_end = (size_t)got;
    }
    return in_at == in_end;
}

static uint32_t take(int count)
{
    uint32_t number = 0;
    for (int i = 0; i < count; i++) {
        if (at_end())
            stop(2);
        number |= (uint32_t)in_piece[in_at++] << (8 * i);
    }
    return number;
}

static int32_t take_signed(void)
{
    uint32_t number = take(4);
    return number < 0x80000000U ? (int32_t)number
                                : (int32_t)(number - 0x80000000U) - 2147483647 - 1;
}

static size_t take_length(void)
{
    uint32_t length = take(4);
    if (length > MOST)
        stop(2);
    return length;
}

/* What stands after a list's end is left from earlier requests, so that a call which
   reads past the end does not answer as if it had not. */
static size_t take_touches(void)
{
    size_t length = take_length();
    for (size_t i = 0; i < length; i++)
        touches[i] = take_signed();
    return length;
}

static size_t take_faces(void)
{
    size_t length = take_length();
    for (size_t i = 0; i < length; i++)
        faces[i] = (uint16_t)take(2);
    return length;
}

static size_t take_bytes(uint8_t *to)
{
    size_t length = take_length();
    for (size_t i = 0; i < length; i++)
        to[i] = (uint8_t)take(1);
    return length;
}

static void put(uint64_t number, int count)
{
    for (int i = 0; i < count; i++) {
        if (out_end == PIECE)
            flush();
        out_piece[out_end++] = (uint8_t)(number >> (8 * i));
    }
}

static void put_out(int which, int count)
{
    if (out[which] < 0 || (uint64_t)out[which] >> (8 * count) != 0)
        stop(3);
    put((uint64_t)out[which], count);
}

static uint64_t bits_of(double number)
{
    union { double number; uint64_t bits; } both;
    both.number = number;
    return both.bits;
}

static double double_of(uint64_t bits)
{
    union { double number; uint64_t bits; } both;
    both.bits = bits;
    return both.number;
}

static void mark_results(void)
{
    for (int i = 0; i <= OUTS; i++)
        out[i] = (int64_t)MARK;
    for (int i = 0; i <= DOUBLES; i++)
        doubles[i] = double_of(MARK);
}

static void check_results(int given, int given_doubles)
{
    for (int i = given; i <= OUTS; i++)
        if (out[i] != (int64_t)MARK)
            stop(4);
    for (int i = given_doubles; i <= DOUBLES; i++)
        if (bits_of(doubles[i]) != MARK)
            stop(4);
}

static void set_guards(void *table, size_t size)
{
    uint8_t *start = table;
    for (int i = 0; i < GUARD; i++)
        start[-1 - i] = start[size + (size_t)i] = (uint8_t)(MARK >> i);
}

static void check_guards(const void *table, size_t size)
{
    const uint8_t *start = table;
    for (int i = 0; i < GUARD; i++)
        if (start[-1 - i] != (uint8_t)(MARK >> i)
            || start[size + (size_t)i] != (uint8_t)(MARK >> i))
            stop(4);
}

static void put_number_and_place(void)
{
    put_out(0, 1);
    put_out(1, 2);
}

static void ask_build(void)
{
    size_t touches_len = take_touches(), faces_len = take_faces();
    set_guards(faces, faces_len * sizeof *faces);
    chienlohup_build(touches, touches_len, faces, faces_len, out);
    check_guards(faces, faces_len * sizeof *faces);
    check_results(4, 0);
    put_number_and_place();
    put_out(2, 2);
    put((uint64_t)out[3], 8);
    for (size_t i = 0; i < faces_len; i++)
        put(faces[i], 2);
}

static void ask_place(void)
{
    size_t touches_len = take_touches(), faces_len = take_faces();
    int32_t x = take_signed(), y = take_signed(), z = take_signed();
    chienlohup_place(touches, touches_len, faces, faces_len, x, y, z, out);
    check_results(5, 0);
    put_number_and_place();
    put_out(2, 1);
    put_out(3, 2);
    put((uint64_t)out[4], 8);
}

static void ask_plane(void)
{
    size_t touches_len = take_touches();
    uint16_t a = (uint16_t)take(2), b = (uint16_t)take(2), c = (uint16_t)take(2);
    chienlohup_plane(touches, touches_len, a, b, c, out, doubles);
    check_results(2, 4);
    put_number_and_place();
    for (int i = 0; i < 4; i++)
        put(bits_of(doubles[i]), 8);
}

static void ask_plane_reading(void)
{
    size_t touches_len = take_touches();
    uint16_t a = (uint16_t)take(2), b = (uint16_t)take(2), c = (uint16_t)take(2);
    int32_t x = take_signed(), y = take_signed(), z = take_signed();
    chienlohup_plane_reading(touches, touches_len, a, b, c, x, y, z, out, doubles);
    check_results(2, 1);
    put_number_and_place();
    put(bits_of(doubles[0]), 8);
}

static void ask_read(void)
{
    size_t record_len = take_bytes(record), touches_len = take_touches();
    set_guards(touches, touches_len * sizeof *touches);
    chienlohup_read(record, record_len, touches, touches_len, out);
    check_guards(touches, touches_len * sizeof *touches);
    check_results(3, 0);
    put_number_and_place();
    put_out(2, 2);
    for (size_t i = 0; i < touches_len; i++)
        put((uint32_t)touches[i], 4);
}

static void ask_write(void)
{
    size_t touches_len = take_touches(), bytes_len = take_bytes(bytes);
    set_guards(bytes, bytes_len);
    chienlohup_write(touches, touches_len, bytes, bytes_len, out);
    check_guards(bytes, bytes_len);
    check_results(3, 0);
    put_number_and_place();
    put_out(2, 4);
    for (size_t i = 0; i < bytes_len; i++)
        put(bytes[i], 1);
}

static void ask_copy(void)
{
    size_t record_len = take_bytes(record), bytes_len = take_bytes(bytes);
    set_guards(bytes, bytes_len);
    chienlohup_copy(record, record_len, bytes, bytes_len, out);
    check_guards(bytes, bytes_len);
    check_results(3, 0);
    put_number_and_place();
    put_out(2, 4);
    for (size_t i = 0; i < bytes_len; i++)
        put(bytes[i], 1);
}

static void ask_plumb(void)
{
    size_t touches_len = take_touches();
    int32_t x = take_signed(), y = take_signed();
    chienlohup_plumb(touches, touches_len, x, y, out, doubles);
    check_results(3, 2);
    put_number_and_place();
    put_out(2, 1);
    for (int i = 0; i < 2; i++)
        put(bits_of(doubles[i]), 8);
}

int main(void)
{
    while (!at_end()) {
        uint32_t kind = take(1);
        mark_results();
        switch (kind) {
        case 'B': ask_build(); break;
        case 'P': ask_place(); break;
        case 'L': ask_plane(); break;
        case 'Q': ask_plane_reading(); break;
        case 'R': ask_read(); break;
        case 'W': ask_write(); break;
        case 'C': ask_copy(); break;
        case 'D': ask_plumb(); break;
        default: stop(2);
        }
    }
    flush();
    return 0;
}
