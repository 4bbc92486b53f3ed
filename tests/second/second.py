#!/usr/bin/env python3
"""The second program: answers the requests of tests/asked.c from the papers alone.

It reads requests from standard input and writes the answers to standard output. It
shares no code and no table with the library, so that an error in either shows as a
difference. It works in whole numbers throughout, and in fractions of them for heights.
"""

import fractions
import functools
import struct
import sys

# 01, Numbers
MOST_TOUCHES = 64
FARTHEST = 30_000
MOST_FACES = 1_344

# 01, Building 2
STARTING_FACES = ("ABC", "ADB", "BDC", "CDA")

# 01, Touch record
VERSION = 1
BYTE_ORDER = "big"

# 01, Where a place lies
REFUSED, OUTSIDE, ON, INSIDE = 0, 1, 2, 3

# 02, A3: the readings; REFUSED is 0 here too
MISSES, TOUCHES, THROUGH = 1, 2, 3

# 01, Refusal numbers, and 02: each call's order
ORDER = {
    "B": (1, 2, 3, 4, 5),
    "P": (1, 2, 3, 6, 7, 17),
    "L": (1, 2, 3, 6),
    "Q": (1, 2, 3, 6, 7),
    "R": (8, 9, 10, 2, 3, 11),
    "W": (1, 2, 3, 12),
    "C": (8, 9, 10, 2, 3, 12),
    "D": (1, 2, 3, 4, 7),
}


# Volume and the four-corner rule


def determinant3(p, q, r):
    # 01, Volume and the four-corner rule: three rows x, y, z
    return (
        p[0] * (q[1] * r[2] - q[2] * r[1])
        - p[1] * (q[0] * r[2] - q[2] * r[0])
        + p[2] * (q[0] * r[1] - q[1] * r[0])
    )


def V(a, b, c, d):
    # 01, Volume and the four-corner rule: rows x, y, z, 1, by the column of ones
    return (
        determinant3(a, b, c)
        - determinant3(a, b, d)
        + determinant3(a, c, d)
        - determinant3(b, c, d)
    )


def V_by_steps(a, b, c, d):
    # 02, A4: every number between, in the order and under the names of the chapter's Code 4.16
    ax, ay, az = (a[i] - d[i] for i in range(3))
    bx, by, bz = (b[i] - d[i] for i in range(3))
    cx, cy, cz = (c[i] - d[i] for i in range(3))
    x, y, z = by * cz - bz * cy, bz * cx - bx * cz, bx * cy - by * cx
    return (
        (("ax", ax), ("ay", ay), ("az", az)),
        (("bx", bx), ("by", by), ("bz", bz)),
        (("cx", cx), ("cy", cy), ("cz", cz)),
        (("by*cz - bz*cy", x), ("bz*cx - bx*cz", y), ("bx*cy - by*cx", z)),
        (("ax * (by*cz - bz*cy)", ax * x), ("ay * (bz*cx - bx*cz)", ay * y), ("az * (bx*cy - by*cx)", az * z)),
        (("vol", ax * x + ay * y + az * z),),
    )


def V_of_face(touches, face, place):
    # 01, Volume and the four-corner rule
    a, b, c = face
    return V(touches[a], touches[b], touches[c], place)


def in_front(volume):
    # 01, Volume and the four-corner rule
    return volume < 0


def on_plane(volume):
    # 01, Volume and the four-corner rule
    return volume == 0


def visible(touches, face, k):
    # 01, Volume and the four-corner rule: edge-on is not visible
    return in_front(V_of_face(touches, face, touches[k]))


def plane(a, b, c):
    # 01, Volume and the four-corner rule: (b - a) cross (c - a), and its dot with a
    u = [b[i] - a[i] for i in range(3)]
    w = [c[i] - a[i] for i in range(3)]
    x = u[1] * w[2] - u[2] * w[1]
    y = u[2] * w[0] - u[0] * w[2]
    z = u[0] * w[1] - u[1] * w[0]
    return x, y, z, x * a[0] + y * a[1] + z * a[2]


def reading(a, b, c, q):
    # 01, Volume and the four-corner rule
    return -V(a, b, c, q)


def double(whole):
    # 01, Volume and the four-corner rule: exactly that whole number, zero plus zero
    number = float(whole)
    assert int(number) == whole
    return number


def in_line(a, b, c):
    # 01, Building 1
    return plane(a, b, c)[:3] == (0, 0, 0)


# Building


def start(touches):
    # 01, Building 1: the numbers of P, Q, R, S, or None if the list is flat
    every = range(len(touches))
    p = next(iter(every), None)
    if p is None:
        return None
    P = touches[p]
    q = next((i for i in every if touches[i] != P), None)
    if q is None:
        return None
    Q = touches[q]
    r = next((i for i in every if not in_line(P, Q, touches[i])), None)
    if r is None:
        return None
    R = touches[r]
    s = next((i for i in every if V(P, Q, R, touches[i]) != 0), None)
    if s is None:
        return None
    return p, q, r, s


def starting_faces(touches, p, q, r, s):
    # 01, Building 2
    if V(touches[p], touches[q], touches[r], touches[s]) < 0:
        p, q = q, p
    corner = {"A": p, "B": q, "C": r, "D": s}
    return [tuple(corner[name] for name in face) for face in STARTING_FACES]


def others(touches, first_four):
    # 01, Building 3: every other touch by rising number, those below S too
    return [k for k in range(len(touches)) if k not in first_four]


def sides(face):
    # 01, Building 3
    a, b, c = face
    return [(a, b), (b, c), (c, a)]


def cone_face(a, b, k):
    # 01, Building 3
    return a, b, k


def with_touch(touches, faces, k):
    # 01, Building 3: the new list
    kept, seen = [], []
    for face in faces:
        (seen if visible(touches, face, k) else kept).append(face)
    if not seen:
        return faces
    seen_sides = {side for face in seen for side in sides(face)}
    cone = [
        cone_face(a, b, k)
        for face in seen
        for a, b in sides(face)
        if (b, a) not in seen_sides
    ]
    return kept + cone


@functools.lru_cache(maxsize=4)
def hull(touches):
    # 01, Building: the face list, or None if the touches are flat
    first_four = start(touches)
    if first_four is None:
        return None
    faces = starting_faces(touches, *first_four)
    for k in others(touches, first_four):
        faces = with_touch(touches, faces, k)
    return tuple(faces)


def volume(touches, faces):
    # 01, Building 4
    return sum(V_of_face(touches, face, touches[0]) for face in faces)


# Where a place lies


def difference(p, q):
    return [p[i] - q[i] for i in range(3)]


def dot(u, w):
    return sum(u[i] * w[i] for i in range(3))


def on_segment(a, b, c, q):
    # 02, A5: between the two corners that are farthest apart
    s, t = max(((a, b), (b, c), (c, a)), key=lambda ends: dot(difference(*ends), difference(*ends)))
    way, here = difference(t, s), difference(q, s)
    return in_line(s, t, q) and 0 <= dot(way, here) <= dot(way, way) if s != t else q == s


def in_triangle(a, b, c, q):
    # 02, A5: the shares of two sides that lead from a to q, worked from the products of the sides
    u, w, here = difference(b, a), difference(c, a), difference(q, a)
    uu, uw, ww, hu, hw = dot(u, u), dot(u, w), dot(w, w), dot(here, u), dot(here, w)
    of_u, of_w, whole = hu * ww - hw * uw, hw * uu - hu * uw, uu * ww - uw * uw
    return of_u >= 0 and of_w >= 0 and of_u + of_w <= whole


def triangle_contains(a, b, c, q):
    # 02, A5: of a place on the face's plane, border included
    return (on_segment if in_line(a, b, c) else in_triangle)(a, b, c, q)


def holding(touches, faces, place):
    # 02, A5: the numbers of the faces on whose plane it lies and whose triangle contains it
    return [
        number
        for number, face in enumerate(faces)
        if on_plane(V_of_face(touches, face, place)) and triangle_contains(*(touches[k] for k in face), place)
    ]


def lies(touches, faces, place):
    # 01, Where a place lies, and 02, A5 and A7: what it is, the face number and minus V; no kind where it is in no triangle
    volumes = [V_of_face(touches, face, place) for face in faces]
    if any(map(in_front, volumes)):
        least = min(volumes)
        return OUTSIDE, volumes.index(least), -least
    if not any(map(on_plane, volumes)):
        return INSIDE, 0, 0
    held = holding(touches, faces, place)
    return (ON, held[0], 0) if held else (REFUSED, 0, 0)


# The plumb line


def meeting(face_plane, x, y):
    # 02, A3: at which height the line meets a plane that is not upright
    normal_x, normal_y, normal_z, offset = face_plane
    return fractions.Fraction(offset - normal_x * x - normal_y * y, normal_z)


def looks_up(face_plane):
    # 02, A3
    return face_plane[2] > 0


def upright(face_plane):
    # 02, A3
    return face_plane[2] == 0


def admits(face_plane, x, y):
    # 02, A3: an upright face admits a line that is on it or behind it
    normal_x, normal_y, _, offset = face_plane
    return normal_x * x + normal_y * y <= offset


def bounds(planes, x, y):
    # 02, A3: the tightest bound above and the tightest one below
    above, below = [], []
    for each in planes:
        if not upright(each):
            (above if looks_up(each) else below).append(meeting(each, x, y))
    return min(above), max(below)


def judged(above, below):
    # 02, A3: decided on the fractions
    if above > below:
        return THROUGH
    return TOUCHES if above == below else MISSES


def height(fraction):
    # 02, A3: two whole numbers held exactly as doubles, divided once; a zero plus zero
    return double(fraction.numerator) / double(fraction.denominator)


def line(touches, faces, x, y):
    # 02, A3: the reading, the entry and the exit
    planes = [plane(*(touches[i] for i in face)) for face in faces]
    if not all(admits(each, x, y) for each in planes if upright(each)):
        return MISSES, 0.0, 0.0
    above, below = bounds(planes, x, y)
    what = judged(above, below)
    if what == MISSES:
        return MISSES, 0.0, 0.0
    return what, height(above), height(below)


# Touch record


def bytes_after(record):
    # 01, Touch record: the count n that the record states
    return int.from_bytes(record[:2], BYTE_ORDER)


def coordinates_of(record):
    # 01, Touch record: all whole touches after the version byte
    body = record[3:]
    whole = len(body) - len(body) % 6
    return tuple(
        int.from_bytes(body[i : i + 2], BYTE_ORDER, signed=True)
        for i in range(0, whole, 2)
    )


def record_of(numbers):
    # 01, Touch record: signed 16-bit numbers, a negative one as its sum with 65,536
    body = bytes([VERSION])
    body += b"".join((n % 65_536).to_bytes(2, BYTE_ORDER) for n in numbers)
    return len(body).to_bytes(2, BYTE_ORDER) + body


# Refusal numbers. Each ground gives the refusal's place if it applies, else None.


def when(applies):
    # 01, Refusal numbers: the place is 0 except for 3
    return 0 if applies else None


def no_multiple_of_3(numbers):
    # 01, Refusal numbers 1
    return when(len(numbers) % 3 != 0)


def too_many(touches):
    # 01, Refusal numbers 2
    return when(len(touches) > MOST_TOUCHES)


def in_range(point):
    # 01, Numbers
    return all(-FARTHEST <= number <= FARTHEST for number in point)


def first_out_of_range(touches):
    # 01, Refusal numbers 3: the place is the first such touch number
    return next((i for i, touch in enumerate(touches) if not in_range(touch)), None)


def flat(touches):
    # 01, Refusal numbers 4
    return when(hull(touches) is None)


def room(table):
    # 01, Numbers
    return len(table) // 3


def no_room_for_faces(touches, table):
    # 01, Refusal numbers 5: the final count decides
    return when(len(hull(touches) or ()) > room(table))


def bad_number(touches, numbers):
    # 01, Refusal numbers 6
    return any(number >= len(touches) for number in numbers)


def bad_table(touches, table):
    # 01, Refusal numbers 6
    return when(
        len(table) == 0
        or len(table) % 3 != 0
        or len(table) > 3 * MOST_FACES
        or bad_number(touches, table)
    )


def bad_face(touches, face):
    # 01, Refusal numbers 6, for a single face's plane
    return when(bad_number(touches, face) or in_line(*(touches[i] for i in face)))


def place_out_of_range(place):
    # 01, Refusal numbers 7
    return when(not in_range(place))


def line_out_of_range(x, y):
    # 02, A3: 7 for a line
    return when(not in_range((x, y)))


def wrong_length(record):
    # 01, Refusal numbers 8
    return when(len(record) < 3 or bytes_after(record) != len(record) - 2)


def wrong_version(record):
    # 01, Refusal numbers 9
    return when(record[2:3] != bytes([VERSION]))


def no_whole_touches(record):
    # 01, Refusal numbers 10
    return when((bytes_after(record) - 1) % 6 != 0)


def no_room_for_coordinates(numbers, table):
    # 01, Refusal numbers 11
    return when(len(table) < len(numbers))


def no_room_for_record(touches, buffer):
    # 01, Refusal numbers 12
    return when(len(buffer) < 3 + 6 * len(touches))


def in_no_triangle(touches, faces, place):
    # 02, A5, refusal 17
    return when(lies(touches, faces, place)[0] == REFUSED)


def refusal(order, grounds):
    # 01, Refusal numbers: the first in the call's order; 0 and 0 if none applies
    for number in order:
        place = grounds[number]()
        if place is not None:
            return number, place
    return 0, 0


# The calls. Each gives its answer's values in the order of ANSWERS.


def touches_of(numbers):
    # 01, Numbers: three to a touch
    return tuple(zip(numbers[0::3], numbers[1::3], numbers[2::3]))


def faces_of(table):
    # 01, Numbers: three to a face
    return touches_of(table)


def over(new, old):
    # 01, Refusal numbers: all after the result is unchanged
    return new + old[len(new) :]


def grounds_of_touches(numbers, touches):
    # 01, Refusal numbers 1, 2, 3
    return {
        1: lambda: no_multiple_of_3(numbers),
        2: lambda: too_many(touches),
        3: lambda: first_out_of_range(touches),
    }


def grounds_of_record(record, touches):
    # 01, Refusal numbers 8, 9, 10, 2, 3
    return {
        8: lambda: wrong_length(record),
        9: lambda: wrong_version(record),
        10: lambda: no_whole_touches(record),
        2: lambda: too_many(touches),
        3: lambda: first_out_of_range(touches),
    }


def build(numbers, table):
    # 01, Building
    touches = touches_of(numbers)
    grounds = grounds_of_touches(numbers, touches)
    grounds[4] = lambda: flat(touches)
    grounds[5] = lambda: no_room_for_faces(touches, table)
    number, at = refusal(ORDER["B"], grounds)
    if number:
        return number, at, 0, 0, table
    faces = hull(touches)
    new = tuple(corner for face in faces for corner in face)
    return 0, 0, len(faces), volume(touches, faces), over(new, table)


def place(numbers, table, x, y, z):
    # 01, Where a place lies, and 02, A5 and A7
    touches = touches_of(numbers)
    grounds = grounds_of_touches(numbers, touches)
    grounds[6] = lambda: bad_table(touches, table)
    grounds[7] = lambda: place_out_of_range((x, y, z))
    grounds[17] = lambda: in_no_triangle(touches, faces_of(table), (x, y, z))
    number, at = refusal(ORDER["P"], grounds)
    if number:
        return number, at, REFUSED, 0, 0
    return 0, 0, *lies(touches, faces_of(table), (x, y, z))


def plane_of_face(numbers, a, b, c):
    # 01, Volume and the four-corner rule
    touches = touches_of(numbers)
    grounds = grounds_of_touches(numbers, touches)
    grounds[6] = lambda: bad_face(touches, (a, b, c))
    number, at = refusal(ORDER["L"], grounds)
    if number:
        return number, at, 0.0, 0.0, 0.0, 0.0
    return 0, 0, *map(double, plane(touches[a], touches[b], touches[c]))


def plane_reading(numbers, a, b, c, x, y, z):
    # 01, Volume and the four-corner rule
    touches = touches_of(numbers)
    grounds = grounds_of_touches(numbers, touches)
    grounds[6] = lambda: bad_face(touches, (a, b, c))
    grounds[7] = lambda: place_out_of_range((x, y, z))
    number, at = refusal(ORDER["Q"], grounds)
    if number:
        return number, at, 0.0
    return 0, 0, double(reading(touches[a], touches[b], touches[c], (x, y, z)))


def read(record, table):
    # 01, Touch record
    numbers = coordinates_of(record)
    grounds = grounds_of_record(record, touches_of(numbers))
    grounds[11] = lambda: no_room_for_coordinates(numbers, table)
    number, at = refusal(ORDER["R"], grounds)
    if number:
        return number, at, 0, table
    return 0, 0, len(numbers) // 3, over(numbers, table)


def write(numbers, buffer):
    # 01, Touch record
    touches = touches_of(numbers)
    grounds = grounds_of_touches(numbers, touches)
    grounds[12] = lambda: no_room_for_record(touches, buffer)
    number, at = refusal(ORDER["W"], grounds)
    if number:
        return number, at, 0, buffer
    record = record_of(numbers)
    return 0, 0, len(record), over(record, buffer)


def copy(record, buffer):
    # 01, Touch record: the archive copier
    numbers = coordinates_of(record)
    touches = touches_of(numbers)
    grounds = grounds_of_record(record, touches)
    grounds[12] = lambda: no_room_for_record(touches, buffer)
    number, at = refusal(ORDER["C"], grounds)
    if number:
        return number, at, 0, buffer
    again = record_of(numbers)
    return 0, 0, len(again), over(again, buffer)


def plumb(numbers, x, y):
    # 02, A3
    touches = touches_of(numbers)
    grounds = grounds_of_touches(numbers, touches)
    grounds[4] = lambda: flat(touches)
    grounds[7] = lambda: line_out_of_range(x, y)
    number, at = refusal(ORDER["D"], grounds)
    if number:
        return number, at, REFUSED, 0.0, 0.0
    return 0, 0, *line(touches, hull(touches), x, y)


# Requests and answers as bytes, as tests/asked.c says. A star marks a list.

CALLS = {
    "B": build,
    "P": place,
    "L": plane_of_face,
    "Q": plane_reading,
    "R": read,
    "W": write,
    "C": copy,
    "D": plumb,
}

REQUESTS = {
    "B": "touches i*, faces H*",
    "P": "touches i*, faces H*, x i, y i, z i",
    "L": "touches i*, a H, b H, c H",
    "Q": "touches i*, a H, b H, c H, x i, y i, z i",
    "R": "record B*, touches i*",
    "W": "touches i*, record B*",
    "C": "record B*, copy B*",
    "D": "touches i*, x i, y i",
}

ANSWERS = {
    "B": "number B, place H, face count H, volume q, faces H*",
    "P": "number B, place H, kind B, face H, minus V q",
    "L": "number B, place H, x d, y d, z d, offset d",
    "Q": "number B, place H, reading d",
    "R": "number B, place H, touch count H, touches i*",
    "W": "number B, place H, byte count I, record B*",
    "C": "number B, place H, byte count I, copy B*",
    "D": "number B, place H, kind B, entry d, exit d",
}


@functools.cache
def fields(layout):
    return [field.rsplit(" ", 1) for field in layout.split(", ")]


def list_of(form, numbers):
    return bytes(numbers) if form == "B*" else tuple(numbers)


def decode_request(data, at):
    """The request that begins at this byte, and where the next one begins."""
    kind = chr(data[at])
    at += 1
    values = []
    for _, form in fields(REQUESTS[kind]):
        count = 1
        if form.endswith("*"):
            (count,) = struct.unpack_from("<I", data, at)
            at += 4
        form_of_all = f"<{count}{form[0]}"
        numbers = struct.unpack_from(form_of_all, data, at)
        at += struct.calcsize(form_of_all)
        values.append(list_of(form, numbers) if form.endswith("*") else numbers[0])
    return (kind, *values), at


def decode_requests(data):
    at = 0
    while at < len(data):
        request, at = decode_request(data, at)
        yield request


def encode_answer(kind, values):
    parts = []
    for (_, form), value in zip(fields(ANSWERS[kind]), values, strict=True):
        numbers = value if form.endswith("*") else (value,)
        parts.append(struct.pack(f"<{len(numbers)}{form[0]}", *numbers))
    return b"".join(parts)


def answer(request):
    kind, *values = request
    return encode_answer(kind, CALLS[kind](*values))


def serve():
    for request in decode_requests(sys.stdin.buffer.read()):
        sys.stdout.buffer.write(answer(request))


if __name__ == "__main__":
    serve()
