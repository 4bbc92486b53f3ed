"""Requests for the comparison: drawn ones from a seed, and fixed ones.

The drawn ones go through every kind of degenerate block and every kind of damage. The
fixed ones go through all lengths, all positions and all refusals that meet.
"""

import itertools
import math
import random
import struct

import lines
import second

FAR = 30_000
BEYOND = (30_001, -30_001, 32_767, -32_768, 2**31 - 1, -(2**31))
BEYOND_IN_RECORD = (30_001, -30_001, 32_767, -32_768)
T = ((0, 0, 0), (10, 0, 0), (0, 10, 0), (0, 0, 10))


def flat_list(touches):
    return tuple(number for touch in touches for number in touch)


def fill(rng, count, form):
    """Arbitrary first contents for a lent table, so that every change shows."""
    numbers = struct.unpack(f"<{count}{form}", rng.randbytes(count * struct.calcsize(form)))
    return second.list_of(form + "*", numbers)


# Touches. Each shape gives count touches in range.


def small_point(rng, far):
    return tuple(rng.randint(-far, far) for _ in range(3))


def along(base, steps, scale):
    """base plus the sum of factor times direction, all times scale."""
    return tuple(
        scale * (base[i] + sum(factor * direction[i] for factor, direction in steps))
        for i in range(3)
    )


def anywhere(rng, count):
    far = rng.choice((3, 10, 1000, FAR))
    return [small_point(rng, far) for _ in range(count)]


def all_equal(rng, count):
    return [small_point(rng, FAR)] * count


def in_line(rng, count):
    base, way, scale = small_point(rng, 3), small_point(rng, 3), rng.choice((1, 1, 7, 2000))
    return [along(base, [(rng.randint(-4, 4), way)], scale) for _ in range(count)]


def in_plane(rng, count):
    base, u, v = (small_point(rng, 3) for _ in range(3))
    scale = rng.choice((1, 1, 7, 2000))
    return [
        along(base, [(rng.randint(-2, 2), u), (rng.randint(-2, 2), v)], scale)
        for _ in range(count)
    ]


def off_plane(rng, count):
    """In a plane but for one or two: the fourth, the fifth, the last or any."""
    made = in_plane(rng, count)
    for _ in range(rng.choice((1, 1, 2))):
        at = rng.choice((3, 4, count - 1, rng.randrange(count + 1)))
        if 0 <= at < count:
            made[at] = small_point(rng, rng.choice((4, FAR)))
    return made


def off_line(rng, count):
    """In line but for two or three."""
    made = in_line(rng, count)
    for _ in range(rng.choice((2, 2, 3))):
        if count:
            made[rng.randrange(count)] = small_point(rng, 5)
    return made


def tiny_grid(rng, count):
    low, high = rng.choice(((0, 1), (0, 2), (-1, 1), (0, 3)))
    scale = rng.choice((1, 1, 10, 10_000))
    return [tuple(scale * rng.randint(low, high) for _ in range(3)) for _ in range(count)]


def cube(rng, count):
    """Cube corners first, then what lies on the sides of the cube."""
    far = rng.choice((1, 10, FAR))
    made = list(itertools.product((-far, far), repeat=3))
    rng.shuffle(made)
    made += [tuple(rng.choice((-far, 0, far)) for _ in range(3)) for _ in range(count)]
    return made[:count]


def lattice(rng, count):
    step = rng.choice((1, 5, 10_000))
    made = [tuple(step * n for n in p) for p in itertools.product(range(4), repeat=3)]
    if rng.random() < 0.7:
        rng.shuffle(made)
    return made[:count]


def on_sphere(rng, count):
    radius = rng.choice((20, 1000, FAR))
    made = []
    while len(made) < count:
        way = small_point(rng, 100_000)
        length = math.isqrt(sum(n * n for n in way))
        if length:
            made.append(tuple(n * radius // (length + 1) for n in way))
    return made


def in_ball(rng, count):
    radius = rng.choice((5, 100, FAR))
    made = []
    while len(made) < count:
        p = small_point(rng, radius)
        if sum(n * n for n in p) <= radius * radius:
            made.append(p)
    return made


def extremes(rng, count):
    ends = rng.choice(((-FAR, FAR), (-FAR, 0, FAR), (-FAR, 1 - FAR, FAR - 1, FAR)))
    return [tuple(rng.choice(ends) for _ in range(3)) for _ in range(count)]


def nearly_flat(rng, count):
    """Far apart and off a slanting plane by one at most."""
    u, v, w = rng.randint(-50, 50), rng.randint(-50, 50), 100
    axes = rng.sample(range(3), 3)
    made = []
    for _ in range(count):
        x, y = (rng.choice((-FAR, FAR, rng.randint(-FAR, FAR))) for _ in range(2))
        z = (u * x + v * y) // w + rng.choice((-1, 0, 0, 1))
        p = x, y, max(-FAR, min(FAR, z))
        made.append(tuple(p[axis] for axis in axes))
    return made


def around_t(rng, count):
    """01's T, then what is on, edge-on to, in line with or off its faces."""
    scale = rng.choice((1, 1, 1000))
    made = list(T) + [tuple(rng.randint(-1, 2) * 5 for _ in range(3)) for _ in range(count)]
    return [tuple(scale * n for n in p) for p in made[:count]]


def two_layers(rng, count):
    """A prism: many touches in two planes, some in line."""
    heights = rng.sample((-7, 0, 5, 6), 2)
    return [(rng.randint(-3, 3), rng.randint(-3, 3), rng.choice(heights)) for _ in range(count)]


# Shapes with body stand twice: most of the rule is about them.
FLAT = (all_equal, in_line, in_plane)
SOLID = (
    anywhere, off_plane, off_line, tiny_grid, cube, lattice, on_sphere, in_ball, extremes,
    nearly_flat, around_t, two_layers,
)
SHAPES = FLAT + SOLID + SOLID


def touches(rng, count):
    made = rng.choice(SHAPES)(rng, count)
    if rng.random() < 0.3:
        for _ in range(rng.randint(1, 3)):
            made.insert(rng.randrange(len(made) + 1), rng.choice(made or [(0, 0, 0)]))
        made = made[:count]
    if rng.random() < 0.3:
        rng.shuffle(made)
    return tuple(made)


def touch_count(rng):
    # Most lists are small, so that many fit into a run.
    how = rng.random()
    if how < 0.06:
        return rng.randint(0, 4)
    if how < 0.7:
        return rng.randint(4, 12)
    if how < 0.92:
        return rng.randint(13, 30)
    return rng.choice((rng.randint(31, 63), 64))


# Damage to coordinate lists


def beyond(rng, numbers, values=BEYOND):
    """One to three coordinates out of range."""
    numbers = list(numbers)
    for _ in range(rng.choice((1, 1, 2, 3))):
        if numbers:
            numbers[rng.randrange(len(numbers))] = rng.choice(values)
    return tuple(numbers)


def damaged(rng, numbers):
    how = rng.random()
    if how < 0.04:
        return beyond(rng, numbers)
    if how < 0.06:
        return numbers + tuple(rng.choice(((0,), (1, 2), (30_001,))))
    if how < 0.08 and numbers:
        return numbers[: rng.randrange(len(numbers))]
    return numbers


def too_many(rng, made):
    """The touches again and again, up to 65 or 66."""
    return (tuple(made) * 66)[: rng.choice((65, 66))] if made else made


def length_near(rng, exact, unit):
    """A lent table's length: mostly about what is needed."""
    exact = max(0, exact)
    return max(0, rng.choice((
        exact, exact, exact, exact, exact - 1, exact - unit, exact + 1, exact + 2,
        exact + unit, exact + rng.randint(0, 100), 0, rng.randint(0, exact + 1),
    )))


# Faces and places


def face_table(rng, made):
    """Hull faces as they are, shuffled, turned or in part, or no hull at all."""
    faces = list(second.hull(made) or ())
    how = rng.random()
    if made and (not faces or how < 0.15):
        numbers = range(len(made))
        faces += [tuple(rng.choices(numbers, k=3)) for _ in range(rng.randint(1, 6))]
    if how > 0.6:
        rng.shuffle(faces)
    if how > 0.75:
        faces = [rng.choice((f, f[1:] + f[:1], f[::-1])) for f in faces]
    if how > 0.9 and faces:
        faces = faces[: rng.randint(1, len(faces))]
    table = flat_list(faces)
    how = rng.random()
    if how < 0.02:
        return ()
    if how < 0.06:
        return table + tuple(range(rng.randint(1, 2)))
    if how < 0.12 and table:
        at = rng.randrange(len(table))
        bad = rng.choice((len(made), len(made) + 1, 65_535))
        return table[:at] + (bad,) + table[at + 1 :]
    if how < 0.13 and table:
        return (table * 4035)[: rng.choice((4029, 4032, 4032, 4035, 4033))]
    return table


def some_place(rng, made):
    """On a touch, a side, a face's plane or anywhere; at times out of range."""
    how = rng.random()
    if how < 0.05:
        place = list(small_point(rng, FAR))
        place[rng.randrange(3)] = rng.choice(BEYOND)
        return tuple(place)
    if how < 0.1 or not made:
        return small_point(rng, rng.choice((3, 20, FAR)))
    if how < 0.15:
        # Where steps in doubles make minus zeros.
        return tuple(rng.choice((-5, 0)) for _ in range(3))
    a, b, c, d = (rng.choice(made) for _ in range(4))
    if how < 0.3:
        place = a
    elif how < 0.45:
        place = along(a, [(rng.randint(-1, 2), [b[i] - a[i] for i in range(3)])], 1)
    elif how < 0.6:
        steps = [(rng.randint(-1, 1), [p[i] - a[i] for i in range(3)]) for p in (b, c)]
        place = along(a, steps, 1)
    else:
        place = tuple((a[i] + b[i] + c[i] + d[i] + rng.randint(-2, 4)) // 4 for i in range(3))
    return place if second.in_range(place) else a


# Plumb lines


def on_way(rng, a, b):
    """A whole x and y on the way from a to b, seen from above; beyond them at times."""
    across, along_y = b[0] - a[0], b[1] - a[1]
    parts = math.gcd(across, along_y) or 1
    part = rng.choice((rng.randint(0, parts), parts // 2, -1, parts + 1))
    return a[0] + part * across // parts, a[1] + part * along_y // parts


def some_line(rng, made):
    """Over a touch, an edge, a face or the block, or just beside; at times out of range."""
    how = rng.random()
    if how < 0.05:
        place = [rng.randint(-FAR, FAR), rng.choice(BEYOND)]
        rng.shuffle(place)
        return tuple(place)
    if how < 0.1 or not made:
        far = rng.choice((3, 20, FAR))
        return rng.randint(-far, far), rng.randint(-far, far)
    a, b, c, d = (rng.choice(made) for _ in range(4))
    if how < 0.3:
        line = a[:2]
    elif how < 0.6:
        line = on_way(rng, a, b)
    else:
        count = rng.choice((3, 4))
        some = (a, b, c, d)[:count]
        line = tuple(sum(p[i] for p in some) // count for i in range(2))
    if how < 0.3 or rng.random() < 0.3:
        line = line[0] + rng.choice((-1, 0, 0, 1)), line[1] + rng.choice((-1, 0, 0, 1))
    return line if second.in_range(line) else a[:2]


# Records


def sound(numbers, version=1, n=None):
    """A record of these coordinates; the count and the version may be told otherwise."""
    body = bytes([version]) + struct.pack(f">{len(numbers)}h", *numbers)
    n = len(body) if n is None else n
    return struct.pack(">H", n % 65_536) + body


def some_record(rng):
    how = rng.random()
    made = touches(rng, touch_count(rng))
    numbers = flat_list(made)
    if how < 0.4:
        return sound(numbers)
    if how < 0.5:
        return sound(beyond(rng, numbers, BEYOND_IN_RECORD))
    if how < 0.55:
        return sound(numbers, version=rng.choice((0, 2, 255)))
    if how < 0.65:
        # Among them the count that takes in its own two bytes.
        n = 1 + 2 * len(numbers)
        return sound(numbers, n=n + rng.choice((2, -1, 1, -6, 6, 256, -256)))
    if how < 0.75:
        record = sound(numbers)
        return record[: rng.randrange(len(record) + 1)]
    if how < 0.82:
        return sound(numbers) + rng.randbytes(rng.randint(1, 7))
    if how < 0.9:
        # No whole touches, the count being right.
        body = sound(numbers)[2:] + rng.randbytes(rng.randint(1, 5))
        return struct.pack(">H", len(body)) + body
    if how < 0.95:
        return sound(flat_list(too_many(rng, made)))
    if how < 0.953:
        return long_record(rng.choice((65_535, 65_536, 65_537)), rng.choice((1, 2)))
    return rng.randbytes(rng.randint(0, 12))


def long_record(length, version):
    """A record about as long as a count of two bytes can say."""
    return sound((0,) * 32_768, version, length - 2)[:length].ljust(length, b"\0")


# Requests in which several refusals meet, each one there or not


def trouble_with_touches(rng, odd, many, out, flat):
    count = 64 if many else rng.randint(4, 7)
    made = in_plane(rng, count) if flat else in_ball(rng, count)
    numbers = flat_list(too_many(rng, made) if many else made)
    if out:
        # The last touch, or any.
        at = rng.choice((len(numbers) - 1, rng.randrange(len(numbers))))
        numbers = numbers[:at] + (rng.choice(BEYOND_IN_RECORD),) + numbers[at + 1 :]
    return numbers + tuple(rng.choice(((5,), (5, 6))) if odd else ())


def trouble_with_build(rng, odd, many, out, flat, no_room):
    numbers = trouble_with_touches(rng, odd, many, out, flat)
    return "B", numbers, fill(rng, rng.choice((0, 2, 11)) if no_room else 400, "H")


def trouble_with_table(rng, touch_number, how):
    table = (0, 1, 2, 0, 2, 1)
    return {
        "none": table,
        "empty": (),
        "odd": table + (0,) * rng.choice((1, 2)),
        "over": (table * 673)[:4035],
        "number": table[:5] + (rng.choice((touch_number, 65_535)),),
    }[how]


def trouble_with_q(rng, far):
    return rng.sample((0, 1, rng.choice(BEYOND)), 3) if far else (0, 1, 2)


def trouble_with_place(rng, odd, many, out, table, far):
    numbers = trouble_with_touches(rng, odd, many, out, False)
    table = trouble_with_table(rng, len(numbers) // 3, table)
    return "P", numbers, table, *trouble_with_q(rng, far)


def trouble_with_face(rng, numbers, how):
    count = len(numbers) // 3
    return {
        "none": (0, 1, 2),
        "number": rng.sample((0, 1, rng.choice((count, 65_535))), 3),
        "line": (1, 1, 2),
    }[how]


def trouble_with_plane(rng, odd, many, out, face):
    numbers = trouble_with_touches(rng, odd, many, out, False)
    return "L", numbers, *trouble_with_face(rng, numbers, face)


def trouble_with_reading(rng, odd, many, out, face, far):
    numbers = trouble_with_touches(rng, odd, many, out, False)
    return "Q", numbers, *trouble_with_face(rng, numbers, face), *trouble_with_q(rng, far)


def trouble_with_record(rng, length, version, part, many, out):
    numbers = trouble_with_touches(rng, False, many, out, False)
    record = sound(numbers, version=2 if version else 1)
    record += rng.randbytes(rng.randint(1, 5) if part else 0)
    n = len(record) - 2 + (rng.choice((-1, 2, 6)) if length else 0)
    return struct.pack(">H", n) + record[2:]


def trouble_with_read(rng, length, version, part, many, out, no_room):
    record = trouble_with_record(rng, length, version, part, many, out)
    return "R", record, fill(rng, rng.choice((0, 11)) if no_room else 200, "i")


def trouble_with_write(rng, odd, many, out, no_room):
    numbers = trouble_with_touches(rng, odd, many, out, False)
    return "W", numbers, fill(rng, rng.choice((0, 26)) if no_room else 410, "B")


def trouble_with_copy(rng, length, version, part, many, out, no_room):
    record = trouble_with_record(rng, length, version, part, many, out)
    return "C", record, fill(rng, rng.choice((0, 26)) if no_room else 410, "B")


def trouble_with_plumb(rng, odd, many, out, flat, far):
    numbers = trouble_with_touches(rng, odd, many, out, flat)
    return "D", numbers, *(rng.sample((1, rng.choice(BEYOND)), 2) if far else (1, 2))


EITHER = (False, True)
TABLES = ("none", "empty", "odd", "over", "number")
FACES = ("none", "number", "line")
TROUBLE = {
    "B": (trouble_with_build, (EITHER,) * 5),
    "P": (trouble_with_place, (EITHER, EITHER, EITHER, TABLES, EITHER)),
    "L": (trouble_with_plane, (EITHER, EITHER, EITHER, FACES)),
    "Q": (trouble_with_reading, (EITHER, EITHER, EITHER, FACES, EITHER)),
    "R": (trouble_with_read, (EITHER,) * 6),
    "W": (trouble_with_write, (EITHER,) * 4),
    "C": (trouble_with_copy, (EITHER,) * 6),
    "D": (trouble_with_plumb, (EITHER,) * 5),
}


# Drawn requests


def drawn_build(rng):
    made = touches(rng, touch_count(rng))
    exact = 3 * len(second.hull(made) or ())
    numbers = damaged(rng, flat_list(made))
    length = rng.choice((4032, 4040)) if rng.random() < 0.02 else length_near(rng, exact, 3)
    return "B", numbers, fill(rng, length, "H")


def drawn_place(rng):
    made = touches(rng, touch_count(rng))
    return "P", damaged(rng, flat_list(made)), face_table(rng, made), *some_place(rng, made)


def drawn_face(rng, count):
    if rng.random() < 0.1:
        return [rng.choice((0, count, count + 1, 65_535)) for _ in range(3)]
    if rng.random() < 0.1 or count < 3:
        return [rng.randrange(max(1, count)) for _ in range(3)]
    return rng.sample(range(count), 3)


def drawn_plane(rng):
    made = touches(rng, touch_count(rng))
    return "L", damaged(rng, flat_list(made)), *drawn_face(rng, len(made))


def drawn_reading(rng):
    made = touches(rng, touch_count(rng))
    face = drawn_face(rng, len(made))
    return "Q", damaged(rng, flat_list(made)), *face, *some_place(rng, made)


def drawn_read(rng):
    record = some_record(rng)
    return "R", record, fill(rng, length_near(rng, (len(record) - 3) // 6 * 3, 3), "i")


def drawn_write(rng):
    numbers = damaged(rng, flat_list(touches(rng, touch_count(rng))))
    return "W", numbers, fill(rng, length_near(rng, 3 + 2 * len(numbers), 6), "B")


def drawn_copy(rng):
    record = some_record(rng)
    return "C", record, fill(rng, length_near(rng, len(record), 6), "B")


def drawn_plumb(rng):
    made = touches(rng, touch_count(rng))
    return "D", damaged(rng, flat_list(made)), *some_line(rng, made)


# A call's maker of drawn requests, and how often it is drawn
DRAWN = {
    "B": (drawn_build, 8),
    "P": (drawn_place, 6),
    "L": (drawn_plane, 2),
    "Q": (drawn_reading, 3),
    "R": (drawn_read, 3),
    "W": (drawn_write, 2),
    "C": (drawn_copy, 2),
    "D": (drawn_plumb, 6),
}


def drawn(seed, batch, count, kinds):
    """The requests of one batch: the same for the same seed, batch and kinds."""
    rng = random.Random(f"{seed} {batch}")
    weights = [DRAWN[kind][1] for kind in kinds]
    for kind in rng.choices(kinds, weights, k=count):
        if rng.random() < 0.1:
            make, choices = TROUBLE[kind]
            yield make(rng, *map(rng.choice, choices))
        else:
            yield DRAWN[kind][0](rng)


# Fixed requests


def fixed_build(rng):
    solid, level = on_sphere(rng, 67), in_plane(rng, 67)
    for length in range(3 * 66 + 3):
        yield "B", flat_list(solid)[:length], fill(rng, 400, "H")
        yield "B", flat_list(level)[:length], fill(rng, 12, "H")
    for numbers in every_beyond(flat_list(solid[:64]), BEYOND):
        yield "B", numbers, fill(rng, 12, "H")
    for numbers in every_beyond(flat_list(T), (FAR, -FAR)):
        yield "B", numbers, fill(rng, 12, "H")
    for made in (T, T + ((10, 10, 10),), tuple(solid[:64])):
        for length in range(3 * len(second.hull(made)) + 5):
            yield "B", flat_list(made), fill(rng, length, "H")
    # On a bowl all are corners, so that there are as many faces as n touches can give: room for them, and for one less.
    bowl = [(100 * x, 100 * y, x * x + y * y) for x, y in itertools.product(range(-4, 4), repeat=2)]
    rng.shuffle(bowl)
    for count in range(4, 65):
        yield "B", flat_list(bowl[:count]), fill(rng, 3 * (2 * count - 4), "H")
        yield "B", flat_list(bowl[:count]), fill(rng, 3 * (2 * count - 4) - 1, "H")
    # Four faces in the end, many on the way there: room for four is enough.
    small = [tuple(n // 10 for n in touch) for touch in solid[:30]]
    big = [(-FAR, -FAR, -FAR), (FAR, -FAR, -FAR), (0, FAR, -FAR), (0, 0, FAR)]
    for length in (11, 12, 13, 400):
        yield "B", flat_list(small + big), fill(rng, length, "H")


def every_beyond(numbers, values):
    """Each value at each position, alone."""
    for at, value in itertools.product(range(len(numbers)), values):
        yield numbers[:at] + (value,) + numbers[at + 1 :]


def fixed_place(rng):
    numbers, table = flat_list(T), flat_list(second.hull(T))
    for place in itertools.product((-1, 0, 1, 2, 5, 9, 10, 11), repeat=3):
        yield "P", numbers, table, *place
    for at, bad in itertools.product(range(12), (4, 5, 64, 65_535)):
        yield "P", numbers, table[:at] + (bad,) + table[at + 1 :], 1, 1, 1
    for beyond_one in every_beyond(numbers, BEYOND):
        yield "P", beyond_one, table, 1, 1, 1
    for length in range(13):
        for place in ((1, 1, 1), (0, 0, 0), (10, 10, 10)):
            yield "P", numbers, table[:length], *place
    for length in (*range(4026, 4038), 8064):
        # The deciding face comes last.
        last = table[:9] * 900
        yield "P", numbers, last[: length - 3] + table[9:12], 10, 10, 10
        yield "P", numbers, last[: length - 3] + table[9:12], 2, 3, 5
    for place in every_beyond((1, 1, 1), (*BEYOND, FAR, -FAR)):
        yield "P", numbers, table, *place
    # Every place is on the plane of a face in line.
    for face in itertools.product(range(4), repeat=3):
        yield "P", numbers, face + table, 1, 1, 1
        yield "P", numbers, table + face, 1, 1, 1
    # Tables that are no hull: one face, faces twice, turned, in another order and any faces over touches that differ in size.
    low = flat_list(((0, 0, 0), (0, 100, 0), (0, 0, 4), (100, 0, 0)))
    others = [table[9:], table[:3] + 2 * table[9:], table[::-1], table[6:] + table[:6]]
    others += [tuple(rng.randrange(4) for _ in range(3 * rng.randint(1, 6))) for _ in range(6)]
    for other, place in itertools.product(others, itertools.product((-7, -1, 0, 1, 20), repeat=3)):
        yield "P", numbers, other, *place
        yield "P", low, other, *place
    # A flat side of two triangles and of many, whole and in part: on each, on borders and corners, and beyond.
    two = (*T, (10, 10, 0))
    many = tuple((x, y, z) for x, y, z in itertools.product((0, 4, 8), (0, 4, 8), (0, 8)))
    for made, side in itertools.product((two, many), (0, 8)):
        faces = second.hull(made)
        for part in (faces, faces[::-1], faces[:1], faces[-2:], faces[::2]):
            for x, y in itertools.product(range(-1, 12, 1 if made is two else 2), repeat=2):
                yield "P", flat_list(made), flat_list(part), x, y, side
                yield "P", flat_list(made), flat_list(part), side, x, y
    # Faces in line and faces that are one point.
    row = ((0, 0, 0), (2, 4, 6), (3, 6, 9), (-1, -2, -3), (0, 0, 7))
    for face in itertools.product(range(5), repeat=3):
        for k in (-2, -1, 0, 1, 2, 3, 4):
            yield "P", flat_list(row), face, k, 2 * k, 3 * k
        yield "P", flat_list(row), face, 0, 0, rng.randint(-1, 8)
        yield "P", flat_list(row), face, 1, 2, 4
    # As wide as can be: on the sides of a triangle, close to them and on its plane beyond.
    for _ in range(400):
        corners = tuple(small_point(rng, FAR) for _ in range(3))
        a, b, c = corners
        j, k = rng.choice(((0, 0), (1, 0), (1, 1), (2, 0), (-1, 1), (2, -1), (1, -1)))
        place = tuple(a[i] + j * ((b[i] - a[i]) // 2) + k * ((c[i] - a[i]) // 2) for i in range(3))
        even = tuple(tuple(a[i] + 2 * ((p[i] - a[i]) // 2) for i in range(3)) for p in corners)
        if second.in_range(place):
            yield "P", flat_list(even), rng.choice(((0, 1, 2), (1, 2, 0), (2, 1, 0))), *place
    # Out of range, and on a plane in no triangle.
    yield "P", numbers, table[:3], FAR + 1, 0, 0
    # Flat touches and no touches are no ground here.
    yield "P", numbers[:9], (0, 1, 2), 0, 0, 0
    yield "P", (), (0, 0, 0), 0, 0, 0
    yield "P", (), (), 0, 0, 0


T_AND_FAR_TOUCHES = (*T, (20, 0, 0), (-FAR, FAR, -FAR), (FAR, -FAR, -FAR), (FAR, FAR, FAR))
T_AND_FAR = flat_list(T_AND_FAR_TOUCHES)


def fixed_plane(rng):
    numbers = T_AND_FAR
    for face in itertools.product(range(9), repeat=3):
        yield "L", numbers, *face
    for bad in every_beyond((0, 1, 2), (8, 9, 64, 65_535)):
        yield "L", numbers, *bad
    for beyond_one in every_beyond(numbers, BEYOND):
        yield "L", beyond_one, 0, 1, 2
    yield "L", (), 0, 0, 0


def fixed_reading(rng):
    numbers = T_AND_FAR
    for face in itertools.product(range(9), repeat=3):
        for place in ((0, 0, 0), (-5, -5, 0)):
            yield "Q", numbers, *face, *place
    for face in itertools.permutations(range(8), 3):
        for place in ((1, 2, 3), (FAR, -FAR, FAR), (-FAR, FAR, -FAR)):
            yield "Q", numbers, *face, *place
    for beyond_one in every_beyond(numbers, BEYOND):
        yield "Q", beyond_one, 0, 1, 2, 0, 0, 0
    for bad in every_beyond((0, 1, 2), (8, 9, 64, 65_535)):
        yield "Q", numbers, *bad, 1, 2, 3
    for place in every_beyond((1, 1, 1), (*BEYOND, FAR, -FAR)):
        yield "Q", numbers, 0, 1, 2, *place
    yield "Q", (), 0, 0, 0, 0, 0, 0


def fixed_records(rng):
    """Each record, with the room its touches need, counted in touches."""
    solid = flat_list(in_ball(rng, 67))
    for count in range(67):
        yield sound(solid[: 3 * count]), count
    for numbers in every_beyond(solid[:192], BEYOND_IN_RECORD):
        yield sound(numbers), 64
    for numbers in every_beyond(solid[:6], (FAR, -FAR)):
        yield sound(numbers), 2
    three = sound(solid[:9])
    for length in range(len(three) + 8):
        yield (three + bytes(8))[:length], 3
        # Cut or lengthened, with the count put right.
        if length >= 2:
            yield struct.pack(">H", length - 2) + (three + bytes(8))[2:length], 4
    for n in (*range(32), 275, 19 * 256):
        yield sound(solid[:9], n=n), 3
    for version in range(256):
        yield sound(solid[:6], version=version), 2
    for length in (65_534, 65_535, 65_536, 65_537, 65_538):
        for version in (1, 2):
            yield long_record(length, version), 0


def fixed_read(rng):
    for record, count in fixed_records(rng):
        yield "R", record, fill(rng, 3 * count, "i")
    two = sound((1, 2, 3, 4, 5, 6))
    for length in range(12):
        yield "R", two, fill(rng, length, "i")
        yield "R", sound(()), fill(rng, length, "i")
    yield "R", sound((0,) * 3 * 64), fill(rng, 191, "i")
    yield "R", sound((0,) * 3 * 10_922), fill(rng, 3 * 10_922, "i")


def fixed_copy(rng):
    for record, count in fixed_records(rng):
        yield "C", record, fill(rng, 3 + 6 * count, "B")
    two = sound((1, 2, 3, 4, 5, 6))
    for length in range(20):
        yield "C", two, fill(rng, length, "B")
        yield "C", sound(()), fill(rng, length, "B")
    yield "C", sound((0,) * 3 * 64), fill(rng, 386, "B")
    yield "C", sound((0,) * 3 * 10_922), fill(rng, 65_535, "B")


def fixed_write(rng):
    solid = flat_list(in_ball(rng, 67))
    for length in range(3 * 66 + 3):
        yield "W", solid[:length], fill(rng, 3 + 2 * length, "B")
        yield "W", solid[:length], fill(rng, 2 + 2 * length, "B")
    for numbers in every_beyond(solid[:192], BEYOND):
        yield "W", numbers, fill(rng, 387, "B")
    for numbers in every_beyond(solid[:6], (FAR, -FAR, 256, -256, 255, -1)):
        yield "W", numbers, fill(rng, 20, "B")
    for length in range(30):
        yield "W", flat_list(T), fill(rng, length, "B")
        yield "W", (), fill(rng, length, "B")


def grid_lines(low, high):
    return itertools.product(range(low, high + 1), repeat=2)


def lines_over(made, rng):
    """Over each touch and the middle of each two, and just beside."""
    for a, b in itertools.combinations_with_replacement(made, 2):
        middle = [(a[i] + b[i]) // 2 for i in range(2)]
        for line in (middle, [n + rng.choice((-1, 1)) for n in middle]):
            if second.in_range(line):
                yield line


def fixed_plumb(rng):
    for made, x, y, *_ in lines.BY_HAND:
        yield "D", flat_list(made), x, y
    for numbers, x, y, *_ in lines.REFUSED:
        yield "D", numbers, x, y
    # Every line over small blocks: along upright sides and edges, at corners, beside them.
    for made in (T, T[::-1], T + ((1, 1, 1), (2, 3, 5)), T + ((10, 10, 0),), T + ((20, 0, 0),)):
        for x, y in grid_lines(-2, 12):
            yield "D", flat_list(made), x, y
    for step in (1, 10, 10_000):
        for made in (
            itertools.product((0, step), repeat=3),
            itertools.product((-step, 0, step), (-step, 0, step), (0, step)),
            [(x, y, z) for x, y, z in itertools.product((-step, 0, step), repeat=3) if x + y <= z],
        ):
            made = flat_list(made)
            for x, y in grid_lines(-4, 4):
                for beside in (0, 1):
                    yield "D", made, x * step // 2 + beside, y * step // 2 - beside
    # Edges over which a height is no whole number, and is below zero.
    for low, made in itertools.product((0, 1, -7, 2 - FAR), (lines.KEEL, lines.WEDGE, lines.SPINDLE)):
        made = [(x, y, max(-FAR, z + low)) for x, y, z in made]
        for x, y in grid_lines(-2, 7):
            yield "D", flat_list(made), x, y
    # Both heights round alike: through, at the edge, and past it.
    thin = lines.THIN
    for made in (thin, [(x, y, -z) for x, y, z in thin], [(y, x, z) for x, y, z in thin]):
        for at in (*range(-FAR, 4 - FAR), *range(2870, 2876), *range(-3, 4), *range(FAR - 3, FAR + 1)):
            for beside in range(-2, 3):
                line = at, max(-FAR, min(FAR, at + beside))
                yield "D", flat_list(made), *line
                yield "D", flat_list(made), *line[::-1]
    # All bounds round alike about a corner: which is tightest shows in the reading alone.
    for made in itertools.permutations(lines.SPLINTER):
        for x, y in grid_lines(-4, 6):
            yield "D", flat_list(made), 8184 - x, -11277 + y
    # The ends of the range.
    ends = tuple(itertools.product((-FAR, FAR), repeat=3))
    for made in (ends, ends[1:], ends[:4] + ((FAR, 0, 0),), T_AND_FAR_TOUCHES):
        for x, y in itertools.product((-FAR, 1 - FAR, -1, 0, 1, FAR - 1, FAR), repeat=2):
            yield "D", flat_list(made), x, y
    # Every shape, flat ones too.
    for shape, count in itertools.product(FLAT + SOLID, (4, 6, 9, 14)):
        made = tuple(shape(rng, count))
        for x, y in lines_over(made, rng):
            yield "D", flat_list(made), x, y
    # Refusals.
    solid, level = on_sphere(rng, 67), in_plane(rng, 67)
    for length in range(3 * 66 + 3):
        yield "D", flat_list(solid)[:length], 0, 0
        yield "D", flat_list(level)[:length], 0, 0
    for numbers in every_beyond(flat_list(solid[:64]), BEYOND):
        yield "D", numbers, 0, 0
    for numbers in every_beyond(flat_list(T), (FAR, -FAR)):
        yield "D", numbers, 1, 1
    for line in every_beyond((1, 1), (*BEYOND, FAR, -FAR)):
        yield "D", flat_list(T), *line
        yield "D", flat_list(level[:9]), *line
    yield "D", flat_list(T), 30_001, -30_001


FIXED = {
    "B": fixed_build,
    "P": fixed_place,
    "L": fixed_plane,
    "Q": fixed_reading,
    "R": fixed_read,
    "W": fixed_write,
    "C": fixed_copy,
    "D": fixed_plumb,
}


def fixed(kinds):
    for kind in kinds:
        rng = random.Random(f"fixed {kind}")
        yield from FIXED[kind](rng)
        make, choices = TROUBLE[kind]
        for choice in itertools.product(*choices):
            yield make(rng, *choice)


# Requests as bytes


def encode(request):
    kind, *values = request
    parts = [kind.encode()]
    for (_, form), value in zip(second.fields(second.REQUESTS[kind]), values, strict=True):
        if form.endswith("*"):
            parts.append(struct.pack(f"<I{len(value)}{form[0]}", len(value), *value))
        else:
            parts.append(struct.pack(f"<{form}", value))
    return b"".join(parts)
