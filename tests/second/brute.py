#!/usr/bin/env python3
"""Looks at the second program's hulls and lines from the side of geometry, on small lists.

Every four touches decide flatness, every three touches decide whether their plane has a
face, and every three touches over which a line runs give a height that it has within the
block. None of these goes through the building rule or through faces.
"""

import fractions
import itertools
import math
import random
import sys

sys.dont_write_bytecode = True

import lists
import second


def cross_dot(a, b, c, d):
    u, v, w = ([p[i] - a[i] for i in range(3)] for p in (b, c, d))
    return (
        (u[1] * v[2] - u[2] * v[1]) * w[0]
        + (u[2] * v[0] - u[0] * v[2]) * w[1]
        + (u[0] * v[1] - u[1] * v[0]) * w[2]
    )


def outward_planes(touches):
    """The plane of every three touches that has all touches on or behind it."""
    planes = set()
    for a, b, c in itertools.permutations(set(touches), 3):
        volumes = [cross_dot(a, b, c, d) for d in touches]
        if max(volumes) <= 0 and min(volumes) < 0:
            planes.add(plane_in_least_numbers(a, b, c))
    return planes


def plane_in_least_numbers(a, b, c):
    normal = [cross_dot(a, b, c, [a[j] + (j == i) for j in range(3)]) for i in range(3)]
    divisor = math.gcd(*normal)
    normal = [n // divisor for n in normal]
    return (*normal, sum(n * x for n, x in zip(normal, a)))


def fault(touches, faces):
    """What is wrong with the faces as the hull of the touches, or None."""
    is_flat = all(cross_dot(*four) == 0 for four in itertools.combinations(touches, 4))
    if is_flat != (faces is None):
        return "flatness"
    if faces is None:
        return None
    sides = [side for a, b, c in faces for side in ((a, b), (b, c), (c, a))]
    if len(set(sides)) != len(sides):
        return "a side twice"
    if any((b, a) not in set(sides) for a, b in sides):
        return "not closed"
    corners = [[touches[i] for i in face] for face in faces]
    if any(cross_dot(*face, touch) > 0 for face in corners for touch in touches):
        return "a touch in front of a face"
    if any(all(cross_dot(*face, touch) == 0 for touch in touches) for face in corners):
        return "a face in line"
    used = {i for face in faces for i in face}
    if len(faces) != 2 * len(used) - 4:
        return "face count"
    if {plane_in_least_numbers(*face) for face in corners} != outward_planes(touches):
        return "planes"
    # Seen from any place the pyramids over the faces add up to the same volume.
    volume = sum(-cross_dot(*face, touches[-1]) for face in corners)
    if volume <= 0 or second.volume(touches, faces) != volume:
        return "volume"
    return None


def turn(p, q, r):
    """Twice the area of three places as seen from above, with its sign."""
    return (q[0] - p[0]) * (r[1] - p[1]) - (q[1] - p[1]) * (r[0] - p[0])


def heights_over(touches, x, y):
    """The heights the line has over touches, over two and over three of them.

    The highest and the lowest height in the block are among these.
    """
    q = x, y
    distinct = sorted(set(touches))
    for a in distinct:
        if a[:2] == q:
            yield fractions.Fraction(a[2])
    for a, b in itertools.combinations(distinct, 2):
        for i in range(2):
            if a[i] != b[i] and turn(a, b, q) == 0:
                part = fractions.Fraction(q[i] - a[i], b[i] - a[i])
                if 0 <= part <= 1:
                    yield a[2] + part * (b[2] - a[2])
                break
    for three in itertools.combinations(distinct, 3):
        whole = turn(*three)
        if whole:
            a, b, c = three
            parts = [fractions.Fraction(n, whole) for n in (turn(q, b, c), turn(a, q, c), turn(a, b, q))]
            if min(parts) >= 0:
                yield sum(part * p[2] for part, p in zip(parts, three))


def line_fault(touches, x, y, answer):
    """What is wrong with the answer as the line's reading, or None."""
    heights = list(heights_over(touches, x, y))
    if not heights:
        right = second.MISSES, 0.0, 0.0
    else:
        high, low = max(heights), min(heights)
        kind = second.THROUGH if low < high else second.TOUCHES
        right = kind, high.numerator / high.denominator, low.numerator / low.denominator
    # As text, so that minus zero is not zero.
    return None if repr(answer) == repr(right) else f"not {right}"


def look_at_lines(count):
    rng = random.Random(1)
    seen = dict.fromkeys((second.MISSES, second.TOUCHES, second.THROUGH), 0)
    for _ in range(count):
        touches = lists.touches(rng, rng.randint(4, 9))
        faces = second.hull(touches)
        line = lists.some_line(rng, touches)
        if faces is None:
            continue
        answer = second.line(touches, faces, *line)
        what = line_fault(touches, *line, answer)
        assert what is None, (what, touches, line, answer)
        kind, high, low = answer
        seen[kind] += 1
        # Another reading, heights exchanged or a height moved must not pass.
        others = [(k, high, low) for k in seen if k != kind] + [(kind, high, low + 1)]
        if high != low:
            others.append((kind, low, high))
        if low == 0:
            others.append((kind, high, -0.0))
        for wrong in others:
            assert line_fault(touches, *line, wrong) is not None, (touches, line, wrong)
    assert all(seen.values()), seen
    return seen


def look(count):
    rng = random.Random(0)
    solid = 0
    for _ in range(count):
        touches = lists.touches(rng, rng.randint(0, 9))
        faces = second.hull(touches)
        what = fault(touches, faces)
        assert what is None, (what, touches, faces)
        four = [rng.choice(touches) for _ in range(4)] if touches else [(0, 0, 0)] * 4
        assert second.V(*four) == -cross_dot(*four), four
        if faces:
            solid += 1
            # A face less, turned round or moved must not pass.
            turned = (faces[0][::-1], *faces[1:])
            moved = ((*faces[0][:2], faces[0][0]), *faces[1:])
            for wrong in (None, faces[1:], turned, moved):
                assert fault(touches, wrong) is not None, (touches, wrong)
    assert 0 < solid < count
    return solid


if __name__ == "__main__":
    count = int(sys.argv[1]) if len(sys.argv) > 1 else 3000
    print(f"{count} small lists, {look(count)} of them not flat: hulls are right")
    misses, touch, through = look_at_lines(count).values()
    print(f"lines that miss {misses}, that touch {touch}, that go through {through}: all are right")
