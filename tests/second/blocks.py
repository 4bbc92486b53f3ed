#!/usr/bin/env python3
"""01's blocks tried by hand and lines worked by hand, asked of the second program, whole answers compared."""

import sys

sys.dont_write_bytecode = True

import lines
import second

T = ((0, 0, 0), (10, 0, 0), (0, 10, 0), (0, 0, 10))
FOUR = (1, 0, 2, 1, 3, 0, 0, 3, 2, 2, 3, 1)
SIX = (1, 0, 2, 1, 3, 0, 0, 3, 2, 2, 3, 4, 3, 1, 4, 1, 2, 4)
FILL = tuple(range(40_000, 40_060))


def flat_list(touches):
    return tuple(number for touch in touches for number in touch)


def built(touches, faces, volume):
    answer = second.build(flat_list(touches), FILL)
    assert answer == (0, 0, len(faces) // 3, volume, faces + FILL[len(faces) :]), answer


def refused(touches, number, at=0, table=FILL):
    answer = second.build(flat_list(touches), table)
    assert answer == (number, at, 0, 0, table), answer


def placed(place, kind, face, minus_v=0, touches=T, faces=FOUR):
    answer = second.place(flat_list(touches), faces, *place)
    assert answer == (0, 0, kind, face, minus_v), answer


def blocks():
    built(T, FOUR, 1000)
    built((*T, (10, 10, 10)), SIX, 3000)
    built((*T, (10, 10, 0)), SIX, 2000)
    built((*T, (20, 0, 0)), SIX, 2000)
    built((*T, (1, 1, 1)), FOUR, 1000)
    built((*T, (2, 3, 5)), FOUR, 1000)
    built(((0, 0, 0), *T), (2, 0, 3, 2, 4, 0, 0, 4, 3, 3, 4, 2), 1000)
    half = 512
    built(
        ((half, half, half), (half, -half, -half), (-half, half, -half), (-half, -half, half)),
        (0, 1, 2, 0, 3, 1, 1, 3, 2, 2, 3, 0),
        2147483648,
    )
    refused(((30000, 0, 0), (0, 30000, 0), (0, 0, 30000), (10000, 10000, 10000)), 4)

    placed((1, 1, 1), second.INSIDE, 0)
    placed((2, 3, 5), second.ON, 3)
    placed((10, 10, 10), second.OUTSIDE, 3, 2000)

    refused((*T[:3], (0, 0, 30001)), 3, 3)
    # With S below the others V is positive, so A and B are P and Q.
    built((*T[:3], (0, 0, -30000)), (0, 1, 2, 0, 3, 1, 1, 3, 2, 2, 3, 0), 3000000)

    on_a_curve = tuple((i, i * i, i * i * i % 1000) for i in range(65))
    answer = second.build(flat_list(on_a_curve[:64]), FILL * 10)
    assert answer[0] == 0 and answer[2] >= 4 and answer[3] > 0, answer
    refused(on_a_curve, 2)
    refused(((5, 5, 5),) * 64, 4)
    refused((), 4)

    refused(T, 5, table=FILL[: 3 * 3])
    refused(T, 5, table=FILL[: 3 * 3 + 2])
    assert second.build(flat_list(T), FILL[:12]) == (0, 0, 4, 1000, FOUR)


def worst_faces():
    # In front of one face alone; of three alike; of three, the two worst alike and not the first.
    placed((5, 4, -1), second.OUTSIDE, 0, 100)
    placed((-1, -1, -1), second.OUTSIDE, 0, 100)
    placed((-2, -2, -1), second.OUTSIDE, 1, 200)
    # Tables that are no hull: one face; a face twice; a face in line.
    placed((10, 10, 10), second.OUTSIDE, 0, 2000, faces=FOUR[9:])
    placed((10, 10, 10), second.OUTSIDE, 1, 2000, faces=FOUR[:3] + 2 * FOUR[9:])
    line = (1, 1, 0)
    placed((10, 10, 10), second.OUTSIDE, 4, 2000, faces=line + FOUR)
    # Eight times 30,000 cubed.
    far = 30_000
    wide = (far, far, far), (far, -far, -far), (-far, far, -far), (-far, -far, far)
    placed((far, far, -far), second.OUTSIDE, 0, 216_000_000_000_000, wide, (0, 1, 2, 0, 3, 1, 1, 3, 2, 2, 3, 0))


def astray(place, touches=T, faces=FOUR):
    answer = second.place(flat_list(touches), faces, *place)
    assert answer == (17, 0, second.REFUSED, 0, 0), answer


def triangles():
    # The flat side of two triangles, 1 0 2 and 1 2 4: inside each, on the border between them, on a corner.
    more = (*T, (10, 10, 0))
    placed((3, 3, 0), second.ON, 0, touches=more, faces=SIX)
    placed((9, 9, 0), second.ON, 5, touches=more, faces=SIX)
    placed((5, 5, 0), second.ON, 0, touches=more, faces=SIX)
    placed((10, 10, 0), second.ON, 3, touches=more, faces=SIX)
    # One triangle alone: on its border, on its plane beyond it, behind it.
    placed((0, 5, 0), second.ON, 0, faces=FOUR[:3])
    astray((9, 9, 0), faces=FOUR[:3])
    placed((9, 9, 1), second.INSIDE, 0, faces=FOUR[:3])
    # A face in line: between its ends, on an end, past it, beside it; a face that is one point.
    placed((7, 0, 0), second.ON, 0, faces=(0, 1, 1))
    placed((10, 0, 0), second.ON, 0, faces=(1, 0, 1))
    astray((11, 0, 0), faces=(0, 1, 0))
    astray((7, 1, 0), faces=(0, 1, 1))
    placed((0, 0, 10), second.ON, 0, faces=(3, 3, 3))
    astray((0, 0, 9), faces=(3, 3, 3))
    # Outside is known before: the line holds no place of its line beyond it, and the other face is in front.
    placed((10, 10, 10), second.OUTSIDE, 1, 2000, faces=(0, 1, 1) + FOUR[9:])
    astray((1, 1, 1), faces=(1, 1, 0) + FOUR)


def listing():
    record = bytes.fromhex(
        "0019 01 000000000000 000A00000000 0000000A0000 00000000000A"
    )
    numbers = tuple(range(50_000, 50_016))
    answer = second.read(record, numbers)
    assert answer == (0, 0, 4, flat_list(T) + numbers[12:]), answer
    _, _, count, volume, table = second.build(answer[3][:12], FILL)
    lines = [f"hull {count} {volume}"]
    lines += [" ".join(map(str, face)) for face in second.faces_of(table[: 3 * count])]
    assert lines == ["hull 4 1000", "1 0 2", "1 3 0", "0 3 2", "2 3 1"], lines

    fill = bytes(range(100, 130))
    assert second.write(flat_list(T), fill) == (0, 0, 27, record + fill[27:])
    assert second.copy(record, fill) == (0, 0, 27, record + fill[27:])
    assert second.write((), fill) == (0, 0, 3, bytes.fromhex("000101") + fill[3:])


def volumes():
    # Equation 4.7 of the chapter.
    seen = (0, 0, 10), (10, 10, 0), (0, 10, 10), (10, 10, 10)
    assert second.V(*seen) == -1000
    for four in seen, T, T[::-1], ((30000, -30000, 7), (-3, 30000, -30000), (5, 11, 30000), (-30000, 2, -1)):
        assert second.V_by_steps(*four)[-1] == (("vol", second.V(*four)),), four
    # 01's minus zero: normal (0, 0, -100), fourth number 0, q = (-5, -5, 0).
    answer = second.plane_of_face(flat_list(T), 1, 0, 2)
    assert list(map(str, answer)) == ["0", "0", "0.0", "0.0", "-100.0", "0.0"], answer
    answer = second.plane_reading(flat_list(T), 1, 0, 2, -5, -5, 0)
    assert list(map(str, answer)) == ["0", "0", "0.0"], answer
    answer = second.plane_reading(flat_list(T), 1, 0, 2, 1, 2, -30000)
    assert answer == (0, 0, 3000000.0), answer


def plumb_lines():
    for touches, x, y, *right in lines.BY_HAND:
        answer = second.plumb(flat_list(touches), x, y)
        # As text, so that minus zero is not zero.
        assert repr(answer) == repr((0, 0, *right)), (touches, x, y, answer)
    for numbers, x, y, number, at in lines.REFUSED:
        answer = second.plumb(numbers, x, y)
        assert repr(answer) == repr((number, at, second.REFUSED, 0.0, 0.0)), (numbers, x, y, answer)


if __name__ == "__main__":
    blocks()
    worst_faces()
    triangles()
    listing()
    volumes()
    plumb_lines()
    print("01's blocks and the lines: as the papers say")
