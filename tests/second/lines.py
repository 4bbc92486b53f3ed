"""Plumb lines worked by hand.

Each line of BY_HAND has the touches, x and y, and then the reading, the entry and the
exit; each of REFUSED the coordinates, x and y, and then the refusal and its place.
"""

from second import MISSES, THROUGH, TOUCHES

# The slanting face is x + y + z = 10; the other faces are z = 0, x = 0 and y = 0.
T = ((0, 0, 0), (10, 0, 0), (0, 10, 0), (0, 0, 10))
# The slanting face is x + y - z = 10.
UNDER = ((0, 0, 0), (10, 0, 0), (0, 10, 0), (0, 0, -10))
# The slanting face is 2x + 3y + 6z = 12.
WEDGE = ((0, 0, 0), (6, 0, 0), (0, 4, 0), (0, 0, 2))
# At y = 0 there is nothing but the edge from touch 0 to touch 1: z = x/3 - 2.
KEEL = ((0, 0, -2), (3, 0, -1), (1, 5, -2), (1, 5, 7))
# 5x + 5y + 3z = 15 above and 7x + 7y - 3z = 21 below.
SPINDLE = ((0, 0, -7), (3, 0, 0), (0, 3, 0), (0, 0, 5))
CUBE = tuple((x, y, z) for x in (-10, 10) for y in (-10, 10) for z in (-10, 10))
# So thin that along its longest edge both heights of a line round alike.
THIN = (
    (-30_000, -30_000, 29_949), (30_000, 29_998, 29_903),
    (-30_000, 29_998, 29_811), (-29_997, 30_000, 29_811),
)
# Six times its volume is 1. At (8180, -11271) the bounds above are 5515789630435 / 207637097
# and 5910947052086 / 222512454, the greater one below is 3381074818413 / 127277617, and all
# three are one double. In order of size they are the second, the third and the first.
SPLINTER = ((8184, -11277, 26565), (17065, -23015, 27522), (6942, 4696, 26397), (21684, -5740, 27964))

BY_HAND = (
    (T, 1, 1, THROUGH, 8.0, 0.0),
    (T, 2, 3, THROUGH, 5.0, 0.0),
    # Along an upright edge, and along an upright side.
    (T, 0, 0, THROUGH, 10.0, 0.0),
    (T, 5, 0, THROUGH, 5.0, 0.0),
    # A corner, and an edge.
    (T, 10, 0, TOUCHES, 0.0, 0.0),
    (T, 5, 5, TOUCHES, 0.0, 0.0),
    (T, 11, 0, MISSES, 0.0, 0.0),
    (T, 6, 5, MISSES, 0.0, 0.0),
    # Between the bounds, but in front of the upright side x = 0.
    (T, -1, 0, MISSES, 0.0, 0.0),
    (T, -1, 3, MISSES, 0.0, 0.0),
    (T, 30_000, -30_000, MISSES, 0.0, 0.0),
    (UNDER, 1, 1, THROUGH, 0.0, -8.0),
    (UNDER, 10, 0, TOUCHES, 0.0, 0.0),
    # 6z = 12 - 2 - 3, then 12 - 8, 12 - 9 and 12 - 12.
    (WEDGE, 1, 1, THROUGH, 7 / 6, 0.0),
    (WEDGE, 4, 0, THROUGH, 2 / 3, 0.0),
    (WEDGE, 0, 3, THROUGH, 0.5, 0.0),
    (WEDGE, 3, 2, TOUCHES, 0.0, 0.0),
    (KEEL, 0, 0, TOUCHES, -2.0, -2.0),
    (KEEL, 1, 0, TOUCHES, -5 / 3, -5 / 3),
    (KEEL, 2, 0, TOUCHES, -4 / 3, -4 / 3),
    (KEEL, 1, -1, MISSES, 0.0, 0.0),
    (KEEL, 1, 5, THROUGH, 7.0, -2.0),
    # 3z = 15 - 10 and -3z = 21 - 14; at (1, 2) both are 0.
    (SPINDLE, 1, 1, THROUGH, 5 / 3, -7 / 3),
    (SPINDLE, 1, 2, TOUCHES, 0.0, 0.0),
    (CUBE, 10, 10, THROUGH, 10.0, -10.0),
    (CUBE, 10, 0, THROUGH, 10.0, -10.0),
    (CUBE, 11, 0, MISSES, 0.0, 0.0),
    # 107720283623082 / 3599820006 is the greater one, and 107722078871368 / 3599880000 the
    # same double. At (2874, 2872), past the edge, the one below is the greater, and again
    # both are one double.
    (THIN, 2873, 2872, THROUGH, 29923.79714639599, 29923.79714639599),
    (THIN, 2874, 2872, MISSES, 0.0, 0.0),
    (THIN, -30_000, -30_000, TOUCHES, 29_949.0, 29_949.0),
    (SPLINTER, 8180, -11271, MISSES, 0.0, 0.0),
    (SPLINTER, 8184, -11277, TOUCHES, 26_565.0, 26_565.0),
)


def flat_list(touches):
    return tuple(number for touch in touches for number in touch)


REFUSED = (
    (flat_list(T)[:11], 30_001, 0, 1, 0),
    (flat_list(T * 17), 30_001, 0, 2, 0),
    (flat_list((*T[:3], (0, 0, 30_001))), 30_001, 0, 3, 3),
    (flat_list(T[:3]), 0, 0, 4, 0),
    (flat_list(T[:3]), 30_001, 0, 4, 0),
    ((), 0, -30_001, 4, 0),
    (flat_list(T), 30_001, 0, 7, 0),
    (flat_list(T), 0, -30_001, 7, 0),
    (flat_list(T), 2**31 - 1, -(2**31), 7, 0),
)
