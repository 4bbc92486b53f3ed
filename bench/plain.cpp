// The rule of building, section 'Building' of the scope paper, written straight down: what a C++ programmer has
// without a proof. No face keeps anything but its corners, and the border is found by looking for each reversed side.
#include "plain.h"

#ifndef TALLY
#define TALLY(what) // counted.cpp counts here
#endif

namespace {

constexpr size_t most_touches = 64;
constexpr size_t most_faces = 1344;
constexpr int32_t reach = 30000;

struct Point {
    int64_t x, y, z;
};

struct Face {
    uint16_t a, b, c;
};

bool same(const Point &p, const Point &q) {
    return p.x == q.x && p.y == q.y && p.z == q.z;
}

Point minus(const Point &p, const Point &a) {
    return {p.x - a.x, p.y - a.y, p.z - a.z};
}

Point cross(const Point &u, const Point &v) {
    return {u.y * v.z - u.z * v.y, u.z * v.x - u.x * v.z, u.x * v.y - u.y * v.x};
}

bool in_line(const Point &a, const Point &b, const Point &c) {
    return same(cross(minus(b, a), minus(c, a)), {0, 0, 0});
}

// Negative where d is in front of face (a, b, c), zero on its plane.
int64_t volume(const Point &a, const Point &b, const Point &c, const Point &d) {
    const Point n = cross(minus(b, a), minus(c, a));
    const Point e = minus(d, a);
    return -(n.x * e.x + n.y * e.y + n.z * e.z);
}

// Not cleared when made: every number is written before it is read.
struct Hull {
    const int32_t *list;
    size_t touches;
    size_t count;
    Face faces[most_faces];
    Face visible[most_faces];

    Point point(size_t k) const { return {list[3 * k], list[3 * k + 1], list[3 * k + 2]}; }

    int64_t volume_at(const Face &f, const Point &d) const {
        return volume(point(f.a), point(f.b), point(f.c), d);
    }

    bool is_visible_side(size_t seen, uint16_t a, uint16_t b) const {
        for (size_t i = 0; i < seen; i++) {
            const Face &f = visible[i];
            TALLY(sides);
            if (f.a == a && f.b == b) return true;
            TALLY(sides);
            if (f.b == a && f.c == b) return true;
            TALLY(sides);
            if (f.c == a && f.a == b) return true;
        }
        return false;
    }

    void add_side(size_t seen, uint16_t a, uint16_t b, uint16_t k) {
        if (!is_visible_side(seen, b, a)) faces[count++] = {a, b, k};
    }

    void add(uint16_t k) {
        const Point d = point(k);
        size_t kept = 0, seen = 0;
        for (size_t i = 0; i < count; i++) {
            const Face f = faces[i];
            TALLY(looks);
            if (volume_at(f, d) < 0) {
                TALLY(seen);
                visible[seen++] = f;
            } else {
                faces[kept++] = f;
            }
        }
        count = kept;
        for (size_t i = 0; i < seen; i++) {
            const Face f = visible[i];
            add_side(seen, f.a, f.b, k);
            add_side(seen, f.b, f.c, k);
            add_side(seen, f.c, f.a, k);
        }
    }

    // The whole hull, or false where the list is flat.
    bool build() {
        size_t q = 0, r = 0, s = 0;
        while (q < touches && same(point(0), point(q))) q++;
        if (q == touches) return false;
        while (r < touches && in_line(point(0), point(q), point(r))) r++;
        if (r == touches) return false;
        while (s < touches && volume(point(0), point(q), point(r), point(s)) == 0) s++;
        if (s == touches) return false;
        const bool turned = volume(point(0), point(q), point(r), point(s)) < 0;
        const uint16_t a = turned ? q : 0, b = turned ? 0 : q, c = r, d = s;
        faces[0] = {a, b, c};
        faces[1] = {a, d, b};
        faces[2] = {b, d, c};
        faces[3] = {c, d, a};
        count = 4;
        for (size_t k = 1; k < touches; k++)
            if (k != q && k != r && k != s) add(k);
        return true;
    }
};

} // namespace

extern "C" void plain_build(const int32_t *touches, size_t touches_len, uint16_t *faces, size_t faces_len, int64_t out[4]) {
    out[0] = out[1] = out[2] = out[3] = 0;
    if (touches_len % 3 != 0) {
        out[0] = 1;
        return;
    }
    if (touches_len / 3 > most_touches) {
        out[0] = 2;
        return;
    }
    for (size_t i = 0; i < touches_len; i++)
        if (touches[i] < -reach || touches[i] > reach) {
            out[0] = 3;
            out[1] = i / 3;
            return;
        }
    Hull hull;
    hull.list = touches;
    hull.touches = touches_len / 3;
    if (!hull.build()) {
        out[0] = 4;
        return;
    }
    if (hull.count > faces_len / 3) {
        out[0] = 5;
        return;
    }
    int64_t sum = 0;
    for (size_t i = 0; i < hull.count; i++) {
        const Face &f = hull.faces[i];
        faces[3 * i] = f.a;
        faces[3 * i + 1] = f.b;
        faces[3 * i + 2] = f.c;
        sum += hull.volume_at(f, hull.point(0));
    }
    out[2] = hull.count;
    out[3] = sum;
}
