#include "peers.h"

#include <CGAL/Exact_predicates_inexact_constructions_kernel.h>
#include <CGAL/Surface_mesh.h>
#include <CGAL/convex_hull_3.h>

#include <libqhull_r/qhull_ra.h>

#include <cstdio>
#include <cstdlib>
#include <vector>

namespace {

class Qhull : public Peer {
public:
    Qhull(const int32_t *touches, size_t len) : numbers(touches, touches + len) {}

    void build() override { with_hull(false); }
    double volume() override { return with_hull(true); }

private:
    std::vector<coordT> numbers;

    double with_hull(bool wants_volume) {
        qhT state;
        qh_zero(&state, stderr);
        char options[] = "qhull Qt";
        const int status = qh_new_qhull(&state, 3, int(numbers.size() / 3), numbers.data(), False, options, nullptr, stderr);
        if (status != 0) {
            std::fprintf(stderr, "bench: qhull gave up with status %d\n", status);
            std::exit(1);
        }
        double sum = 0;
        if (wants_volume) {
            qh_getarea(&state, state.facet_list);
            sum = 6 * state.totvol;
        }
        qh_freeqhull(&state, !qh_ALL);
        int long_blocks, long_bytes;
        qh_memfreeshort(&state, &long_blocks, &long_bytes);
        return sum;
    }
};

class Cgal : public Peer {
    using Kernel = CGAL::Exact_predicates_inexact_constructions_kernel;
    using Point = Kernel::Point_3;
    using Mesh = CGAL::Surface_mesh<Point>;

public:
    Cgal(const int32_t *touches, size_t len) {
        for (size_t i = 0; i < len; i += 3) points.emplace_back(touches[i], touches[i + 1], touches[i + 2]);
    }

    void build() override {
        Mesh mesh;
        CGAL::convex_hull_3(points.begin(), points.end(), mesh);
    }

    double volume() override {
        Mesh mesh;
        CGAL::convex_hull_3(points.begin(), points.end(), mesh);
        double sum = 0;
        for (const auto face : mesh.faces()) {
            const auto side = mesh.halfedge(face);
            const Point &a = mesh.point(mesh.target(side));
            const Point &b = mesh.point(mesh.target(mesh.next(side)));
            const Point &c = mesh.point(mesh.target(mesh.next(mesh.next(side))));
            sum += CGAL::scalar_product(CGAL::cross_product(b - a, c - a), a - points[0]);
        }
        return sum;
    }

private:
    std::vector<Point> points;
};

} // namespace

std::unique_ptr<Peer> qhull_over(const int32_t *touches, size_t touches_len) {
    return std::make_unique<Qhull>(touches, touches_len);
}

std::unique_ptr<Peer> cgal_over(const int32_t *touches, size_t touches_len) {
    return std::make_unique<Cgal>(touches, touches_len);
}
