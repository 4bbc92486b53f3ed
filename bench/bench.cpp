// Our archive beside its peers, in one process and on the same lists. bench/run builds and starts this.
#include "counted.h"
#include "lists.h"
#include "peers.h"
#include "plain.h"

#include <algorithm>
#include <cmath>
#include <cstdio>
#include <cstdlib>
#include <cstring>
#include <ctime>
#include <memory>
#include <string>
#include <vector>

#ifndef WITHOUT_OURS
extern "C" {
#include "chienlohup.h"
}
#endif

namespace {

using Build = void (*)(const int32_t *, size_t, uint16_t *, size_t, int64_t *);

#ifdef WITHOUT_OURS
constexpr bool with_ours = false;
constexpr Build ours = plain_build; // not called
#else
constexpr bool with_ours = true;
constexpr Build ours = chienlohup_build;
#endif

constexpr size_t face_numbers = 3 * 1344;

[[noreturn]] void fail(const std::string &what) {
    std::fprintf(stderr, "bench: %s\n", what.c_str());
    std::exit(1);
}

// A face table as long as any list needs, and the four numbers beside it.
struct Answer {
    std::vector<uint16_t> faces = std::vector<uint16_t>(face_numbers, 0xffff);
    int64_t out[4] = {-1, -1, -1, -1};

    bool operator==(const Answer &other) const { return faces == other.faces && std::memcmp(out, other.out, sizeof out) == 0; }
};

Answer answer_of(Build build, const List &list) {
    Answer answer;
    build(list.data(), list.size(), answer.faces.data(), answer.faces.size(), answer.out);
    return answer;
}

// One of those that are timed: it makes the hull of list i of its row.
class Competitor {
public:
    virtual ~Competitor() = default;
    virtual void run(size_t i) = 0;
    virtual const char *name() const = 0;
};

// Ours and (a).
class Builder : public Competitor {
public:
    Builder(const char *name, Build build, const Row &row) : title(name), build(build), row(row) {}
    void run(size_t i) override {
        const List &list = row.lists[i];
        build(list.data(), list.size(), answer.faces.data(), answer.faces.size(), answer.out);
    }
    const char *name() const override { return title; }

private:
    const char *title;
    Build build;
    const Row &row;
    Answer answer;
};

class Outsider : public Competitor {
public:
    Outsider(const char *name, std::unique_ptr<Peer> (*over)(const int32_t *, size_t), const Row &row) : title(name) {
        for (const List &list : row.lists) peers.push_back(over(list.data(), list.size()));
    }
    void run(size_t i) override { peers[i]->build(); }
    const char *name() const override { return title; }

private:
    const char *title;
    std::vector<std::unique_ptr<Peer>> peers;
};

using Field = std::vector<std::unique_ptr<Competitor>>;

// (a) comes first: it is the yardstick.
Field field_of(const Row &row, bool with_outsiders) {
    Field field;
    field.push_back(std::make_unique<Builder>("plain", plain_build, row));
    if (with_ours) field.push_back(std::make_unique<Builder>("ours", ours, row));
    if (with_outsiders) {
        field.push_back(std::make_unique<Outsider>("qhull", qhull_over, row));
        field.push_back(std::make_unique<Outsider>("CGAL", cgal_over, row));
    }
    return field;
}

void check_peer(const Row &row, const char *name, double theirs, double volume) {
    if (std::fabs(theirs - volume) > 1e-9 * volume) fail(row.key + ": the volume of " + name + " differs");
}

// Speed says nothing of a wrong answer.
void check(const Row &row) {
    for (const List &list : row.lists) {
        const Answer plain = answer_of(plain_build, list);
        if (plain.out[0] != 0) fail(row.key + ": a list was refused");
        if (!(answer_of(counted_build, list) == plain)) fail(row.key + ": the counted rule differs");
        if (with_ours && !(answer_of(ours, list) == plain)) fail(row.key + ": our answer is not that of (a)");
        const double volume = double(plain.out[3]);
        check_peer(row, "qhull", qhull_over(list.data(), list.size())->volume(), volume);
        check_peer(row, "CGAL", cgal_over(list.data(), list.size())->volume(), volume);
    }
}

// The processor's time and not the clock's: on a busy machine the process waits, and that is nobody's speed.
double now() {
    timespec t;
    clock_gettime(CLOCK_PROCESS_CPUTIME_ID, &t);
    return double(t.tv_sec) + 1e-9 * double(t.tv_nsec);
}

// Seconds for all lists of a row, a number of times over.
double seconds(Competitor &competitor, const Row &row, size_t times) {
    const double start = now();
    for (size_t t = 0; t < times; t++)
        for (size_t i = 0; i < row.lists.size(); i++) competitor.run(i);
    return now() - start;
}

double median(std::vector<double> values) {
    std::sort(values.begin(), values.end());
    return values[values.size() / 2];
}

struct Timing {
    double nanoseconds; // a hull
    double ratio;       // to (a)
};

// Each round times everyone once, each time another one first, and a ratio is taken within a round: a machine that
// slows down slows all of them. The medians leave out the rounds in which something else ran.
std::vector<Timing> time_row(const Row &row, const Field &field) {
    constexpr int rounds = 41;
    constexpr double shortest = 0.002;
    std::vector<size_t> times;
    for (const auto &competitor : field) {
        size_t n = 1;
        while (seconds(*competitor, row, n) < shortest) n *= 2;
        times.push_back(n);
    }
    std::vector<std::vector<double>> each(field.size()), ratios(field.size());
    for (int r = 0; r < rounds; r++) {
        for (size_t turn = 0; turn < field.size(); turn++) {
            const size_t c = (turn + size_t(r)) % field.size();
            each[c].push_back(1e9 * seconds(*field[c], row, times[c]) / double(times[c] * row.lists.size()));
        }
        for (size_t c = 0; c < field.size(); c++) ratios[c].push_back(each[c].back() / each[0].back());
    }
    std::vector<Timing> timings;
    for (size_t c = 0; c < field.size(); c++) timings.push_back({median(each[c]), median(ratios[c])});
    return timings;
}

void print_times(const std::vector<Row> &table, bool with_outsiders) {
    bool headed = false;
    for (const Row &row : table) {
        const Field field = field_of(row, with_outsiders);
        if (!headed) {
            std::printf("%-22s", "");
            for (const auto &competitor : field) std::printf("%12s", competitor->name());
            for (size_t c = 1; c < field.size(); c++) std::printf("%14s", (std::string(field[c]->name()) + "/plain").c_str());
            std::printf("\n");
            headed = true;
        }
        const std::vector<Timing> timings = time_row(row, field);
        std::printf("%-22s", row.name.c_str());
        for (const Timing &t : timings) std::printf("%12.0f", t.nanoseconds);
        for (size_t c = 1; c < field.size(); c++) std::printf("%14.2f", timings[c].ratio);
        std::printf("\n");
        std::fflush(stdout);
    }
}

void print_work(const std::vector<Row> &table) {
    std::printf("%-22s%12s%12s%12s%12s\n", "", "faces", "V", "sides", "marks");
    for (const Row &row : table) {
        tally = {0, 0, 0};
        double faces = 0;
        for (const List &list : row.lists) faces += double(answer_of(counted_build, list).out[2]);
        const double n = double(row.lists.size());
        std::printf("%-22s%12.1f%12.1f%12.1f%12.1f\n", row.name.c_str(), faces / n, double(tally.looks) / n, double(tally.sides) / n, 3 * double(tally.seen) / n);
    }
}

// Every list of one row once, by one competitor: for a tool that counts instructions.
int count(const std::string &who, const std::string &key) {
    std::vector<Row> all = rows();
    for (Row &row : growth()) all.push_back(std::move(row));
    for (const Row &row : all) {
        if (row.key != key) continue;
        for (const auto &competitor : field_of(row, true))
            if (who == competitor->name()) {
                for (size_t i = 0; i < row.lists.size(); i++) competitor->run(i);
                std::printf("%zu\n", row.lists.size());
                return 0;
            }
    }
    fail("no competitor " + who + " or no row " + key);
}

} // namespace

int main(int argc, char **argv) {
    if (argc == 4 && std::string(argv[1]) == "--count") return count(argv[2], argv[3]);
    if (argc != 1) fail("usage: bench [--count COMPETITOR ROW]");
    const std::vector<Row> table = rows(), grown = growth();
    for (const Row &row : table) check(row);
    for (const Row &row : grown) check(row);
    std::printf("every answer %s; the volumes of qhull and CGAL agree\n", with_ours ? "of ours equals that of (a), byte for byte" : "of (a) stands alone");
    std::printf("\nnanoseconds a hull\n");
    print_times(table, true);
    std::printf("\ngrowth with the number of touches, nanoseconds a hull\n");
    print_times(grown, false);
    std::printf("\nwork, a hull: faces at the end, V of a face and a touch; (a) compares sides with sides, we mark each side of a visible face and look each up once\n");
    print_work(grown);
    return 0;
}
