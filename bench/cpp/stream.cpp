// A log of insertions and removals over plain maps: each vertex has a hash map from target to edge, which is changed in place,
// and there is no version. What the measurement `stream` compares with.
//
//     stream LOG VERTICES BATCH FIRST SCANS OUT
//
// LOG has the operations' sorts (0 inserts, 2 removes), then their sources and their targets. Those from the place FIRST on are
// timed, in batches of BATCH, each under a lock. With SCANS a second thread looks at all edges again and again, under the same
// lock, since a map may not change meanwhile; the two take turns. It prints a line for the seconds that the operations took, and
// the scans, each with how many there were. OUT gets how many edges leave each vertex in the end.
#include "columns.hpp"

#include <atomic>
#include <chrono>
#include <condition_variable>
#include <mutex>
#include <thread>
#include <unordered_map>

namespace {

struct Edge {
    int64_t weight;
    uint64_t first, recent;
};

// A lock that is given in the order in which it is asked for, so that neither thread keeps it from the other.
class Turns {
public:
    void lock() {
        std::unique_lock<std::mutex> held(mutex);
        uint64_t own = next++;
        changed.wait(held, [&] { return serving == own; });
    }

    void unlock() {
        std::lock_guard<std::mutex> held(mutex);
        serving++;
        changed.notify_all();
    }

private:
    std::mutex mutex;
    std::condition_variable changed;
    uint64_t next = 0, serving = 0;
};

struct Log {
    Numbers sorts, sources, targets;
};

class Graph {
public:
    explicit Graph(size_t vertices) : rows(vertices) {}

    void apply(const Log &log, size_t from, size_t to) {
        std::lock_guard<Turns> alone(lock);
        for (size_t at = from; at < to; at++) {
            auto &row = rows[log.sources[at]];
            if (log.sorts[at]) {
                row.erase(log.targets[at]);
                continue;
            }
            auto [place, is_new] = row.try_emplace(log.targets[at], Edge{1, at, at});
            if (!is_new) place->second.weight = 1, place->second.recent = at;
        }
    }

    // How many edges leave each vertex and come in, and the weight that leaves it.
    Numbers degrees() {
        std::lock_guard<Turns> alone(lock);
        Numbers out(rows.size()), into(rows.size());
        std::vector<int64_t> weights(rows.size());
        for (size_t source = 0; source < rows.size(); source++) {
            for (const auto &[target, edge] : rows[source]) {
                out[source]++;
                into[target]++;
                weights[source] += edge.weight;
            }
        }
        return out;
    }

private:
    std::vector<std::unordered_map<uint32_t, Edge>> rows;
    Turns lock;
};

double now() {
    return std::chrono::duration<double>(std::chrono::steady_clock::now().time_since_epoch()).count();
}

} // namespace

int main(int count, char **words) {
    if (count != 7) stop("stream LOG VERTICES BATCH FIRST SCANS OUT");
    auto columns = read_columns(words[1], 3);
    Log log{std::move(columns[0]), std::move(columns[1]), std::move(columns[2])};
    size_t batch = std::stoul(words[3]), first = std::stoul(words[4]), length = log.sorts.size();
    Graph graph(std::stoul(words[2]));
    graph.apply(log, 0, first);

    std::atomic<bool> is_over{false};
    std::atomic<size_t> scans{0};
    double scanned = 0;
    std::thread reader;
    if (std::stoul(words[5])) {
        reader = std::thread([&] {
            for (; !is_over; scans++) graph.degrees();
            scanned = now();
        });
        while (!scans) std::this_thread::yield(); // (it is at work before the first batch)
    }
    size_t before = scans;
    double begun = now();
    for (size_t at = first; at < length; at += batch) graph.apply(log, at, std::min(at + batch, length));
    double spent = now() - begun;
    is_over = true;
    if (reader.joinable()) reader.join();
    std::printf("operations %zu %.9f\nscans %zu %.9f\n", length - first, spent, scans - before, scanned - begun);
    std::FILE *out = std::fopen(words[6], "wb");
    if (!out) stop("can't write");
    write_column(out, graph.degrees());
    if (std::fclose(out)) stop("can't write");
}
