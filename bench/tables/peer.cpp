// The same work over std::set: what the proved tables are measured against.
// peer ROWS prints the processor time of each kind of call, in nanoseconds.
#include <cstdint>
#include <cstdio>
#include <cstdlib>
#include <ctime>
#include <set>
#include <utility>

using Pair = std::pair<uint32_t, uint32_t>;

static Pair pair_of(uint64_t seed)
{
    uint64_t z = seed * 0x9e3779b97f4a7c15u;
    z = (z ^ (z >> 30)) * 0xbf58476d1ce4e5b9u;
    z = (z ^ (z >> 27)) * 0x94d049bb133111ebu;
    z ^= z >> 31;
    return {static_cast<uint32_t>(z >> 32), static_cast<uint32_t>(z)};
}

static double now()
{
    timespec t;
    clock_gettime(CLOCK_PROCESS_CPUTIME_ID, &t);
    return static_cast<double>(t.tv_sec) * 1e9 + static_cast<double>(t.tv_nsec);
}

static double told(const char *word, double start, uint64_t calls, uint64_t sum)
{
    double end = now();
    std::printf("%s %.1f %llu\n", word, (end - start) / static_cast<double>(calls), static_cast<unsigned long long>(sum));
    return now();
}

int main(int, char **argv)
{
    uint64_t rows = std::strtoull(argv[1], nullptr, 10), found = 0, sum = 0, gone = 0;
    std::set<Pair> set;
    double start = now();
    for (uint64_t seed = 0; seed < rows; seed++)
        set.insert(pair_of(seed));
    start = told("insert", start, rows, set.size());
    for (uint64_t seed = 0; seed < rows; seed++)
        found += set.count(pair_of(seed));
    start = told("find", start, rows, found);
    for (const Pair &pair : set)
        sum += pair.second;
    start = told("walk", start, rows, sum);
    for (uint64_t seed = 0; seed < rows; seed++)
        gone += set.erase(pair_of(seed));
    told("remove", start, rows, gone);
}
