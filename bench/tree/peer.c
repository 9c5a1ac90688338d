/* The same tree in C, and the plain scan over the same words: what the proved tree is measured against.
   peer WORDS SEARCHES [WITHIN..] prints, for each distance, the processor time of a search in both, in
   nanoseconds, the share of the nodes that the tree reads, and how many words were found. */
#include <stdint.h>
#include <stdio.h>
#include <stdlib.h>
#include <time.h>

#define NONE 0xffffffffu

struct node {
    uint64_t word;
    uint32_t inner;
    uint32_t outer;
    uint8_t radius;
};

struct hit {
    uint32_t number;
    uint32_t away;
};

static struct node *nodes;
static uint64_t *words;
static uint32_t *numbers, *other, *stack;
static struct hit *hits;
static uint64_t read_nodes;

static uint64_t word_of(uint64_t seed)
{
    uint64_t z = seed * 0x9e3779b97f4a7c15u;
    z = (z ^ (z >> 30)) * 0xbf58476d1ce4e5b9u;
    z = (z ^ (z >> 27)) * 0x94d049bb133111ebu;
    return z ^ (z >> 31);
}

static uint32_t away_from(uint64_t x, uint64_t y)
{
    return (uint32_t)__builtin_popcountll(x ^ y);
}

/* Builds the numbers from..to, which are ascending, and gives the first one. */
static uint32_t build(uint32_t from, uint32_t to)
{
    if (from == to)
        return NONE;
    uint32_t top = numbers[from], count = to - from - 1, tally[65] = {0}, within = 0, radius = 0;
    struct node *node = &nodes[top];
    *node = (struct node){words[top], NONE, NONE, 0xff};
    if (count == 0)
        return top;
    for (uint32_t i = from + 1; i < to; i++)
        tally[away_from(words[numbers[i]], node->word)]++;
    for (within = tally[0]; 2 * within < count; within += tally[radius])
        radius++;
    uint32_t inner = from + 1, outer = 0;
    for (uint32_t i = from + 1; i < to; i++) {
        uint32_t number = numbers[i];
        if (away_from(words[number], node->word) <= radius)
            numbers[inner++] = number;
        else
            other[outer++] = number;
    }
    for (uint32_t i = 0; i < outer; i++)
        numbers[inner + i] = other[i];
    node->radius = (uint8_t)radius;
    node->inner = build(from + 1, inner);
    node->outer = build(inner, to);
    return top;
}

static int by_number(const void *x, const void *y)
{
    uint32_t a = ((const struct hit *)x)->number, b = ((const struct hit *)y)->number;
    return (a > b) - (a < b);
}

static uint32_t search(uint64_t query, uint32_t within)
{
    uint32_t depth = 0, found = 0;
    stack[depth++] = 0;
    while (depth > 0) {
        uint32_t at = stack[--depth];
        const struct node *node = &nodes[at];
        uint32_t away = away_from(query, node->word);
        read_nodes++;
        if (away <= within)
            hits[found++] = (struct hit){at, away};
        if (node->radius == 0xff)
            continue;
        if (away <= node->radius + within && node->inner != NONE)
            stack[depth++] = node->inner;
        if (away + within > node->radius && node->outer != NONE)
            stack[depth++] = node->outer;
    }
    qsort(hits, found, sizeof *hits, by_number);
    return found;
}

static uint32_t scan(uint64_t query, uint32_t within, uint32_t count)
{
    uint32_t found = 0;
    for (uint32_t at = 0; at < count; at++) {
        uint32_t away = away_from(query, words[at]);
        if (away <= within)
            hits[found++] = (struct hit){at, away};
    }
    return found;
}

static double now(void)
{
    struct timespec t;
    clock_gettime(CLOCK_PROCESS_CPUTIME_ID, &t);
    return (double)t.tv_sec * 1e9 + (double)t.tv_nsec;
}

int main(int argc, char **argv)
{
    uint32_t count = (uint32_t)atoi(argv[1]), searches = (uint32_t)atoi(argv[2]);
    nodes = malloc(count * sizeof *nodes);
    words = malloc(count * sizeof *words);
    numbers = malloc(count * sizeof *numbers);
    other = malloc(count * sizeof *other);
    stack = malloc(count * sizeof *stack);
    hits = malloc(count * sizeof *hits);
    if (!nodes || !words || !numbers || !other || !stack || !hits)
        return 1;
    for (uint32_t i = 0; i < count; i++) {
        words[i] = word_of(i + 1);
        numbers[i] = i;
    }
    double start = now();
    build(0, count);
    printf("build %.0f\n", now() - start);
    for (int i = 3; i < argc; i++) {
        uint32_t within = (uint32_t)atoi(argv[i]);
        uint64_t found = 0, scanned = 0;
        read_nodes = 0;
        start = now();
        for (uint32_t s = 0; s < searches; s++)
            found += search(word_of(1000000000u + s), within);
        double tree = (now() - start) / searches;
        start = now();
        for (uint32_t s = 0; s < searches; s++)
            scanned += scan(word_of(1000000000u + s), within, count);
        double plain = (now() - start) / searches;
        if (found != scanned)
            return 2;
        printf("search %u %.0f %.0f %.4f %llu\n", within, tree, plain, (double)read_nodes / searches / count,
               (unsigned long long)found);
    }
    return 0;
}
