/* Three threads that ask clones of held versions while the first thread feeds, for a tool that looks for races. It ends with
 * status 0 where each table is the one that its version gave alone. */
#include <misteluk.h>
#include <pthread.h>
#include <stdio.h>
#include <stdlib.h>
#include <string.h>

enum { VERTICES = 300, EDGES = 3000, THREADS = 3, ROUNDS = 4 };

static const misteluk_view every = {0, UINT64_MAX, MISTELUK_ANY_KIND};

typedef struct {
    misteluk_version version;
    uint32_t cores[VERTICES], labels[VERTICES];
    int is_wrong;
} asker;

static void must(uint32_t code)
{
    if (code != MISTELUK_OK) {
        fprintf(stderr, "refused with code %u\n", (unsigned)code);
        exit(1);
    }
}

/* Inserts as many edges, of the first vertices in an order of their own. */
static void feed(misteluk_desk *desk, uint32_t seed)
{
    static char text[VERTICES * 4 + 1];
    static uint64_t ends[VERTICES], times[EDGES];
    static uint32_t sources[EDGES], targets[EDGES];
    static int64_t weights[EDGES];
    misteluk_counts counts;
    uint64_t done, length = 0;
    for (uint32_t it = 0; it < VERTICES; it++) {
        length += (uint64_t)sprintf(text + length, "v%03u", (unsigned)it);
        ends[it] = length;
    }
    for (uint32_t it = 0; it < EDGES; it++) {
        seed = seed * 1664525u + 1013904223u;
        sources[it] = it < VERTICES ? it : (seed >> 8) % VERTICES;
        targets[it] = (seed >> 17) % VERTICES;
    }
    must(misteluk_desk_insert_columns(desk, "k", 1, text, length, ends, VERTICES, sources, EDGES, targets, EDGES, weights, EDGES,
        times, EDGES, &counts, &done));
}

static void *ask(void *given)
{
    asker *mine = given;
    uint32_t found[VERTICES];
    for (int it = 0; it < ROUNDS; it++) {
        must(misteluk_version_cores(&mine->version, &every, found, VERTICES));
        mine->is_wrong |= memcmp(found, mine->cores, sizeof found) != 0;
        must(misteluk_version_labels(&mine->version, &every, found, VERTICES));
        mine->is_wrong |= memcmp(found, mine->labels, sizeof found) != 0;
    }
    misteluk_version_free(&mine->version);
    return NULL;
}

int main(void)
{
    static asker askers[THREADS];
    misteluk_desk desk = {0};
    misteluk_version held[THREADS] = {{0}};
    misteluk_hold hold;
    pthread_t threads[THREADS];
    int is_wrong = 0;
    must(misteluk_desk_new(1, 65536, &desk));
    for (int it = 0; it < THREADS; it++) {
        feed(&desk, (uint32_t)it);
        must(misteluk_desk_hold(&desk, &held[it], &hold));
        must(misteluk_version_cores(&held[it], &every, askers[it].cores, VERTICES));
        must(misteluk_version_labels(&held[it], &every, askers[it].labels, VERTICES));
        must(misteluk_version_clone(&held[it], &askers[it].version));
    }
    for (int it = 0; it < THREADS; it++)
        pthread_create(&threads[it], NULL, ask, &askers[it]);
    must(misteluk_desk_release(&desk, &hold));
    for (uint32_t it = 0; it < 2 * ROUNDS; it++)
        feed(&desk, THREADS + it);
    for (int it = 0; it < THREADS; it++) {
        pthread_join(threads[it], NULL);
        is_wrong |= askers[it].is_wrong;
        misteluk_version_free(&held[it]);
    }
    misteluk_desk_free(&desk);
    return is_wrong;
}
