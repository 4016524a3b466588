/* How many bytes of stack each call took, at the most, over a long path, a star and many versions: each call runs on a
 * stack that was filled with one byte before, and what isn't that byte any more was taken. It fails past what docs/C.md says. */
#include <misteluk.h>
#include <pthread.h>
#include <stdio.h>
#include <stdlib.h>
#include <string.h>

enum { VERTICES = 65536, PATH = 30000, BATCH = 4096, STACK = 1 << 20, PROMISED = 48 << 10, FILL = 0xA5 };

static const misteluk_view every = {0, UINT64_MAX, MISTELUK_ANY_KIND};
static const misteluk_limits limits = {sizeof limits, 3, 2, 2, 10};
static misteluk_desk desk, small, opened;
static misteluk_batch batch, filled;
static misteluk_version version, copy;
static misteluk_hold hold;
static misteluk_counts counts;
static misteluk_stat stat_told;
static misteluk_size size;
static misteluk_limits limits_told = MISTELUK_LIMITS;
static misteluk_edge edge;
static const uint64_t kind_end = 1;
static uint64_t ends[VERTICES], times[VERTICES], number, done;
static uint32_t sources[VERTICES], targets[VERTICES], kinds[VERTICES], at, code;
static uint32_t first_kind[VERTICES];
static uint8_t insertions[VERTICES];
static int64_t weights[VERTICES];
static char text[VERTICES * 6], records[VERTICES * 24];

static void none(void) { }
static void desk_new(void) { code = misteluk_desk_new(1, 65536, &desk); }
static void desk_new_within(void) { code = misteluk_desk_new_within(2, &limits, 65536, &small); }
static void desk_limits(void) { code = misteluk_desk_limits(&desk, &limits_told); }
static void code_text(void) { code = misteluk_code_text(MISTELUK_OK, text, MISTELUK_TEXT_BYTES); }
static void batch_new(void) { code = misteluk_batch_new(&batch); }
static void batch_insert(void) { code = misteluk_batch_insert(&batch, "k", 1, "00000", 5, "00001", 5, 1, 1); }
static void batch_add(void) { code = misteluk_batch_add(&filled, "k", 1, "00000", 5, "00001", 5, 1, 1); }
static void batch_remove(void) { code = misteluk_batch_remove(&filled, "k", 1, "00000", 5, "00001", 5); }
static void batch_length(void) { code = misteluk_batch_length(&filled, &number); }
static void batch_records(void) { code = misteluk_batch_records(&filled, records, sizeof records, &number); }
static const misteluk_columns columns = {sizeof columns, "k", 1, &kind_end, 1, text, VERTICES * 5, ends, VERTICES, insertions,
    VERTICES, first_kind, VERTICES, sources, VERTICES, targets, VERTICES, weights, VERTICES, times, VERTICES};

static void batch_columns(void)
{
    done = 0;
    code = misteluk_batch_columns(&filled, &columns, VERTICES, &done);
}
static void batch_expire(void) { code = misteluk_batch_expire(&batch, 1); }
static void apply(void) { code = misteluk_desk_apply(&desk, &batch, &counts); }
static void begin(void) { code = misteluk_desk_begin(&desk, &batch); }
static void finish(void) { code = misteluk_desk_finish(&desk, &counts); }
static void cancel(void) { code = misteluk_desk_cancel(&desk); }
static void insert_columns(void)
{
    code = misteluk_desk_insert_columns(&desk, "k", 1, text, VERTICES * 5, ends, VERTICES, sources, VERTICES, targets, VERTICES,
        weights, VERTICES, times, VERTICES, &counts, &done);
}
static void open_columns(void) { code = misteluk_desk_open_columns(&opened, &columns, &done); }
static void collect(void) { code = misteluk_desk_collect(&desk, &number); }
static void stat(void) { code = misteluk_desk_stat(&desk, &stat_told); }
static void hold_last(void) { code = misteluk_desk_hold(&desk, &version, &hold); }
static void release(void) { code = misteluk_desk_release(&desk, &hold); }
static void rebase(void) { code = misteluk_desk_rebase(&desk); }
static void clone_it(void) { code = misteluk_version_clone(&version, &copy); }
static void size_of(void) { code = misteluk_version_size(&version, &size); }
static void vertex(void) { code = misteluk_version_vertex(&version, "00077", 5, &at); }
static void kind(void) { code = misteluk_version_kind(&version, "k", 1, &at); }
static void kind_names(void) { code = misteluk_version_kind_names(&version, 0, text, 1, &number, 1); }
static void names(void) { code = misteluk_version_names(&version, 0, text, VERTICES * 5, ends, VERTICES); }
static void names_like(void)
{
    at = 0;
    code = misteluk_version_names_like(&version, "7", 1, &at, kinds, VERTICES, &number);
}
static void edge_of(void) { code = misteluk_version_edge(&version, 0, 1, 2, &edge); }
static void degrees(void) { code = misteluk_version_degrees(&version, &every, kinds, VERTICES, sources, VERTICES, weights, VERTICES); }
static void weights_in(void) { code = misteluk_version_weights_in(&version, &every, weights, VERTICES); }
static void levels(void) { code = misteluk_version_levels(&version, &every, 0, kinds, VERTICES); }
static void labels(void) { code = misteluk_version_labels(&version, &every, kinds, VERTICES); }
static void cores(void) { code = misteluk_version_cores(&version, &every, kinds, VERTICES); }
static void index_of(void) { code = misteluk_version_index(&version); }
static void within(void)
{
    code = misteluk_version_within(&version, &every, MISTELUK_EITHER, (const uint32_t[]){0, 1}, 2, MISTELUK_ANY_STEPS, sources,
        VERTICES, targets, VERTICES, &number);
}
static void path(void) { code = misteluk_version_path(&version, &every, 0, 1, kinds, VERTICES, &number); }
static misteluk_edge_columns into = {sizeof into, kinds, VERTICES, sources, VERTICES, targets, VERTICES, weights, VERTICES, ends,
    VERTICES, times, VERTICES};
static void row(void) { code = misteluk_version_row(&version, &every, 0, &into, &number); }
static void in_edges(void) { code = misteluk_version_in_edges(&version, &every, 1, &into, &number); }
static void edges(void)
{
    at = 0;
    code = misteluk_version_edges(&version, &every, &at, &into, &number);
}
static misteluk_diff diff;
static misteluk_version before;
static misteluk_hold earlier;
static uint8_t states[8];
static int64_t weights_before[8], weights_after[8];
static uint64_t times_told[4][8];
static misteluk_diff_columns changes = {sizeof changes, states, 8, kinds, 8, sources, 8, targets, 8, weights_before, 8, times_told[0],
    8, times_told[1], 8, weights_after, 8, times_told[2], 8, times_told[3], 8};
static void desk_diff(void) { code = misteluk_desk_diff(&desk, &earlier, &hold, &diff); }
static void diff_edges(void)
{
    at = 0;
    code = misteluk_diff_edges(&diff, &every, &at, &changes, &number);
}
static void diff_free(void) { misteluk_diff_free(&diff); }
static void free_all(void)
{
    misteluk_version_free(&version), misteluk_version_free(&copy), misteluk_version_free(&before), misteluk_batch_free(&batch), misteluk_batch_free(&filled),
        misteluk_desk_free(&desk);
}

static void *run(void *call)
{
    (*(void (**)(void))call)();
    return NULL;
}

/* The bytes of stack that a call takes, the thread's own among them. */
static size_t taken(void (*call)(void))
{
    static unsigned char *stack;
    pthread_attr_t attributes;
    pthread_t thread;
    size_t left = 0;
    stack = stack ? stack : aligned_alloc(4096, STACK);
    memset(stack, FILL, STACK);
    pthread_attr_init(&attributes);
    pthread_attr_setstack(&attributes, stack, STACK);
    pthread_create(&thread, &attributes, run, &call);
    pthread_join(thread, NULL);
    while (left < STACK && stack[left] == FILL)
        left++;
    return STACK - left;
}

static size_t most, least;

static void measure(const char *name, void (*call)(void))
{
    size_t bytes = taken(call) - least;
    most = bytes > most ? bytes : most;
    printf("%s: %zu\n", name, bytes);
    if (code != MISTELUK_OK) {
        fprintf(stderr, "%s: refused with code %u\n", name, (unsigned)code);
        exit(1);
    }
}

/* Which edges are inserted: those of a path, or of the first vertex. */
static void draw(int is_star)
{
    for (uint32_t it = 0; it < VERTICES; it++) {
        sprintf(text + 5 * it, "%05u", (unsigned)it);
        ends[it] = 5 * (it + 1);
        sources[it] = is_star ? 0 : it % PATH;
        targets[it] = is_star ? it : it % PATH + 1;
        times[it] = 1;
    }
}

int main(void)
{
    least = taken(none);
    measure("desk_new", desk_new);
    measure("desk_new_within", desk_new_within);
    misteluk_desk_free(&small);
    measure("desk_limits", desk_limits);
    measure("code_text", code_text);
    measure("batch_new", batch_new);
    for (int is_star = 0; is_star < 2; is_star++) {
        draw(is_star);
        measure("desk_insert_columns", insert_columns);
        code = misteluk_desk_new(4, 65536, &opened);
        measure("desk_open_columns", open_columns);
        misteluk_desk_free(&opened);
    }
    code = misteluk_batch_new(&filled);
    measure("batch_add", batch_add);
    measure("batch_remove", batch_remove);
    measure("batch_columns", batch_columns);
    measure("batch_length", batch_length);
    measure("batch_records", batch_records);
    for (int it = 0; it < BATCH - 1; it++)
        batch_insert();
    measure("batch_insert", batch_insert);
    code = misteluk_desk_hold(&desk, &before, &earlier);
    measure("desk_begin", begin);
    measure("desk_cancel", cancel);
    begin();
    measure("desk_finish", finish);
    measure("desk_apply", apply);
    measure("desk_stat", stat);
    measure("desk_hold", hold_last);
    measure("desk_diff", desk_diff);
    measure("diff_edges", diff_edges);
    measure("diff_free", diff_free);
    measure("version_clone", clone_it);
    measure("version_size", size_of);
    measure("version_vertex", vertex);
    measure("version_kind", kind);
    measure("version_kind_names", kind_names);
    measure("version_names", names);
    measure("version_names_like", names_like);
    measure("version_edge", edge_of);
    measure("version_degrees", degrees);
    measure("version_weights_in", weights_in);
    measure("version_levels", levels);
    measure("version_labels", labels);
    measure("version_cores", cores);
    measure("version_index", index_of);
    measure("version_within", within);
    measure("version_path", path);
    edges();
    measure("version_row", row);
    measure("version_in_edges", in_edges);
    code = 0; /* (the columns are too short for all edges, and then the call tells how far it came) */
    measure("version_edges", edges);
    measure("desk_release", release);
    measure("desk_rebase", rebase);
    measure("batch_expire", batch_expire);
    for (int it = 0; it < 20000; it++)
        apply();
    measure("desk_apply", apply);
    measure("desk_collect", collect);
    measure("the ends of all", free_all);
    printf("most: %zu bytes of stack\n", most);
    return most <= PROMISED ? 0 : 1;
}
