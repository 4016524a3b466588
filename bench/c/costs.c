/* Scripts of calls of the library, whose costs `python3 -m bench run costs` compares: `costs NAME` runs one for its instructions,
 * and `costs NAME memory` repeats it, and tells the most bytes in use and how many more these are at the end. It takes no header
 * of the C library, so that the toolchain's own compiler makes it, and its share of a figure is the same everywhere. */
#include <misteluk.h>

enum { VERTICES = 20000, NAME = 6, FEW = 64, MANY = 4096, RECORD = 64, HELD = 15, BLOCKS = 1 << 17 };

struct in_use { size_t arena, free_chunks, fast_chunks, maps, map_bytes, unused, fast_bytes, bytes, free_bytes, top; };
struct script { const char *name; void (*prepare)(void), (*turn)(uint32_t); uint32_t turns, repeats; };

struct in_use mallinfo2(void);
int printf(const char *form, ...);
int strcmp(const char *one, const char *other);
void exit(int status);

static const misteluk_view every = {0, UINT64_MAX, MISTELUK_ANY_KIND};
static const misteluk_limits limits = {sizeof limits, VERTICES, 1, UINT32_MAX, (uint64_t)1 << 40};
static const uint64_t kind_end = 1;
static misteluk_desk desk;
static misteluk_batch batch;
static misteluk_version versions[HELD];
static misteluk_hold holds[HELD];
static char text[VERTICES * NAME], lines[MANY * RECORD];
static uint64_t ends[VERTICES], times[VERTICES], firsts[VERTICES], recents[VERTICES], done, most;
static uint32_t kinds[VERTICES], sources[VERTICES], targets[VERTICES], outgoing[VERTICES], incoming[VERTICES];
static int64_t weights[VERTICES], sums[VERTICES];
static uint8_t additions[VERTICES];
static misteluk_edge_columns into = {sizeof into, kinds, VERTICES, outgoing, VERTICES, incoming, VERTICES, sums, VERTICES, firsts,
    VERTICES, recents, VERTICES};
static int is_watched;

static void must_be(uint32_t wanted, uint32_t code)
{
    if (code == wanted) return;
    printf("a call gave code %u, and not %u\n", code, wanted);
    exit(1);
}

static void must(uint32_t code) { must_be(MISTELUK_OK, code); }

static uint64_t bytes_in_use(void)
{
    struct in_use told = mallinfo2();
    return told.bytes + told.map_bytes;
}

/* Takes notice of the bytes in use, where instructions aren't counted. glibc takes long to tell where many chunks are free. */
static void watch(void)
{
    uint64_t now = is_watched ? bytes_in_use() : 0;
    if (now > most) most = now;
}

/* A tree: each vertex but the first has an edge from one before it. */
static void draw(void)
{
    uint32_t drawn = 11;
    for (uint32_t at = 0; at < VERTICES; at++) {
        uint32_t rest = at;
        text[at * NAME] = 'v';
        for (int place = NAME - 1; place; place--, rest /= 10) text[at * NAME + place] = (char)('0' + rest % 10);
        drawn = drawn * 1664525 + 1013904223;
        ends[at] = (at + 1) * NAME, targets[at] = at, sources[at] = at ? drawn % at : 0;
        weights[at] = times[at] = 1, additions[at] = MISTELUK_ADD;
    }
}

static const char *name_of(uint32_t vertex) { return text + (size_t)vertex * NAME; }

static void insert_columns(void)
{
    misteluk_counts counts;
    must(misteluk_desk_new_within(1, &limits, BLOCKS, &desk));
    must(misteluk_desk_insert_columns(&desk, "k", 1, text, sizeof text, ends, VERTICES, sources, VERTICES, targets, VERTICES,
        weights, VERTICES, times, VERTICES, &counts, &done));
}

static misteluk_columns columns_of(uint32_t kind, uint32_t from, uint32_t count)
{
    done = 0;
    kinds[from] = kind;
    return (misteluk_columns){sizeof(misteluk_columns), "k", 1, &kind_end, 1, text, sizeof text, ends, VERTICES, additions + from,
        count, kinds + from, count, sources + from, count, targets + from, count, weights + from, count, times + from, count};
}

static uint32_t append_columns(uint32_t kind, uint32_t from, uint32_t count)
{
    misteluk_columns columns = columns_of(kind, from, count);
    return misteluk_batch_columns(&batch, &columns, MISTELUK_MOST_OPERATIONS, &done);
}

static void apply(void)
{
    misteluk_counts counts;
    must(misteluk_desk_apply(&desk, &batch, &counts));
    must(misteluk_desk_collect(&desk, &done));
}

static void commit(uint32_t turn)
{
    uint32_t at = turn % VERTICES;
    must(misteluk_batch_insert(&batch, "k", 1, name_of(sources[at]), NAME, name_of(at), NAME, (int64_t)turn, turn));
    apply();
}

static void hold(uint32_t seat) { must(misteluk_desk_hold(&desk, &versions[seat], &holds[seat])); }

static void release(uint32_t seat)
{
    if (!versions[seat].at) return;
    must(misteluk_desk_release(&desk, &holds[seat]));
    misteluk_version_free(&versions[seat]);
}

/* What the turns of a script begin with. */

static void prepare_none(void) { draw(); }

static void prepare_tree(void)
{
    draw();
    insert_columns();
    must(misteluk_batch_new(&batch));
}

static void prepare_version(void)
{
    prepare_tree();
    hold(0);
}

static void prepare_walks(void)
{
    prepare_version();
    must(misteluk_version_index(&versions[0]));
}

static void prepare_records(void)
{
    prepare_tree();
    must(append_columns(0, 0, MANY));
}

/* A turn of each script. */

static void into_a_desk(uint32_t turn)
{
    (void)turn;
    insert_columns();
    watch();
    misteluk_desk_free(&desk);
}

static void opened_with(uint32_t turn)
{
    misteluk_columns columns = columns_of(0, 0, VERTICES);
    (void)turn;
    must(misteluk_desk_new_within(1, &limits, BLOCKS, &desk));
    must(misteluk_desk_open_columns(&desk, &columns, &done));
    watch();
    misteluk_desk_free(&desk);
}

static void of_a_batch(uint32_t turn)
{
    must(append_columns(0, turn * FEW % (VERTICES - FEW), FEW));
    if (turn % 64 == 0) watch();
    apply();
}

/* A batch that takes 8,000 rows, each by a call of its own. */
static void one_by_one(uint32_t turn)
{
    must(append_columns(0, turn % VERTICES, 1));
    if (turn % 8000 != 7999) return;
    watch();
    misteluk_batch_free(&batch);
    must(misteluk_batch_new(&batch));
}

static void stat(uint32_t turn)
{
    misteluk_stat told;
    (void)turn;
    must(misteluk_desk_stat(&desk, &told));
}

static void hold_and_release(uint32_t turn)
{
    (void)turn;
    hold(0);
    release(0);
}

/* A commit, and a session that asks a copy of its version and is let go 15 turns later. */
static void session(uint32_t turn)
{
    uint32_t seat = turn % HELD, at = turn % (VERTICES - 1) + 1, vertex;
    misteluk_version copy = {0};
    misteluk_edge edge;
    commit(turn);
    release(seat);
    hold(seat);
    must(misteluk_version_clone(&versions[seat], &copy));
    must(misteluk_version_vertex(&copy, name_of(at), NAME, &vertex));
    must(misteluk_version_edge(&copy, 0, sources[at], vertex, &edge));
    must(misteluk_version_row(&copy, &every, sources[at], &into, &done));
    misteluk_version_free(&copy);
}

static void large_version(uint32_t turn)
{
    misteluk_version copy = {0};
    misteluk_size size;
    (void)turn;
    hold(0);
    must(misteluk_version_size(&versions[0], &size));
    must(misteluk_version_clone(&versions[0], &copy));
    misteluk_version_free(&copy);
    release(0);
}

static void tables(uint32_t turn)
{
    must(misteluk_version_degrees(&versions[0], &every, outgoing, VERTICES, incoming, VERTICES, sums, VERTICES));
    must(misteluk_version_levels(&versions[0], &every, turn % VERTICES, outgoing, VERTICES));
    must(misteluk_version_labels(&versions[0], &every, outgoing, VERTICES));
    must(misteluk_version_cores(&versions[0], &every, outgoing, VERTICES));
}

/* What is near a vertex, the way to it from the root, and the edges that lead to it. */
static void walks(uint32_t turn)
{
    uint32_t vertex = turn * 7919 % VERTICES;
    must(misteluk_version_within(&versions[0], &every, MISTELUK_EITHER, &vertex, 1, 4, outgoing, VERTICES, incoming, VERTICES,
        &done));
    must(misteluk_version_path(&versions[0], &every, 0, vertex, outgoing, VERTICES, &done));
    must(misteluk_version_in_edges(&versions[0], &every, vertex, &into, &done));
}

/* An index of a copy that has none yet. */
static void indexes(uint32_t turn)
{
    (void)turn;
    hold(0);
    must(misteluk_version_index(&versions[0]));
    watch();
    release(0);
}

static void searches(uint32_t turn)
{
    uint32_t from = 0;
    must(misteluk_version_weights_in(&versions[0], &every, sums, VERTICES));
    must(misteluk_version_names_like(&versions[0], name_of(turn % VERTICES) + 2, NAME - 2, &from, outgoing, VERTICES, &done));
}

static void records(uint32_t turn)
{
    (void)turn;
    must(misteluk_batch_records(&batch, lines, sizeof lines, &done));
}

static void edges(uint32_t turn)
{
    uint32_t source = 0;
    (void)turn;
    must(misteluk_version_edges(&versions[0], &every, &source, &into, &done));
}

static void rebase(uint32_t turn)
{
    commit(turn);
    must(misteluk_desk_rebase(&desk));
}

/* A batch and columns that are refused: the one by the desk, for a name more than there may be, the other by the batch. */
static void refusals(uint32_t turn)
{
    misteluk_counts counts;
    must(misteluk_batch_insert(&batch, "k", 1, name_of(turn % VERTICES), NAME, "another", 7, 1, 1));
    must_be(MISTELUK_NAMES_FULL, misteluk_desk_apply(&desk, &batch, &counts));
    must_be(MISTELUK_BAD_NUMBER, append_columns(1, turn % (VERTICES - FEW), FEW));
    misteluk_batch_free(&batch);
    must(misteluk_batch_new(&batch));
}

static const struct script scripts[] = {
    {"columns into a desk", prepare_none, into_a_desk, 1, 40},
    {"a desk opened with columns", prepare_none, opened_with, 1, 40},
    {"columns of a batch", prepare_tree, of_a_batch, 300, 5000},
    {"columns one by one", prepare_tree, one_by_one, 8000, 80000},
    {"commits", prepare_tree, commit, 2000, 20000},
    {"stat", prepare_tree, stat, 20000, 20000},
    {"holds", prepare_tree, hold_and_release, 5000, 20000},
    {"sessions", prepare_tree, session, 1000, 20000},
    {"a large version opened", prepare_tree, large_version, 100, 2000},
    {"tables", prepare_version, tables, 2, 200},
    {"all edges", prepare_version, edges, 20, 500},
    {"walks", prepare_walks, walks, 30, 400},
    {"indexes", prepare_tree, indexes, 6, 100},
    {"weights in and names like", prepare_version, searches, 6, 200},
    {"records", prepare_records, records, 20, 400},
    {"rebases", prepare_tree, rebase, 20, 1000},
    {"refusals", prepare_tree, refusals, 500, 20000},
};

/* What callgrind counts. */
__attribute__((noinline)) void counted(const struct script *script, uint32_t turns)
{
    for (uint32_t turn = 0; turn < turns; turn++) {
        script->turn(turn);
        if (turn % 64 == 0) watch();
    }
    __asm__ volatile("");
}

int main(int count, char **words)
{
    for (size_t at = 0; count > 1 && at < sizeof scripts / sizeof *scripts; at++) {
        const struct script *script = &scripts[at];
        if (strcmp(script->name, words[1])) continue;
        script->prepare();
        is_watched = count > 2;
        counted(script, is_watched ? script->repeats / 10 : script->turns);
        if (!is_watched) return 0;
        uint64_t before = bytes_in_use();
        counted(script, script->repeats);
        printf("%llu %lld\n", (unsigned long long)most, (long long)(bytes_in_use() - before));
        return 0;
    }
    return 2;
}
