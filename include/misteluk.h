/* SPDX-License-Identifier: MIT OR Apache-2.0 */
/* Misteluk: a graph of weighted, timed edges that changes in batches, and versions of it that stay as they were.
 *
 *     misteluk_desk desk = {0};
 *     misteluk_batch batch = {0};
 *     misteluk_counts counts;
 *     if (misteluk_desk_new(1, 16384, &desk) || misteluk_batch_new(&batch)) return 1;
 *     misteluk_batch_insert(&batch, "knows", 5, "ann", 3, "bob", 3, 1, 0);
 *     misteluk_desk_apply(&desk, &batch, &counts);
 *
 * A desk is where batches are applied. Each batch that is accepted leaves one version more; a version that was held never
 * changes, whatever is applied after it. A handle begins as {0}, and holds nothing then.
 *
 * What a caller owes: each pointer leads to as much memory as the length beside it says, and is not NULL, also where the length
 * is 0; what a pointer without const leads to overlaps nothing else that the call is given (const ones may be the same, as one
 * text for a loop's source and target); one call at a time for each handle, on any thread; a handle is not copied and used
 * twice, and not used in a forked child. Each length counts items of the array, not bytes. All else is tested inside: texts,
 * numbers, lengths, and whether a handle holds anything.
 *
 * A call that can be refused returns a code. After any code but MISTELUK_OK the handles are as they were before the call, and
 * what it would have written is not to be read, unless its comment says otherwise. No call reads or writes a file, starts a
 * thread, waits, or keeps a pointer that it was given.
 */
#ifndef MISTELUK_H
#define MISTELUK_H

#include <stddef.h>
#include <stdint.h>

#ifdef __cplusplus
extern "C" {
#endif

/* The number of this interface. It grows with each change that an older caller could not take: a program that is linked to the
 * shared library of another number doesn't start. */
#define MISTELUK_INTERFACE 4
/* The release: 10,000 times the major number, 100 times the minor one, and the last one. */
#define MISTELUK_VERSION 100

enum {
    MISTELUK_OK = 0,
    MISTELUK_MEMORY = 1,        /* out of memory */
    MISTELUK_NO_HANDLE = 2,     /* a handle holds nothing */
    MISTELUK_HELD_ALREADY = 3,  /* a handle that is to be made holds something already */
    MISTELUK_BAD_LENGTH = 4,    /* arrays whose lengths differ, or an array that is too short */
    MISTELUK_BAD_NAME = 5,      /* a name is 1 to 64 bytes, each from 0x21 to 0x7E; a kind's is not "*" */
    MISTELUK_BAD_WEIGHT = 6,    /* a weight is at most 2^40 in size */
    MISTELUK_BAD_TIME = 7,      /* a time is below 2^63 */
    MISTELUK_BAD_NUMBER = 8,    /* an index past its dictionary, ends that fall or leave their text, or no sort of operation
                                 * or direction */
    MISTELUK_BAD_BLOCKS = 9,    /* a desk has at least 16 blocks, and at most 65,536, or 4,293,918,719 under limits of its own */
    MISTELUK_BATCH_FULL = 10,   /* the batch has 4,096 operations or more: only columns within a limit append to it */
    MISTELUK_BATCHES_FULL = 11, /* as many batches as the desk's limits allow were accepted since it opened or was rebased */
    MISTELUK_NAMES_FULL = 12,   /* the batch would leave more vertices than the desk's limits allow */
    MISTELUK_KINDS_FULL = 13,   /* the batch would leave more kinds than the desk's limits allow */
    MISTELUK_BLOCKS_FULL = 14,  /* fewer blocks are free than the batch asks for */
    MISTELUK_NO_SEAT = 15,      /* 16 versions are held, or what is to be released isn't held by this desk */
    MISTELUK_NO_VERTEX = 16,
    MISTELUK_NO_KIND = 17,
    MISTELUK_NO_EDGE = 18,
    MISTELUK_BAD_LIMITS = 19,   /* limits of 0 or past their walls, which stand beside misteluk_limits and MISTELUK_MOST_OPERATIONS */
    MISTELUK_NOT_EMPTY = 20,    /* a desk that is to open with columns has a vertex */
    MISTELUK_BAD_SIZE = 21      /* a struct's `size` is none that it has had in this interface */
};

/* What stands for "any kind" where a kind's number is asked for, and for "not reached" among levels. */
#define MISTELUK_ANY_KIND UINT32_MAX
#define MISTELUK_NOT_REACHED UINT32_MAX

/* Which way a step of a walk goes along an edge: from source to target, from target to source, or either way. And any number of
 * steps. */
#define MISTELUK_ALONG 0
#define MISTELUK_AGAINST 1
#define MISTELUK_EITHER 2
#define MISTELUK_ANY_STEPS UINT32_MAX

/* The sorts of operations, where these are a column. */
#define MISTELUK_INSERT 0
#define MISTELUK_ADD 1
#define MISTELUK_REMOVE 2
#define MISTELUK_EXPIRE 3

/* What became of an edge. */
#define MISTELUK_GONE 0
#define MISTELUK_NEW 1
#define MISTELUK_CHANGED 2

/* How many operations a batch has at the most, and how many where they are appended one by one. */
#define MISTELUK_MOST_OPERATIONS 1048576
#define MISTELUK_OPERATIONS 4096

/* How many bytes misteluk_code_text needs at the most. */
#define MISTELUK_TEXT_BYTES 80

typedef struct { void *at; } misteluk_desk;
typedef struct { void *at; } misteluk_batch;
typedef struct { void *at; } misteluk_version;
typedef struct { void *at; } misteluk_diff;

/* How many vertices and kinds the graph of a desk may have, and how many batches the desk accepts until it is rebased. A desk
 * that is opened without limits of its own has 65,536, 64 and 65,536. Each limit is 1 or more, and none passes these walls:
 * 67,108,863 vertices, 64 kinds, and vertices times kinds at most 8,388,606, or more where weights are below 2^40. So a sum of
 * weights is below 2^63. A desk of UINT32_MAX batches keeps none of those that it has applied, so that a stream of updates to a
 * graph of constant size takes level memory. `weight` is how large a weight may be, 1 to 2^40, and vertices times kinds, and one
 * more, times that is below 2^63. An operation whose weight or amount is past it, or the sum that it would leave, is counted as
 * overflowed: it changes nothing but that its names are there.
 *
 * `size` is sizeof(misteluk_limits). A later library may know more fields: it takes a program's struct as it was when the program
 * was compiled, and neither reads nor writes past its end. This library also takes one that ends before `weight`. */
typedef struct {
    size_t size;
    uint32_t names, kinds, batches;
    uint64_t weight;
} misteluk_limits;

/* What a misteluk_limits begins with: the limits of a desk that is opened without its own. */
#define MISTELUK_LIMITS {sizeof(misteluk_limits), 65536, 64, 65536, (uint64_t)1 << 40}

/* Operations in columns of one length: their sorts, MISTELUK_INSERT to MISTELUK_EXPIRE, and the numbers of their kinds in one
 * dictionary of names, of sources and targets in another. The name of number n are the bytes of its text from ends[n - 1], or from
 * 0, to below ends[n]. Names that no operation has aren't looked at, nor are a removal's weight and time, nor of an expiry
 * anything but its time. `size` is sizeof(misteluk_columns), as of limits; no pointer is NULL. */
typedef struct {
    size_t size;
    const char *kind_text; size_t kind_text_length;
    const uint64_t *kind_ends; size_t kind_ends_length;
    const char *text; size_t text_length;
    const uint64_t *ends; size_t ends_length;
    const uint8_t *operations; size_t operations_length;
    const uint32_t *kinds; size_t kinds_length;
    const uint32_t *sources; size_t sources_length;
    const uint32_t *targets; size_t targets_length;
    const int64_t *weights; size_t weights_length;
    const uint64_t *times; size_t times_length;
} misteluk_columns;

/* Columns of one length that edges are written to. `size` is sizeof(misteluk_edge_columns), as of limits; no pointer is NULL. */
typedef struct {
    size_t size;
    uint32_t *kinds; size_t kinds_length;
    uint32_t *sources; size_t sources_length;
    uint32_t *targets; size_t targets_length;
    int64_t *weights; size_t weights_length;
    uint64_t *firsts; size_t firsts_length;
    uint64_t *recents; size_t recents_length;
} misteluk_edge_columns;

/* Columns of one length that what became of edges is written to: states, MISTELUK_GONE to MISTELUK_CHANGED, the edges' kinds and
 * ends, and what they bore before and bear after. `size` is sizeof(misteluk_diff_columns), as of limits; no pointer is NULL. */
typedef struct {
    size_t size;
    uint8_t *states; size_t states_length;
    uint32_t *kinds; size_t kinds_length;
    uint32_t *sources; size_t sources_length;
    uint32_t *targets; size_t targets_length;
    int64_t *weights_before; size_t weights_before_length;
    uint64_t *firsts_before; size_t firsts_before_length;
    uint64_t *recents_before; size_t recents_before_length;
    int64_t *weights_after; size_t weights_after_length;
    uint64_t *firsts_after; size_t firsts_after_length;
    uint64_t *recents_after; size_t recents_after_length;
} misteluk_diff_columns;

/* What became of a batch's operations, each counted once but an expiry, which counts the edges that it took away. */
typedef struct {
    uint64_t version; /* the number of the version that the batch left */
    uint64_t inserted, updated, removed, absent, overflowed, expired;
} misteluk_counts;

/* The last version, and the blocks. */
typedef struct {
    uint64_t version, vertices, kinds, edges;
    uint64_t blocks_free, blocks_retired, blocks_used;
} misteluk_stat;

/* A version, and how many bytes its names and its kinds' names have. */
typedef struct {
    uint64_t version, vertices, kinds, edges, name_bytes, kind_bytes;
} misteluk_size;

/* Which version is held, for its release, and which desk holds it, by the number that the desk was opened with. */
typedef struct {
    uint64_t desk, opening, number;
} misteluk_hold;

typedef struct {
    int64_t weight;
    uint64_t first, recent; /* the time of its first insertion, and of the last operation that touched it */
} misteluk_edge;

/* Which edges count: those of one kind by its number, or of any, whose recent time is from `from` to `to`, both included. Where
 * `from` is greater than `to` there are none. */
typedef struct {
    uint64_t from, to;
    uint32_t kind;
} misteluk_view;

/* Returns MISTELUK_INTERFACE as the library was made. */
uint32_t misteluk_interface(void);
/* Returns MISTELUK_VERSION as the library was made. */
uint32_t misteluk_library_version(void);
/* Writes what a code says in English, and a 0 after it; also of a number that is no code. BAD_LENGTH where it has no room. */
uint32_t misteluk_code_text(uint32_t code, char *text, size_t text_length);

/* Batches */

/* Makes an empty batch. MEMORY, HELD_ALREADY. */
uint32_t misteluk_batch_new(misteluk_batch *out);
/* Ends a batch with all that it has, and leaves the handle empty. One that holds nothing may be given. */
void misteluk_batch_free(misteluk_batch *batch);
/* Tells how many operations a batch has. NO_HANDLE. */
uint32_t misteluk_batch_length(misteluk_batch *batch, uint64_t *out);
/* Writes a batch's operations as the program reads them in a script, one record a line, with no 0 at the end. `length` becomes how
 * many bytes they are, also where the text has no room for them: it is as it was then. They take as much memory, until the call
 * returns. NO_HANDLE; BAD_LENGTH, or MEMORY, after which `length` is as it was, too. */
uint32_t misteluk_batch_records(misteluk_batch *batch, char *text, size_t text_length, uint64_t *length);
/* Appends an insertion: the edge is added, or the weight of the one that is there is replaced.
 * NO_HANDLE, BAD_NAME, BAD_WEIGHT, BAD_TIME, BATCH_FULL in this order, or MEMORY. */
uint32_t misteluk_batch_insert(misteluk_batch *batch, const char *kind, size_t kind_length, const char *source,
    size_t source_length, const char *target, size_t target_length, int64_t weight, uint64_t time);
/* Appends an addition: the edge is added, or the amount is added to the weight of the one that is there. As above. */
uint32_t misteluk_batch_add(misteluk_batch *batch, const char *kind, size_t kind_length, const char *source,
    size_t source_length, const char *target, size_t target_length, int64_t amount, uint64_t time);
/* Appends a removal. NO_HANDLE, BAD_NAME, BATCH_FULL, or MEMORY. */
uint32_t misteluk_batch_remove(misteluk_batch *batch, const char *kind, size_t kind_length, const char *source,
    size_t source_length, const char *target, size_t target_length);
/* Appends an expiry: each edge whose recent time is before this one is taken away. NO_HANDLE, BAD_TIME, BATCH_FULL, or MEMORY. */
uint32_t misteluk_batch_expire(misteluk_batch *batch, uint64_t time);
/* Appends operations of any sort from place `*done` of the columns on: all that there are, or as many as there is room for in a
 * batch of `limit` operations, 1 to MISTELUK_MOST_OPERATIONS. (A large batch is applied in less time than the same operations in
 * many, and is one version.) `*done` becomes the first place that isn't in, where one goes on with the next batch; one past the
 * last place stays as it is, and nothing is appended. Where an operation is refused, the batch is as it was, with none of the
 * call's operations, and `*done` is the place of the first that is refused. BAD_SIZE; BAD_LIMITS; NO_HANDLE; BAD_LENGTH where the
 * columns differ; of an operation BAD_NUMBER, also of a sort that there is none of, BAD_NAME, BAD_WEIGHT, BAD_TIME in this order;
 * or MEMORY. After MEMORY and the codes before BAD_NUMBER `*done` is as it was, so that the same call can be made again. */
uint32_t misteluk_batch_columns(misteluk_batch *batch, const misteluk_columns *columns, uint32_t limit, uint64_t *done);

/* The desk */

/* Opens a desk without edges, with so many blocks, each for 32 edges of one source and kind. `desk_number` is any number that no
 * other desk of the program was opened with: the desk's holds have it, and no desk of another number takes them back.
 * BAD_BLOCKS, HELD_ALREADY, MEMORY. */
uint32_t misteluk_desk_new(uint64_t desk_number, uint32_t blocks, misteluk_desk *out);
/* The same under limits of one's own, which the desk keeps, also after a rebase. A block takes memory when it is first used.
 * BAD_SIZE, BAD_LIMITS, BAD_BLOCKS, HELD_ALREADY, MEMORY. */
uint32_t misteluk_desk_new_within(uint64_t desk_number, const misteluk_limits *limits, uint32_t blocks, misteluk_desk *out);
/* Tells the limits of a desk, as far as the struct has them, whose `size` the caller sets. NO_HANDLE, BAD_SIZE. */
uint32_t misteluk_desk_limits(misteluk_desk *desk, misteluk_limits *out);
/* Ends a desk, as a batch. Versions that were held answer on, until they are freed. */
void misteluk_desk_free(misteluk_desk *desk);
/* Applies a batch, operation after operation, and empties it. NO_HANDLE, BATCHES_FULL, NAMES_FULL, KINDS_FULL, BLOCKS_FULL in
 * this order, or MEMORY; the desk and the batch are as they were then. */
uint32_t misteluk_desk_apply(misteluk_desk *desk, misteluk_batch *batch, misteluk_counts *counts);
/* Makes a batch ready, for a caller who writes a log before anybody sees the version: it meets every refusal, and takes all the
 * memory that the batch needs; the batch stays in its handle. The handle of the desk then holds the desk together with the batch
 * that is ready, and each other call but `finish`, `cancel` and `free` says NO_HANDLE to it. Versions that are held answer on.
 * The codes of `apply`. */
uint32_t misteluk_desk_begin(misteluk_desk *desk, misteluk_batch *batch);
/* Accepts the batch that is ready, and tells what became of its operations. NO_HANDLE where none is ready. */
uint32_t misteluk_desk_finish(misteluk_desk *desk, misteluk_counts *counts);
/* Gives up the batch that is ready: the desk is the one of before. It takes no memory. NO_HANDLE where none is ready. */
uint32_t misteluk_desk_cancel(misteluk_desk *desk);
/* Applies insertions of one kind, whose vertices are numbers in a dictionary of names: the name of number n are the bytes of `text`
 * from ends[n - 1], or from 0, to below ends[n]. A batch, and so a version, has as many times 4,096 of them as there are free
 * blocks for, at most 65,536; where there are fewer free ones it has 4,096, and blocks that nobody needs are collected if it must
 * be. They are collected behind each batch, too. If a larger batch is refused, and not for MEMORY, that one and those behind it
 * have 4,096. `done` tells how many insertions were applied, also after a refusal, and `counts` what became of them; the first that
 * is refused, and those of its batch, are not in. In the end the memory of most free blocks is given up. The codes of an insertion
 * and of `apply`, and BAD_LENGTH, BAD_NUMBER. */
uint32_t misteluk_desk_insert_columns(misteluk_desk *desk, const char *kind, size_t kind_length, const char *text,
    size_t text_length, const uint64_t *ends, size_t ends_length, const uint32_t *sources, size_t sources_length,
    const uint32_t *targets, size_t targets_length, const int64_t *weights, size_t weights_length, const uint64_t *times,
    size_t times_length, misteluk_counts *counts, uint64_t *done);
/* Starts over, where the desk has no vertex, with the graph that insertions and additions make of the empty one, one after another:
 * as if they had been applied, but as version 0, in one step, without batches, and in as few blocks as the edges need. A removal
 * and an expiry are BAD_NUMBER. As after a rebase, nothing is held or retired, and versions that were held answer on. Where a row
 * is refused, `done` is its place, and else 0, but as it was after BAD_SIZE and NO_HANDLE. The codes of misteluk_batch_columns but
 * BAD_LIMITS, in its order, and of the first row that is refused NAMES_FULL and KINDS_FULL behind them; NOT_EMPTY before BAD_LENGTH;
 * BLOCKS_FULL where the edges need more blocks than the desk has. MEMORY is also the code for 2^32 rows. */
uint32_t misteluk_desk_open_columns(misteluk_desk *desk, const misteluk_columns *columns, uint64_t *done);
/* Frees each retired block that no held version of this opening needs, and tells how many these were. NO_HANDLE. */
uint32_t misteluk_desk_collect(misteluk_desk *desk, uint64_t *freed);
/* Tells the counts. NO_HANDLE. */
uint32_t misteluk_desk_stat(misteluk_desk *desk, misteluk_stat *out);
/* Holds the last version: `version` holds it, and `hold` is for its release. At most 16 versions of different numbers are held
 * at once, each as often as one likes. NO_HANDLE, HELD_ALREADY, NO_SEAT, MEMORY. */
uint32_t misteluk_desk_hold(misteluk_desk *desk, misteluk_version *version, misteluk_hold *hold);
/* Takes one hold back, so that a collection may free what the version alone needs. The version handle is freed on its own, before
 * or after. The hold of a former opening of this desk needs nothing more, and is OK. A hold that another desk gave, also one that
 * has ended, is refused (but for a chance of one in 2^64), and nothing is released. NO_HANDLE, NO_SEAT where it isn't held. */
uint32_t misteluk_desk_release(misteluk_desk *desk, const misteluk_hold *hold);
/* Opens the desk anew over what the last version holds: its number is 0, no batch is kept, nothing is held or retired. Versions
 * that were held answer on. NO_HANDLE, MEMORY. */
uint32_t misteluk_desk_rebase(misteluk_desk *desk);

/* Versions */

/* Makes a second handle on the same version, as for another thread. NO_HANDLE, HELD_ALREADY, MEMORY. */
uint32_t misteluk_version_clone(misteluk_version *version, misteluk_version *out);
/* Lets a version go, as a batch. */
void misteluk_version_free(misteluk_version *version);
/* Tells its sizes. NO_HANDLE. */
uint32_t misteluk_version_size(misteluk_version *version, misteluk_size *out);
/* Tells the number of a vertex. NO_HANDLE, NO_VERTEX. */
uint32_t misteluk_version_vertex(misteluk_version *version, const char *name, size_t length, uint32_t *out);
/* Tells the number of a kind. NO_HANDLE, NO_KIND. */
uint32_t misteluk_version_kind(misteluk_version *version, const char *name, size_t length, uint32_t *out);
/* Writes the names of vertices from number `first` on, one after another, as many as `ends` has places, and where each ends.
 * NO_HANDLE, NO_VERTEX where there are fewer, BAD_LENGTH where the text has no room for them. */
uint32_t misteluk_version_names(misteluk_version *version, uint32_t first, char *text, size_t text_length, uint64_t *ends,
    size_t ends_length);
/* The same of the kinds' names. NO_HANDLE, NO_KIND, BAD_LENGTH. */
uint32_t misteluk_version_kind_names(misteluk_version *version, uint32_t first, char *text, size_t text_length, uint64_t *ends,
    size_t ends_length);
/* Writes the numbers of the vertices from `*from` on whose names have the text in them, rising, as many as there is room for. The
 * text is any bytes, which stand in the name one after another; the empty one is in each name. `count` tells how many were
 * written, and `*from` is the first number that wasn't looked at: the number of vertices where all were. One that is past all
 * vertices stays as it is, and nothing is written. It takes no memory. NO_HANDLE. */
uint32_t misteluk_version_names_like(misteluk_version *version, const char *text, size_t text_length, uint32_t *from,
    uint32_t *numbers, size_t numbers_length, uint64_t *count);
/* Tells one edge by its numbers. NO_HANDLE, NO_KIND, NO_VERTEX, NO_EDGE. */
uint32_t misteluk_version_edge(misteluk_version *version, uint32_t kind, uint32_t source, uint32_t target, misteluk_edge *out);
/* For each vertex by number: how many edges of the view go out, how many come in, and the sum of the weights that go out. Each
 * array has as many places as there are vertices. NO_HANDLE, NO_KIND, BAD_LENGTH, MEMORY. */
uint32_t misteluk_version_degrees(misteluk_version *version, const misteluk_view *view, uint32_t *outgoing,
    size_t outgoing_length, uint32_t *incoming, size_t incoming_length, int64_t *out_weight, size_t out_weight_length);
/* For each vertex by number: the sum of the weights of the edges of the view that come in. It takes no memory.
 * NO_HANDLE, NO_KIND, BAD_LENGTH. */
uint32_t misteluk_version_weights_in(misteluk_version *version, const misteluk_view *view, int64_t *in_weight,
    size_t in_weight_length);
/* For each vertex: the least number of edges of the view that lead to it from the source, or NOT_REACHED.
 * NO_HANDLE, NO_KIND, NO_VERTEX, BAD_LENGTH, MEMORY. */
uint32_t misteluk_version_levels(misteluk_version *version, const misteluk_view *view, uint32_t source, uint32_t *levels,
    size_t levels_length);
/* Puts the edges of a version in the order of their targets, too, and keeps that with the handle and with each that is cloned from
 * it then: 40 bytes an edge. A call that goes against edges does it, where it hasn't been done. NO_HANDLE, MEMORY. */
uint32_t misteluk_version_index(misteluk_version *version);
/* Writes the vertices to which a walk of at most so many steps over edges of the view leads from any of the sources, each with the
 * least number of steps, in number order. A source has 0, and may stand more than once. `count` tells how many there are; where
 * the columns have fewer places nothing is written and the code is BAD_LENGTH, with `count` told. It takes time and memory by the
 * vertices that it reaches and their edges, but for a bit for each vertex, and for misteluk_version_index in the directions that
 * need it. BAD_NUMBER where there is no such direction, NO_HANDLE, NO_KIND, NO_VERTEX, BAD_LENGTH where the columns differ or are
 * too short; or MEMORY. */
uint32_t misteluk_version_within(misteluk_version *version, const misteluk_view *view, uint32_t direction, const uint32_t *sources,
    size_t sources_length, uint32_t steps, uint32_t *vertices, size_t vertices_length, uint32_t *levels, size_t levels_length,
    uint64_t *count);
/* Writes the vertices of a walk along edges of the view from the source to the target, with both, of which none has fewer: from the
 * target on, each is the least vertex that can stand there. `count` tells how many they are, 0 where no walk leads there; where
 * there are fewer places nothing is written and the code is BAD_LENGTH, with `count` told. It needs misteluk_version_index.
 * NO_HANDLE, NO_KIND, NO_VERTEX, BAD_LENGTH, MEMORY. */
uint32_t misteluk_version_path(misteluk_version *version, const misteluk_view *view, uint32_t source, uint32_t target,
    uint32_t *vertices, size_t vertices_length, uint64_t *count);
/* For each vertex: the least number of a vertex that edges of the view join it to, whatever their direction.
 * NO_HANDLE, NO_KIND, BAD_LENGTH, MEMORY. */
uint32_t misteluk_version_labels(misteluk_version *version, const misteluk_view *view, uint32_t *labels, size_t labels_length);
/* For each vertex: its core number (Seidman 1983) over the view, direction and kind ignored. As above. */
uint32_t misteluk_version_cores(misteluk_version *version, const misteluk_view *view, uint32_t *cores, size_t cores_length);
/* Writes the edges of one source that the view lets through, in the order of its row, into all columns but the sources, which may
 * have any length. `count` tells how many there are; where the columns have fewer places nothing is written and the code is
 * BAD_LENGTH, with `count` told. BAD_SIZE, NO_HANDLE, NO_KIND, NO_VERTEX, BAD_LENGTH. */
uint32_t misteluk_version_row(misteluk_version *version, const misteluk_view *view, uint32_t source, misteluk_edge_columns *into,
    uint64_t *count);
/* Writes the edges of one target that the view lets through, their sources rising and those of one source in the order of its
 * row, into all columns but the targets, which may have any length. `count` tells how many there are; where the columns have fewer
 * places nothing is written and the code is BAD_LENGTH, with `count` told. It needs misteluk_version_index, and where that is there
 * it takes no memory, and time by the edges of the target. BAD_SIZE, NO_HANDLE, NO_KIND, NO_VERTEX, BAD_LENGTH; or MEMORY. */
uint32_t misteluk_version_in_edges(misteluk_version *version, const misteluk_view *view, uint32_t target,
    misteluk_edge_columns *into, uint64_t *count);
/* Writes the edges that the view lets through of the sources from `*source` on, source by source, each one's whole row, as many
 * as the columns hold. `count` tells how many were written, and `*source` is the first source that isn't in: the number of
 * vertices where all are. One that is past all vertices stays as it is, and nothing is written. BAD_SIZE, NO_HANDLE, NO_KIND,
 * BAD_LENGTH where the columns differ or not even the next row fits (then `count` tells how long it is). */
uint32_t misteluk_version_edges(misteluk_version *version, const misteluk_view *view, uint32_t *source, misteluk_edge_columns *into,
    uint64_t *count);

/* What became of edges */

/* Makes in `diff` the two versions of these holds, to ask what became of edges from the earlier one to the later one. It looks once
 * at each 64 vertices, and at each one among 64 of which batches have touched some since the earlier one; misteluk_diff_edges then
 * takes time by the rows that batches have touched, and mostly by their blocks that aren't in both. It holds both versions on its
 * own: a release, or a free of their handles, takes nothing from it. NO_HANDLE, HELD_ALREADY, NO_SEAT where this desk holds either
 * no more, or since before it opened anew, BAD_NUMBER where the earlier one has the greater number, MEMORY. */
uint32_t misteluk_desk_diff(misteluk_desk *desk, const misteluk_hold *earlier, const misteluk_hold *later, misteluk_diff *diff);
/* Lets both versions go, as a batch. */
void misteluk_diff_free(misteluk_diff *diff);
/* Writes what became of the edges that the view lets through, in each version by itself, of the sources from `*source` on, source by
 * source, as many whole sources as the columns hold. Of each source first come the edges that are gone, in the order of the earlier
 * row, and then those that are new, or changed in weight, first or recent time, in the order of the later one. Where an edge isn't
 * there before, or after, 0 is written. `count` tells how many were written, and `*source` is the first source that isn't in: the
 * number of vertices of the later version where all are. One that is past all vertices stays as it is, and nothing is written.
 * BAD_SIZE, NO_HANDLE, NO_KIND where the later version has no such kind, BAD_LENGTH where the columns differ or not even what became
 * of the next source's edges fits (then `count` tells how many they are), MEMORY. */
uint32_t misteluk_diff_edges(misteluk_diff *diff, const misteluk_view *view, uint32_t *source, misteluk_diff_columns *into,
    uint64_t *count);

#ifdef __cplusplus
}
#endif

#endif
