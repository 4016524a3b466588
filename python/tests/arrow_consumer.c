/* Who takes Arrow streams, by Arrow's specification alone ("The Arrow C data interface", "The Arrow C stream interface"): its
 * structs and rules stand here once more, so that nothing of what is tested judges itself. It checks what it takes, moves structs
 * out of their parents, and releases them in other threads and orders. Nothing of Python is linked.
 *
 * With -DALONE it is a program that lends columns of malloc itself, for a tool that watches memory. */
#include <pthread.h>
#include <stdint.h>
#include <stdio.h>
#include <stdlib.h>
#include <string.h>
#include <unistd.h>

struct schema {
    const char *format, *name, *metadata;
    int64_t flags, n_children;
    struct schema **children, *dictionary;
    void (*release)(struct schema *);
    void *private_data;
};

struct array {
    int64_t length, null_count, offset, n_buffers, n_children;
    const void **buffers;
    struct array **children, *dictionary;
    void (*release)(struct array *);
    void *private_data;
};

struct stream {
    int (*get_schema)(struct stream *, struct schema *);
    int (*get_next)(struct stream *, struct array *);
    const char *(*get_last_error)(struct stream *);
    void (*release)(struct stream *);
    void *private_data;
};

/* What was taken: rows, and of each column the sum of its numbers, and of its texts' bytes. */
enum { MOST = 16 };
struct sums {
    int64_t rows, faults, numbers[MOST], bytes[MOST];
};

static void must(struct sums *sums, int is_so, int line, const char *what)
{
    if (is_so) return;
    sums->faults++;
    fprintf(stderr, "arrow_consumer.c:%d: not %s\n", line, what);
}
#define MUST(what) must(sums, (what) != 0, __LINE__, #what)

static int width_of(const char *format)
{
    if (!strcmp(format, "i") || !strcmp(format, "I")) return 4;
    return !strcmp(format, "l") || !strcmp(format, "L") || !strncmp(format, "ts", 2) ? 8 : 0;
}

static void check_schema(struct sums *sums, const struct schema *it, int is_child)
{
    MUST(it->release && it->format && !(it->flags & ~7));
    MUST(!is_child || it->name);
    MUST(it->n_children >= 0 && (!it->n_children || it->children));
    if (!strcmp(it->format, "+s")) MUST(!it->dictionary);
    else MUST(it->n_children == 0);
    for (int64_t at = 0; at < it->n_children; at++) check_schema(sums, it->children[at], 1);
    if (it->dictionary) {
        MUST(!strcmp(it->format, "i"));
        check_schema(sums, it->dictionary, 0);
    }
    int32_t size, pairs = 0;
    const char *at = it->metadata;
    if (at) memcpy(&pairs, at, 4), at += 4, MUST(pairs > 0);
    for (int part = 0; part < 2 * pairs; part++, at += size) memcpy(&size, at, 4), at += 4, MUST(size > 0 && size < 100);
}

static void check_utf8(struct sums *sums, const unsigned char *text, int64_t size, int64_t *sum)
{
    for (int64_t at = 0; at < size;) {
        int more = text[at] < 0x80 ? 0 : text[at] >> 5 == 6 ? 1 : text[at] >> 4 == 14 ? 2 : text[at] >> 3 == 30 ? 3 : -1;
        MUST(more >= 0 && at + more < size);
        *sum += text[at++];
        for (; more > 0; more--, at++) MUST(text[at] >> 6 == 2), *sum += text[at];
    }
}

static void check_values(struct sums *sums, const struct schema *schema, const struct array *it, int64_t *numbers, int64_t *bytes)
{
    int is_text = !strcmp(schema->format, "U"), width = width_of(schema->format);
    MUST(schema->release && it->release && it->buffers && it->n_children == 0);
    MUST(it->length >= 0 && it->offset >= 0 && it->null_count == 0); /* (what is lent has no gaps) */
    MUST(!schema->dictionary == !it->dictionary);
    MUST(it->n_buffers == (is_text ? 3 : 2) && !it->buffers[0] && it->buffers[1]);
    MUST((uintptr_t)it->buffers[1] % (is_text ? 8 : width ? width : 1) == 0);
    if (is_text) {
        const int64_t *ends = (const int64_t *)it->buffers[1] + it->offset;
        MUST(ends[0] >= 0 && it->buffers[2]);
        for (int64_t at = 0; at < it->length; at++) {
            MUST(ends[at] <= ends[at + 1]);
            check_utf8(sums, (const unsigned char *)it->buffers[2] + ends[at], ends[at + 1] - ends[at], bytes);
        }
        return;
    }
    MUST(width > 0);
    for (int64_t at = it->offset; at < it->offset + it->length; at++) {
        int64_t value = width == 4 ? ((const int32_t *)it->buffers[1])[at] : ((const int64_t *)it->buffers[1])[at];
        MUST(!it->dictionary || (value >= 0 && value < it->dictionary->length));
        *numbers += value;
    }
    if (it->dictionary) check_values(sums, schema->dictionary, it->dictionary, numbers, bytes);
}

static void check_batch(struct sums *sums, const struct schema *schema, const struct array *it)
{
    MUST(!strcmp(schema->format, "+s") && it->n_buffers == 1 && it->buffers && !it->buffers[0] && it->null_count == 0);
    MUST(it->length >= 0 && it->offset == 0 && !it->dictionary);
    MUST(it->n_children == schema->n_children && it->n_children <= MOST);
    for (int64_t at = 0; at < it->n_children; at++) {
        MUST(it->children[at]->length == it->length);
        check_values(sums, schema->children[at], it->children[at], &sums->numbers[at], &sums->bytes[at]);
    }
    sums->rows += it->length;
}

static void *release_alone(void *given)
{
    struct array *it = given;
    volatile unsigned sum = 0;
    for (int64_t at = 0; it->n_buffers > 1 && at < it->length; at++) sum += ((const unsigned char *)it->buffers[1])[at];
    it->release(it);
    if (it->release) abort();
    free(it);
    return NULL;
}

static void *moved(const void *from, size_t size)
{
    void *to = malloc(size);
    if (!to) abort();
    return memcpy(to, from, size);
}

/* Moves every other column, and of the others the dictionaries, into threads of their own, which outlive the batch. */
static void scatter(struct array *batch, int turn)
{
    pthread_t threads[MOST];
    int count = 0;
    for (int64_t at = 0; at < batch->n_children; at++) {
        struct array *it = (at + turn) % 2 ? batch->children[at] : batch->children[at]->dictionary;
        if (!it) continue;
        if (pthread_create(&threads[count++], NULL, release_alone, moved(it, sizeof *it))) abort();
        it->release = NULL;
    }
    struct array elsewhere = *batch;
    memset(batch, 0xAA, sizeof *batch);
    elsewhere.release(&elsewhere);
    if (elsewhere.release) abort();
    while (count) pthread_join(threads[--count], NULL);
}

struct work {
    struct stream stream;
    struct sums *sums;
    int turn;
};

static void *read_all(void *given)
{
    struct work *work = given;
    struct stream *stream = &work->stream;
    struct sums *sums = work->sums;
    struct schema schema, again;
    struct array batch;
    MUST(!stream->get_schema(stream, &schema) && !stream->get_schema(stream, &again));
    check_schema(sums, &schema, 0);
    again.release(&again);
    MUST(!again.release);
    MUST(!stream->get_next(stream, &batch) && batch.release);
    check_batch(sums, &schema, &batch);
    struct array end = batch;
    MUST(!stream->get_next(stream, &end) && !end.release && !stream->get_next(stream, &end) && !end.release);
    if (work->turn % 3 == 0) stream->release(stream); /* before what came of it, and else after it */
    scatter(&batch, work->turn);
    struct schema child = *schema.children[0];
    schema.children[0]->release = NULL;
    schema.release(&schema);
    MUST(strlen(child.name) > 0 && !schema.release);
    child.release(&child);
    if (work->turn % 3) stream->release(stream);
    MUST(!stream->release);
    return NULL;
}

/* Moves a stream, reads and releases all of it in another thread, and returns how many faults there were. */
int64_t consume(struct stream *from, int turn, struct sums *sums)
{
    pthread_t thread;
    struct work work = {*from, sums, turn};
    from->release = NULL;
    memset(sums, 0, sizeof *sums);
    if (pthread_create(&thread, NULL, read_all, &work)) abort();
    pthread_join(thread, NULL);
    return sums->faults;
}

/* One batch that is kept until it is let go, in another thread; or until the process ends. */
static struct array held;

int hold(struct stream *from)
{
    return from->get_next(from, &held);
}

int64_t held_sum(int column)
{
    int64_t sum = 0;
    for (int64_t at = 0; at < held.length; at++) sum += ((const int64_t *)held.children[column]->buffers[1])[at];
    return sum;
}

const void *held_place(int column)
{
    return held.children[column]->buffers[1];
}

void let_go(void)
{
    pthread_t thread;
    if (pthread_create(&thread, NULL, release_alone, moved(&held, sizeof held))) abort();
    pthread_join(thread, NULL);
}

static void at_the_end(void)
{
    char text[64];
    int size = snprintf(text, sizeof text, "after the end: %lld\n", (long long)held_sum(3));
    let_go();
    if (write(1, text, (size_t)size) != size) abort();
}

int let_go_at_the_end(void)
{
    return atexit(at_the_end);
}

#ifdef ALONE
#include <misteluk_arrow.h>

enum { ROWS = 1000, THREADS = 4, ROUNDS = 50 };
static misteluk_arrow_lender *lender;
static long left; /* how many requests for memory are met before one isn't; below 0 all are */

void *some_memory(size_t size)
{
    int is_met = __atomic_load_n(&left, __ATOMIC_RELAXED) < 0 || __atomic_sub_fetch(&left, 1, __ATOMIC_RELAXED) >= 0;
    return is_met ? malloc(size) : NULL;
}

/* A stream of columns in one piece of memory, which is its owner. */
static struct ArrowArrayStream *lent(void)
{
    struct all {
        int64_t weights[ROWS], ends[4];
        int32_t sources[ROWS];
        char texts[6], name[7];
    } *all = malloc(sizeof *all);
    if (!all) abort();
    for (int at = 0; at < ROWS; at++) all->weights[at] = at, all->sources[at] = at % 3;
    memcpy(all->texts, "annbob", 6);
    memcpy(all->ends, (int64_t[]){0, 3, 6, 6}, sizeof all->ends);
    memcpy(all->name, "source", 7);
    misteluk_arrow_column columns[] = {{all->name, "i", NULL, all->sources, all->texts, all->ends, 3},
                                       {"weight", "l", NULL, all->weights, NULL, NULL, 0}};
    struct ArrowArrayStream *made = misteluk_arrow_stream(lender, all, columns, 2, ROWS);
    if (!made) free(all);
    return made;
}

static __thread int count;

static void take(void *owner)
{
    free(owner);
    count++;
}

/* Frees the owners that came back, and returns how many. */
static int freed(void)
{
    count = 0;
    misteluk_arrow_give_back(lender, take);
    return count;
}

static void *work(void *given)
{
    int *all = given;
    struct sums sums;
    for (int turn = 0; turn < ROUNDS; turn++) {
        struct ArrowArrayStream *stream = lent();
        struct ArrowSchema *schema = misteluk_arrow_schema(stream);
        if (consume((void *)stream, turn, &sums) || sums.rows != ROWS || sums.numbers[1] != ROWS * (ROWS - 1) / 2) abort();
        if (strcmp(schema->children[0]->name, "source")) abort();
        schema->release(schema);
        free(schema);
        free(stream);
        *all += freed();
    }
    return NULL;
}

/* Each request for memory fails once; the call may be made again, and nothing is lost. */
static int without_memory(void)
{
    int failed = 0;
    for (long at = 0; at < 5; at++) {
        struct ArrowArrayStream *stream = NULL;
        struct ArrowSchema *schema = NULL;
        struct ArrowArray batch = {0};
        for (left = at; !(stream = lent()); left = -1) failed++;
        for (; !(schema = misteluk_arrow_schema(stream)); left = -1) failed++;
        for (; stream->get_next(stream, &batch); left = -1, failed++)
            if (batch.release || strcmp(stream->get_last_error(stream), "out of memory")) abort();
        left = -1;
        stream->release(stream);
        batch.release(&batch);
        if (freed()) abort(); /* (the schema has it) */
        schema->release(schema);
        free(schema);
        free(stream);
        if (freed() != 1) abort();
    }
    return failed;
}

int main(void)
{
    pthread_t threads[THREADS];
    int counts[THREADS] = {0}, all = 0;
    left = -1;
    lender = misteluk_arrow_lender_new();
    if (without_memory() != 5) return 2;
    for (int at = 0; at < THREADS; at++) pthread_create(&threads[at], NULL, work, &counts[at]);
    for (int at = 0; at < THREADS; at++) pthread_join(threads[at], NULL), all += counts[at];
    printf("%d returned\n", all += freed());
    free(lender);
    return all != THREADS * ROUNDS;
}
#endif
