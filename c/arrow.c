/* SPDX-License-Identifier: MIT OR Apache-2.0 */
/* Streams over lent columns. misteluk_arrow.h says what each call does.
 *
 * Two counts decide how long memory lives. A tree is one allocation with all structs of a schema or a batch; each of them may be
 * moved and released by itself, and the tree is freed with the last one. A loan counts its stream and the trees that came of it;
 * with the last of these its owner is noted with the lender, in a list that any thread may put to without a lock. */
#include "misteluk_arrow.h"

#include <errno.h>
#include <stdlib.h>

struct loan {
    size_t uses;
    struct loan *next; /* in the lender's list */
    misteluk_arrow_lender *lender;
    void *owner;
    int64_t rows;
    int is_read;
    size_t count;
    misteluk_arrow_column columns[];
};

struct misteluk_arrow_lender { struct loan *returned; };

/* Each column has a struct, and one for its dictionary. After those of all columns stand the pointers that the root has. */
struct tree { size_t uses; struct loan *loan; };
struct schemas { struct tree tree; struct ArrowSchema parts[][2]; };
struct arrays {
    struct tree tree;
    struct { struct ArrowArray parts[2]; const void *values[2], *texts[3]; } columns[];
};

/* Where the values of a column without rows are, and the one buffer of a struct, of which no row is missing. */
static const int64_t nothing[1];
static const void *no_validity[1];
static void *(*get_pointer_of)(void *, const char *);

static void put(struct loan *loan)
{
    struct loan **list = &loan->lender->returned;
    loan->next = __atomic_load_n(list, __ATOMIC_RELAXED);
    while (!__atomic_compare_exchange_n(list, &loan->next, loan, 1, __ATOMIC_RELEASE, __ATOMIC_RELAXED)) continue;
}

static void leave_loan(struct loan *loan)
{
    if (!__atomic_sub_fetch(&loan->uses, 1, __ATOMIC_ACQ_REL)) put(loan);
}

static void leave_tree(struct tree *tree)
{
    struct loan *loan = tree->loan;
    if (__atomic_sub_fetch(&tree->uses, 1, __ATOMIC_ACQ_REL)) return;
    free(tree);
    leave_loan(loan);
}

/* Releases a struct with those below it that nobody moved out. */
#define RELEASES(type, name) \
    static void name(struct type *it) \
    { \
        for (int64_t at = 0; at < it->n_children; at++) \
            if (it->children[at]->release) it->children[at]->release(it->children[at]); \
        if (it->dictionary && it->dictionary->release) it->dictionary->release(it->dictionary); \
        it->release = NULL; \
        leave_tree(it->private_data); \
    }
RELEASES(ArrowSchema, release_schema)
RELEASES(ArrowArray, release_array)

/* A tree's struct, which is one use of it. */
static struct ArrowSchema schema(struct tree *tree, const char *format, const char *name)
{
    tree->uses++;
    return (struct ArrowSchema){.format = format, .name = name, .release = release_schema, .private_data = tree};
}

static struct ArrowArray array(struct tree *tree, int64_t length, const void **buffers, int64_t count)
{
    tree->uses++;
    return (struct ArrowArray){.length = length, .buffers = buffers, .n_buffers = count, .release = release_array,
                               .private_data = tree};
}

static int get_schema(struct ArrowArrayStream *stream, struct ArrowSchema *out)
{
    struct loan *loan = stream->private_data;
    struct schemas *made = malloc(sizeof *made + loan->count * (sizeof *made->parts + sizeof out));
    if (!made) return ENOMEM;
    struct ArrowSchema **children = (void *)&made->parts[loan->count];
    __atomic_add_fetch(&loan->uses, 1, __ATOMIC_RELAXED);
    made->tree = (struct tree){0, loan};
    for (size_t at = 0; at < loan->count; at++) {
        const misteluk_arrow_column *column = &loan->columns[at];
        struct ArrowSchema *own = children[at] = &made->parts[at][0], *texts = &made->parts[at][1];
        *own = schema(&made->tree, column->format, column->name);
        own->metadata = column->metadata;
        if (!column->texts || column->format[0] == 'U') continue;
        *texts = schema(&made->tree, "U", "");
        own->dictionary = texts;
    }
    *out = schema(&made->tree, "+s", "");
    out->n_children = (int64_t)loan->count;
    out->children = children;
    return 0;
}

static int get_next(struct ArrowArrayStream *stream, struct ArrowArray *out)
{
    struct loan *loan = stream->private_data;
    out->release = NULL; /* (so the end is told) */
    if (loan->is_read) return 0;
    struct arrays *made = malloc(sizeof *made + loan->count * (sizeof *made->columns + sizeof out));
    if (!made) return ENOMEM;
    struct ArrowArray **children = (void *)&made->columns[loan->count];
    __atomic_add_fetch(&loan->uses, 1, __ATOMIC_RELAXED);
    made->tree = (struct tree){0, loan};
    for (size_t at = 0; at < loan->count; at++) {
        const misteluk_arrow_column *column = &loan->columns[at];
        struct ArrowArray *own = children[at] = &made->columns[at].parts[0], *dictionary = &made->columns[at].parts[1];
        const void **values = made->columns[at].values, **texts = made->columns[at].texts;
        values[0] = texts[0] = NULL;
        values[1] = column->values ? column->values : nothing;
        texts[1] = column->ends;
        texts[2] = column->texts;
        int is_text = column->format[0] == 'U';
        *own = is_text ? array(&made->tree, loan->rows, texts, 3) : array(&made->tree, loan->rows, values, 2);
        if (!column->texts || is_text) continue;
        *dictionary = array(&made->tree, column->texts_length, texts, 3);
        own->dictionary = dictionary;
    }
    *out = array(&made->tree, loan->rows, no_validity, 1);
    out->n_children = (int64_t)loan->count;
    out->children = children;
    loan->is_read = 1;
    return 0;
}

static const char *get_last_error(struct ArrowArrayStream *stream)
{
    (void)stream;
    return "out of memory"; /* (there is no other error) */
}

static void release_stream(struct ArrowArrayStream *stream)
{
    stream->release = NULL;
    leave_loan(stream->private_data);
}

misteluk_arrow_lender *misteluk_arrow_lender_new(void)
{
    return calloc(1, sizeof(misteluk_arrow_lender));
}

struct ArrowArrayStream *misteluk_arrow_stream(misteluk_arrow_lender *lender, void *owner, const misteluk_arrow_column *columns,
                                               size_t columns_length, int64_t rows)
{
    struct ArrowArrayStream *made = malloc(sizeof *made);
    struct loan *loan = malloc(sizeof *loan + columns_length * sizeof *columns);
    if (!made || !loan) return free(made), free(loan), NULL;
    *loan = (struct loan){.uses = 1, .lender = lender, .owner = owner, .rows = rows, .count = columns_length};
    for (size_t at = 0; at < columns_length; at++) loan->columns[at] = columns[at];
    *made = (struct ArrowArrayStream){get_schema, get_next, get_last_error, release_stream, loan};
    return made;
}

struct ArrowSchema *misteluk_arrow_schema(struct ArrowArrayStream *stream)
{
    struct ArrowSchema *made = malloc(sizeof *made);
    if (made && !stream->get_schema(stream, made)) return made;
    free(made);
    return NULL;
}

void misteluk_arrow_give_back(misteluk_arrow_lender *lender, void (*take)(void *owner))
{
    struct loan *next, *it = __atomic_exchange_n(&lender->returned, NULL, __ATOMIC_ACQUIRE);
    for (; it; it = next) {
        next = it->next;
        take(it->owner);
        free(it);
    }
}

void misteluk_arrow_python(void *(*get_pointer)(void *capsule, const char *name))
{
    get_pointer_of = get_pointer;
}

#define ENDS(type, name, capsule_name) \
    void name(void *capsule) \
    { \
        struct type *it = get_pointer_of(capsule, capsule_name); \
        if (it && it->release) it->release(it); \
        free(it); \
    }
ENDS(ArrowArrayStream, misteluk_arrow_end_stream, "arrow_array_stream")
ENDS(ArrowSchema, misteluk_arrow_end_schema, "arrow_schema")
