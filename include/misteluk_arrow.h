/* SPDX-License-Identifier: MIT OR Apache-2.0 */
/* Columns as a stream of Apache Arrow's C data interface, which shares their memory.
 *
 *     misteluk_arrow_lender *lender = misteluk_arrow_lender_new();
 *     misteluk_arrow_column column = {"weight", "l", NULL, weights, NULL, NULL, 0};
 *     struct ArrowArrayStream *stream = misteluk_arrow_stream(lender, weights, &column, 1, rows);
 *     read(stream); // e.g. pyarrow, polars, duckdb: releases the stream and its batch, at any time and in any thread
 *     misteluk_arrow_give_back(lender, free); // weights, once all of it is released
 *
 * Nothing is copied but the structs. A release only counts, and notes the owner of the memory with its lender: it runs no code
 * of others, takes no lock and doesn't wait, so it is safe whenever it comes.
 *
 * The structs are those of Arrow's specification, "The Arrow C data interface" and "The Arrow C stream interface". This part of
 * the library is plain C, which is tested, and not proved. What a caller owes is as in misteluk.h. */
#ifndef MISTELUK_ARROW_H
#define MISTELUK_ARROW_H

#include <stddef.h>
#include <stdint.h>

#ifdef __cplusplus
extern "C" {
#endif

#ifndef ARROW_C_DATA_INTERFACE
#define ARROW_C_DATA_INTERFACE

struct ArrowSchema {
    const char *format, *name, *metadata;
    int64_t flags, n_children;
    struct ArrowSchema **children, *dictionary;
    void (*release)(struct ArrowSchema *);
    void *private_data;
};

struct ArrowArray {
    int64_t length, null_count, offset, n_buffers, n_children;
    const void **buffers;
    struct ArrowArray **children, *dictionary;
    void (*release)(struct ArrowArray *);
    void *private_data;
};

#endif
#ifndef ARROW_C_STREAM_INTERFACE
#define ARROW_C_STREAM_INTERFACE

struct ArrowArrayStream {
    int (*get_schema)(struct ArrowArrayStream *, struct ArrowSchema *);
    int (*get_next)(struct ArrowArrayStream *, struct ArrowArray *);
    const char *(*get_last_error)(struct ArrowArrayStream *);
    void (*release)(struct ArrowArrayStream *);
    void *private_data;
};

#endif

/* A column without missing values: its name, Arrow's format ("i", "I", "l", "tsu:UTC" ..), and metadata as Arrow encodes it, or
 * NULL. `values` has a number for each row. Where `texts` isn't NULL these are places of signed 32 bits ("i") in a dictionary of
 * `texts_length` texts in UTF-8, one after another: text number n ends before byte `ends[n + 1]`, and `ends[0]` is 0. Of the
 * format "U" a column has such texts themselves, one for each row, and no values. */
typedef struct {
    const char *name, *format, *metadata;
    const void *values;
    const char *texts;
    const int64_t *ends;
    int64_t texts_length;
} misteluk_arrow_column;

/* To whom the owners of lent memory go back. It is never freed, since a release may come later than all else. NULL if out of
 * memory. */
typedef struct misteluk_arrow_lender misteluk_arrow_lender;
misteluk_arrow_lender *misteluk_arrow_lender_new(void);

/* A stream of one batch with these columns. Everything that a column leads to belongs to `owner`, and stays as it is until that
 * is returned. Whoever has the struct releases it, or moves it elsewhere, and then has the C library free it. NULL if out of
 * memory: then nothing is lent. A call of the stream returns 0; or ENOMEM, and it may be repeated. */
struct ArrowArrayStream *misteluk_arrow_stream(misteluk_arrow_lender *lender, void *owner, const misteluk_arrow_column *columns,
                                               size_t columns_length, int64_t rows);

/* The schema of a stream, in a struct as the stream's own, which may be released after it. NULL if out of memory. */
struct ArrowSchema *misteluk_arrow_schema(struct ArrowArrayStream *stream);

/* Calls a function with each owner of whose memory all was released since the last call. Any thread may ask. */
void misteluk_arrow_give_back(misteluk_arrow_lender *lender, void (*take)(void *owner));

/* For Python's capsules: their destructors, which release what nobody moved out, and free it. Before the first of them comes, a
 * program says where Python's PyCapsule_GetPointer is, which this library isn't linked to. */
void misteluk_arrow_python(void *(*get_pointer)(void *capsule, const char *name));
void misteluk_arrow_end_stream(void *capsule);
void misteluk_arrow_end_schema(void *capsule);

#ifdef __cplusplus
}
#endif

#endif
