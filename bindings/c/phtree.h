/* A PH-tree: rows at points of 1 to 16 whole numbers, each with a value of 64 bits.
 *
 * A call is proved of the library's source; what a C program does before and after it is not. For each call the program owes this:
 *
 * - A `ph_tree` is all zeros at first (`ph_tree t = {0};`), and only these calls change it. A copy of one is not used once either of the two was
 *   passed to a call. `ph_close` gives its memory back.
 * - Where a call takes two or three trees, no two of them are the same one.
 * - A pointer is to as many numbers as the length behind it says, and is not null, even where that length is 0. A pointer with no length is to one
 *   number. What a call writes overlaps with nothing else that is passed to it, and has a value before (any value: zero will do).
 * - One call at a time for each tree, the questions too, and none from a signal handler. A tree may go from one thread to another between two calls.
 * - `malloc`, `realloc` and `free` of the program are those of one allocator.
 *
 * Each call answers with a number of `enum ph_answer`. After an answer of PH_NO_TREE or above the tree is as it was, and so are the numbers and
 * the arrays that the call might have written to, where the call's comment says nothing else.
 *
 * The width of a tree, 1 to 62, is the number of binary digits of a coordinate: coordinates are from -2^(width-1) to 2^(width-1) - 1.
 * Z-order is the order of points by the digits of their coordinates, interleaved, the highest digits first; rows of windows come in this order.
 */
#ifndef PHTREE_H
#define PHTREE_H

#include <stddef.h>
#include <stdint.h>

#ifdef __cplusplus
extern "C" {
#endif

/* A tree, or none where it is all zeros. */
typedef struct ph_tree {
    void *at;
} ph_tree;

enum ph_answer {
    PH_DONE = 0,           /* it is done */
    PH_REPLACED = 1,       /* it is done, and a value that stood at the point is gone */
    PH_ABSENT = 2,         /* no row is at the point */
    PH_TAKEN = 3,          /* a row is at the point already */
    PH_NO_TREE = 10,       /* there is no tree: it was not opened, or was closed */
    PH_NO_DIMENSIONS = 11, /* the number of dimensions is not 1 to 16 */
    PH_NO_WIDTH = 12,      /* the width is not 1 to 62 */
    PH_NO_POINT = 13,      /* not as many numbers as the tree has dimensions, or one that is no coordinate of its width */
    PH_REVERSED = 14,      /* a number of a low corner is above that of the high one */
    PH_FULL = 15,          /* the tree would have more rows than it may have */
    PH_NO_MEMORY = 16,     /* there is no memory */
    PH_NO_ROOM = 17,       /* a lent array is too short */
    PH_UNLIKE = 18,        /* two trees are of different dimensions or widths, or two arrays of different numbers of rows */
    PH_NO_BOXES = 19,      /* the number of dimensions is odd, so the points are no boxes */
    PH_DAMAGED = 20        /* the bytes are no snapshot of such a tree */
};

/* ---- trees ---- */

/* Opens an empty tree of points of `dims` coordinates of `width` bits, for at most `most` rows, and closes the one that `tree` has.
 * Answers PH_DONE, PH_NO_DIMENSIONS, PH_NO_WIDTH or PH_NO_MEMORY, and leaves the former tree where it is not PH_DONE. Takes memory for one small block. */
uint32_t ph_open(ph_tree *tree, uint32_t dims, uint32_t width, uint64_t most);

/* Closes the tree, if there is one, and gives its memory back. Visits each node. `tree` is all zeros then, and may be opened anew. */
void ph_close(ph_tree *tree);

/* Writes the number of rows. Answers PH_DONE or PH_NO_TREE. */
uint32_t ph_length(ph_tree *tree, uint64_t *rows);

/* Writes how many rows the tree may have. Answers PH_DONE or PH_NO_TREE. */
uint32_t ph_most(ph_tree *tree, uint64_t *most);

/* Writes the width. Answers PH_DONE or PH_NO_TREE. */
uint32_t ph_width(ph_tree *tree, uint32_t *width);

/* Writes the number of dimensions. Answers PH_DONE or PH_NO_TREE. */
uint32_t ph_dimensions(ph_tree *tree, uint32_t *dims);

/* What a tree is made of, by its rows, width and dimensions alone, whatever was put and taken out before. A snapshot has 8 bytes for each word, and 8 more. */
typedef struct ph_tree_sizes {
    uint64_t rows;
    uint64_t nodes;  /* at most as many as rows */
    uint64_t linear; /* nodes whose records list their entries */
    uint64_t cube;   /* nodes whose records have a place for each address */
    uint64_t words;  /* those of the records of all nodes, 8 bytes each, or 2^64 - 1, should there be more */
} ph_tree_sizes;

/* Writes the sizes of the tree. Answers PH_DONE or PH_NO_TREE. Takes no memory. Visits each node once. */
uint32_t ph_sizes(ph_tree *tree, ph_tree_sizes *sizes);

/* ---- rows ---- */

/* Puts a value at a point. Answers PH_DONE where no row was there, and PH_REPLACED where one was, whose value is written to `former`; else PH_NO_TREE,
 * PH_NO_POINT, PH_FULL (only for a new point) or PH_NO_MEMORY (only for a new point). It takes memory for a new point alone.
 * Visits at most twice as many nodes as a coordinate has bits. */
uint32_t ph_put(ph_tree *tree, const int64_t *point, size_t length, uint64_t value, uint64_t *former);

/* Writes the value at a point. Answers PH_DONE or PH_ABSENT; else PH_NO_TREE or PH_NO_POINT. Takes no memory, and visits at most as many nodes
 * as a coordinate has bits. */
uint32_t ph_get(ph_tree *tree, const int64_t *point, size_t length, uint64_t *value);

/* Takes the row at a point out, and writes its value to `former`. Answers PH_DONE or PH_ABSENT; else PH_NO_TREE, PH_NO_POINT or PH_NO_MEMORY: a
 * node that loses a row may change its layout, and takes memory for the new one first. Visits at most twice as many nodes as a coordinate has bits. */
uint32_t ph_remove(ph_tree *tree, const int64_t *point, size_t length, uint64_t *former);

/* Moves the row at one point to another. Answers PH_DONE, PH_ABSENT where no row is at the first, or PH_TAKEN where another row is at the second; else
 * PH_NO_TREE, PH_NO_POINT (for either) or PH_NO_MEMORY. Only where it answers PH_DONE does a row move. Visits at most five nodes for each bit of a
 * coordinate. */
uint32_t ph_move(ph_tree *tree, const int64_t *from, size_t from_length, const int64_t *to, size_t to_length);

/* ---- listings ----
 *
 * A listing writes rows into lent arrays, as many as fit: the coordinates of the first row, then those of the second and so on into `points`, and the
 * values into `values`. The room is `values_length` or `points_length` by the number of dimensions, whichever is less. `count` is how many rows were
 * written; what is behind them in the arrays stays as it was. */

/* Lists a page of a window: of the rows between the corners `low` and `high`, both inside, in Z-order, the first ones behind the point `last`, or
 * from the beginning where `last_length` is 0. Writes 1 to `more` where rows are left behind them, and 0 where none are. The point of the last row
 * written is the `last` of the next page; it need not be in the tree any more, and the tree may change between two pages. Where a number of `low` is
 * above that of `high` there are no rows.
 * Answers PH_DONE; else PH_NO_TREE or PH_NO_POINT (for either corner, or for a `last` of another length than 0). Takes no memory.
 * Visits only nodes whose region has a point in the window, and at most as many more as a coordinate has bits to find `last`. */
uint32_t ph_window(ph_tree *tree, const int64_t *low, size_t low_length, const int64_t *high, size_t high_length, const int64_t *last,
                   size_t last_length, int64_t *points, size_t points_length, uint64_t *values, size_t values_length, size_t *count,
                   uint32_t *more);

/* Lists the rows nearest to a point, the nearest first and of equal distances in Z-order: as many as fit, and all where all fit. The square of the
 * distance of row i is `distances[2 * i]` + 2^64 * `distances[2 * i + 1]`, so the room is also at most half of `distances_length`, and less than 2^32.
 * Answers PH_DONE; else PH_NO_TREE, PH_NO_POINT or PH_NO_MEMORY: it takes memory for the rows and for the nodes that it visits. It visits only
 * nodes whose region has a point no farther than the last row. */
uint32_t ph_nearest(ph_tree *tree, const int64_t *center, size_t length, int64_t *points, size_t points_length, uint64_t *values,
                    size_t values_length, uint64_t *distances, size_t distances_length, size_t *count);

/* Lists a page of a ball: of the rows whose distance from a point, squared, is at most `radius_low` + 2^64 * `radius_high`, in Z-order; the rest is
 * as at `ph_window`, but it visits all nodes whose region has a point within the radius, from the beginning, for each page. */
uint32_t ph_ball(ph_tree *tree, const int64_t *center, size_t length, uint64_t radius_low, uint64_t radius_high, const int64_t *last,
                 size_t last_length, int64_t *points, size_t points_length, uint64_t *values, size_t values_length, size_t *count,
                 uint32_t *more);

/* ---- boxes ----
 *
 * In a tree of boxes a point is the low corner of a box, then its high corner, so the number of dimensions is even. `low` and `high` are the
 * corners of the asked box, of half as many numbers each. Boxes are closed: two that touch overlap. These list pages as `ph_window` does. They answer
 * PH_NO_BOXES, PH_NO_POINT for a wrong corner or a wrong `last`, or PH_REVERSED, the earlier of these where there are several. That each point of the
 * tree is a box is up to the program: no call asks for it. A point that is none is listed where the window that answers the question for boxes has it.
 */

/* Lists the boxes that have a point in common with the asked one. */
uint32_t ph_overlapping(ph_tree *tree, const int64_t *low, size_t low_length, const int64_t *high, size_t high_length, const int64_t *last,
                        size_t last_length, int64_t *points, size_t points_length, uint64_t *values, size_t values_length, size_t *count,
                        uint32_t *more);

/* Lists the boxes that lie inside the asked one. */
uint32_t ph_inside(ph_tree *tree, const int64_t *low, size_t low_length, const int64_t *high, size_t high_length, const int64_t *last,
                   size_t last_length, int64_t *points, size_t points_length, uint64_t *values, size_t values_length, size_t *count,
                   uint32_t *more);

/* Lists the boxes that cover the asked one. */
uint32_t ph_covering(ph_tree *tree, const int64_t *low, size_t low_length, const int64_t *high, size_t high_length, const int64_t *last,
                     size_t last_length, int64_t *points, size_t points_length, uint64_t *values, size_t values_length, size_t *count,
                     uint32_t *more);

/* ---- many rows ---- */

/* Opens a tree as `ph_open` does, with these rows: the coordinates of the first point, then those of the second and so on, and a value for each. Where
 * a point comes twice, the later value stands. Answers PH_DONE; else PH_NO_DIMENSIONS, PH_NO_WIDTH, PH_UNLIKE where there are not `dims` coordinates for
 * each value, PH_NO_POINT or PH_FULL, the earlier of these where there are several, or PH_NO_MEMORY: it takes memory for copies of the rows besides. */
uint32_t ph_build(ph_tree *tree, uint32_t dims, uint32_t width, uint64_t most, const int64_t *points, size_t points_length,
                  const uint64_t *values, size_t values_length);

/* Opens in `into` the tree of the rows of either tree, for at most `most` rows. Where both have a row at a point, that of `a` stands.
 * Answers PH_DONE; else PH_NO_TREE (for `a` or `b`), PH_UNLIKE, PH_FULL or PH_NO_MEMORY. `a` and `b` stay as they are. It visits each node of both. */
uint32_t ph_union(ph_tree *into, ph_tree *a, ph_tree *b, uint64_t most);

/* The same of the rows of `a` at whose points `b` has a row, for as many rows as `a` may have. It visits only nodes that share points' regions. */
uint32_t ph_common(ph_tree *into, ph_tree *a, ph_tree *b);

/* The same of the rows of `a` at whose points `b` has no row, for as many rows as `a` may have. */
uint32_t ph_minus(ph_tree *into, ph_tree *a, ph_tree *b);

/* ---- snapshots ---- */

/* Writes the tree as bytes, and to `needed` how many there are (or 2^64 - 1, should there be more). Answers PH_DONE; else PH_NO_TREE, or PH_NO_ROOM where
 * `bytes_length` is less: then only `needed` is written. The same rows are the same bytes. Takes no memory. Visits each node once to count the bytes, and
 * once more to write them. */
uint32_t ph_save(ph_tree *tree, uint8_t *bytes, size_t bytes_length, uint64_t *needed);

/* Opens the tree of `dims` dimensions and of this width that was saved as these bytes, for at most 2^64 - 1 rows. Answers as `ph_open`, or PH_DAMAGED
 * where the bytes are no snapshot of such a tree. Takes memory for the tree alone. */
uint32_t ph_load(ph_tree *tree, uint32_t dims, uint32_t width, const uint8_t *bytes, size_t bytes_length);

#ifdef __cplusplus
}
#endif

#endif
