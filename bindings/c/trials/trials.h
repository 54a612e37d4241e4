/* What the trials of phtree.h are made of: a call with all that it is passed and all that it writes, made of the library or of plain tables. */
#ifndef TRIALS_H
#define TRIALS_H

#include "../phtree.h"

enum { MOST_DIMS = 16, MOST_ROWS = 500, ROOM = 64, TREES = 3 };

struct row {
    int64_t point[MOST_DIMS];
    uint64_t value;
};

/* The rows of a tree in Z-order, or no tree where `dims` is 0. */
struct table {
    uint32_t dims, width;
    uint64_t most;
    size_t count;
    struct row rows[2 * MOST_ROWS];
};

/* What a call is passed, and what it writes. `tree` is which tree it is about. */
struct asked {
    size_t tree;
    uint32_t dims, width;
    uint64_t most, value, radius[2];
    int64_t p[MOST_DIMS + 1], q[MOST_DIMS + 1], last[MOST_DIMS];
    size_t p_length, q_length, last_length;
    int64_t points[ROOM * MOST_DIMS];
    uint64_t values[ROOM], distances[2 * ROOM];
    size_t points_length, values_length, distances_length;
    uint64_t former;
    uint32_t number;
    size_t count;
    uint32_t more;
};

/* What a call is about, for the arguments that it gets. */
enum subject { A_TREE, A_ROW, A_LISTING, SOME_BOXES, MANY_ROWS, TWO_TREES };

/* A call with its two meanings. `symbol` is null where the library has not got it. */
struct call {
    const char *name;
    enum subject subject;
    void (*symbol)(void);
    uint32_t (*of_library)(ph_tree *trees, struct asked *asked);
    uint32_t (*of_tables)(struct table *tables, struct asked *asked);
};

/* The calls, ended by one without a name. */
extern const struct call calls[];

#define PLAIN(name) uint32_t plain_##name(struct table *tables, struct asked *asked)
PLAIN(open);
PLAIN(close);
PLAIN(length);
PLAIN(most);
PLAIN(width);
PLAIN(dimensions);
PLAIN(put);
PLAIN(get);
PLAIN(remove);
PLAIN(move);
PLAIN(window);
PLAIN(nearest);
PLAIN(ball);
PLAIN(overlapping);
PLAIN(inside);
PLAIN(covering);
PLAIN(build);
PLAIN(union);
PLAIN(common);
PLAIN(minus);

/* Whether the first point is before the second in Z-order. */
int is_before(uint32_t dims, const int64_t *p, const int64_t *q);

/* Whether a tree has the rows of a table, by all that can be asked about it, and is none where that has none. */
int is_same(ph_tree *tree, const struct table *table);

/* Whether a snapshot is loaded as the same rows, saved as the same bytes, and refused where its end is missing. Where memory is missing it is not asked. */
int is_saved(ph_tree *tree, const struct table *table);

/* How many nodes the tree of a table has: the root, at the highest place, and another one at each place where two rows that are neighbours differ first. */
size_t count_nodes(const struct table *table);

/* Whether a tree has the sizes of a table: its rows and nodes, each node in one of two layouts, and words as its snapshot has; and none where that has none. */
int has_sizes(ph_tree *tree, const struct table *table);

/* Refuses the n-th call for memory from now on, counted from 1, or none where that is 0. */
void refuse(unsigned long n);

/* Whether a call was refused since. */
int was_refused(void);

/* How many blocks were taken and not given back. */
long live_blocks(void);

#endif
