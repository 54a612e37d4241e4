/* The calls of phtree.h over trees. Those that the library has not got yet are weak, and are not tried. */
#include <stdlib.h>
#include <string.h>

#include "trials.h"

#pragma weak ph_length
#pragma weak ph_most
#pragma weak ph_width
#pragma weak ph_dimensions
#pragma weak ph_sizes
#pragma weak ph_remove
#pragma weak ph_move
#pragma weak ph_window
#pragma weak ph_nearest
#pragma weak ph_ball
#pragma weak ph_overlapping
#pragma weak ph_inside
#pragma weak ph_covering
#pragma weak ph_build
#pragma weak ph_union
#pragma weak ph_common
#pragma weak ph_minus
#pragma weak ph_save
#pragma weak ph_load

#define TREE (trees + a->tree)
#define P a->p, a->p_length
#define Q a->q, a->q_length
#define PAGE a->last, a->last_length, a->points, a->points_length, a->values, a->values_length, &a->count, &a->more
#define OF_LIBRARY(name, call) \
    static uint32_t of_##name(ph_tree *trees, struct asked *a) { \
        return call; \
    }

OF_LIBRARY(open, ph_open(TREE, a->dims, a->width, a->most))
OF_LIBRARY(close, (ph_close(TREE), PH_DONE))
OF_LIBRARY(length, ph_length(TREE, &a->former))
OF_LIBRARY(most, ph_most(TREE, &a->former))
OF_LIBRARY(width, ph_width(TREE, &a->number))
OF_LIBRARY(dimensions, ph_dimensions(TREE, &a->number))
OF_LIBRARY(put, ph_put(TREE, P, a->value, &a->former))
OF_LIBRARY(get, ph_get(TREE, P, &a->former))
OF_LIBRARY(remove, ph_remove(TREE, P, &a->former))
OF_LIBRARY(move, ph_move(TREE, P, Q))
OF_LIBRARY(window, ph_window(TREE, P, Q, PAGE))
OF_LIBRARY(ball, ph_ball(TREE, P, a->radius[0], a->radius[1], PAGE))
OF_LIBRARY(overlapping, ph_overlapping(TREE, P, Q, PAGE))
OF_LIBRARY(inside, ph_inside(TREE, P, Q, PAGE))
OF_LIBRARY(covering, ph_covering(TREE, P, Q, PAGE))
OF_LIBRARY(nearest, ph_nearest(TREE, P, a->points, a->points_length, a->values, a->values_length, a->distances, a->distances_length, &a->count))
OF_LIBRARY(build, ph_build(TREE, a->dims, a->width, a->most, a->points, a->points_length, a->values, a->values_length))
OF_LIBRARY(union, ph_union(TREE, trees, trees + 1, a->most))
OF_LIBRARY(common, ph_common(TREE, trees, trees + 1))
OF_LIBRARY(minus, ph_minus(TREE, trees, trees + 1))

#define CALL(name, subject) {#name, subject, (void (*)(void))ph_##name, of_##name, plain_##name}

const struct call calls[] = {
    CALL(put, A_ROW), CALL(put, A_ROW), CALL(put, A_ROW), CALL(get, A_ROW), CALL(remove, A_ROW), CALL(move, A_ROW),
    CALL(open, A_TREE), CALL(close, A_TREE), CALL(length, A_TREE), CALL(most, A_TREE), CALL(width, A_TREE), CALL(dimensions, A_TREE),
    CALL(window, A_LISTING), CALL(ball, A_LISTING), CALL(nearest, A_LISTING),
    CALL(overlapping, SOME_BOXES), CALL(inside, SOME_BOXES), CALL(covering, SOME_BOXES), CALL(build, MANY_ROWS),
    CALL(union, TWO_TREES), CALL(common, TWO_TREES), CALL(minus, TWO_TREES), {0},
};

/* The pages of all rows, one after another, are those of the table. */
static int has_pages(ph_tree *tree, const struct table *table) {
    int64_t low[MOST_DIMS], high[MOST_DIMS], last[MOST_DIMS] = {0}, points[5 * MOST_DIMS] = {0};
    uint64_t values[5] = {0};
    size_t at = 0, count = 0;
    uint32_t more = 1;
    for (uint32_t i = 0; i < table->dims; i++) {
        low[i] = -((int64_t)1 << (table->width - 1));
        high[i] = -1 - low[i];
    }
    for (; more; at += count) {
        if (at > 0)
            memcpy(last, table->rows[at - 1].point, sizeof last);
        if (ph_window(tree, low, table->dims, high, table->dims, last, at > 0 ? table->dims : 0, points, 5 * table->dims, values, 5, &count, &more) != PH_DONE
            || at + count > table->count || (more && count < 5))
            return 0;
        for (size_t i = 0; i < count; i++)
            if (values[i] != table->rows[at + i].value || memcmp(points + i * table->dims, table->rows[at + i].point, table->dims * sizeof *points) != 0)
                return 0;
    }
    return at == table->count;
}

int is_same(ph_tree *tree, const struct table *table) {
    uint64_t number = 0;
    if (table->dims == 0)
        return tree->at == NULL;
    if (ph_length && (ph_length(tree, &number) != PH_DONE || number != table->count))
        return 0;
    if (ph_window && !has_pages(tree, table))
        return 0;
    for (size_t i = 0; i < table->count; i++)
        if (ph_get(tree, table->rows[i].point, table->dims, &number) != PH_DONE || number != table->rows[i].value)
            return 0;
    return 1;
}

int has_sizes(ph_tree *tree, const struct table *table) {
    ph_tree_sizes sizes = {7, 7, 7, 7, 7}, before = sizes;
    uint64_t needed = 0;
    uint8_t byte = 0;
    if (!ph_sizes)
        return 1;
    uint32_t answer = ph_sizes(tree, &sizes);
    if (table->dims == 0)
        return answer == PH_NO_TREE && memcmp(&sizes, &before, sizeof sizes) == 0;
    if (answer != PH_DONE || sizes.rows != table->count || sizes.nodes != count_nodes(table) || sizes.linear + sizes.cube != sizes.nodes)
        return 0;
    return !ph_save || (ph_save(tree, &byte, 0, &needed) == PH_NO_ROOM && needed == 8 + 8 * sizes.words);
}

static int is_loaded(ph_tree *tree, const struct table *table, const uint8_t *bytes, uint8_t *again, size_t length) {
    ph_tree loaded = {0};
    uint64_t needed = 0;
    int yes = ph_save(tree, again, length, &needed) == PH_DONE && needed == length && memcmp(bytes, again, length) == 0
        && ph_load(&loaded, table->dims, table->width, bytes, length) == PH_DONE && is_same(&loaded, table)
        && ph_save(&loaded, again, length, &needed) == PH_DONE && needed == length && memcmp(bytes, again, length) == 0
        && ph_load(&loaded, table->dims, table->width, bytes, length - 1) == PH_DAMAGED && is_same(&loaded, table);
    ph_close(&loaded);
    return yes;
}

int is_saved(ph_tree *tree, const struct table *table) {
    uint64_t needed = 0;
    uint8_t byte = 7;
    if (!ph_save || !ph_load || table->dims == 0)
        return 1;
    if (ph_save(tree, &byte, 0, &needed) != PH_NO_ROOM || byte != 7)
        return 0;
    uint8_t *bytes = calloc(needed, 1), *again = calloc(needed, 1);
    int yes = bytes && again && ph_save(tree, bytes, needed, &needed) == PH_DONE && is_loaded(tree, table, bytes, again, needed);
    free(bytes);
    free(again);
    return yes;
}
