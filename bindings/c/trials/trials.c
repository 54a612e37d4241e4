/* Random calls of phtree.h beside plain tables: trials SEED ROUNDS STEPS [refused]
 *
 * With `refused` each call for memory of each call is refused in turn. The call then answers PH_NO_MEMORY, and its trees and all that it may write are as
 * before; or it can do without, and answers as ever. */
#include <stdio.h>
#include <stdlib.h>
#include <string.h>

#include "trials.h"

static ph_tree trees[TREES];
static struct table tables[TREES];
static struct asked asked, before, wanted;
static uint64_t state, mask;
static unsigned long made, refused, spared;
static int may_be_wrong = 1; /* whether a point may be none: where a call is refused for something else, it is not, since either could be told */

/* The next number of splitmix64. */
static uint64_t draw(void) {
    uint64_t x = state += 0x9e3779b97f4a7c15u;
    x = (x ^ (x >> 30)) * 0xbf58476d1ce4e5b9u;
    x = (x ^ (x >> 27)) * 0x94d049bb133111ebu;
    return x ^ (x >> 31);
}

static uint64_t below(uint64_t n) {
    return draw() % n;
}

static int64_t draw_coordinate(uint32_t width) {
    uint64_t space = (uint64_t)1 << width;
    return (int64_t)(draw() & mask & (space - 1)) - (int64_t)(space / 2);
}

/* A point that is often that of a row, or near one. Seldom it is none. */
static size_t draw_point(const struct table *table, int64_t *p, uint32_t dims) {
    uint64_t kind = below(10);
    for (uint32_t i = 0; i < dims; i++)
        p[i] = draw_coordinate(table->width);
    if (kind < 6 && table->count > 0) {
        memcpy(p, table->rows[below(table->count)].point, dims * sizeof *p);
        if (kind < 2)
            p[below(dims)] = draw_coordinate(table->width);
    }
    if (may_be_wrong && below(60) == 0)
        p[below(dims)] = below(2) ? (int64_t)1 << (table->width - 1) : INT64_MIN;
    return may_be_wrong && below(60) == 0 ? dims - 1 + 2 * below(2) : dims;
}

static void order(int64_t *low, int64_t *high, uint32_t dims) {
    for (uint32_t i = 0; i < dims; i++)
        if (low[i] > high[i]) {
            int64_t kept = low[i];
            low[i] = high[i];
            high[i] = kept;
        }
}

static void draw_shape(void) {
    static const uint32_t widths[] = {1, 2, 5, 16, 31, 32, 33, 47, 61, 62};
    asked.dims = 1 + (uint32_t)below(MOST_DIMS), asked.width = widths[below(10)];
    asked.most = below(4) == 0 ? 30 : MOST_ROWS;
}

static void draw_listing(const struct table *table, uint32_t dims, int is_of_boxes) {
    size_t room = below(3) == 0 ? ROOM : below(8);
    int may_be_reversed = below(12) == 0;
    may_be_wrong = !is_of_boxes || (table->dims % 2 == 0 && !may_be_reversed);
    asked.p_length = draw_point(table, asked.p, dims);
    asked.q_length = draw_point(table, asked.q, dims);
    if (!may_be_reversed)
        order(asked.p, asked.q, dims);
    asked.last_length = below(2) ? draw_point(table, asked.last, table->dims) % (table->dims + 1) : 0;
    asked.points_length = room * table->dims + below(table->dims);
    asked.values_length = below(5) == 0 ? below(ROOM) : room;
    asked.distances_length = below(5) == 0 ? below(2 * ROOM) : 2 * asked.values_length;
    asked.radius[0] = below(4) == 0 ? draw() : (uint64_t)1 << (2 * below(table->width) % 64);
    asked.radius[1] = below(4) == 0 ? draw() >> below(64) : 0;
    may_be_wrong = 1;
}

/* Many rows, in which points come again. */
static void draw_rows(void) {
    if (below(2))
        asked.dims = tables->dims ? tables->dims : 1, asked.width = tables->dims ? tables->width : 3;
    asked.values_length = below(ROOM + 1);
    asked.points_length = asked.values_length * asked.dims - (asked.values_length > 0 && below(20) == 0);
    for (size_t i = 0; i < asked.values_length; i++) {
        asked.values[i] = draw();
        if (i > 0 && below(4) == 0)
            memcpy(asked.points + i * asked.dims, asked.points + below(i) * asked.dims, asked.dims * sizeof(int64_t));
        else
            for (uint32_t k = 0; k < asked.dims; k++)
                asked.points[i * asked.dims + k] = draw_coordinate(asked.width);
    }
    asked.most = below(20) == 0 && asked.points_length == asked.values_length * asked.dims ? 0 : MOST_ROWS;
}

static void draw_arguments(const struct call *call) {
    asked.tree = below(3) == 0 ? below(TREES) : 0;
    if (call->of_tables == plain_close || call->of_tables == plain_open || call->subject == MANY_ROWS)
        asked.tree = below(8) == 0 ? 1 : 2;
    if (call->subject == TWO_TREES)
        asked.tree = 2;
    const struct table *table = tables + asked.tree;
    struct table none = {.dims = 2, .width = 8};
    if (table->dims == 0)
        table = &none;
    draw_shape();
    if (call->of_tables == plain_open && below(10) == 0)
        asked.dims = 17 * (uint32_t)below(2);
    else if (call->of_tables == plain_open && below(10) == 0)
        asked.width = 63 * (uint32_t)below(2);
    if (call->of_tables == plain_open && asked.tree == 1 && tables->dims != 0)
        asked.dims = tables->dims, asked.width = tables->width;
    asked.value = draw();
    if (call->subject == A_ROW) {
        /* The second tree often gets points of the first one. */
        const struct table *near = asked.tree == 1 && below(2) && table->dims == tables->dims && table->width == tables->width ? tables : table;
        asked.p_length = draw_point(near, asked.p, table->dims);
        asked.q_length = draw_point(table, asked.q, table->dims);
    } else if (call->subject == A_LISTING) {
        draw_listing(table, table->dims, 0);
    } else if (call->subject == SOME_BOXES) {
        draw_listing(table, table->dims / 2 ? table->dims / 2 : 1, 1);
    } else if (call->subject == MANY_ROWS) {
        draw_rows();
    }
}

static void end(const char *name, const char *why, uint32_t answer, uint32_t right) {
    fprintf(stderr, "FAILED ph_%s, call %lu: %s. It answers %u, and %u is right. %u dimensions of %u bits, %zu rows\n", name, made, why, answer, right,
            tables[asked.tree].dims, tables[asked.tree].width, tables[asked.tree].count);
    exit(1);
}

static int are_same(void) {
    return is_same(trees, tables) && is_same(trees + 1, tables + 1) && is_same(trees + 2, tables + 2);
}

/* Makes the call, with each call for memory refused in turn, and then with none refused. */
static uint32_t answer_of(const struct call *call, int is_refused) {
    for (unsigned long n = is_refused;; n++) {
        refuse(n);
        uint32_t answer = call->of_library(trees, &asked);
        int was = was_refused();
        refuse(0);
        if (!was)
            return answer;
        if (answer != PH_NO_MEMORY) {
            spared++;
            return answer;
        }
        refused++;
        if (memcmp(&asked, &before, sizeof asked) != 0)
            end(call->name, "without memory it writes", answer, answer);
        if (!are_same())
            end(call->name, "without memory the trees are not as before", answer, answer);
    }
}

static void step(int is_refused) {
    size_t count = 0;
    while (calls[count].name)
        count++;
    const struct call *call = calls + below(below(2) ? 6 : count);
    if (!call->symbol)
        return;
    made++;
    draw_arguments(call);
    memcpy(&before, &asked, sizeof asked);
    uint32_t answer = answer_of(call, is_refused);
    memcpy(&wanted, &before, sizeof wanted);
    uint32_t right = call->of_tables(tables, &wanted);
    if (answer != right)
        end(call->name, "another answer", answer, right);
    if (memcmp(&asked, &wanted, sizeof asked) != 0)
        end(call->name, "it writes something else", answer, right);
    if ((answer < PH_NO_TREE || below(20) == 0) && !are_same())
        end(call->name, "the trees have other rows", answer, right);
    if (below(30) == 0 && !has_sizes(trees, tables))
        end("sizes", "the sizes are others", 0, 0);
    if (below(30) == 0 && !is_saved(trees, tables))
        end("save", "the snapshot is another one", 0, 0);
}

/* A round begins with three new trees, two of one shape. */
static void open_all(void) {
    draw_shape();
    mask = below(3) == 0 ? 1 | (uint64_t)1 << (asked.width - 1) : below(2) ? draw() & draw() & draw() : UINT64_MAX;
    for (asked.tree = 0; asked.tree < TREES; asked.tree++)
        if (ph_open(trees + asked.tree, asked.dims, asked.width, asked.most) != PH_DONE || plain_open(tables, &asked) != PH_DONE)
            end("open", "a tree is not opened", 0, 0);
}

int main(int argc, char **argv) {
    if (argc < 4)
        return 2;
    int is_refused = argc > 4 && strcmp(argv[4], "refused") == 0;
    state = strtoull(argv[1], NULL, 10);
    for (long round = strtol(argv[2], NULL, 10); round > 0; round--) {
        open_all();
        for (long i = strtol(argv[3], NULL, 10); i > 0; i--)
            step(is_refused);
    }
    for (size_t i = 0; i < TREES; i++)
        ph_close(trees + i);
    if (live_blocks() != 0)
        end("close", "memory is not given back", 0, 0);
    for (const struct call *call = calls; call->name; call++)
        if (!call->symbol)
            printf("not tried: ph_%s, which the library has not got\n", call->name);
    printf("%lu calls", made);
    if (is_refused)
        printf(", %lu times one was refused memory, and %lu did without", refused, spared);
    printf("\n");
    return 0;
}
