/* The calls of phtree.h over plain tables, as its comments have them: each looks at all rows. */
#include <string.h>

#include "trials.h"

typedef unsigned __int128 square;

int is_before(uint32_t dims, const int64_t *p, const int64_t *q) {
    uint64_t most = 0;
    uint32_t at = 0;
    for (uint32_t i = 0; i < dims; i++) {
        uint64_t differing = (uint64_t)p[i] ^ (uint64_t)q[i];
        if (most < differing && most < (most ^ differing)) {
            most = differing;
            at = i;
        }
    }
    return p[at] < q[at];
}

/* The highest place at which two points differ. */
static int place_apart(const struct table *table, const int64_t *p, const int64_t *q) {
    uint64_t differing = 0;
    int place = (int)table->width - 1;
    for (uint32_t i = 0; i < table->dims; i++)
        differing |= (uint64_t)p[i] ^ (uint64_t)q[i];
    while (place > 0 && (differing >> place & 1) == 0)
        place--;
    return place;
}

size_t count_nodes(const struct table *table) {
    int open[64], depth = 0;
    size_t nodes = 0;
    for (size_t i = 0; i < table->count; i++) {
        /* The root, before the first row. */
        int place = i == 0 ? (int)table->width - 1 : place_apart(table, table->rows[i - 1].point, table->rows[i].point);
        while (depth > 0 && open[depth - 1] < place)
            depth--;
        if (depth == 0 || open[depth - 1] != place) {
            open[depth++] = place;
            nodes++;
        }
    }
    return nodes;
}

static int is_point(const struct table *table, uint32_t dims, const int64_t *p, size_t length) {
    int64_t half = (int64_t)1 << (table->width - 1);
    for (size_t i = 0; i < length; i++)
        if (p[i] < -half || p[i] >= half)
            return 0;
    return length == dims;
}

/* Where the row at a point is, or would be. */
static size_t place_of(const struct table *table, const int64_t *p, int *is_there) {
    size_t at = 0;
    while (at < table->count && is_before(table->dims, table->rows[at].point, p))
        at++;
    *is_there = at < table->count && memcmp(table->rows[at].point, p, table->dims * sizeof *p) == 0;
    return at;
}

static void insert(struct table *table, size_t at, const int64_t *p, uint64_t value) {
    memmove(table->rows + at + 1, table->rows + at, (table->count++ - at) * sizeof(struct row));
    memcpy(table->rows[at].point, p, table->dims * sizeof *p);
    table->rows[at].value = value;
}

static void erase(struct table *table, size_t at) {
    memmove(table->rows + at, table->rows + at + 1, (--table->count - at) * sizeof(struct row));
}

PLAIN(open) {
    if (asked->dims < 1 || asked->dims > MOST_DIMS)
        return PH_NO_DIMENSIONS;
    if (asked->width < 1 || asked->width > 62)
        return PH_NO_WIDTH;
    struct table *table = tables + asked->tree;
    table->dims = asked->dims, table->width = asked->width, table->most = asked->most, table->count = 0;
    return PH_DONE;
}

PLAIN(close) {
    tables[asked->tree].dims = 0;
    return PH_DONE;
}

PLAIN(length) {
    if (tables[asked->tree].dims == 0)
        return PH_NO_TREE;
    asked->former = tables[asked->tree].count;
    return PH_DONE;
}

PLAIN(most) {
    if (tables[asked->tree].dims == 0)
        return PH_NO_TREE;
    asked->former = tables[asked->tree].most;
    return PH_DONE;
}

PLAIN(width) {
    if (tables[asked->tree].dims == 0)
        return PH_NO_TREE;
    asked->number = tables[asked->tree].width;
    return PH_DONE;
}

PLAIN(dimensions) {
    if (tables[asked->tree].dims == 0)
        return PH_NO_TREE;
    asked->number = tables[asked->tree].dims;
    return PH_DONE;
}

static uint32_t put_in(struct table *table, const int64_t *p, uint64_t value, uint64_t *former) {
    int is_there;
    size_t at = place_of(table, p, &is_there);
    if (is_there) {
        *former = table->rows[at].value;
        table->rows[at].value = value;
        return PH_REPLACED;
    }
    if (table->count >= table->most)
        return PH_FULL;
    insert(table, at, p, value);
    return PH_DONE;
}

/* What a call about the row at a point is refused for, or where the row is. */
static uint32_t look_up(const struct table *table, const struct asked *asked, size_t *at) {
    int is_there;
    if (table->dims == 0)
        return PH_NO_TREE;
    if (!is_point(table, table->dims, asked->p, asked->p_length))
        return PH_NO_POINT;
    *at = place_of(table, asked->p, &is_there);
    return is_there ? PH_DONE : PH_ABSENT;
}

PLAIN(put) {
    size_t at;
    uint32_t answer = look_up(tables + asked->tree, asked, &at);
    return answer >= PH_NO_TREE ? answer : put_in(tables + asked->tree, asked->p, asked->value, &asked->former);
}

PLAIN(get) {
    size_t at;
    uint32_t answer = look_up(tables + asked->tree, asked, &at);
    if (answer == PH_DONE)
        asked->former = tables[asked->tree].rows[at].value;
    return answer;
}

PLAIN(remove) {
    size_t at;
    uint32_t answer = look_up(tables + asked->tree, asked, &at);
    if (answer == PH_DONE) {
        asked->former = tables[asked->tree].rows[at].value;
        erase(tables + asked->tree, at);
    }
    return answer;
}

PLAIN(move) {
    struct table *table = tables + asked->tree;
    size_t at;
    int is_there;
    uint32_t answer = look_up(table, asked, &at);
    if (answer >= PH_NO_TREE)
        return answer;
    if (!is_point(table, table->dims, asked->q, asked->q_length))
        return PH_NO_POINT;
    if (answer == PH_ABSENT)
        return answer;
    size_t to = place_of(table, asked->q, &is_there);
    if (is_there)
        return to == at ? PH_DONE : PH_TAKEN;
    uint64_t value = table->rows[at].value;
    erase(table, at);
    insert(table, place_of(table, asked->q, &is_there), asked->q, value);
    return PH_DONE;
}

static square distance(uint32_t dims, const int64_t *p, const int64_t *q) {
    square sum = 0;
    for (uint32_t i = 0; i < dims; i++) {
        square side = (square)(p[i] < q[i] ? q[i] - p[i] : p[i] - q[i]);
        sum += side * side;
    }
    return sum;
}

typedef int has(const struct table *table, const struct asked *asked, const int64_t *p);

static int in_window(const struct table *table, const struct asked *asked, const int64_t *p) {
    int yes = 1;
    for (uint32_t i = 0; i < table->dims; i++)
        yes &= asked->p[i] <= p[i] && p[i] <= asked->q[i];
    return yes;
}

static int in_ball(const struct table *table, const struct asked *asked, const int64_t *p) {
    return distance(table->dims, asked->p, p) <= (asked->radius[0] | (square)asked->radius[1] << 64);
}

static int is_overlapping(const struct table *table, const struct asked *asked, const int64_t *p) {
    uint32_t half = table->dims / 2;
    int yes = 1;
    for (uint32_t i = 0; i < half; i++)
        yes &= p[i] <= asked->q[i] && p[half + i] >= asked->p[i];
    return yes;
}

/* Most points here are no boxes. Of such a point both halves are held against both corners, which of a box says no more. */
static int is_inside(const struct table *table, const struct asked *asked, const int64_t *p) {
    uint32_t half = table->dims / 2;
    int yes = 1;
    for (uint32_t i = 0; i < table->dims; i++)
        yes &= asked->p[i % half] <= p[i] && p[i] <= asked->q[i % half];
    return yes;
}

static int is_covering(const struct table *table, const struct asked *asked, const int64_t *p) {
    uint32_t half = table->dims / 2;
    int yes = 1;
    for (uint32_t i = 0; i < half; i++)
        yes &= p[i] <= asked->p[i] && p[half + i] >= asked->q[i];
    return yes;
}

static size_t least(size_t a, size_t b) {
    return a < b ? a : b;
}

static void write_row(const struct table *table, struct asked *asked, size_t from, size_t to) {
    memcpy(asked->points + to * table->dims, table->rows[from].point, table->dims * sizeof(int64_t));
    asked->values[to] = table->rows[from].value;
}

static uint32_t page(const struct table *table, struct asked *asked, has *has) {
    size_t room = least(asked->points_length / table->dims, asked->values_length), count = 0;
    if (asked->last_length != 0 && !is_point(table, table->dims, asked->last, asked->last_length))
        return PH_NO_POINT;
    asked->more = 0;
    for (size_t i = 0; i < table->count; i++) {
        const int64_t *p = table->rows[i].point;
        if ((asked->last_length != 0 && !is_before(table->dims, asked->last, p)) || !has(table, asked, p))
            continue;
        if (count == room) {
            asked->more = 1;
            break;
        }
        write_row(table, asked, i, count++);
    }
    asked->count = count;
    return PH_DONE;
}

PLAIN(window) {
    struct table *table = tables + asked->tree;
    if (table->dims == 0)
        return PH_NO_TREE;
    if (!is_point(table, table->dims, asked->p, asked->p_length) || !is_point(table, table->dims, asked->q, asked->q_length))
        return PH_NO_POINT;
    return page(table, asked, in_window);
}

PLAIN(ball) {
    size_t at;
    uint32_t answer = look_up(tables + asked->tree, asked, &at);
    return answer >= PH_NO_TREE ? answer : page(tables + asked->tree, asked, in_ball);
}

static uint32_t boxes(struct table *tables, struct asked *asked, has *has) {
    struct table *table = tables + asked->tree;
    if (table->dims == 0)
        return PH_NO_TREE;
    if (table->dims % 2)
        return PH_NO_BOXES;
    uint32_t half = table->dims / 2;
    if (!is_point(table, half, asked->p, asked->p_length) || !is_point(table, half, asked->q, asked->q_length))
        return PH_NO_POINT;
    for (uint32_t i = 0; i < half; i++)
        if (asked->p[i] > asked->q[i])
            return PH_REVERSED;
    return page(table, asked, has);
}

PLAIN(overlapping) {
    return boxes(tables, asked, is_overlapping);
}

PLAIN(inside) {
    return boxes(tables, asked, is_inside);
}

PLAIN(covering) {
    return boxes(tables, asked, is_covering);
}

PLAIN(nearest) {
    struct table *table = tables + asked->tree;
    size_t at, room;
    uint32_t answer = look_up(table, asked, &at);
    if (answer >= PH_NO_TREE)
        return answer;
    char is_taken[2 * MOST_ROWS] = {0};
    room = least(least(asked->points_length / table->dims, asked->values_length), least(asked->distances_length / 2, table->count));
    for (size_t i = 0; i < room; i++) {
        size_t best = table->count;
        square found = 0;
        for (size_t j = 0; j < table->count; j++) {
            square away = distance(table->dims, asked->p, table->rows[j].point);
            if (!is_taken[j] && (best == table->count || away < found)) {
                best = j;
                found = away;
            }
        }
        is_taken[best] = 1;
        write_row(table, asked, best, i);
        asked->distances[2 * i] = (uint64_t)found;
        asked->distances[2 * i + 1] = (uint64_t)(found >> 64);
    }
    asked->count = room;
    return PH_DONE;
}

PLAIN(build) {
    static struct table table;
    struct table *of_one = &table;
    uint64_t former;
    struct asked opening = *asked;
    opening.tree = 0;
    uint32_t answer = plain_open(of_one, &opening);
    if (answer != PH_DONE)
        return answer;
    if (asked->points_length != asked->values_length * asked->dims)
        return PH_UNLIKE;
    for (size_t i = 0; i < asked->values_length && answer < PH_NO_TREE; i++) {
        const int64_t *p = asked->points + i * table.dims;
        answer = is_point(&table, table.dims, p, table.dims) ? put_in(&table, p, asked->values[i], &former) : PH_NO_POINT;
    }
    if (answer >= PH_NO_TREE)
        return answer;
    tables[asked->tree] = table;
    return PH_DONE;
}

/* The rows of the first tree that are, or are not, in the second one too. */
static uint32_t chosen(struct table *tables, struct asked *asked, int wanted) {
    const struct table *a = tables, *b = tables + 1;
    struct table *into = tables + asked->tree;
    int is_there;
    if (a->dims == 0 || b->dims == 0)
        return PH_NO_TREE;
    if (a->dims != b->dims || a->width != b->width)
        return PH_UNLIKE;
    into->dims = a->dims, into->width = a->width, into->most = a->most, into->count = 0;
    for (size_t i = 0; i < a->count; i++) {
        place_of(b, a->rows[i].point, &is_there);
        if (is_there == wanted)
            into->rows[into->count++] = a->rows[i];
    }
    return PH_DONE;
}

PLAIN(common) {
    return chosen(tables, asked, 1);
}

PLAIN(minus) {
    return chosen(tables, asked, 0);
}

PLAIN(union) {
    static struct table both;
    uint64_t former;
    if (tables[0].dims == 0 || tables[1].dims == 0)
        return PH_NO_TREE;
    if (tables[0].dims != tables[1].dims || tables[0].width != tables[1].width)
        return PH_UNLIKE;
    both = tables[1];
    both.most = UINT64_MAX;
    for (size_t i = 0; i < tables[0].count; i++)
        put_in(&both, tables[0].rows[i].point, tables[0].rows[i].value, &former);
    if (both.count > asked->most)
        return PH_FULL;
    both.most = asked->most;
    tables[asked->tree] = both;
    return PH_DONE;
}
