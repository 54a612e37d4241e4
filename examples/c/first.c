/* Puts three points in a tree, lists those of a window, and finds the nearest one to a point. */
#include "phtree.h"
#include <stdio.h>

int main(void) {
    ph_tree tree = {0};
    int64_t points[3][2] = {{3, 4}, {5, 1}, {-7, 2}}, low[2] = {0, 0}, high[2] = {9, 9}, found[10][2] = {0};
    uint64_t values[10] = {0}, far[2] = {0}, former = 0;
    size_t count = 0;
    uint32_t more = 0;
    if (ph_open(&tree, 2, 32, 100) != PH_DONE) return 1;
    for (int i = 0; i < 3; i++)
        if (ph_put(&tree, points[i], 2, 17 + i, &former) != PH_DONE) return 1;
    if (ph_window(&tree, low, 2, high, 2, low, 0, found[0], 20, values, 10, &count, &more) != PH_DONE) return 1;
    for (size_t i = 0; i < count; i++) printf("(%d, %d) %d\n", (int)found[i][0], (int)found[i][1], (int)values[i]);
    if (ph_nearest(&tree, low, 2, found[0], 2, values, 1, far, 2, &count) != PH_DONE) return 1;
    if (count == 1) printf("nearest (%d, %d), its distance squared is %d\n", (int)found[0][0], (int)found[0][1], (int)far[0]);
    ph_close(&tree);
    return 0;
}
