"""Puts three points in a tree, lists those of a window, and finds the nearest one to a point."""
from phtree import Tree

with Tree(2, width=32, most=100) as tree:
    tree[3, 4], tree[5, 1], tree[-7, 2] = 17, 18, 19
    for point, value in tree.window((0, 0), (9, 9)):
        print(point, value)
    for distance, point, value in tree.nearest((0, 0)):
        print(f"nearest {point}, at a distance of {distance:.2f}")
