#!/usr/bin/env python3
"""Prints small programs of rows with their least points, found by trying all vertices, as a table for a test.

usage: least_points.py

A program has variables from 0 up, each of cost 0 or 1, and rows: a constant and a coefficient a variable, whose sum may not
be negative. Each choice of as many equations as there are variables, among the rows and the variables themselves at 0, is
solved in fractions; of the solutions that meet the program the cheapest and then lexicographically least is the answer. A
program that some point meets has such a vertex, since no variable is negative.

A line of the table is 'costs; kept rows; other rows; least cost; point', with commas between rows. The least cost is
'numerator denominator' and the point 'numbers denominator', both in lowest terms; where no point meets the program the line
ends with 'none' in place of both. The programs are a few made by hand, and drawn ones in two shapes: any rows over three
variables; and kept rows over classes and arcs, where no class is replaced more often than it has ballots and what leaves a
place came into it. The same programs are drawn each time.
"""
from fractions import Fraction
from itertools import combinations
from math import lcm


def solution(equations, unknowns):
    """The one solution of as many equations as unknowns, or None where there isn't one."""
    rows = [[Fraction(x) for x in equation] for equation in equations]
    for column in range(unknowns):
        found = next((r for r in range(column, unknowns) if rows[r][column]), None)
        if found is None:
            return None
        rows[column], rows[found] = rows[found], rows[column]
        lead = [x / rows[column][column] for x in rows[column]]
        rows = [lead if r == column else [x - row[column] * y for x, y in zip(row, lead)] for r, row in enumerate(rows)]
    return [row[unknowns] for row in rows]


def meets(rows, point):
    """Whether no variable and no row is negative at the point."""
    return all(x >= 0 for x in point) and all(row[0] + sum(a * x for a, x in zip(row[1:], point)) >= 0 for row in rows)


def least(costs, rows):
    """The least cost and the lexicographically least point of that cost, or None where no point meets the rows."""
    unknowns = len(costs)
    planes = [row[1:] + [-row[0]] for row in rows]
    planes += [[int(v == u) for u in range(unknowns)] + [0] for v in range(unknowns)]
    vertices = (solution(chosen, unknowns) for chosen in combinations(planes, unknowns))
    return min(((sum(c * x for c, x in zip(costs, p)), p) for p in vertices if p is not None and meets(rows, p)), default=None)


class Draw:
    """Numbers that are the same each time."""

    def __init__(self, seed):
        self.seed = seed

    def number(self, low, high):
        self.seed = (self.seed * 1103515245 + 12345) % 2**32
        return low + (self.seed >> 16) % (high - low + 1)

    def numbers(self, count, low, high):
        return [self.number(low, high) for _ in range(count)]


def any_rows(draw):
    """Three variables and four rows, the first two of which are kept."""
    costs = draw.numbers(3, 0, 1)
    rows = [draw.numbers(4, -2, 2) for _ in range(4)]
    return costs, rows[:2], rows[2:]


def classes_and_arcs(draw, classes, places):
    """Kept rows over classes, which cost 1, and arcs between places, which cost 0."""
    arcs = [(u, v) for u in range(places) for v in range(u + 1, places + 1)]
    width = classes + len(arcs)
    kept = [[-draw.number(0, 4)] + draw.numbers(width, -2, 3) for _ in range(draw.number(1, 2))]
    other = [[draw.number(1, 3)] + [-int(v == k) for v in range(width)] for k in range(classes)]
    other.append([0] + [1] * classes + [-int(u == 0) for u, _ in arcs])
    for place in range(1, places):
        other.append([0] * (1 + classes) + [int(v == place) - int(u == place) for u, v in arcs])
    return [1] * classes + [0] * len(arcs), kept, other


BY_HAND = [
    ([], [], []),
    ([1, 0], [], []),
    ([], [[3]], []),
    ([], [[-1]], []),
    ([1, 1], [[-1, 1, 1]], []),
    ([0, 0], [], [[-1, 1, 1], [-2, 1, 0]]),
    ([1, 0, 0], [[-1, 0, 2, 0], [-1, 0, 0, 3]], [[0, 1, -1, -1]]),
    ([1], [[-3, 2], [3, -2]], [[-3, 2]]),
    ([0], [[0, 1]], [[-2, 1], [1, -1]]),
]


def programs():
    yield from BY_HAND
    draw = Draw(7)
    for _ in range(20):
        yield any_rows(draw)
    for _ in range(10):
        yield classes_and_arcs(draw, 2, 1)
    for _ in range(20):
        yield classes_and_arcs(draw, 2, 2)


def words(numbers):
    return " ".join(str(x) for x in numbers)


def answer(found):
    """The last columns."""
    if found is None:
        return ["none"]
    cost, point = found
    den = lcm(1, *(x.denominator for x in point))
    return [words([Fraction(cost).numerator, Fraction(cost).denominator]), words([x * den for x in point] + [den])]


def main():
    for costs, kept, other in programs():
        rows = [", ".join(words(row) for row in some) for some in (kept, other)]
        print("; ".join([words(costs)] + rows + answer(least(costs, kept + other))))


main()
