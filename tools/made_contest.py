#!/usr/bin/env python3
"""Prints the ballot file of the contest that a seed makes: made_contest.py SEED CANDIDATES BALLOTS.

It is the contest of `ballot_make::make`: the state is a number of 64 bits, at first the seed; each draw multiplies it by
6364136223846793005, adds 1442695040888963407, and gives all but the last 33 bits. A ballot draws how many candidates it
ranks; then for each place two of those who are left, of whom the one who comes first is taken.
"""
import sys


def drawer(seed):
    state = seed

    def draw(m):
        nonlocal state
        state = (state * 6364136223846793005 + 1442695040888963407) % 2**64
        return (state >> 33) % m

    return draw


def make(seed, candidates, ballots):
    draw = drawer(seed)
    for _ in range(ballots):
        length = draw(candidates + 1)
        left = list(range(candidates))
        ballot = []
        for _ in range(length):
            p = draw(len(left))
            q = draw(len(left))
            ballot.append(left.pop(min(p, q)))
        yield ballot


def main():
    seed, candidates, ballots = map(int, sys.argv[1:4])
    print(','.join(['ballots'] + [f'C{x}' for x in range(candidates)]))
    for ballot in make(seed, candidates, ballots):
        print(','.join(['1'] + [f'C{x}' for x in ballot]))


main()
