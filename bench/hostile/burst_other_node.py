#!/usr/bin/env python3
"""A burst on one node closes no reader of another who reads.

As burst_own_node.py, with the readers on the second of two nodes. So many runs of each burst.
"""
from burst_own_node import tried
from peers import run


def check(program, seconds, runs):
    return tried(program, 2, runs)


if __name__ == "__main__":
    run(check, 0, runs=3)
