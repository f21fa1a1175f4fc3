#!/usr/bin/env python3
"""Writes a capture for the workload `capture`: blocks, small messages in both directions, blocks with 2 % of the segments lost, and 50
connections at once.

usage: bench/mixed_capture.py SEED FILE

The seed chooses the small messages; sizes and kinds are always the same.
"""
import importlib.machinery
import importlib.util
import os
import random
import sys

sys.dont_write_bytecode = True
loader = importlib.machinery.SourceFileLoader("run_capture", os.path.join(os.path.dirname(os.path.abspath(__file__)), "run_capture"))
made = importlib.util.module_from_spec(importlib.util.spec_from_loader("run_capture", loader))
loader.exec_module(made)


def main():
    rng, capture = random.Random(int(sys.argv[1])), made.Capture(sys.argv[2])
    with capture.file:
        made.Talk(capture, 0, (made.LEECHER, made.blocks(40_000_000))).run()
        made.Talk(capture, 1, (made.small(150_000, rng), made.small(150_000, rng))).run()
        made.Talk(capture, 2, (made.LEECHER, made.blocks(10_000_000))).run(0.02)
        talks = [made.Talk(capture, 3 + k, (made.LEECHER, made.blocks(200_000))) for k in range(50)]
        while any([talk.step(side) for talk in talks for side in (0, 1)]):
            pass


if __name__ == "__main__":
    main()
