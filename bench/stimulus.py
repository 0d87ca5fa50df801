#!/usr/bin/env python3
"""Writes a stimulus of property 0 whose latches begin with 0 and whose inputs are random: the same from the same seed.

    stimulus.py SEED INPUTS LATCHES POSITIONS ANSWER
"""
import random
import sys


def main(words):
    if len(words) != 5:
        sys.exit("usage: stimulus.py SEED INPUTS LATCHES POSITIONS ANSWER")
    seed, inputs, latches, positions = map(int, words[:4])
    chance = random.Random(seed)
    with open(words[4], "w") as file:
        file.write("1\nj0\n" + "0" * latches + "\n")
        for _ in range(positions):
            # random() is the one method whose sequence is the same in every version of Python
            file.write("".join("01"[chance.random() < 0.5] for _ in range(inputs)) + "\n")
        file.write(".\n")


if __name__ == "__main__":
    main(sys.argv[1:])
