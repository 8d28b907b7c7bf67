"""Compares the line of `owac` with the model: FCS, burst writer, hearing."""

import random

import drive
import gen

DUE = [1, 2, 4, 5, 6, 7, 27, 28, "quiet", "frame", "burst", "fcs"]

if __name__ == "__main__":
    chosen = drive.options(cases=4_000)
    drive.compare(chosen, gen.line_cases(random.Random(chosen.seed), chosen.cases), DUE)
