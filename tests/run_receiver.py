"""Compares the receiver of `owac` with the model; every answer is a case."""

import random

import drive
import gen

DUE = list(range(1, 27)) + ["quiet", "duplicate", "released", "on", "mark", "image", "table", "text"]

if __name__ == "__main__":
    chosen = drive.options(cases=8_000)
    drive.compare(chosen, gen.receiver_cases(random.Random(chosen.seed), chosen.cases), DUE,
                  each_line=True)
