"""Compares items, digests and text checks of `owac` with the model."""

import random

import drive
import gen

DUE = [8, 9, "read deterministic", "read other", "utf8 yes", "utf8 no"]

if __name__ == "__main__":
    chosen = drive.options(cases=6_000)
    drive.compare(chosen, gen.item_cases(random.Random(chosen.seed), chosen.cases), DUE)
