"""Compares stores and sheets of `owac` with the model; a case is a whole history."""

import random

import drive
import gen

DUE = ["raise off", "raise low", "raise full", "raise cut", "raise done", "on", "mark", "room yes",
       "room no", "image", "table", "known yes", "known no", "good yes", "good no"]

if __name__ == "__main__":
    chosen = drive.options(cases=5_000)
    drive.compare(chosen, gen.store_cases(random.Random(chosen.seed), chosen.cases), DUE)
