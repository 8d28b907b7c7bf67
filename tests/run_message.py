"""Compares the message layer of `owac` with the model: fields, checks, transcript, commands."""

import random

import drive
import gen

DUE = [8, 9, 10, 11, 12, 13, 14, 16, 19, 20, 21, 22, "message"]

if __name__ == "__main__":
    chosen = drive.options(cases=4_000)
    drive.compare(chosen, gen.message_cases(random.Random(chosen.seed), chosen.cases), DUE)
