"""All generators of test cases; run by itself it prints a script.

python3 gen.py line|items|message|store|receiver [--seed S] [--cases N]
"""

import argparse
import random

from gen_items import item_cases
from gen_line import line_cases
from gen_message import message_cases
from gen_receiver import receiver_cases
from gen_store import store_cases

LAYERS = {"line": line_cases, "items": item_cases, "message": message_cases,
          "store": store_cases, "receiver": receiver_cases}


def main():
    parser = argparse.ArgumentParser()
    parser.add_argument("layer", choices=LAYERS)
    parser.add_argument("--seed", type=int, default=1)
    parser.add_argument("--cases", type=int, default=100)
    chosen = parser.parse_args()
    for case in LAYERS[chosen.layer](random.Random(chosen.seed), chosen.cases):
        print("\n".join(case))


if __name__ == "__main__":
    main()
