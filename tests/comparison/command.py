"""The command: its options, the two sides, the run, and the count that it ends with."""

import argparse
from pathlib import Path

from .comparing import Settings
from .runner import run
from .sides import our_side, second_side
from .tally import count_of_tests, forbidden_numbers, missing_numbers, summary

REPOSITORY = Path(__file__).resolve().parents[2]


def options() -> argparse.Namespace:
    parser = argparse.ArgumentParser(
        description="Compares dtprobe, dtlist and dtmake with the second program on generated inputs.")
    parser.add_argument("--inputs", type=int, default=20_000, help="at least so many inputs (default: 20000)")
    parser.add_argument("--seed", type=int, default=20261115, help="seed of the inputs (default: 20261115)")
    return parser.parse_args()


def main() -> int:
    chosen = options()
    folder = REPOSITORY / "target" / "comparison"
    settings = Settings(our_side(REPOSITORY), second_side(REPOSITORY), chosen.seed, folder)
    tally = run(settings, chosen.inputs)
    for call, number in missing_numbers(tally):
        print(f"never met: number {number} from {call}")
    for call, number in forbidden_numbers(tally):
        print(f"met, though it must not be: number {number} from {call}")
    print(*summary(tally, chosen.seed), sep="\n")
    passed, failed = count_of_tests(tally)
    print(f"{passed} passed, {failed} failed")
    return 0 if failed == 0 else 1
