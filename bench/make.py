#!/usr/bin/env python3
"""Time and peak memory of `make N`, which runs over a generated input of N updates and needs no file.

Usage: bench/make.py [--product BIN] [--beside BIN] [RUNS] [N]..
       runs of each N (1), of which the cheapest counts, and the N (8, 100000, 1000000)
       BIN: the program, where it isn't to be built; another one that knows `make`, which runs turn about with it
"""

import sys
import tempfile

import program
from program import option, prepare, run_command


def measure(folder, count, runs, beside):
    """The least costs of the program, and of the other one where there is one."""
    words, head = ["make", str(count)], f"updates {count}\ncycles ".encode()
    rounds = [[run_command(folder, words, head, b"\n", one) for one in beside] for _ in range(runs)]
    return [min(costs, key=lambda cost: cost.processor) for costs in zip(*rounds)]


def main(words):
    words = prepare(words)
    other, words = option(words, "--beside")
    runs = int(words[0]) if words else 1
    counts = [int(word) for word in words[1:]] or [8, 100000, 1000000]
    with tempfile.TemporaryDirectory() as folder:
        for count in counts:
            cost, *rest = measure(folder, count, runs, [program.PROGRAM, *([other] if other else [])])
            print(
                f"{count} updates: {cost.clock:.2f} s, {cost.processor:.2f} s of the processor, "
                f"{cost.processor / count * 1e6:.2f} us an update, {cost.memory / 2**20:.0f} MiB",
                flush=True,
            )
            for least in rest:
                print(
                    f"    the other: {least.processor:.2f} s of the processor, {least.memory / 2**20:.0f} MiB; over that: "
                    f"time {cost.processor / least.processor:.2f}, memory {cost.memory / least.memory:.2f}",
                    flush=True,
                )


if __name__ == "__main__":
    main(sys.argv[1:])
