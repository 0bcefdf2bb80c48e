#!/usr/bin/env python3
"""Runs both programs and the library, as C calls it, on damaged input, and compares what they answer with what can be told without a search.

usage: python3 tools/damaged_input.py [--inputs N] [--seed S] [--valgrind N] [--limit SECONDS] [--programs FOLDER] [--library FILE]
It works at the top of the repository, wherever it is called, and builds the programs and the library first, if no others are named.

Each input is made from the seed and its index: a good graph of some family, or a file in examples/, that is cut off, with some bits flipped, given
huge or wrong counts, and so on (tools/damaged/damage.py has the kinds). `form` and `alike` read most of them from files, 16 to a process, and
one of eight on standard input. No process may crash, run too long, write to standard error or end with another status than is due; each line must
be one that can be printed, and the one that is due as far as tools/damaged/oracle.py can tell. The library is called by tools/damaged_input.c, under
valgrind, and ten times as often without and with little stack, on rows of 64-bit numbers, and at the bounds that its header tells. Besides, both
programs must end with status 1 and say why where a file is missing or a device is full, and the library must need and export just the functions that
README.md and its header tell. It ends with status 1 where anything disagrees, and leaves the inputs that are to blame in target/damaged.
"""

import argparse
import collections
import concurrent.futures
import os
import shutil
import subprocess
import sys
import tempfile
import time

from damaged import entry, unable
from damaged.damage import damaged_input
from damaged.programs import Input, run_group

TOP = os.path.join(os.path.dirname(os.path.abspath(__file__)), "..")
KEPT = os.path.join("target", "damaged")
PROGRAMS = os.path.join("target", "bin")
LIBRARY = "crates/c_entry/out/libc_entry.a"
BATCH = 16
CALLS = 10
MOST_KEPT = 20
MOST_TROUBLES = 200
TOLD = {
    "inputs": "{} inputs",
    "form": "form: {} lines",
    "alike": "alike: {} lines",
    "unable": "{} processes that could not read or write",
    "valgrind": "valgrind: {} calls",
    "native": "without valgrind: {} calls",
}


# limit: the seconds that a process may take
Setting = collections.namedtuple("Setting", "seed limit programs driver")


def run_batch(setting, indexes):
    """Counts of the inputs and of what was printed, and the troubles: the files that are to blame, and what is wrong."""
    inputs = [Input(index, *damaged_input(setting.seed, index)) for index in indexes]
    counts = collections.Counter(f"inputs: {one.kind}" for one in inputs)
    number = indexes[0] // BATCH
    by_name = number % 8 != 0
    groups = [inputs] if by_name else [[one] for one in inputs]
    troubles = []
    with tempfile.TemporaryDirectory() as folder:
        for group in groups:
            printed, found = run_group(group, by_name, folder, setting, number % 3 == 0)
            counts += printed
            troubles += found
    data = {one.index: one.data for one in inputs}
    return counts, [([(f"{index}.graph", data[index]) for index in trouble.indexes], trouble.what) for trouble in troubles]


def run_groups(setting, groups, under_valgrind, name):
    counts, troubles = entry.run_groups(setting, groups, under_valgrind)
    return counts, [([(f"{name}.calls", data)], what) for data, what in troubles]


def run_calls(setting, indexes, under_valgrind):
    return run_groups(setting, [entry.calls_of(setting.seed, index) for index in indexes], under_valgrind, indexes[0])


def run_bounds(setting, under_valgrind):
    return run_groups(setting, entry.bound_calls(), under_valgrind, "bounds")


def run_unable(setting):
    counts, troubles = unable.run_unable(setting)
    return counts, [([], what) for what in troubles]


def ranges(count, step):
    return [range(start, min(start + step, count)) for start in range(0, count, step)]


def keep(troubles):
    """Leaves the inputs that are to blame, and says which and why."""
    for at, (files, what) in enumerate(troubles[:MOST_KEPT]):
        names = [os.path.join(KEPT, f"{at}-{name}") for name, _ in files]
        for name, (_, data) in zip(names, files):
            with open(name, "wb") as file:
                file.write(data)
        print(f"{' '.join(names)}: {what}" if names else what)
    if len(troubles) > MOST_KEPT:
        print(f"and {len(troubles) - MOST_KEPT} more")


def build(arguments):
    """Builds the programs and the library, if no others are named, the driver of the library, and the opening example, which is run. Returns the
    driver."""
    shutil.rmtree(KEPT, ignore_errors=True)
    os.makedirs(KEPT)
    if arguments.programs is None:
        subprocess.run(["make", "form", "alike"], check=True)
    if arguments.library is None:
        subprocess.run(["rt", "lib"], cwd="crates/c_entry", stdout=subprocess.DEVNULL, check=True)
    library = arguments.library or LIBRARY
    header = "crates/c_entry/include"
    driver = os.path.join(KEPT, "driver")
    entry.compile_c("tools/damaged_input.c", library, header, driver)
    fault = entry.names_fault(library)
    fault = fault or entry.example_fault("examples/entry.c", library, header, os.path.join(KEPT, "entry"), arguments.limit)
    if fault:
        sys.exit(fault)
    if arguments.valgrind > 0 and not entry.has_valgrind():
        sys.exit("valgrind is missing; on Debian it is in the package valgrind")
    return driver


def run_all(setting, inputs, calls):
    """All counts, and all troubles; it stops where these are many."""
    # An index stands for one call or for three, by turns.
    groups = (calls + 1) // 2
    counts, troubles = collections.Counter(), []
    with concurrent.futures.ProcessPoolExecutor(len(os.sched_getaffinity(0))) as pool:
        waited = [pool.submit(run_unable, setting), pool.submit(run_bounds, setting, False)]
        waited += [pool.submit(run_bounds, setting, True)] if calls > 0 else []
        waited += [pool.submit(run_calls, setting, indexes, True) for indexes in ranges(groups, CALLS)]
        waited += [pool.submit(run_calls, setting, indexes, False) for indexes in ranges(10 * groups, 10 * CALLS)]
        waited += [pool.submit(run_batch, setting, indexes) for indexes in ranges(inputs, BATCH)]
        for done in waited:
            found, wrong = done.result()
            counts += found
            troubles += wrong
            if len(troubles) > MOST_TROUBLES:
                pool.shutdown(cancel_futures=True)
                break
    return counts, troubles


def tell(counts):
    """Prints how many inputs, lines and calls there were, and of which kinds."""
    print(f"{counts.pop('processes', 0)} processes of both programs")
    for part, what in TOLD.items():
        of_part = {key.split(": ")[1]: count for key, count in counts.items() if key.startswith(f"{part}: ")}
        print(what.format(sum(of_part.values())) + "".join(f", {count} {word}" for word, count in sorted(of_part.items())))


def main():
    parser = argparse.ArgumentParser()
    parser.add_argument("--inputs", type=int, default=100_000)
    parser.add_argument("--seed", default="1")
    parser.add_argument("--valgrind", type=int, default=300, help="how many calls under valgrind, about")
    parser.add_argument("--limit", type=int, default=60, help="how many seconds a process may take")
    parser.add_argument("--programs", help="the folder of both programs, if they are not to be built")
    parser.add_argument("--library", help="the static library, if it is not to be built")
    arguments = parser.parse_args()
    os.chdir(TOP)
    try:
        driver = build(arguments)
    except (entry.NoTool, FileNotFoundError, subprocess.CalledProcessError) as missing:
        sys.exit(str(missing))
    started = time.monotonic()
    setting = Setting(arguments.seed, arguments.limit, arguments.programs or PROGRAMS, driver)
    counts, troubles = run_all(setting, arguments.inputs, arguments.valgrind)
    tell(counts)
    keep(troubles)
    print(f"{len(troubles)} disagreements, {time.monotonic() - started:.0f} seconds")
    return 1 if troubles else 0


if __name__ == "__main__":
    sys.exit(main())
