#!/usr/bin/env python3
"""Compares the library with plain C, nauty, bliss and rdflib: what they find isomorphic, and how long they take.

usage: python3 bench/run.py [--quick | --sanitize | --write] [--seed N] [--no-install]

--quick        fewer and shorter runs, to try it; times are rough
--sanitize     only checks that all agree, with plain C and the encodings compiled with the sanitizers for addresses and undefined behaviour
--write        puts the tables into docs/PERFORMANCE.md and the plots beside it, which nothing else changes
--seed N       makes other graphs of the same families
--no-install   stops where a package of Debian is missing, instead of installing it

The status is 0 only if all but rdflib agree on which graphs are isomorphic, and if it is noticed that an encoding forgets something.
"""

import argparse
import collections
import datetime
import json
import os
import re
import subprocess
import sys

import build
import families
import growth
import plots
import table

DOCS = build.BENCH.parent / "docs"
PAGE = DOCS / "PERFORMANCE.md"
BEGIN, END = "<!-- bench/run.py --write: from here -->", "<!-- bench/run.py --write: to here -->"

Effort = collections.namedtuple("Effort", "runs milliseconds rdflib_pairs rdflib_seconds")
FULL, QUICK = Effort(9, 20, 100, 5), Effort(3, 4, 2, 1)


def arguments():
    parser = argparse.ArgumentParser(usage=__doc__.split("usage: ")[1].split("\n")[0])
    kind = parser.add_mutually_exclusive_group()
    for option in ("--quick", "--sanitize", "--write"):
        kind.add_argument(option, action="store_true")
    parser.add_argument("--seed", type=int, default=1)
    parser.add_argument("--no-install", action="store_true")
    return parser.parse_args()


FORGETTABLE = ["predicates", "directions", "names"]
CANONISERS = 6  # nauty's two routines and bliss, each on both encodings


def answer(verdict):
    """Whether a pair was found isomorphic, by nauty and bliss alone where the library refuses it."""
    return re.sub(r"^refused \d+ ", "", verdict)


def agree(program, title, path, known, *options):
    """What was found of each pair, and lines that say where somebody disagrees, or with what is known of a pair."""
    leaks = os.environ | {"LSAN_OPTIONS": f"suppressions={build.BENCH / 'leaks'}"}
    done = subprocess.run([program, path, *options], capture_output=True, text=True, env=leaks)
    lines = done.stdout.splitlines()
    wrong = [f"{title}: {line}" for line in lines if line.startswith("DISAGREEMENT")]
    found = [line for line in lines if not line.startswith("DISAGREEMENT")]
    if done.returncode not in (0, 1) or len(found) != len(known) or (done.returncode == 1) != bool(wrong):
        build.stop(f"agree ended with {done.returncode} on {title}: {done.stderr}")
    for pair, (verdict, wanted) in enumerate(zip(found, known)):
        if wanted and answer(verdict) != wanted:
            wrong.append(f"{title}: pair {pair} is {wanted} by how it was made, and was found {verdict}")
    return found, wrong


def take_times(program, path, effort):
    return [json.loads(line) for line in build.run([program, path, effort.runs, effort.milliseconds]).splitlines()]


def ask_rdflib(title, path, found, seed, effort):
    """What rdflib took and told, for as many pairs as there is time for, beside what was found of them. What it tells of some twins depends on how
    Python hashes texts, so it gets a fixed seed."""
    script = [build.SYSTEM_PYTHON, build.BENCH / "rdflib_times.py", path, str(effort.rdflib_pairs), str(effort.rdflib_seconds)]
    late = False
    hashing = os.environ | {"PYTHONHASHSEED": str(seed)}
    try:
        said = subprocess.run(script, stdout=subprocess.PIPE, timeout=2 * effort.rdflib_seconds, check=True, env=hashing).stdout
    except subprocess.TimeoutExpired as expired:
        said, late = expired.stdout or b"", True
    pairs = [json.loads(line) for line in said.splitlines() if line.endswith(b"}")]
    for pair in pairs:
        same = answer(found[pair["pair"]]) == "isomorphic"
        pair["denied"] = same and not pair["isomorphic"]
        pair["confused"] = pair["isomorphic"] and not same
    return title, pairs, late


def progress(words):
    print(words, file=sys.stderr, flush=True)


def check_that_it_can_fail(noticed):
    """`noticed`: for what the encodings were made to forget, the lines that say where somebody disagrees then. Each canoniser must, and of a refused
    pair, where all canonisers go wrong together, it must be noticed by what is known of it."""
    for what, lines in noticed.items():
        blamed = {line.split(": ")[-1] for line in lines if "DISAGREEMENT" in line}
        known = sum("by how it was made" in line for line in lines)
        if len(blamed) < CANONISERS or not known:
            build.stop(f"not all notice encodings without {what}: {len(blamed)} of {CANONISERS} canonisers disagree, {known} pairs are not as known")
        print(f"With encodings that forget {what}: {len(lines) - known} disagreements, and {known} refused pairs that are not as known.", flush=True)


def check_families(program, folder, seed):
    """Makes the families, and returns for each its name, its two files and what was found of its pairs. It ends here where somebody disagrees, or
    where nobody does although the encodings forget something."""
    checked, wrong, noticed = [], [], {what: [] for what in FORGETTABLE}
    for family in families.FAMILIES:
        pairs_path, first_path, known = families.write_family(folder, family, seed)
        found, more = agree(program, family[0], pairs_path, known)
        checked.append((family[0], pairs_path, first_path, found))
        wrong += more
        for what in FORGETTABLE:
            noticed[what] += agree(program, family[0], pairs_path, known, f"--forget-{what}")[1]
    print("\n".join(table.agreement_table([(title, found) for title, _, _, found in checked])), flush=True)
    if wrong:
        print("\n".join(wrong))
        build.stop(f"{len(wrong)} disagreements")
    check_that_it_can_fail(noticed)
    return checked


def time_families(program, checked, seed, effort, with_rdflib):
    """For each family its times, and what rdflib says of its pairs."""
    measured, asked = [], []
    for title, pairs_path, first_path, found in checked:
        progress(f"times: {title}")
        measured.append((title, take_times(program, first_path, effort)))
        if with_rdflib:
            asked.append(ask_rdflib(title, pairs_path, found, seed, effort))
    return measured, asked


PLOTS = {
    "blank-nodes": ("Cost by blank nodes, 6 triples each", "blank nodes", [1, 2, 4, 8, 16, 32], lambda n: n),
    "triples": ("Cost by triples, 32 blank nodes", "triples", [32, 64, 128, 256], lambda n: n),
    "leaves": ("Cost by leaves, 20 blank nodes and 20 triples", "leaves of the search tree", [1, 4, 16, 64, 256, 1024], lambda n: 2 ** n),
}
LINES = [("ours", lambda t: t["library"]), ("plain C", lambda t: t["plain"]), ("nauty or bliss, better", table.peer)]
PRUNED = ("plain C, pruned", lambda t: t["pruned"])


def times_of_point(program, path, leaves, effort):
    """The times of a point's graphs, all of which must have so many leaves."""
    parts = take_times(program, path, effort)
    if [(t["graphs"], t["fewest"], t["most"]) for t in parts] != [(growth.GRAPHS_A_POINT, leaves, leaves)]:
        build.stop(f"not all of {path.name} have {leaves} leaves")
    return parts[0]


def draw_growth(program, folder, seed, effort):
    """The plots, by the names of their files."""
    drawn = {}
    for plot in growth.GROWTH:
        name = plot[0]
        title, label, ticks, place = PLOTS[name]
        progress(f"plot: by {name}")
        points = [(place(point), times_of_point(program, path, leaves, effort)) for point, leaves, path in growth.write_growth(folder, plot, seed)]
        lines = [(line, [(at, cost(t)) for at, t in points]) for line, cost in (LINES + [PRUNED] if name == "leaves" else LINES)]
        drawn[f"cost-by-{name}.svg"] = plots.plot(title, label, ticks, lines)
    return drawn


def rdflib_lines(asked, version, effort):
    if version is None:
        return ["rdflib is not there: Debian's python3-rdflib could not be installed."]
    pairs = [pair for _, found, _ in asked for pair in found]
    denied, confused = (sum(pair[key] for pair in pairs) for key in ("denied", "confused"))
    limit = f"A family's first {effort.rdflib_pairs} pairs are asked for, but none is begun after {effort.rdflib_seconds} seconds."
    return [f"rdflib, in microseconds. {limit} Of {len(pairs)} pairs it denied {denied}, and confused {confused}.", "", *table.rdflib_table(asked)]


def report(seed, versions, checked, measured, asked, effort):
    """What is printed, and what is written into the page."""
    pairs = [verdict for *_, found in checked for verdict in found]
    counts = ", ".join(f"{count} {kind}" for count, kind in zip(table.count_kinds(pairs), table.KINDS))
    tools = ", ".join(f"{name} {version}" for name, version in versions.items() if version)
    return [f"Measured on {datetime.date.today()} by `python3 bench/run.py --write`, seed {seed}, beside {tools}. Times are nanoseconds a graph.", "",
            f"All agree on {len(pairs)} pairs: {counts}.", "", *table.times_table(measured), "", *rdflib_lines(asked, versions["rdflib"], effort)]


def write(lines, drawn):
    page = PAGE.read_text(encoding="utf-8")
    if page.count(BEGIN) != 1 or page.count(END) != 1:
        build.stop(f"{PAGE.name} does not have each of the two marks once")
    before, after = page.split(BEGIN)[0], page.split(END)[1]
    PAGE.write_text("\n".join([before + BEGIN, "", *lines, "", END + after]), encoding="utf-8")
    for name, svg in drawn.items():
        (DOCS / name).write_text(svg, encoding="utf-8")


def main():
    given = arguments()
    effort = QUICK if given.quick else FULL
    versions = build.versions(not given.no_install)
    progress("building")
    agree_program, times_program = build.build(given.sanitize)
    folder = build.OUT / "graphs"
    folder.mkdir(exist_ok=True)
    checked = check_families(agree_program, folder, given.seed)
    if given.sanitize:
        return
    measured, asked = time_families(times_program, checked, given.seed, effort, versions["rdflib"] is not None)
    drawn = draw_growth(times_program, folder, given.seed, effort)
    lines = report(given.seed, versions, checked, measured, asked, effort)
    print("\n" + "\n".join(lines))
    if given.write:
        write(lines, drawn)


if __name__ == "__main__":
    main()
