#!/usr/bin/env python3
"""Plants bugs in the code, one at a time, and has the prover check that each is refused.

usage: python3 tools/planted_bugs.py [--jobs N] [--room FOLDER] [CRATE ..]     at the top of the repository

Each crate of code has a list of bugs, tools/planted/CRATE.txt. A bug is a block of lines

    bug: what kind it is, and what it does
    file: src/row.rt
    old: a text that stands in this file once
    new: what stands there instead

where further pairs of old and new apply to what the earlier ones made. In a copy of the repository each bug becomes a must-fail edit, in the
place of those that are there, and `rt must-fail` checks the crate with each. Where no contract can tell, since none says what words a program is
called with, what a file holds or what reaches a terminal, a line `run: PROGRAM` has that program run instead, on the input that its crate has for
the gate. A bug is one of

    refused    the check fails, since a fact no longer holds
    shown      the program prints other lines than those that are due, or ends with another status
    proved     nothing tells: a contract says too little, or the code does too much, or the bug is none
    bad        it cannot be planted, does not compile, is no code that the prover covers, leaves a proof without a name that it cites, or ends at a
               limit of the prover

Before that it looks whether each function has a bug that is public, or stands in a trait's impl, or has more than ten lines from brace to brace,
tests and the `main` of a program left out. The status is 0 only if each of these has one, and each bug is refused or shown. Without names of crates all
are tried. What came of it is written to docs/PLANTED_BUGS.md, which keeps what it says of the other crates. N crates are tried side by side, or N
bugs where one crate is named; 3 if it is not said. With a FOLDER the copy stands there and stays, so that a next run there has less to prove.
"""

import argparse
import collections
import concurrent.futures
import contextlib
import hashlib
import os
import re
import shutil
import subprocess
import sys
import tempfile
import time

from planted import page, runs
from planted.functions import files_of, functions_of, must_have, read, where

CRATES = "rows graph refinement stability search_tree canonical_form isomorphism c_entry input form alike".split()
USAGE = "python3 tools/planted_bugs.py [--jobs N] [--room FOLDER] [CRATE ..]"
# A file of this name tells a copy from any other folder.
MARK = "planted_bugs"


class Bug:
    def __init__(self, crate, words):
        self.crate, self.words = crate, words
        self.edits, self.function, self.program = [], None, None
        self.outcome, self.told = "bad", "it was not tried"

    @property
    def text(self):
        lines = []
        for path, old, new in self.edits:
            lines += [f"file: {path}", f"old: {old}", f"new: {new}"]
        return "\n".join(lines) + "\n"


def bugs_of(crate):
    bugs, path, old = [], "", None
    for line in read(f"tools/planted/{crate}.txt").split("\n"):
        word, _, rest = line.partition(": ") if ": " in line else line.partition(":")
        if word == "bug":
            bugs.append(Bug(crate, rest))
        elif word == "file":
            path = rest
        elif word == "old":
            old = rest
        elif word == "new":
            bugs[-1].edits.append((path, old, rest))
        elif word == "run":
            bugs[-1].program = rest
        elif line.strip() and not line.startswith("#"):
            sys.exit(f"tools/planted/{crate}.txt: this line is not read: {line}")
    return bugs


def place(bugs, crate, functions):
    """Finds the function that each bug is planted in, or the constant, and whether it can be planted."""
    for bug in bugs:
        texts = {}
        for path, old, new in bug.edits:
            text = texts.setdefault(path, read(f"crates/{crate}/{path}"))
            if text.count(old) != 1:
                bug.told = f"the old text stands {text.count(old)} times in {path}: {old}"
                break
            at = text[: text.index(old)].count("\n") + 1
            here = next((it for it in functions if it.path == path and it.first <= at <= it.last), None)
            constant = re.search(r"\bconst (\w+):", text.split("\n")[at - 1])
            bug.function = bug.function or (here.name if here else f"const {constant[1]}" if constant else "no function")
            texts[path] = text.replace(old, new)
        else:
            bug.told = ""


def copied(room):
    """Makes a copy of what a check reads, with no must-fail edits. What an earlier run proved there stays."""
    if os.path.isdir(room) and os.listdir(room) and not os.path.isfile(f"{room}/{MARK}"):
        sys.exit(f"{room} is neither empty nor the copy of an earlier run")
    os.makedirs(room, exist_ok=True)
    open(f"{room}/{MARK}", "w").close()
    for crate in os.listdir("crates"):
        for part in ("src", "specs", "proofs", "must-fail"):
            shutil.rmtree(f"{room}/crates/{crate}/{part}", ignore_errors=True)
    shutil.copytree("crates", f"{room}/crates", ignore=shutil.ignore_patterns("out", "must-fail"), dirs_exist_ok=True)
    for name in ("crates.txt", "HANDLES"):
        if os.path.isfile(name):
            shutil.copy(name, room)


def run(words, folder, **environment):
    how = {"stdin": subprocess.DEVNULL, "stdout": subprocess.PIPE, "stderr": subprocess.STDOUT, "errors": "replace"}
    return subprocess.run(words, cwd=folder, env={**os.environ, **environment}, **how)


def try_bugs(room, crate, bugs, functions, jobs):
    """Tries a crate's bugs as must-fail edits of the copy, and returns what was said."""
    ran = run(["rt", "check"], f"{room}/crates/{crate}")
    if ran.returncode:
        return f"{crate} is not proved as it stands:\n{ran.stdout}"
    folder = f"{room}/crates/{crate}/must-fail"
    os.mkdir(folder)
    planted = {}
    for bug in bugs:
        if not bug.told and not bug.program:
            # (a name that other bugs do not change, since `rt` keeps results by it)
            name = f"{hashlib.sha256(bug.text.encode()).hexdigest()[:12]}.edit"
            planted[f"{crate}/{name}"] = bug
            with open(f"{folder}/{name}", "w", encoding="utf-8") as file:
                file.write(bug.text)
    # (`rt must-fail` tries as many edits side by side as RT_JOBS says)
    ran = run(["rt", "must-fail", crate], room, RT_JOBS=str(jobs))
    for line in ran.stdout.split("\n"):
        found = re.match(r"(?:rt: )?must-fail (\S+\.edit): (.*)", line)
        if not found or found[1] not in planted:
            continue
        bug, said = planted[found[1]], found[2]
        if said.startswith("refused, as it must be: "):
            # (where no place follows, the prover does not cover the code, and no fact was tried)
            bug.outcome, bug.told = "refused", where(said.partition(": ")[2], functions)
        elif said.startswith("NOT REFUSED"):
            bug.outcome, bug.told = "proved", "nowhere"
        else:
            bug.told = said
    return ran.stdout


def planted_in(crates):
    """The bugs and the functions of each crate, and the functions that must have a bug and have none."""
    bugs, functions, lacking = {}, {}, []
    for crate in crates:
        functions[crate] = [it for path in files_of(crate) for it in functions_of(read(f"crates/{crate}/{path}"), path)]
        bugs[crate] = bugs_of(crate)
        place(bugs[crate], crate, functions[crate])
        held = {(bug.edits[0][0], bug.function) for bug in bugs[crate] if bug.edits and not bug.told}
        lacking += [f"{crate}: {it.path} {it.name}" for it in functions[crate] if must_have(it) and (it.path, it.name) not in held]
    return bugs, functions, lacking


def tell(bug):
    bug.told = bug.told or "no result"
    print(f"{bug.crate}: {bug.outcome}: {bug.function}: {bug.words} | {bug.told}", flush=True)


def try_contracts(room, crates, bugs, functions, jobs):
    """Tries the bugs that the contracts are to refuse."""
    with concurrent.futures.ThreadPoolExecutor(jobs) as pool:
        a_crate = max(1, jobs // len(crates))
        longest_first = sorted(crates, key=lambda it: -len(bugs[it]))
        tried = {pool.submit(try_bugs, room, it, bugs[it], functions[it], a_crate): it for it in longest_first}
        for done in concurrent.futures.as_completed(tried):
            of_contracts = [bug for bug in bugs[tried[done]] if not bug.program]
            said = done.result()
            if not all(bug.told for bug in of_contracts):
                print(said[-2000:])
            for bug in of_contracts:
                tell(bug)


def try_programs(room, bugs):
    """Tries the bugs that a run of a program is to show, if without any of them it does what is due."""
    of_programs = [bug for bug in bugs if bug.program]
    for program in sorted({bug.program for bug in of_programs}):
        outcome, told = runs.try_bug(room, program, program, [])
        if outcome != "proved":
            sys.exit(f"{program} with no bug: {told}")
    for bug in of_programs:
        if not bug.told:
            bug.outcome, bug.told = runs.try_bug(room, bug.crate, bug.program, bug.edits)
        tell(bug)


def arguments():
    words = argparse.ArgumentParser(usage=USAGE)
    words.add_argument("--jobs", type=int, default=3)
    words.add_argument("--room")
    words.add_argument("crates", nargs="*")
    asked = words.parse_args()
    for crate in asked.crates:
        if crate not in CRATES:
            sys.exit(f"{crate} has no list of bugs; those that have one: {' '.join(CRATES)}")
    return asked


def main():
    asked = arguments()
    began = time.time()
    crates = [it for it in CRATES if not asked.crates or it in asked.crates]
    bugs, functions, lacking = planted_in(crates)
    for it in lacking:
        print(f"no bug is planted in {it}")
    every = [bug for crate in crates for bug in bugs[crate]]
    with contextlib.nullcontext(asked.room) if asked.room else tempfile.TemporaryDirectory(prefix="planted-bugs-") as room:
        copied(room)
        try_contracts(room, crates, bugs, functions, asked.jobs)
        try_programs(room, every)
    page.write({crate: bugs[crate] for crate in crates}, CRATES)
    count = collections.Counter(bug.outcome for bug in every)
    outcomes = ", ".join(f"{count[it]} {it}" for it in page.OUTCOMES)
    print(f"{len(every)} planted, {outcomes}; {len(lacking)} functions without one; {time.time() - began:.0f} s")
    return 1 if lacking or count["proved"] or count["bad"] else 0


if __name__ == "__main__":
    sys.exit(main())
