"""What docs/PLANTED_BUGS.md says of the bugs that were planted."""

import collections
import os
import re

from planted.functions import read

PAGE = "docs/PLANTED_BUGS.md"
OUTCOMES = ("refused", "shown", "proved", "bad")

HEAD = """# Planted bugs

How much do the contracts hold down? Here bugs were planted in the code, one at a time, and the crate was checked with each. One command plants
them all again, and writes this page:

    python3 tools/planted_bugs.py [--jobs N] [--room FOLDER] [CRATE ..]

It works on a copy, which stays where a FOLDER is named. Its status is 0 only if each bug is refused or shown, and if each function has one that is
public, or stands in a trait's impl, or has more than ten lines from brace to brace; only the `main` of a program is left out, since no contract can
say all of what it does. With names of crates it tries those alone, and leaves what this page says of the others. The bugs stand in `tools/planted`,
and come besides the must-fail edits in `crates/*/must-fail`, which the gate tries. A check takes 10 to 40 seconds of a processor.

- **Refused**: the check fails, since a fact no longer holds. **Where** names the function, or the file of lemmas, where it fails first, and what of
  it is not proved, by the prover's name for that: `returns-clause-less` is the clause `less` where the function returns.
- **Shown**: no contract can tell, since none says what words a program is called with, what a file holds or what reaches a terminal. The program is
  run on the input that its crate has for the gate, and prints other lines than those that are due, or ends with another status.
- **Proved**: neither, so that a contract says too little, or the code does more than it has to. There must be none.
- **Bad**: the bug does not compile, or is no code that the prover covers, or takes away a name that a proof cites, or the prover came to a limit. It
  says nothing. There must be none.

What refused means: with this bug the proofs that are there no longer go through. That no others would is no verdict of the check; it is so where the
bug breaks what a contract says, and each of these was chosen to.

| crate | planted | refused | shown | proved | bad |
|---|---|---|---|---|---|
"""


def code(text):
    """A text of a program in a cell of a table."""
    text = text.strip().replace("|", "\\|")
    return f"`{text}`" if text else "nothing"


def table(crate, bugs):
    """What the page says of a crate's bugs."""
    lines = [f"## `{crate}`", "", "| file and function | the bug | old text | new text | outcome | where |", "|---|---|---|---|---|---|"]
    for bug in bugs:
        cells = [f"`{bug.edits[0][0]}`, `{bug.function}`", bug.words.replace("|", "\\|")]
        cells += ["<br>".join(code(edit[it]) for edit in bug.edits) for it in (1, 2)]
        lines.append("| " + " | ".join([*cells, bug.outcome, bug.told.replace("|", "\\|")]) + " |")
    return "\n".join(lines) + "\n"


def text_of(tables):
    """The page, with the tables of crates by their names."""
    outcome = rf" \| ({'|'.join(OUTCOMES)}) \| "
    counts = {crate: collections.Counter(re.findall(outcome, text)) for crate, text in tables.items()}
    counts["all"] = sum(counts.values(), collections.Counter())
    lines = []
    for crate, count in counts.items():
        numbers = [sum(count.values()), *(count[it] for it in OUTCOMES)]
        lines.append("| " + " | ".join([crate if crate == "all" else f"`{crate}`", *map(str, numbers)]) + " |")
    return "\n".join([HEAD + "\n".join(lines) + "\n", *tables.values()])


def tables_of_page():
    """The tables that the page has now, by the names of their crates."""
    parts = re.split(r"^(?=## `\w+`$)", read(PAGE), flags=re.MULTILINE)[1:] if os.path.isfile(PAGE) else []
    return {re.match(r"## `(\w+)`", it)[1]: it.rstrip("\n") + "\n" for it in parts}


def write(bugs, order):
    """Writes the page with the bugs of these crates, and with what it says of others, in this order."""
    tables = {**tables_of_page(), **{crate: table(crate, of_crate) for crate, of_crate in bugs.items()}}
    with open(PAGE, "w", encoding="utf-8") as file:
        file.write(text_of({crate: tables[crate] for crate in order if crate in tables}))
