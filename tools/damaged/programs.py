"""Both programs on damaged inputs, in files or on standard input, and what they print against the oracle."""

import collections
import os
import re
import subprocess

from .oracle import answer_fault, encoded, graphs_in, mapping_fault

NUMBER = r"(?:0|[1-9][0-9]*)"
REFUSED = rf"refused [1235] at {NUMBER}"
FORM_LINE = re.compile(rf"{REFUSED}|{NUMBER}(?: {NUMBER})*", re.ASCII)
ALIKE_LINE = re.compile(rf"alike(?: {NUMBER})*|not alike|(?:first|second) {REFUSED}", re.ASCII)
MISSING = encoded(())

# which of the inputs are to blame, and what is wrong
Trouble = collections.namedtuple("Trouble", "indexes what")


class Input:
    def __init__(self, index, kind, data):
        self.index, self.kind, self.data = index, kind, data
        self.graphs = [encoded(numbers) for numbers in graphs_in(data)]


def run(program, inputs, by_name, folder, limit, options=()):
    """The lines that the program prints for the inputs, its status, and what is wrong with the run, or None."""
    names = [os.path.join(folder, str(at)) for at in range(len(inputs))]
    for name, one in zip(names, inputs):
        with open(name, "wb") as file:
            file.write(one.data)
    with open(os.devnull if by_name else names[0], "rb") as standard_input:
        words = [program, *options, *(names if by_name else [])]
        try:
            ran = subprocess.run(words, stdin=standard_input, capture_output=True, timeout=limit, check=False)
        except subprocess.TimeoutExpired:
            return [], None, f"runs longer than {limit} seconds"
    text = ran.stdout.decode("ascii", "replace")
    if ran.stderr:
        return [], ran.returncode, f"writes to standard error: {ran.stderr[:200]!r}"
    if not text.endswith("\n"):
        return [], ran.returncode, f"ends with status {ran.returncode}, and its last line is not ended"
    return text[:-1].split("\n"), ran.returncode, None


def refusal_of(line):
    """The number and the place in a line that says that a graph is refused, or None."""
    found = re.fullmatch(rf"refused ([1235]) at ({NUMBER})", line, re.ASCII)
    return (int(found[1]), int(found[2])) if found else None


def form_line_fault(graph, line):
    if not FORM_LINE.fullmatch(line):
        return "is no answer"
    refusal = refusal_of(line)
    return answer_fault(graph, refusal, [] if refusal else [int(word) for word in line.split(" ")])


def alike_line_fault(first, second, line):
    """What is wrong with a line for two graphs, each with the line that `form` prints for it."""
    if not ALIKE_LINE.fullmatch(line):
        return "is no answer"
    for which, (graph, form) in (("first", first), ("second", second)):
        if refusal_of(form):
            return None if line == f"{which} {form}" else f"is not {which} {form}"
    if first[1] != second[1]:
        return None if line == "not alike" else "is not 'not alike', though the forms differ"
    words = line.split(" ")
    if words[0] != "alike":
        return "is not 'alike', though the forms are the same"
    return mapping_fault(first[0], second[0], [int(word) for word in words[1:]])


def run_form(inputs, by_name, folder, setting):
    """The line for each graph of the inputs, in order, and the troubles."""
    graphs = [(one, graph) for one in inputs for graph in one.graphs]
    lines, status, what = run(os.path.join(setting.programs, "form"), inputs, by_name, folder, setting.limit)
    if what is None and status != 0:
        what = f"ends with status {status}"
    if what is None and len(lines) != len(graphs):
        what = f"prints {len(lines)} lines for {len(graphs)} graphs"
    if what is not None:
        return [], [Trouble([one.index for one in inputs], f"form {what}")]
    troubles = []
    for (one, graph), line in zip(graphs, lines):
        fault = form_line_fault(graph, line)
        if fault:
            troubles.append(Trouble([one.index], f"form: {line[:80]!r} {fault}"))
    at = 0
    for one in inputs:
        if one.kind == "anew" and lines[at] != lines[at + 1]:
            troubles.append(Trouble([one.index], "form: the same graph, written anew, has another answer"))
        at += len(one.graphs)
    return lines, troubles


def run_alike(inputs, form_lines, by_name, folder, setting, asked):
    """The lines for the graphs of the inputs in twos, and the troubles. The lines that `form` printed say which they have to be."""
    graphs = list(zip((graph for one in inputs for graph in one.graphs), form_lines))
    owners = [one.index for one in inputs for graph in one.graphs]
    twos = [(graphs[at], graphs[at + 1] if at + 1 < len(graphs) else (MISSING, "refused 1 at 0")) for at in range(0, len(graphs), 2)]
    options = ["--status"] if asked else []
    lines, status, what = run(os.path.join(setting.programs, "alike"), inputs, by_name, folder, setting.limit, options)
    if what is None and len(lines) != len(twos):
        what = f"prints {len(lines)} lines for {len(graphs)} graphs"
    if what is None and status != int(asked and not all(line.startswith("alike") for line in lines)):
        what = f"ends with status {status}"
    if what is not None:
        return [], [Trouble([one.index for one in inputs], f"alike {what}")]
    troubles = []
    for at, ((first, second), line) in enumerate(zip(twos, lines)):
        fault = alike_line_fault(first, second, line)
        if fault:
            troubles.append(Trouble(sorted(set(owners[2 * at : 2 * at + 2])), f"alike: {line[:80]!r} {fault}"))
    return lines, troubles


def answer_word(line):
    """What is counted of a line: the refusal's number, or which answer it is."""
    return re.sub(r" at .*", "", line) if "refused" in line else "form" if line[:1].isdigit() else re.sub(r"(?<=^alike) .*", "", line)


def run_group(inputs, by_name, folder, setting, asked):
    """Counts of what was printed for inputs in files, or for one on standard input, and the troubles, each laid to as few inputs as possible."""
    counts = collections.Counter()
    forms, troubles = run_form(inputs, by_name, folder, setting)
    counts["processes"] += 1
    counts.update(f"form: {answer_word(line)}" for line in forms)
    if not troubles:
        lines, troubles = run_alike(inputs, forms, by_name, folder, setting, asked)
        counts["processes"] += 1
        counts.update(f"alike: {answer_word(line)}" for line in lines)
    if len(inputs) == 1 or all(len(trouble.indexes) < len(inputs) for trouble in troubles):
        return counts, troubles
    alone = [trouble for one in inputs for trouble in run_group([one], by_name, folder, setting, asked)[1]]
    return counts, alone or troubles
