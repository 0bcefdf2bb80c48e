"""The library as C calls it, on damaged graphs in lent numbers, under valgrind and without, and what it answers against the oracle."""

import collections
import os
import random
import re
import resource
import shutil
import struct
import subprocess

from .damage import damaged_input
from .families import MOST_BLANKS, MOST_DIFFERENT, graph_bytes, numbers_of, small_graph, written_anew
from .oracle import LARGEST_FORM, WIDTH, answer_fault, encoded, graphs_in, mapping_fault

TOP = 2**64 - 1
VALGRIND_STATUS = 97
VALGRIND = ["valgrind", "--quiet", f"--error-exitcode={VALGRIND_STATUS}", "--leak-check=full"]
SLOWER = 10  # how much longer a process may take under valgrind
STACK = (256 + 32) * 1024  # what include/collwyfa.h asks for, and some for what lies on the stack when a program starts
WIDE = [2**32, 2**32 + 1, 2**33 - 1, 2**63, TOP, TOP - 1, TOP // 5, (TOP - 1) // 5, TOP // 5 + 1, 2**64 // 5 * 2 + 1]
ROOMS = [0, 1, 5, 6, LARGEST_FORM - 1, LARGEST_FORM, LARGEST_FORM + 7]

NOT_ISOMORPHIC, ISOMORPHIC, FIRST_REFUSED, SECOND_REFUSED = range(4)
HEADER = [LARGEST_FORM, MOST_BLANKS, NOT_ISOMORPHIC, ISOMORPHIC, FIRST_REFUSED, SECOND_REFUSED]
NEEDED = {"memcpy", "memmove", "memset"}
EXPORTED = {"collwyfa_form", "collwyfa_compare"}

# what: 'form' or 'compare'; rows: the numbers of the graph, or of both; room: how many numbers are lent for a form; due: the kind, the refusal and
# the value, where they are known beforehand
Call = collections.namedtuple("Call", "what rows room due", defaults=[None])
Answer = collections.namedtuple("Answer", "kind refusal value written")


class NoTool(Exception):
    pass


def compile_c(source, library, header, out):
    words = ["cc", "-std=c11", "-Wall", "-Wextra", "-Werror", "-O1", "-g", "-I", header, source, library, "-o", out]
    ran = subprocess.run(words, capture_output=True, text=True, check=False)
    if ran.returncode != 0:
        raise NoTool(f"{source} does not compile:\n{ran.stderr}")


def example_fault(source, library, header, out, limit):
    """Builds and runs the opening example, and compares what it prints with its first comment."""
    compile_c(source, library, header, out)
    with open(source, encoding="utf-8") as file:
        due = re.findall(r"^ \*     (.*)$", file.read().split("*/")[0], re.M)
    ran = subprocess.run([out], capture_output=True, text=True, timeout=limit, check=False)
    return None if ran.returncode == 0 and due and ran.stdout.splitlines() == due else f"{source} printed {ran.stdout!r}, and not {due}"


def names(library, *options):
    """The names in the library that `nm` shows with these options."""
    ran = subprocess.run(["nm", *options, library], capture_output=True, text=True, check=False)
    if ran.returncode != 0:
        raise NoTool(f"nm cannot read {library}:\n{ran.stderr}")
    return {line.split()[-1] for line in ran.stdout.splitlines() if " " in line}


def names_fault(library):
    """What is wrong with the names that the library needs or exports, or None."""
    for what, found, due in (("needs", names(library, "-u"), NEEDED), ("exports", names(library, "-g", "--defined-only"), EXPORTED)):
        if found != due:
            return f"{library} {what} {', '.join(sorted(found))}, and not {', '.join(sorted(due))}"
    return None


def has_valgrind():
    return shutil.which("valgrind") is not None


def lent_row(rng, data):
    """The numbers of a damaged input, or of one of its graphs, some of them wider than a file can say."""
    row = list(rng.choice([*graphs_in(data), struct.unpack(f"<{len(data) // 4}I", data[: len(data) // 4 * 4])]))
    if row and rng.random() < 0.12:
        row[rng.choice([0, 1, rng.randrange(len(row))]) % len(row)] = rng.choice(WIDE)
    return tuple(row)


def room_for(rng, row):
    size = 1 + WIDTH * len(encoded(row).different)
    return rng.choice([*ROOMS, size - 1, size, size, size + 1, LARGEST_FORM])


def form_call(rng, seed, index):
    data = damaged_input(seed, index)[1] if rng.random() < 0.5 else graph_bytes(small_graph(rng))
    row = lent_row(rng, data)
    return Call("form", [row], room_for(rng, row))


def two_rows(rng, seed, index):
    """Graphs of two damaged inputs, of one, or one graph written down in two ways."""
    choice = rng.randrange(4)
    if choice == 0:
        return [lent_row(rng, damaged_input(seed, index + which)[1]) for which in range(2)]
    if choice == 1:
        return (graphs_in(damaged_input(seed, index)[1]) * 2)[:2]
    graph = small_graph(rng)
    again = written_anew(rng, graph)
    return [lent_row(rng, graph_bytes(one)) for one in (graph, again)]


def calls_of(seed, index):
    """The calls for one index: a form, with any room; or the forms of two graphs, and a comparison of them."""
    seed = f"calls {seed}"
    rng = random.Random(f"{seed} {index}")
    if index % 2 == 0:
        return [form_call(rng, seed, 2 * index)]
    rows = [tuple(row) for row in two_rows(rng, seed, 2 * index)]
    return [Call("form", rows[:1], LARGEST_FORM), Call("form", rows[1:], LARGEST_FORM), Call("compare", rows, 0)]


def comparison(first, second, *due):
    return [Call("form", [first], LARGEST_FORM), Call("form", [second], LARGEST_FORM), Call("compare", [first, second], 0, due)]


def bound_calls():
    """Calls at the bounds that the header tells, in groups: the largest form, with room enough and one number too little; the largest mapping; and
    each kind of a comparison."""
    largest, chain, again, larger = (
        tuple(numbers_of((blanks, triples)))
        for blanks, triples in (
            (MOST_BLANKS, [(1, k % MOST_BLANKS, 1, 0, k) for k in range(MOST_DIFFERENT)]),
            (MOST_BLANKS, [(1, k, 2, 1, k + 1) for k in range(MOST_BLANKS - 1)]),
            (MOST_BLANKS, [(1, k + 1, 2, 1, k) for k in range(MOST_BLANKS - 1)]),
            (MOST_BLANKS + 1, [(1, k, 2, 1, k + 1) for k in range(MOST_BLANKS)]),
        )
    )
    return [
        [Call("form", [largest], LARGEST_FORM, (0, 0, LARGEST_FORM))],
        [Call("form", [largest], LARGEST_FORM - 1, (0, 3, LARGEST_FORM - 1))],
        comparison(chain, again, ISOMORPHIC, 0, MOST_BLANKS),
        comparison(chain, largest, NOT_ISOMORPHIC, 0, 0),
        comparison(larger, chain, FIRST_REFUSED, 1, MOST_BLANKS + 1),
        comparison(chain, larger, SECOND_REFUSED, 1, MOST_BLANKS + 1),
    ]


def written_down(call):
    numbers = [0, call.room] if call.what == "form" else [1]
    for row in call.rows:
        numbers += [len(row), *row]
    return struct.pack(f"<{len(numbers)}Q", *numbers)


def little_stack():
    resource.setrlimit(resource.RLIMIT_STACK, (STACK, STACK))


def run(words, calls, limit):
    """The answers of the driver to the calls, and what is wrong with the run, or None."""
    data = b"".join(map(written_down, calls))
    before = little_stack if len(words) == 1 else None
    try:
        ran = subprocess.run(words, input=data, capture_output=True, timeout=limit, check=False, preexec_fn=before)
    except subprocess.TimeoutExpired:
        return [], f"runs longer than {limit} seconds"
    lines = ran.stdout.decode("ascii", "replace").splitlines()
    if lines and lines[-1].startswith("touched: "):
        return [], lines[-1]
    if ran.returncode != 0 or ran.stderr:
        said = ran.stderr.decode("ascii", "replace").split("\n")[0]
        return [], f"ends with status {ran.returncode}, and says {said!r}"
    if lines[:1] != [" ".join(map(str, HEADER))]:
        return [], f"has a header that declares {lines[:1]}, and not {HEADER}"
    if len(lines) != 1 + len(calls):
        return [], f"answers {len(lines) - 1} of {len(calls)} calls"
    answers = []
    for line in lines[1:]:
        kind, refusal, value, *written = map(int, line.split(" "))
        answers.append(Answer(kind, refusal, value, written))
    return answers, None


def form_call_fault(call, answer):
    graph = encoded(call.rows[0], call.room)
    refusal = (answer.refusal, answer.value) if answer.refusal else None
    if refusal is None and answer.value != len(answer.written):
        return "tells another length"
    return answer_fault(graph, refusal, answer.written)


def compare_call_fault(call, answer, forms):
    """What is wrong with a comparison, by what the two calls before it answered."""
    for kind, form in ((FIRST_REFUSED, forms[0]), (SECOND_REFUSED, forms[1])):
        if form.refusal:
            return None if answer == Answer(kind, form.refusal, form.value, []) else f"is not {kind} {form.refusal} {form.value}"
    if forms[0].written != forms[1].written:
        return None if answer == Answer(NOT_ISOMORPHIC, 0, 0, []) else "is not 0 0 0, though the forms differ"
    if (answer.kind, answer.refusal, answer.value) != (ISOMORPHIC, 0, len(answer.written)):
        return "is not 1 0 and the count of places, though the forms are the same"
    return mapping_fault(encoded(call.rows[0]), encoded(call.rows[1]), answer.written)


def check_calls(words, calls, limit):
    """The answers, and what is wrong with one of them or with the run, or None."""
    answers, what = run(words, calls, limit)
    if what is not None:
        return answers, what
    for at, (call, answer) in enumerate(zip(calls, answers)):
        if call.what == "form":
            fault = form_call_fault(call, answer)
        else:
            fault = compare_call_fault(call, answer, answers[at - 2 : at])
        if call.due not in (None, answer[:3]):
            fault = f"is not {call.due}"
        if fault:
            return answers, f"the answer {answer.kind} {answer.refusal} {answer.value} to call {at} of the file, {call.what}, {fault}"
    return answers, None


def answer_word(call, answer):
    if answer.refusal:
        return f"refused {answer.refusal}"
    return "form" if call.what == "form" else "isomorphic" if answer.kind == ISOMORPHIC else "not isomorphic"


def run_groups(setting, groups, under_valgrind):
    """Counts of what was answered, and the troubles: calls as they are handed to the driver, and what is wrong."""
    words = [*VALGRIND, setting.driver] if under_valgrind else [setting.driver]
    limit = setting.limit * SLOWER if under_valgrind else setting.limit
    calls = [call for group in groups for call in group]
    answers, what = check_calls(words, calls, limit)
    where = "valgrind" if under_valgrind else "native"
    counts = collections.Counter(f"{where}: {answer_word(call, answer)}" for call, answer in zip(calls, answers))
    if what is None:
        return counts, []
    alone = [(group, check_calls(words, group, limit)[1]) for group in groups]
    troubles = [(group, fault) for group, fault in alone if fault] or [(calls, what)]
    return counts, [(b"".join(map(written_down, group)), f"{where}: {fault}") for group, fault in troubles]
