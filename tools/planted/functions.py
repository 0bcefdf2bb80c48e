"""The functions in a crate's source, and which of them must have a bug."""

import collections
import os
import re

# From brace to brace, an inner function of more lines must have a bug.
SHORT = 10

Function = collections.namedtuple("Function", "name path first brace last public")


def read(path):
    with open(path, encoding="utf-8") as file:
        return file.read()


def functions_of(text, path):
    """The functions of a file in the layout of `rt fmt`, where a body ends with a brace as far in as its `fn`. Tests are left out."""
    lines, found, owner, is_trait = text.split("\n"), [], "", False
    for number, line in enumerate(lines, 1):
        head = re.match(r"impl(?:<.*?>)? (?:(\S.*) for )?(\w+)", line)
        if head:
            owner, is_trait = f"{head[2]}::", head[1] is not None
        elif line and line[0] not in " }/":
            owner, is_trait = "", False
        start = re.match(r'( *)(pub(?:\(\w+\))? )?(?:const |unsafe |extern "C" )*fn (\w+)', line)
        if not start:
            continue
        first = brace = number
        while first > 1 and lines[first - 2].lstrip().startswith("#["):
            first -= 1
        while not lines[brace - 1].endswith(" {") and lines[brace - 1].strip() != "{":
            brace += 1
        last = brace
        while lines[last - 1] != start[1] + "}":
            last += 1
        if "#[test]" not in [it.strip() for it in lines[first - 1 : number]]:
            name = (owner if start[1] else "") + start[3]
            found.append(Function(name, path, first, brace, last, start[2] == "pub " or is_trait and bool(start[1])))
    return found


def files_of(crate):
    for folder, folders, names in os.walk(f"crates/{crate}/src"):
        folders.sort()
        for name in sorted(names):
            if name.endswith(".rt") and name != "tests.rt":
                yield os.path.relpath(f"{folder}/{name}", f"crates/{crate}")


def must_have(function):
    if function.name == "main" and function.path == "src/main.rt":
        return False
    return function.public or function.last - function.brace + 1 > SHORT


def where(told, functions):
    """Where a check was refused first: a function, and what of it is not proved, by the prover's name for that."""
    at = re.match(r"(?:note: )?(?:\./)?(\S+?):(\d+):\d+: (?:error: )?(.*)", told)
    if not at:
        return told
    path, line, said = at[1], int(at[2]), at[3]
    if path.startswith("proofs/"):
        # (proofs/row_tree/RowTree/+put/Answers.antt has the proof of RowTree::put)
        folders = [it.lstrip("+") for it in path.split("/")[1:-1]]
        of_type = len(folders) > 1 and folders[-2][:1].isupper()
        here = "::".join(folders[-2:] if of_type else folders[-1:]) or path
    else:
        here = next((it.name for it in functions if it.path == path and it.first <= line <= it.last), path)
    goal = re.match(r"`([^`]+)`: ", said) or re.search(r"\(`([^`]+)`\)", said)
    return f"`{here}`, `{goal[1]}`" if goal else f"`{here}`: {said}"
