"""Runs a program with a bug that no contract can refuse, since none can say what words a program is called with, what a file holds, or what reaches
a terminal. The program is run as the gate runs it, on the input in its crate, and must print other lines than those that are due there, or end with
another status. tools/planted_bugs.py calls this.
"""

import contextlib
import os
import subprocess


def bytes_of(path):
    with open(path, "rb") as file:
        return file.read()


@contextlib.contextmanager
def planted(folder, edits):
    """The files of a crate with the bug, and afterwards without it."""
    were = {path: bytes_of(f"{folder}/{path}") for path, _, _ in edits}
    try:
        for path, old, new in edits:
            text = bytes_of(f"{folder}/{path}").decode().replace(old, new)
            with open(f"{folder}/{path}", "w", encoding="utf-8") as file:
                file.write(text)
        yield
    finally:
        for path, text in were.items():
            with open(f"{folder}/{path}", "wb") as file:
                file.write(text)


def built(folder, program):
    """Proves and builds the program, and returns its path; nothing, if it is not proved."""
    path = os.path.abspath(f"{folder}/out/{program}")
    with contextlib.suppress(FileNotFoundError):
        os.remove(path)
    quiet = {"stdin": subprocess.DEVNULL, "stdout": subprocess.DEVNULL, "stderr": subprocess.DEVNULL}
    subprocess.run(["rt", "run"], cwd=folder, **quiet)
    return path if os.path.isfile(path) else None


def differences(folder, path):
    """What the program does otherwise than its crate says."""
    given = {it: f"{folder}/{it}" for it in ("args", "stdin", "stdout", "status", "data")}
    has = {it: os.path.exists(name) for it, name in given.items()}
    words = bytes_of(given["args"]).decode().splitlines() if has["args"] else []
    read = bytes_of(given["stdin"]) if has["stdin"] else b""
    due = bytes_of(given["stdout"]) if has["stdout"] else b""
    status = int(bytes_of(given["status"])) if has["status"] else 0
    where = given["data"] if has["data"] else folder
    try:
        ran = subprocess.run([path, *words], cwd=where, input=read, stdout=subprocess.PIPE, stderr=subprocess.DEVNULL, timeout=120)
    except subprocess.TimeoutExpired:
        return ["it does not end"]
    return ["it prints other lines"] * (ran.stdout != due) + [f"its status is {ran.returncode}"] * (ran.returncode != status)


def try_bug(room, crate, program, edits):
    """The outcome, and how it is shown."""
    folder = f"{room}/crates/{program}"
    with planted(f"{room}/crates/{crate}", edits):
        path = built(folder, program)
        if path is None:
            return "bad", f"`{program}` is not proved with it, so it is one for a contract"
        found = differences(folder, path)
    return ("shown", f"the gate's run of `{program}`: {', '.join(found)}") if found else ("proved", "nowhere")
