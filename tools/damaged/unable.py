"""Both programs where a file is missing, or where what they print cannot be written."""

import collections
import os
import subprocess
import tempfile

GRAPHS = ["examples/chain.graph", "examples/chain-again.graph"]
PROGRAMS = [["form"], ["alike"], ["alike", "--status"]]
MANY = 2000  # times both graphs, whose lines are more than a program holds before it writes


def run(words, limit, output):
    """The run of a program, or what is wrong with it, or None."""
    try:
        return subprocess.run(words, stdin=subprocess.DEVNULL, stdout=output, stderr=subprocess.PIPE, timeout=limit, check=False), None
    except subprocess.TimeoutExpired:
        return None, f"runs longer than {limit} seconds"


def cannot_write(words, limit):
    """What is wrong with a program on a full device, or None."""
    with open("/dev/full", "wb") as full:
        ran, what = run(words, limit, full)
    if what is not None:
        return what
    if ran.returncode != 1:
        return f"ends with status {ran.returncode} on a full device, and not 1"
    return None if ran.stderr.strip() else "says nothing of a full device"


def cannot_read(words, missing, limit):
    """What is wrong with a program of whose files one is missing, or None."""
    ran, what = run(words, limit, subprocess.PIPE)
    if what is not None:
        return what
    if ran.returncode != 1:
        return f"ends with status {ran.returncode} where a file is missing, and not 1"
    if ran.stdout:
        return f"prints {ran.stdout[:80]!r} where a file is missing"
    return None if os.fsencode(missing) in ran.stderr else f"says {ran.stderr[:200]!r}, and not which file is missing"


def run_unable(setting):
    """Counts of the processes, and what is wrong with any."""
    counts, troubles = collections.Counter(), []
    with tempfile.TemporaryDirectory() as folder:
        missing = os.path.join(folder, "missing.graph")
        for program, *options in PROGRAMS:
            words = [os.path.join(setting.programs, program), *options]
            ends = [("full device", cannot_write(words + GRAPHS * times, setting.limit)) for times in (1, MANY)]
            ends += [("missing file", cannot_read(words + files, missing, setting.limit)) for files in ([missing], [*GRAPHS, missing])]
            counts.update(f"unable: {kind}" for kind, _ in ends)
            troubles += [" ".join([program, *options, what]) for _, what in ends if what]
    return counts, troubles
