"""Builds what the comparison needs: the library with its C entry, plain C, and the programs over nauty and bliss."""

import os
import pathlib
import shutil
import subprocess
import sys
from concurrent.futures import ThreadPoolExecutor

BENCH = pathlib.Path(__file__).resolve().parent
OUT = BENCH / "out"
ENTRY = BENCH.parent / "crates" / "c_entry"
SYSTEM_PYTHON = "/usr/bin/python3"  # the one that Debian's python3-rdflib is for

NAUTY = ["libnauty2-dev", "libnauty-dev"]  # its name in one release of Debian and in the next

# Debian's bliss counts by GMP, which its headers have to be told, or else both have other ideas of what its statistics hold.
BLISS = ["-DBLISS_USE_GMP"]
PEERS = ["-lnauty", "-lbliss", "-lgmp"]

WARN = ["-Wall", "-Wextra"]
FAST = ["-O2", "-march=native"]
CHECKED = ["-O1", "-g", "-fsanitize=address,undefined", "-fno-sanitize-recover=all", "-D_GLIBCXX_ASSERTIONS"]


def stop(message):
    sys.exit(f"bench: {message}")


def version(package):
    """The installed version of a package, or None."""
    asked = subprocess.run(["dpkg-query", "-W", "-f", "${Status} ${Version}", package], capture_output=True, text=True)
    words = asked.stdout.split()
    return words[-1] if asked.returncode == 0 and words[:3] == ["install", "ok", "installed"] else None


def apt_get(*words):
    return subprocess.run(["apt-get", *words], stdout=subprocess.DEVNULL, stderr=subprocess.DEVNULL).returncode == 0


def install(names):
    """Installs the first of these packages that there is."""
    return any(apt_get("install", "-y", "--no-install-recommends", name) for name in names)


def installed_version(names, may_install):
    """The version of the first installed of these packages, installed now if need be and if it may be; else None."""
    found = [v for v in map(version, names) if v]
    if not found and may_install and os.geteuid() == 0 and shutil.which("apt-get"):
        print(f"installing {names[0]}", flush=True)
        if not install(names):
            apt_get("update")
            install(names)
        found = [v for v in map(version, names) if v]
    return found[0] if found else None


def needed(names, may_install):
    found = installed_version(names, may_install)
    if not found:
        stop(f"needs Debian's {' or '.join(names)}")
    return found


def rdflib_version():
    asked = subprocess.run([SYSTEM_PYTHON, "-c", "import rdflib; print(rdflib.__version__)"], capture_output=True, text=True)
    return asked.stdout.strip() if asked.returncode == 0 else None


def versions(may_install):
    """What is compared, with its version; rdflib may be missing."""
    if not shutil.which("rt"):
        stop("needs the Rattle kit's rt")
    needed(["g++"], may_install)
    found = {"nauty": needed(NAUTY, may_install), "bliss": needed(["libbliss-dev"], may_install)}
    installed_version(["python3-rdflib"], may_install)
    return {**found, "rdflib": rdflib_version()}


def run(words, **more):
    done = subprocess.run([str(w) for w in words], capture_output=True, text=True, **more)
    if done.returncode:
        stop(f"{' '.join(str(w) for w in words)} failed\n{done.stdout}{done.stderr}")
    sys.stderr.write(done.stderr if words[0] in ("gcc", "g++") else "")  # warnings
    return done.stdout


def compile_one(source, flags):
    target = OUT / "objects" / f"{source.parent.name}-{source.stem}.o"
    compiler = ["gcc", "-std=gnu11"] if source.suffix == ".c" else ["g++", "-std=c++20", *BLISS, f"-I{ENTRY / 'include'}"]
    run([*compiler, *WARN, *flags, "-c", source, "-o", target])
    return target


def build(sanitize):
    """Returns the two programs, `agree` and `times`."""
    flags = CHECKED if sanitize else FAST
    (OUT / "objects").mkdir(parents=True, exist_ok=True)
    run(["rt", "lib"], cwd=ENTRY)
    sources = [*sorted((BENCH / "plain").glob("*.c")), *sorted((BENCH / "peers").glob("*.cpp"))]
    with ThreadPoolExecutor() as pool:
        objects = dict(zip([s.stem for s in sources], pool.map(lambda source: compile_one(source, flags), sources)))
    shared = [o for stem, o in objects.items() if stem not in ("agree", "times")]
    programs = []
    for program in ("agree", "times"):
        target = OUT / program
        run(["g++", *flags, "-o", target, objects[program], *shared, ENTRY / "out" / "libc_entry.a", *PEERS])
        programs.append(target)
    return programs
