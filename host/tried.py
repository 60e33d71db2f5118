"""What the prover says of each must-fail edit, whole: `python3 host/tried.py [CRATE/EDIT ..]` tries those, or all.

`rt ci` says of an edit that it is refused, and begins to say why. Whether each function that an edit makes wrong is refused by itself stands further
down in what the prover says. So each edit is tried once more, by `rt check` on a copy of the repository outside this one, as many at a time as there are
processors and memory. What was said comes to lie in target/must-fail/CRATE/EDIT.log. It is kept beside that for this user of the machine, by the checksum
of all that such a check reads, as `rt ci` keeps what it passed: an edit is tried again once its text, its crate, a crate below or the kit has changed.
"""
import concurrent.futures
import functools
import hashlib
import os
import pathlib
import queue
import re
import shutil
import subprocess
import sys
import tempfile

sys.dont_write_bytecode = True

import harness  # noqa: E402
from harness import ROOT, Failed  # noqa: E402
from sections import house  # noqa: E402

PARTS = ("src", "specs", "proofs")
LOGS = ROOT / "target" / "must-fail"
KEPT = pathlib.Path(os.environ.get("XDG_CACHE_HOME") or pathlib.Path.home() / ".cache") / "glimmerhaugh" / "must-fail"
# what a check may take of the memory, in bytes, and how long one may last
MEMORY, SECONDS = 4 << 30, 1800


@functools.cache
def kit():
    return harness.run(["rt", "version"])


@functools.cache
def sum_of(crate):
    """A checksum of a crate's own texts."""
    found = hashlib.sha256()
    for part in PARTS:
        for path in sorted((ROOT / "crates" / crate / part).glob("**/*")):
            if path.is_file():
                found.update(f"{path.relative_to(ROOT)}\0".encode() + hashlib.sha256(path.read_bytes()).digest())
    return found.hexdigest()


def under(crate, crates):
    """A crate and all that it stands on."""
    found = {crate}
    for below in crates[crate]:
        if below in crates:
            found |= under(below, crates)
    return found


def key_of(crate, changes):
    """A checksum of all that a check of the crate with an edit reads."""
    crates = house.listed()
    texts = [kit(), repr(changes), *(f"{name} {crates[name]} {sum_of(name)}" for name in sorted(under(crate, crates)))]
    return hashlib.sha256("\n".join(texts).encode()).hexdigest()


def workers():
    """As many as there are processors and memory for."""
    said = pathlib.Path("/proc/meminfo").read_text()
    free = int(re.search(r"^MemAvailable:\s+(\d+) kB", said, re.M)[1]) << 10
    return max(1, min(len(os.sched_getaffinity(0)), free // MEMORY))


def copy_to(folder):
    """The repository's texts, in a folder of their own."""
    shutil.copy(ROOT / "crates.txt", folder)
    for crate in house.listed():
        for part in PARTS:
            if (ROOT / "crates" / crate / part).is_dir():
                shutil.copytree(ROOT / "crates" / crate / part, folder / "crates" / crate / part)
    return folder


def check(folder, crate):
    """What rt says of the crate there, and its status."""
    done = subprocess.run(["rt", "check", "--jobs", "1"], cwd=folder / "crates" / crate, timeout=SECONDS, env=harness.typed(),
                          stdin=subprocess.DEVNULL, stdout=subprocess.PIPE, stderr=subprocess.STDOUT)
    return done.stdout.decode(errors="replace").replace(str(folder), "."), done.returncode


def edited(folder, crate, changes):
    """Makes an edit's replacements there. Hands back what the files had."""
    before = {}
    for file, old, new in changes:
        path = folder / "crates" / crate / file
        before.setdefault(path, path.read_text())
        path.write_text(path.read_text().replace(old, new))
    return before


def log_of(folder, crate, changes):
    """What the prover says of the crate with the edit. A check that is no verdict is an error."""
    before = edited(folder, crate, changes)
    try:
        said, status = check(folder, crate)
    finally:
        for path, text in before.items():
            path.write_text(text)
    if status != 1:
        raise Failed(f"a try of an edit of {crate} ends with status {status}:\n{said[-2000:]}")
    return said


def tried(folders, crate, edits):
    """Tries a crate's edits, each a name, a key and replacements, in one of the copies, behind a check of the crate as it is."""
    folder = folders.get()
    try:
        said, status = check(folder, crate)
        if status != 0:
            raise Failed(f"{crate} isn't proved as it is:\n{said[-2000:]}")
        for name, key, changes in edits:
            put(name, crate, key, log_of(folder, crate, changes))
    finally:
        folders.put(folder)


def put(name, crate, key, said):
    """Keeps what was said, here and for other checkouts. An entry is whole or isn't there."""
    for path in (LOGS / crate / f"{name}.log", KEPT / key):
        path.parent.mkdir(parents=True, exist_ok=True)
        with tempfile.NamedTemporaryFile("w", dir=path.parent, delete=False) as made:
            made.write(said)
        os.replace(made.name, path)


def lacking(edits):
    """The edits to be tried, by their crates; what is kept of the others comes to lie beside the logs."""
    found = {}
    for crate, name, changes in edits:
        key = key_of(crate, changes)
        if (KEPT / key).is_file():
            put(name, crate, key, (KEPT / key).read_text())
        else:
            found.setdefault(crate, []).append((name, key, changes))
    return found


def parted(found):
    """The edits of each crate in parts of a few, so that no processor waits long for another."""
    return [(crate, edits[at:at + 3]) for crate, edits in found.items() for at in range(0, len(edits), 3)]


def all_logs(edits):
    """Sees that target/must-fail has what is said of each edit today. Hands back how many had to be tried."""
    found = lacking(edits)
    if found:
        with tempfile.TemporaryDirectory(prefix="tried-") as name:
            folders = queue.Queue()
            for number in range(workers()):
                folder = pathlib.Path(name).resolve() / str(number)
                folder.mkdir()
                folders.put(copy_to(folder))
            with concurrent.futures.ThreadPoolExecutor(folders.qsize()) as pool:
                for done in [pool.submit(tried, folders, *part) for part in parted(found)]:
                    done.result()
    return sum(map(len, found.values()))


def main(arguments):
    from sections import refused
    edits = [each for each in refused.edits() if not arguments or f"{each[0]}/{each[1]}" in arguments]
    print(f"{all_logs(edits)} of {len(edits)} edits tried; what was said is in {LOGS.relative_to(ROOT)}")
    return 0


if __name__ == "__main__":
    sys.exit(main(sys.argv[1:]))
