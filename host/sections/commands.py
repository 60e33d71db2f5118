"""What a person types: `make test` and `make card` however make is called, and the gate's own command."""
import os
import pathlib
import re
import subprocess
import tempfile

from harness import ROOT, Failed, typed

CARD = b"A_Valid_Pass_Phrase\notp-md5 99 AValidSeed\n1\n"
CARD_SHOWN = ["99 85c43ee03857765b FOWL KID MASH DEAD DUAL OAF"]
VERDICT = "3 passed, 0 failed"
# The words behind `make`, what is added to the environment, and whether make itself prints a line before and after.
WAYS = [([], {}, False), (["-C", str(ROOT)], {}, True), (["-j2"], {}, False), ([], {"MAKEFLAGS": "w"}, True)]
OK = "rt: ok; handles allowed: none; must-fail edits: 3 refused; every proof and must-fail edit was done in this run"
# Stand-ins for the two commands of the gate, so that `make test` ends at once: they say what was asked of them.
STAND_IN = """#!/bin/sh
echo "$(basename "$0") $*"
[ "$*" != "$FAILS" ] || exit 1
[ "$*" != ci ] || printf '%s\n' "$OK" "$VERDICT"
"""
TO_THE_TOP = ["set -euo pipefail", 'cd "$(dirname "$0")/.."']
STEPS = ["rt ci", OK, VERDICT, "python3 host/test.py", VERDICT]


def printed(target, words, more, **options):
    """The status of make and the lines of its standard output."""
    done = subprocess.run(["make", *words, target], cwd=ROOT, timeout=1800, env=typed(LC_ALL="C", **more), stdout=subprocess.PIPE,
                          stderr=subprocess.DEVNULL, **options)
    return done.returncode, done.stdout.decode("latin-1").splitlines()


def between(lines, framed):
    """The lines between the two that make itself prints where it names its directory."""
    if not framed:
        return lines
    ends = " ".join(lines[:1] + lines[-1:])
    if not re.fullmatch(r"make: Entering directory '.*' make: Leaving directory '.*'", ends):
        raise Failed(f"not between make's two lines: {lines}")
    return lines[1:-1]


def stand_ins(folder):
    """A PATH on which rt and python3 are the stand-ins."""
    for name in ("rt", "python3"):
        path = pathlib.Path(folder) / name
        path.write_text(STAND_IN)
        path.chmod(0o755)
    return f"{folder}:{os.environ['PATH']}"


def gate(path, words, more, framed):
    """`make test` on stand-ins: its steps in order, the verdict last; and a step that fails, a bad verdict or a bad edit fails it."""
    log = path.partition(":")[0] + "/kept/ci.log"
    good = {**more, "PATH": path, "FAILS": "", "OK": OK, "VERDICT": VERDICT, "GLIMMERHAUGH_CI_LOG": log}
    status, lines = printed("test", words, good)
    if status != 0 or between(lines, framed) != STEPS or pathlib.Path(log).read_text().splitlines() != STEPS[:3]:
        raise Failed(f"make {' '.join(words)} test: status {status}, {lines}")
    wrong = [{"FAILS": "ci"}, {"FAILS": "host/test.py"}, {"VERDICT": "2 passed, 1 failed"}, {"OK": OK.replace("refused;", "refused, 1 bad;")}, {"OK": ""}]
    if not all(printed("test", words, {**good, **each})[0] for each in wrong):
        raise Failed(f"make {' '.join(words)} test: a step fails, and its status is 0")


def card(words, more, framed):
    status, lines = printed("card", words, more, input=CARD)
    if status != 0 or between(lines, framed) != CARD_SHOWN:
        raise Failed(f"make {' '.join(words)} card: status {status}, {lines}")


def makes(driver):
    """`make test` and `make card`, typed plainly and in three more ways."""
    with tempfile.TemporaryDirectory() as folder:
        path = stand_ins(folder)
        for way in WAYS:
            gate(path, *way)
            card(*way)
    return f"{len(WAYS)} ways to call make, the same lines and status from each; a step of the gate that fails, fails it"


def same_command(readme, run):
    """.ci/run goes to the top of the clone, and then does what stands under the README's heading for tests, to the letter."""
    shown = re.search(r"^## Test it\n+```console\n\$ (.*)\n```$", readme, re.M)
    steps = [line for line in run.splitlines() if not line.startswith("#")]
    if not shown or steps != [*TO_THE_TOP, f"exec {shown[1]}"]:
        raise Failed(f"README.md: {shown and shown[1]!r}; .ci/run: {steps}")
    return f"`{shown[1]}`, in README.md and in .ci/run"


def same_gate(driver):
    return same_command((ROOT / "README.md").read_text(), (ROOT / ".ci" / "run").read_text())
