"""What a person is told by make: which tool is missing, and which crate of how many was proved; and how a program is started."""
import os
import pathlib
import re
import shutil
import subprocess
import tempfile

from harness import ROOT, Failed, typed
from sections import house

FROM = {"rt": "the Rattle kit", "gcc": "Debian package gcc", "python3": "Debian package python3"}
# what each target needs of these
NEEDS = {"test": ["rt", "gcc", "python3"], "bench": ["rt", "gcc", "python3"], "compare": ["rt", "gcc", "python3"],
         "soak": ["rt", "python3"], "panel": ["rt"], "card": ["rt"], "replay": ["rt"]}

# A stand-in for `rt run` that finds one crate of three as it was, proves the second, waits for a file, and goes on; it gives up after half a minute.
# It says what rt says on standard error, and what the program prints on standard output.
PROVING = """#!/bin/bash
[ "$* in ${PWD##*/crates/}" = 'run in card' ] || exit 8
echo 'note: text' >&2
echo 'crate text: modules loaded=547 checked=0' >&2
echo 'logic=proved functions=17' >&2
for _ in {1..600}; do [ -e "$GO_ON" ] && break; sleep 0.05; done
[ -e "$GO_ON" ] || exit 9
echo 'crate card: modules loaded=0 checked=83' >&2
echo 'logic=proved functions=2 axioms=8' >&2
echo 'refused 20'
exit "$STATUS"
"""
CRATES = "# a comment\ncard: text check\ntext: refusal\nother: text\nrefusal:\n"
BEFORE = ["first, this once: 2 of the 3 crates of card have no proof here yet, which may take some minutes", "proved: 2 of 3, text (N s)"]
AFTER = ["proved: 3 of 3, card (N s)"]
WHOLE = ["note: text", "crate text: modules loaded=547 checked=0", "logic=proved functions=17", "crate card: modules loaded=0 checked=83",
         "logic=proved functions=2 axioms=8"]


def put(path, text):
    """A file that can be run."""
    path.parent.mkdir(parents=True, exist_ok=True)
    path.write_text(text)
    path.chmod(0o755)


def without(target, gone):
    """make with those tools nowhere on the PATH: one line, which names them and where they come from, and no status 0."""
    with tempfile.TemporaryDirectory() as folder:
        for tool in set(FROM) - set(gone):
            put(pathlib.Path(folder) / tool, "#!/bin/sh\nexit 9\n")
        done = subprocess.run([shutil.which("make"), target], cwd=ROOT, timeout=60, env=typed(LC_ALL="C", PATH=folder),
                              stdin=subprocess.DEVNULL, stdout=subprocess.PIPE, stderr=subprocess.STDOUT)
    said, named = done.stdout.decode("latin-1"), " ".join(f"{tool} ({FROM[tool]})" for tool in gone)
    if done.returncode == 0 or not re.fullmatch(rf"Makefile:\d+: \*\*\* make {target}: not on the PATH: {re.escape(named)}\.  Stop\.\n", said):
        raise Failed(f"make {target} without {', '.join(gone)}: status {done.returncode}, {said!r}")


def missing(driver):
    """Each target without each tool that it needs, and without all of them."""
    cases = {(target, gone) for target, tools in NEEDS.items() for gone in [*((tool,) for tool in tools), tuple(tools)]}
    for target, gone in sorted(cases):
        without(target, gone)
    return f"{len(NEEDS)} targets without what they need, {len(cases)} cases: one line says what is missing and where it comes from"


def copied(folder, script):
    """One of the scripts in a small repository of its own."""
    put(folder / script, (ROOT / script).read_text())
    return folder / script


def untimed(line):
    """The line without how many seconds a proof took."""
    return re.sub(r"\(\d+ s\)$", "(N s)", line)


def proving(folder, status):
    """host/prove on the stand-in: what it says before the stand-in goes on, all that it says, what it prints, how it ends."""
    go_on = folder / f"go-on-{status}"
    child = subprocess.Popen([copied(folder, "host/prove"), "card"], stdin=subprocess.DEVNULL, stdout=subprocess.PIPE, stderr=subprocess.PIPE,
                             env=typed(PATH=f"{folder}:{os.environ['PATH']}", GO_ON=str(go_on), STATUS=str(status)), text=True)
    before = [untimed(child.stderr.readline().rstrip("\n")) for _ in BEFORE]
    go_on.touch()
    printed, after = child.communicate(timeout=60)
    return before, list(map(untimed, after.splitlines())), printed, child.returncode


def by_rt():
    """host/prove with rt itself, on a repository of one small crate: its line has the words that the stand-in has."""
    with tempfile.TemporaryDirectory() as name:
        folder = pathlib.Path(name)
        (folder / "crates.txt").write_text("one:\n")
        put(folder / "crates" / "one" / "src" / "lib.rt", "#![tactic(auto)]\n\npub fn one() -> u8 {\n    1\n}\n")
        done = subprocess.run([copied(folder, "host/prove"), "one"], timeout=300, env=typed(), stdin=subprocess.DEVNULL,
                              stdout=subprocess.PIPE, stderr=subprocess.PIPE, text=True)
    if done.returncode or done.stdout or not re.search(r"^proved: 1 of 1, one \(\d+ s\)$", done.stderr, re.M):
        raise Failed(f"host/prove on one crate: status {done.returncode}, {done.stdout!r}, {done.stderr!r}")


def progress(driver):
    """A line for each crate as soon as it is proved; nothing on standard output; and where rt fails, all that it said."""
    with tempfile.TemporaryDirectory() as name:
        folder = pathlib.Path(name)
        (folder / "crates.txt").write_text(CRATES)
        put(folder / "rt", PROVING)
        put(folder / "crates" / "card" / "src" / "main.rt", "")
        put(folder / "crates" / "refusal" / "out" / "rlib" / "stamp", "")
        for status, after in ((0, AFTER), (1, AFTER + WHOLE)):
            found = proving(folder, status)
            if found != (BEFORE, after, "", status):
                raise Failed(f"host/prove on an rt that ends with {status}: {found}")
    by_rt()
    return f"{len(BEFORE + AFTER)} lines from host/prove, each as soon as rt has said it; all of rt's own where it fails; the same with rt itself"


def under(name, crates):
    """A crate and all that it stands on, the kit's libraries left out."""
    found, left = set(), [name]
    while left:
        crate = left.pop()
        if crate in crates and crate not in found:
            found.add(crate)
            left += crates[crate]
    return found


def counted(said, crates):
    """Each sentence on how many crates a program has is true."""
    wrong = [f"{name}: {count} crates" for name, count in said if int(count) != len(under(name, crates))]
    if wrong or not said:
        raise Failed(f"not so many by crates.txt: {', '.join(wrong) or 'nothing is said'}")
    return len(said)


def needed(driver):
    """How many crates a program has, where README.md and docs/GUIDE.md say it."""
    texts = "".join((ROOT / page).read_text() for page in ("README.md", "docs/GUIDE.md"))
    said = re.findall(r"the program `(\w+)` is proved and built: (\d+) crates", texts)
    return f"{counted(said, house.listed())} sentences on how many crates a program has, true of crates.txt"


def started(folder, machine):
    """What host/x86_64/run starts on that machine, and what is on standard input there."""
    put(folder / "uname", f"#!/bin/sh\necho {machine}\n")
    put(folder / "rt", f'#!/bin/sh\n[ "$*" = doc ] && echo {folder}/kit/START-HERE.md\n')
    put(folder / "card", '#!/bin/sh\necho "card $*"\ncat\n')
    put(folder / "kit" / "on" / machine / "toolchain" / "bin" / "qemu-x86_64", '#!/bin/sh\necho "$@"\ncat\n')
    done = subprocess.run([copied(folder, "host/x86_64/run"), folder / "card", "a"], input=b"three lines", timeout=60,
                          env=typed(PATH=f"{folder}:{os.environ['PATH']}"), stdout=subprocess.PIPE)
    return done.stdout.decode().split("\n")


def processors(driver):
    """On x86-64 a program runs as it is, elsewhere under the kit's emulator, on the same input."""
    with tempfile.TemporaryDirectory() as name:
        folder = pathlib.Path(name).resolve()
        tools = folder / "kit" / "on" / "aarch64" / "toolchain"
        emulated = f"{tools}/lib/ld-linux-x86-64.so.2 --library-path {tools}/lib {folder}/card a"
        for machine, wanted in (("x86_64", "card a"), ("aarch64", emulated)):
            found = started(folder, machine)
            if found != [wanted, "three lines"]:
                raise Failed(f"host/x86_64/run on {machine}: {found}")
    return "host/x86_64/run starts a program on x86-64, and the kit's emulator on Arm"
