"""The house: the crates' names and layers, what each uses, and the sources' layout."""
import collections
import re

import tidy
from harness import ROOT, Failed

CRATES = ROOT / "crates"
# the kit's libraries that crates.txt names; std is always there, and never listed
KIT = {"check"}
# Kinds of file, once in each crate; every other name stands for one thing.
KINDS = {"lib", "main", "laws", "inside", "examples"}
# The files of a function's proof, which stand in a folder of its name.
OF_PROOFS = {"Proof.antt", "Invariants.antt", "Answers.antt"}
# A standard's definition has the name of the code that does it.
DEFINED = {("digests", "rounds")}
# The digests are of one kind, and what is the same part of each has one name.
DIGESTS = {"md5_hash", "sha1_hash"}
PARTS = {"compress", "digest", "digestbytes", "functions"}
# For the benchmark alone, and a library because a program exports nothing to C: its functions promise nothing, and no crate stands on it.
MEASURED = {"painted"}
# A static library that hands a library's functions to C, each under its name, with its clauses.
THIN = {"panel_c": "panel"}
# The crates of a table's fields: who takes a table apart lists them too.
FIELDS = {"accounts", "line", "port"}


def listed():
    """crates.txt: each crate, a static library too, with what it stands on."""
    rows = [line.split(":") for line in (ROOT / "crates.txt").read_text().splitlines() if line and not line.startswith("#")]
    return {name.removesuffix(" staticlib"): below.split() for name, below in rows}


def is_program(crate):
    return (CRATES / crate / "src" / "main.rt").exists()


def is_relied_on(crate):
    """Whether others rely on what a crate's functions do: on those of every library but what is measured."""
    return not is_program(crate) and crate not in MEASURED


def named_in(crate):
    """The crates that a crate's sources name."""
    found = set()
    for path in [*(CRATES / crate / "specs").glob("**/*.antt"), *(CRATES / crate / "proofs").glob("**/*.antt")]:
        found |= set(re.findall(r"^(?:pub )?use Rattle\.(\w+)\.", path.read_text(), re.M))
    for path in (CRATES / crate / "src").glob("**/*.rt"):
        text = tidy.without_comments(path.read_text())
        found |= set(re.findall(r"Rattle\.(\w+)\.", text)) | set(re.findall(r"(?<![\w:])(\w+)::", text))
    return (found & (set(listed()) | KIT)) - {crate}


def held_to(crates, named):
    """Each crate's line names what its sources name, and no more; a program that takes a table apart also the crates of its fields."""
    for crate, below in crates.items():
        spare = set(below) - named(crate) - (FIELDS if is_program(crate) and "table" in below else set())
        missing = named(crate) - set(below)
        if spare or missing:
            raise Failed(f"crates.txt, {crate}: not used {sorted(spare)}, not listed {sorted(missing)}")


def apart(crates):
    """No crate stands on what is measured."""
    for crate, below in crates.items():
        if MEASURED & set(below):
            raise Failed(f"{crate} stands on {', '.join(sorted(MEASURED & set(below)))}, which is for the benchmark alone")


def uses(driver):
    """crates.txt has what the sources name."""
    crates = listed()
    held_to(crates, named_in)
    apart(crates)
    return f"{len(crates)} crates, {sum(map(len, crates.values()))} uses: crates.txt has those of the sources"


def drawn(readme):
    """The layers of the README's drawing, from the top: in each its crates, from the left, before what is said of them."""
    block = re.search(r"^What stands higher uses what stands below it.*?\n\n(.*?)\n\n", readme, re.M | re.S)
    return [re.split(r" {3,}", row.strip())[0].split() for row in block[1].splitlines()] if block else []


def places(layers):
    """Where each crate stands in the drawing: the layer, then the place in it."""
    found = {}
    for down, layer in enumerate(layers):
        for right, crate in enumerate(layer):
            if crate in found:
                raise Failed(f"drawn twice: {crate}")
            found[crate] = (down, right)
    return found


def true_of(layers, crates):
    """Every crate is drawn once, and uses only what is drawn below it or to its right in its own layer."""
    where = places(layers)
    if set(where) != set(crates):
        raise Failed(f"drawn or listed, not both: {', '.join(sorted(set(where) ^ set(crates)))}")
    for crate, below in crates.items():
        for used in below:
            if used in where and where[used] <= where[crate]:
                raise Failed(f"{crate} uses {used}, which is drawn above it or to its left")
    return len(layers)


def layers(driver):
    """The README's drawing is true of crates.txt."""
    crates = listed()
    count = true_of(drawn((ROOT / "README.md").read_text()), crates)
    return f"{len(crates)} crates in {count} layers: no use runs upwards"


def names(crate):
    """The names that a crate brings: its own, its modules', its definitions' and its shared proofs', by their kind."""
    folder = CRATES / crate
    yield "crate", crate.replace("_", "")
    for kind, pattern in (("module", "src/**/*.rt"), ("definitions", "specs/**/*.antt"), ("proofs", "proofs/**/*.antt")):
        modules = {path.stem for path in folder.glob("src/**/*.rt")}
        for path in folder.glob(pattern):
            if path.name not in OF_PROOFS and not (kind == "proofs" and path.stem in modules):
                yield kind, path.stem.lower().replace("_", "")


def one_thing(brought):
    """A name for two things: in two crates, or twice for one kind in a crate. Hands back how many names there are."""
    homes = collections.defaultdict(set)
    for crate, found in brought.items():
        for (kind, name), count in collections.Counter(found).items():
            if name not in KINDS and (crate, name) not in DEFINED and not (crate in DIGESTS and name in PARTS):
                homes[name].add(crate)
            if count > 1 and not (kind == "proofs" and name == "lib"):
                raise Failed(f"{crate}: {count} files for {kind} are called {name}")
    for name, found in sorted(homes.items()):
        if len(found) > 1:
            raise Failed(f"one name for several things: {name} in {', '.join(sorted(found))}")
    return len(homes)


def words(driver):
    """No two crates, modules or files have one name for two things."""
    return f"{one_thing({crate: list(names(crate)) for crate in listed()})} names of crates, modules and files, each in one crate"


def layout(driver):
    """No import that its file doesn't use, no line over 160 characters."""
    found = list(tidy.faults())
    if found:
        raise Failed("\n  ".join([f"{len(found)} to mend (python3 host/tidy.py):", *found[:10]]))
    return f"{len(tidy.sources())} files: every import is used, and no line is over {tidy.WIDEST} characters"
