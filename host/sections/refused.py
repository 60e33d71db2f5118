"""The must-fail edits, by what the prover says of each: each function that one makes wrong is refused by itself, for a fact."""
import collections
import re

import tried
from harness import ROOT, Failed
from sections.promises import CRATES, public

# What the prover says where a name is missing or a step of a proof no longer fits. No edit may be refused for that.
SHAPE = re.compile(r"is not in scope|has no field|has no `|this has type `tie\.Need|no occurrence of the path's left endpoint")
# What it says of a function: that a proof that is there fails, or that a goal of its own is left; or only that it calls one of which it says so.
ALONE = r": (?:not proved|no proof: expected answers in .* did not prove [^;]*)"
HEAD = re.compile(r"^( {4}|)(?:pub )?(?:extern \"C\" )?fn (\w+)", re.M)
# The type that an impl's functions belong to, and the trait, which the prover names behind it.
OWNER = re.compile(r"^(?:pub )?(?:impl\b(?:<[^>]*>)?(?: (\w+)[^\n{]* for)?|trait) (\w+)", re.M)
# A declaration of a file of specs: what comes before it, and its name. A theorem has only `pub` before it.
STATED = re.compile(r"^(?!use |module |--|unfolding )((?:(?:abbrev|unfoldable|pub|record|data) )*)([^\s:]+) (?:.* )?:", re.M)
LEAST = 2


def edits():
    """Each edit: its crate, its name and its replacements, as file, old text and new."""
    for path in sorted(CRATES.glob("*/must-fail/*.edit")):
        changes, file, old = [], None, None
        for line in path.read_text().splitlines():
            if line.startswith("file: "):
                file = line.removeprefix("file: ")
            elif line.startswith("old: "):
                old = line.removeprefix("old: ")
            elif line.startswith("new:"):
                changes.append((file, old, line.removeprefix("new:").removeprefix(" ")))
        yield path.parent.parent.name, path.stem, changes


def function_at(crate, file, source, place):
    """The path of the function that a place of a source file is in; none for a constant or an import."""
    heads = [head for head in HEAD.finditer(source) if head.start() <= place]
    if not heads or 0 <= source.find(f"\n{heads[-1][1]}}}\n", heads[-1].start()) < place:
        return None
    owners = [owner for owner in OWNER.finditer(source) if owner.start() <= place] if heads[-1][1] else []
    inside = [part for part in file.removeprefix("src/").removesuffix(".rt").split("/") if part not in ("lib", "main")]
    return "::".join([crate, *inside, *(owner[2] + (owner[1] or "") for owner in owners[-1:]), heads[-1][2]])


def changed(crate, changes):
    """The functions that an edit's replacements, one after the other, change; none for a definition's."""
    sources, found = {}, set()
    for file, old, new in changes:
        source = sources.get(file) or (CRATES / crate / file).read_text()
        if source.count(old) != 1:
            raise Failed(f"{crate}: {file} has the old text {source.count(old)} times: {old}")
        if file.startswith("src/"):
            found.add(function_at(crate, file, source, source.index(old)))
        sources[file] = source.replace(old, new)
    return found - {None}


def sentences(crate, changes):
    """The theorems whose statements an edit changes, and the definitions."""
    theorems, definitions = set(), set()
    for file, old, _ in changes:
        if file.startswith(("specs/", "proofs/")):
            source = (CRATES / crate / file).read_text()
            *_, last = (head for head in STATED.finditer(source) if head.start() <= source.index(old))
            (theorems if last[1] in ("", "pub ") else definitions).add(last[2])
    return theorems, definitions


def said_wrong(crate, edit, said, changes):
    """The theorems that an edit makes wrong. Each has to be refused, and not for one that it cites. Of definitions an edit makes one wrong at most, and
    then a theorem is refused that it leaves as it is."""
    theorems, definitions = sentences(crate, changes)
    own = {name for name, why in re.findall(r"error: `([^`]+)`: (.*)", said) if "was not admitted" not in why}
    unsaid = sorted(theorems - own)
    if unsaid:
        raise Failed(f"{crate}/{edit}: {unsaid[0]} is not refused by itself")
    if len(definitions) > 1 or definitions and not own - theorems:
        raise Failed(f"{crate}/{edit}: no theorem is refused for the definitions that it changes: {', '.join(sorted(definitions))}")
    return theorems


def log_of(crate, edit):
    """What the prover said of an edit."""
    return (tried.LOGS / crate / f"{edit}.log").read_text()


def refused_alone(crate, edit, said, changes):
    """The functions that an edit makes wrong in their own text. Each has to be refused, and not for what it calls."""
    wrong = changed(crate, changes)
    for path in wrong:
        verdict = re.search(rf"^fn {path}(?:{ALONE})(.*)", said, re.M)
        if not verdict or verdict[0].startswith(f"fn {path}: not proved; it calls"):
            raise Failed(f"{crate}/{edit}: {path} is not refused by itself")
    if SHAPE.search(said):
        raise Failed(f"{crate}/{edit}: refused for {SHAPE.search(said)[0]!r}, which is no fact")
    return wrong


def counted():
    """The functions that each edit makes wrong, and how many theorems they make wrong in all."""
    tried.all_logs(list(edits()))
    seen, wrong = [], 0
    for crate, edit, changes in edits():
        seen.append(refused_alone(crate, edit, log_of(crate, edit), changes))
        wrong += len(said_wrong(crate, edit, log_of(crate, edit), changes))
    return seen, wrong


def impls():
    """What the prover calls the impls of each trait: the type's name, and the trait's behind it."""
    found = collections.defaultdict(set)
    for path in CRATES.glob("*/src/**/*.rt"):
        for owner in OWNER.finditer(path.read_text()):
            if owner[1]:
                found[owner[1]].add(owner[2] + owner[1])
    return found


def is_of(path, name, known):
    """Whether a function has that path, or is an impl's where a trait's function has it."""
    *_, owner, function = path.split("::")
    *_, trait, asked = name.split("::")
    return path == name or function == asked and owner in known.get(trait, ())


def seldom(names, seen):
    """The functions of those that are wrong in too few edits. One that a trait asks for is wrong where an impl's is."""
    known = impls()
    return sorted(name for name in names if sum(any(is_of(path, name, known) for path in wrong) for wrong in seen) < LEAST)


def page(driver):
    """Every edit is refused as it should be, and every public function is wrong by itself in two edits or more."""
    seen, wrong = counted()
    names = set(public())
    few = seldom(names, seen)
    if few:
        raise Failed(f"wrong by itself in fewer than {LEAST} edits: {', '.join(few)}")
    return (f"{len(seen)} edits; {sum(map(len, seen))} wrong functions in them, and {wrong} wrong theorems, each refused by itself, and none for a "
            f"name or the shape of a proof; {len(names)} public functions, each wrong in {LEAST} edits or more")
