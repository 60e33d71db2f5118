"""The documents: each command in them is run, and their figures are those of the gate's own output."""
import re
import subprocess

import tidy
from harness import ROOT, Failed, run, typed
from sections import house, refused

# the page of the move to today's Rattle, which names commands that are gone and has code as it was
OF_THE_MOVE = {"PORT.md"}
DOCUMENTS = [ROOT / "README.md", *(path for path in sorted((ROOT / "docs").glob("*.md")) if path.name not in OF_THE_MOVE)]
# Not run from here: this test is part of it.
GATE = "make test"


def blocks(text):
    """The commands of the blocks marked console, each with the lines shown under it."""
    for block in re.findall(r"^```console\n(.*?)^```$", text, re.M | re.S):
        for part in re.split(r"^\$ ", block, flags=re.M)[1:]:
            command, _, shown = part.partition("\n")
            yield command, shown


def pattern(shown):
    """What is shown as a pattern: a line `...` is any lines, `...` in a line is any characters."""
    lines = [r"(?:.*\n)*" if line == "..." else re.escape(line).replace(r"\.\.\.", ".*") + r"\n"
             for line in shown.splitlines()]
    return re.compile("".join(lines))


def printed(command):
    """What a command prints. Programs of others, which `make compare` runs, can't fail the gate: OURS_ALONE says so."""
    done = subprocess.run(["bash", "-c", f"set -euo pipefail; {command}"], cwd=ROOT, timeout=1800, env=typed(OURS_ALONE="1"),
                          stdin=subprocess.DEVNULL, stdout=subprocess.PIPE, stderr=subprocess.PIPE)
    said = done.stdout.decode("latin-1")
    if done.returncode != 0:
        raise Failed(f"status {done.returncode} of {command}\n{said[-2000:]}{done.stderr.decode('latin-1')[-2000:]}")
    return said


def spoken(text):
    """Commands that stand in a sentence, by their first two words."""
    return {" ".join(span.split()[:2]) for span in re.findall(r"`((?:make|rt|python3) [^`]+)`", text)}


def commands(driver):
    """Every command that a document shows or names is run, and prints what is shown."""
    ran, named = [], set()
    for document in DOCUMENTS:
        text = document.read_text()
        named |= spoken(text)
        for command, shown in blocks(text):
            if command == GATE:
                continue
            said = printed(command)
            if not pattern(shown).fullmatch(said):
                raise Failed(f"{document.name}: {command}\n    prints {said!r}\n    shown  {shown!r}")
            ran.append(command)
    missed = [name for name in sorted(named - {GATE}) if not any(name in command for command in ran)]
    if missed:
        raise Failed(f"named in a document and run by no block: {', '.join(missed)}")
    return f"{len(ran)} commands, each prints what its document shows"


def quoted(text, sources):
    """Fails with a quotation that stands in no source of its kind. Hands back how many there are."""
    found = re.findall(r"^```(rust|edit)\n(.*?)^```$", text, re.M | re.S)
    for kind, lines in found:
        if not any(lines in source for source in sources[kind]):
            raise Failed(f"quoted, and in no source: {lines!r}")
    return len(found)


def quotes(driver):
    """What the documents quote of the code, and of the edits, stands there to the letter."""
    sources = {kind: [path.read_text() for path in sorted((ROOT / "crates").glob(f"*/{where}"))]
               for kind, where in (("rust", "src/**/*.rt"), ("edit", "must-fail/*.edit"))}
    return f"{sum(quoted(document.read_text(), sources) for document in DOCUMENTS)} quotations of the sources, to the letter"


def heads(source):
    """The head of each function of a source, behind the line that opens the impl or the trait that it stands in, empty for none: up to the line that opens
    its body. One that a trait asks for has none, and isn't proved by itself."""
    around, head = "", None
    for line in tidy.without_comments(source).splitlines():
        around = line if re.match(r"(?:pub )?(?:impl|trait)\b", line) else "" if line == "}" else around
        head = [line] if re.match(r" *(pub(\(\w+\))? )?(const )?(extern \"C\" )?fn \w", line) else head and [*head, line]
        if head and re.search(r"(?:\{|;|\{\})$", line):
            yield around, " ".join(head)
            head = None


def derived(text):
    """How many functions a source's derives write that are proved as others are."""
    return sum(len(re.findall(r"\b(?:Debug|PartialEq)\b", names)) for names in re.findall(r"#\[derive\(([^)]*)\)\]", text))


def name_of(head):
    return re.search(r"fn (\w+)", head)[1]


def asked_for():
    """The functions that our traits ask for, each behind its trait's name, with a promise there; that of an impl of the trait has that one."""
    text = "\n".join(path.read_text() for path in sorted((ROOT / "crates").glob("*/src/**/*.rt")))
    return {(re.search(r"\btrait (\w+)", around)[1], name_of(head)) for around, head in heads(text) if head.endswith(";") and " ensures " in head}


def is_asked_for(around, head, asked):
    """Whether a function stands in an impl of one of our traits that asks for it with a promise."""
    of = re.search(r"\bimpl\b.*?\b(\w+)(?:<[^{]*>)? for ", around)
    return bool(of) and (of[1], name_of(head)) in asked


def heads_of(crate):
    """The heads of a crate's functions; every `fn` that has a name has one."""
    found = []
    for path in sorted((ROOT / "crates" / crate / "src").glob("**/*.rt")):
        here, named = list(heads(path.read_text())), re.findall(r"\bfn \w", tidy.without_comments(path.read_text()))
        if len(here) != len(named):
            raise Failed(f"{path.relative_to(ROOT)}: {len(named)} functions, and {len(here)} heads")
        found += [(around, head) for around, head in here if not head.endswith(";")]
    return found


def promised():
    """How many functions promise something, and how many don't; those are in programs and in what is measured."""
    counts, asked = {"promised": 0, "safe": 0}, asked_for()
    for crate in house.listed():
        for around, head in heads_of(crate):
            kind = "promised" if " ensures " in head or is_asked_for(around, head, asked) else "safe"
            if kind == "safe" and house.is_relied_on(crate):
                raise Failed(f"{crate}: no promise: {head}")
            counts[kind] += 1
    return counts


def verdicts(said):
    """How many functions rt says that it proved of each crate: what follows `== NAME`, without the calls that it makes of a function whose name is handed
    to another. A crate that an earlier run proved has no such line."""
    blocks = re.split(r"^== (\w+)$", said, flags=re.M)[1:]
    found = {name: re.search(r"^logic=proved functions=(\d+)", block, re.M) for name, block in zip(blocks[::2], blocks[1::2])}
    handed = {name: len(re.findall(r"^fn \w+::(?:\w+\+\+)+\w+\+Fn\w*::call\w*: proved", block, re.M)) for name, block in zip(blocks[::2], blocks[1::2])}
    return {name: int(verdict[1]) - handed[name] for name, verdict in found.items() if verdict}


def whole_run(said, crates, edits):
    """The last whole run of rt ci passed, over as many crates and edits as there are, and of each library that it proved itself it counts the functions
    that the sources have. A program has more: what std lends it is made for it, and counted."""
    verdict = re.search(rf"^rt: ok; .*; must-fail edits: {edits} refused.*\n{len(crates) + edits} passed, 0 failed\n\Z", said, re.M)
    if not verdict or re.search(r"^rt: ok.*, \d+ bad", said, re.M):
        raise Failed(f"target/ci.log is not that of a run over {len(crates)} crates and {edits} edits that passed: {said[-400:]}")
    for name, count in verdicts(said).items():
        here = crates[name]
        if count < here or count > here and not house.is_program(name):
            raise Failed(f"{name}: {here} functions in the sources, {count} proved")


def assumed(crate):
    """How many functions of C the prover takes the contracts of, in all that a program or a static library reaches."""
    said = run(["bash", "-c", f"cd crates/{crate} && rt check"])
    verdict = re.search(r"^logic=proved functions=\d+(?:.* axioms=(\d+))?", said, re.M)
    if not verdict:
        raise Failed(f"{crate} isn't proved:\n{said[-2000:]}")
    return int(verdict[1] or 0)


def gate_figures():
    """What the gate counts: crates, functions, must-fail edits; and what is assumed, of the programs, and of the functions for C: nothing."""
    log = ROOT / "target" / "ci.log"
    if not log.is_file():
        raise Failed("target/ci.log isn't there: make test runs rt ci first")
    crates = {name: len(heads_of(name)) for name in house.listed()}
    made = {name: sum(derived(path.read_text()) for path in (ROOT / "crates" / name / "src").glob("**/*.rt")) for name in crates}
    seen, _ = refused.counted()
    edits = len(seen)
    whole_run(log.read_text(), {name: count + made[name] for name, count in crates.items()}, edits)
    axioms = {name: assumed(name) for name in [*filter(house.is_program, crates), *house.THIN, *house.MEASURED]}
    if any(axioms[name] for name in [*house.THIN, *house.MEASURED]):
        raise Failed(f"something is assumed of what C calls: {axioms}")
    return {"crates": len(crates), "functions": sum(crates.values()), "axioms": max(axioms.values()), "edits": edits, **promised(),
            "wrong": sum(map(len, seen))}


def figures(driver):
    """The README's figures are the gate's."""
    counted = gate_figures()
    if counted["promised"] + counted["safe"] != counted["functions"]:
        raise Failed(f"{counted['promised']} functions with a promise and {counted['safe']} without, {counted['functions']} proved")
    line = ("{crates} crates, {functions} functions proved, {promised} of them with a promise and {safe}, all of programs and the "
            "benchmark, safe and ending alone; {edits} wrong edits refused, and in them {wrong} wrong functions; "
            "{axioms} functions of C assumed at most (by the kit's library std, in the programs alone)").format(**counted)
    if line not in (ROOT / "README.md").read_text().replace("\n", " "):
        raise Failed(f"README.md should say: {line}")
    return line
