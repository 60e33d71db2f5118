"""docs/PROMISES.md: what it names is there, and what it lists is all there is."""
import re

import listing
from harness import ROOT, Failed
from sections import house

CRATES = ROOT / "crates"
PAGE = ROOT / "docs" / "PROMISES.md"
DETERMINED = CRATES / "determined" / "specs"
# the headings of the page whose rows lead from a paper's sentence to its statement
PAPERS = ("The letter's demands", "Document 01", "Document 02")
# the pages whose theorems stand among the proofs: what they rest on is turned by edits of definitions (docs/PORT.md)
AMONG_PROOFS = {("dictionary", "InOrder"), ("reached", "Outcomes"), ("grounds", "CallsRefused")}


def section(heading):
    """The rows of the table under a heading, each as its cells."""
    text = PAGE.read_text().partition(f"## {heading}\n")[2].partition("\n## ")[0]
    return [[cell.strip() for cell in line.strip("|").split("|")] for line in text.splitlines()
            if line.startswith("|")][2:]


def functions():
    """Each function of a library that others rely on, by its path, with its head: visibility, name and clauses."""
    for crate in sorted(CRATES.iterdir()):
        for source in sorted((crate / "src").glob("**/*.rt")):
            if not house.is_relied_on(crate.name):
                continue
            inside = source.relative_to(crate / "src").with_suffix("").parts
            path = [crate.name, *(part for part in inside if part != "lib")]
            for name, head in listing.heads(source.read_text()):
                yield "::".join([*path, name]), head


def named(cells):
    """Functions by their paths: a name without a crate stands in the module of the one before it."""
    module = ""
    for name in re.findall(r"`([\w:]+)`", cells):
        module = name.rpartition("::")[0] or module
        yield name if "::" in name else f"{module}::{name}"


def files():
    """The files that a reader must believe."""
    paths = list(listing.believed(ROOT))
    for path in paths:
        if not path.is_file():
            raise Failed(f"no such file: {path.relative_to(ROOT)}")
    return len(paths)


def edits():
    """The must-fail edits of the wrong programs."""
    names = [name for cells in section("Wrong programs") for name in re.findall(r"\w+/\w+", cells[2])]
    for name in names:
        crate, _, edit = name.partition("/")
        if not (CRATES / crate / "must-fail" / f"{edit}.edit").is_file():
            raise Failed(f"no such edit: {name}")
    return len(names)


def other_names():
    """What a name of two words or more may be that is no theorem's: a crate, a function, a field or a constant of a source, a definition of a page."""
    found = set(house.listed())
    for path in CRATES.glob("*/src/**/*.rt"):
        found |= set(re.findall(r"(?:\bfn |\bconst |^ +(?:pub )?)(\w+)(?:\(|:|<)", path.read_text(), re.M))
    for path in CRATES.glob("*/specs/**/*.antt"):
        found |= set(re.findall(r"^ *(?:abbrev|unfoldable)(?: pub)? ([^\s:]+)", path.read_text(), re.M))
    return found


def theorems():
    """The theorems of the sentences of the letter and of the documents. Those that rest on what an edit of a definition turns stand among the proofs."""
    stated = set()
    for path in [*CRATES.glob("*/specs/**/*.antt"), *(CRATES / crate / "proofs" / f"{page}.antt" for crate, page in AMONG_PROOFS)]:
        stated |= set(re.findall(r"^\s*pub ([\w-]+)(?: \{[^}]*\})? :", path.read_text(), re.M))
    names = {name for heading in PAPERS for cells in section(heading)
             for name in re.findall(r"`([a-z\d]+(?:[_-][a-z\d]+)+)`", cells[1])} - (other_names() - stated)
    if names - stated:
        raise Failed(f"stated nowhere: {', '.join(sorted(names - stated))}")
    return len(names)


def promised():
    """The functions, or modules, that the sentences' statements name."""
    known = {name for name, _ in functions()}
    names = {name for heading in PAPERS for cells in section(heading)
             for name in re.findall(r"`(\w+(?:::\w+)+)`", cells[1])}
    for name in sorted(names - known):
        crate, *inside = name.split("::")
        if not (CRATES / crate / "src" / "/".join(inside)).with_suffix(".rt").is_file():
            raise Failed(f"no such function: {name}")
    return len(names)


def pages():
    """The files that the sentences' statements name behind a crate."""
    names = {pair for heading in PAPERS for cells in section(heading)
             for pair in re.findall(r"`(\w+)` ([A-Z]\w+)", cells[1])}
    for crate, page in sorted(names):
        if not (CRATES / crate / ("proofs" if (crate, page) in AMONG_PROOFS else "specs") / f"{page}.antt").is_file():
            raise Failed(f"no such file: {page} of {crate}")
    return len(names)


def asking():
    """The functions that ask something of their callers are those of the list."""
    listed = {name for cells in section("Inner functions with a `requires`") for name in named(cells[0])}
    asks = {name for name, head in functions() if re.search(r"^\s*requires (?:\w+ )?\{", head, re.M)}
    if listed != asks:
        raise Failed(f"listed or asking, not both: {', '.join(sorted(listed ^ asks))}")
    return len(asks)


def public():
    """The functions of the libraries that another crate can name, and those that a public trait asks for; those that a thin crate hands to C are
    another's."""
    for name, head in functions():
        crate, *inside, _ = name.split("::")
        modules = [part for part in inside if not part[0].isupper()]
        if head.startswith("pub ") and crate not in house.THIN and listing.is_open(ROOT, crate, modules):
            yield name


def clauses(crate):
    """Each function of a crate's root, with its signature and clauses on a line, and with its body."""
    text = (CRATES / crate / "src" / "lib.rt").read_text()
    for head, body in re.findall(r"^pub (?:extern \"C\" )?(fn .*?)^\{\n(.*?)^\}$", text, re.M | re.S):
        yield re.search(r"fn (\w+)", head)[1], on_a_line(head), on_a_line(body)


def on_a_line(text):
    return " ".join(text.split()).replace("( ", "(").replace(", )", ")")


def handed_on():
    """What a thin crate hands to C are all functions of its library's root, each with its library's signature and clauses, and each calls that one alone."""
    count = 0
    for thin, library in house.THIN.items():
        theirs = {name: head for name, head, _ in clauses(library)}
        ours = {name: head for name, head, _ in clauses(thin)}
        if ours != theirs:
            raise Failed(f"{thin} and {library} differ: {', '.join(sorted(name for name, _ in set(ours.items()) ^ set(theirs.items())))}")
        for name, head, body in clauses(thin):
            given = ", ".join(re.findall(r"(\w+): ", head.partition(" ensures ")[0]))
            if body.rstrip(";") != f"{library}::{name}({given})":
                raise Failed(f"{thin}::{name} is more than a call of {library}'s: {body}")
        count += len(ours)
    return count


def determined():
    """Each public function has its theorem that its promise determines its results: of what its callers learn, or of its contract."""
    cited = set()
    for path in DETERMINED.glob("*.antt"):
        for found in re.findall(r"^use Rattle\.([\w.]+?)(?:\.Reads)? as", path.read_text(), re.M):
            cited.add(found.replace(".specs.contracts.", ".proofs."))
    names = set(public())
    for name in sorted(names):
        crate, *inside, function = name.split("::")
        if ".".join([crate, "proofs", *inside, function]) not in cited:
            raise Failed(f"no theorem in Determined cites the promise of {name}")
    return len(names)


def page(driver):
    """Everything that the page names or lists."""
    return (f"{files()} files, {pages()} behind their crates, {theorems()} theorems, {promised()} functions, {edits()} edits, "
            f"{asking()} inner functions; {determined()} public functions, each with its theorem that its promise determines its results; "
            f"{handed_on()} that C calls, each with its library's clauses")
