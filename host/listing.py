"""What is promised and stated, as a list to compare: `python3 host/listing.py [--outer] [ROOT]`.

A line for each function of a library that has a promise, a method and what a
trait asks for too, under its type's or trait's name, with its signature and its
clauses; for each theorem, with what its module takes for granted; and for
each definition, whole. Names stand without their crate and module, so that the
list of a tree from before a move is the list of the tree after it; two such
lists are compared by `diff`. With --outer it has only what others rely on: the
functions that another crate or C can call, the types and constants that they
can name, the definitions of the files that a reader must believe, by that
tree's own docs/PROMISES.md, and the theorems of `demands`.
"""
import pathlib
import re
import sys

# What methods stand in: a type's own, or those of a trait for a type; and what a trait asks for. The name is the type's, or the trait's.
OWNER = re.compile(r"(?:pub )?(?:impl\b(?:<[^>]*>)?(?: .* for)?|trait) (\w+)")
HEAD = re.compile(r"( {4}|)(?:pub )?(?:extern \"C\" )?fn (\w+)")
DECLARED = re.compile(r"^(?:#\[repr\(C\)\]\n)?(?:#\[derive\([^\]]*\]\n)?pub (?:const .*?;$|(?:struct|enum) [^{;]*(?:;|\{.*?^\}))", re.M | re.S)
MODULE = re.compile(r"^ *module _ (.*?) where$", re.S)
DEFINED = re.compile(r"^ *(?:(?:abbrev|unfoldable) pub|pub (?:record|data)) ")
STATED = re.compile(r"^ *pub ([^\s:]+)((?: \{[^}]*\})?) : ")


def aliases(source):
    """The names by which a file knows other files."""
    return re.findall(r"^(?:ghost |pub )?use [\w.]+ as ([\w-]+);?$", source, re.M)


def plain(text, known=()):
    """On one line, with names as they stand behind their crates and modules, of which the file knows some by these names; a promise, `Learnt`, keeps its
    function's. What a value's field is, as in `held.id`, stands. What a type derives is left out."""
    text = re.sub(r"//.*|--.*|#\[derive\([^\]]*\]\n", "", text)
    modules = "|".join([r"[A-Za-z_][\w-]*::", r"[A-Z][\w-]*\.", *(rf"{re.escape(name)}\." for name in known)])
    text = re.sub(rf"(?<![\w.-])(?:{modules})+(?=[A-Za-z_])(?!Learnt)", "", text)
    return " ".join(text.split()).replace("( ", "(").replace(", )", ")")


def is_program(root, path):
    return (root / "crates" / path.relative_to(root / "crates").parts[0] / "src" / "main.rt").exists()


def is_open(root, crate, inside):
    """Whether each module on the way is public in the one that holds it."""
    for depth, part in enumerate(inside):
        holder = "/".join(inside[:depth]) or "lib"
        if f"pub mod {part};" not in (root / "crates" / crate / "src" / f"{holder}.rt").read_text():
            return False
    return True


def can_be_named(root, source):
    """Whether another crate can name what is public in a source file."""
    crate, _, *inside = source.relative_to(root / "crates").with_suffix("").parts
    return is_open(root, crate, [part for part in inside if part != "lib"])


def declared(root):
    """Each type and constant that another crate can name, and each that C sees."""
    for source in sorted(root.glob("crates/*/src/**/*.rt")):
        text = source.read_text()
        if not is_program(root, source) and (can_be_named(root, source) or "#[repr(C)]" in text):
            for found in DECLARED.findall(text):
                yield plain(found, aliases(text))


def heads(text):
    """Each function of a source that has clauses, by its name, behind its owner's where it has one, with its head. What a public trait asks for begins
    with `pub` here, as others can name it. Functions that an impl of a trait has by name have no clauses of their own."""
    owner, open_to_all, indent, head = "", "", "", None
    for line in text.splitlines():
        opened = OWNER.match(line)
        owner = opened[1] if opened else "" if line == "}" else owner
        open_to_all = "pub " if opened and line.startswith("pub trait ") else open_to_all if owner and not opened else ""
        begun = HEAD.match(line)
        if begun:
            indent, head = begun[1], []
        if head is None:
            continue
        head.append(("" if head or not indent else open_to_all) + line[len(indent):])
        if line == indent + "{" or (indent and line.endswith(";")):
            name = re.search(r"fn (\w+)", head[0])[1]
            yield "::".join([*([owner] if indent else []), name]), "\n".join(head)
            head = None
        elif line.endswith(("{", "{}")):
            head = None


def functions(root, outer):
    """Each function with a promise; the programs have none that others rely on."""
    for source in sorted(root.glob("crates/*/src/**/*.rt")):
        if is_program(root, source) or outer and not can_be_named(root, source):
            continue
        text = source.read_text()
        for name, head in heads(text):
            if "ensures" in head and (head.startswith("pub ") or not outer):
                said = plain(re.sub(r"^pub (?:extern \"C\" )?", "", head).rstrip("{;"), aliases(text))
                yield re.sub(r"^fn \w+", f"fn {name}", said)


def believed(root):
    """The files that a reader must believe, by the page that lists them: one without a folder stands beside the one before."""
    rows = (root / "docs" / "PROMISES.md").read_text().partition("## What a reader must believe")[2].partition("\n## ")[0]
    for row in rows.splitlines():
        folder = None
        for name in re.findall(r"[\w/]+\.antt", row.split("|")[1] if row.startswith("|") else ""):
            path = root / name if "/" in name else folder / name
            folder = path.parent
            yield path


def depth(line):
    return len(line) - len(line.lstrip())


def items(text):
    """The items of a page, each with the modules around it: an item goes on while lines are deeper, or are its clauses."""
    around, known, lines = [], aliases(text), [line for line in text.splitlines() if line.strip() and not line.lstrip().startswith("--")]
    at = 0
    while at < len(lines):
        end, here = at + 1, depth(lines[at])
        while end < len(lines) and depth(lines[end]) > here and not lines[at].lstrip().startswith("module _"):
            end += 1
        if lines[at].lstrip().startswith("module _"):
            while not lines[end - 1].rstrip().endswith(" where"):
                end += 1
        item = "\n".join(lines[at:end])
        around = [(level, module) for level, module in around if level < here]
        if found := MODULE.match(item):
            around.append((here, plain(found[1], known)))
        else:
            yield " ".join(module for _, module in around), item
        at = end


def stated(pages, root):
    """Each theorem with what is taken for granted, and each definition with its clauses."""
    for page in sorted(pages):
        if is_program(root, page):
            continue
        text = page.read_text()
        found, known = list(items(text)), aliases(text)
        for at, (given, item) in enumerate(found):
            if DEFINED.match(item):
                name = re.split(r"[\s:]", re.sub(DEFINED, "", item))[0]
                own = [more for _, more in found[at + 1:] if more.split()[0] in (name, "unfolding")]
                yield "definition " + plain(" ; ".join([item, *(more for more in own if more.split()[0] == name)]), known)
            elif STATED.match(item):
                yield f"theorem {plain(item.replace('pub ', '', 1), known)}" + (f" given {given}" if given else "")


def outer_lines(root):
    """What others rely on: promises, types, the definitions to believe, and the theorems of the pages for a reader."""
    yield from functions(root, True)
    yield from declared(root)
    yield from (line for line in stated(believed(root), root) if line.startswith("definition"))
    yield from (line for line in stated(root.glob("crates/demands/specs/*.antt"), root) if line.startswith("theorem"))


def main(arguments):
    roots = [pathlib.Path(argument).resolve() for argument in arguments if argument != "--outer"]
    root = roots[0] if roots else pathlib.Path(__file__).resolve().parent.parent
    every = [*functions(root, False), *stated(root.glob("crates/*/specs/**/*.antt"), root)]
    print("\n".join(sorted({*outer_lines(root)} if "--outer" in arguments else {*every})))


if __name__ == "__main__":
    main(sys.argv[1:])
