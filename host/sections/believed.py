"""docs/PROMISES.md's files to believe: what they name, and what the promises and the demands name, is defined in one of them."""
import re

from harness import Failed
from sections.promises import CRATES, PAGE, section

DEFINED = re.compile(r"^ *(?:(?:abbrev|unfoldable)(?: pub)?|pub (?:record|data)) ([^\s:]+)", re.M)
# An import of a page of definitions: its crate and name, the names in braces, the name by which the page is known. What a
# crate's source declares, in lower case, is no page.
IMPORT = re.compile(r"^(?:ghost |pub )?use Rattle\.(\w+)\.specs\.([A-Z]\w*)(?:\.\{([^}]*)\})?(?: as ([\w-]+))?;?$", re.M)


def definitions(path):
    return set(DEFINED.findall(path.read_text()))


def listed(rows):
    """The files of the list, each with its definitions; only some of them where the row says so."""
    found, folder = {}, None
    for name, only in re.findall(r"([\w/]+\.antt)(?: \(((?:`[^`]+`(?:, | and )?)+) alone\))?", " ".join(cells[0] for cells in rows)):
        path = CRATES.parent / name if "/" in name else folder / name
        folder = path.parent
        found[path] = set(re.findall(r"`([^`]+)`", only)) or definitions(path)
    return found


def inner(text):
    """The files that nothing outside rests on, or that a law ties to one of the list."""
    found = set(CRATES.glob("*/specs/Inside.antt"))
    for names, crate in re.findall(r"((?:\w+\.antt(?:, | and )?)+) of `(\w+)`", text):
        found |= {CRATES / crate / "specs" / name for name in re.findall(r"\w+\.antt", names)}
    return found


def named(path):
    """The definitions of the repository that a file imports, each with its own file."""
    text = path.read_text()
    for crate, page, names, alias in IMPORT.findall(text):
        file = CRATES / crate / "specs" / f"{page}.antt"
        words = {name.split(" as ")[0].strip() for name in names.split(",")}
        words |= set(re.findall(rf"(?<![\w.]){alias}\.([^\s(){{}}\[\].,;]+)", text)) if alias else set()
        if file.is_file():  # else it is the kit's
            yield from ((file, word) for word in words & definitions(file))


def sources():
    """The libraries' sources, where the promises stand, and the pages of the demands and of what promises determine."""
    for crate in CRATES.iterdir():
        if not (crate / "src" / "main.rt").exists():
            yield from (crate / "src").glob("**/*.rt")
    for crate in ("demands", "determined"):
        yield from (CRATES / crate / "specs").glob("*.antt")


def closed(believed, others, readers):
    """Fails with the definitions that are named and are on no list."""
    missing = {f"{word} of {file.relative_to(CRATES)}" for path in readers for file, word in named(path)
               if file not in others and word not in believed.get(file, ())}
    if missing:
        raise Failed(f"named, and in no file of the list: {', '.join(sorted(missing))}")
    return sum(map(len, believed.values()))


def page(driver):
    """The list is whole."""
    believed = listed(section("What a reader must believe"))
    count = closed(believed, inner(PAGE.read_text()), [*believed, *sources()])
    return f"{len(believed)} files to believe, {count} definitions: whatever they, the promises and the demands name is among them"
