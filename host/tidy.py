"""The sources' layout, beyond what `rt fmt` keeps: `python3 host/tidy.py [--mend]`.

Names each import that its file doesn't use, and each line of Rattle or antt over
160 characters. With --mend the imports that nothing uses are taken out.
"""
import pathlib
import re
import sys

ROOT = pathlib.Path(__file__).resolve().parent.parent
WIDEST = 160
# An import: its start, its path, and the names in braces or the name that it gives the module.
IMPORT = re.compile(r"^((?:ghost |pub )?use )([^\s;{]+?)(?:\.\{([^}]*)\})?(?: as ([^\s;]+))?(;?)$", re.M)


# A trait is imported for its methods, by which it is used.
METHODS = {"Read": ["read", "read_exact", "read_to_end", "take"], "Write": ["write", "write_all", "flush"], "BufRead": ["read_line", "read_until", "lines"], "Folded": ["folded"]}


def sources():
    """The sources, without the copies of them that rt keeps in a crate's folder out/."""
    return sorted(path for part in ("src", "specs", "proofs") for path in (ROOT / "crates").glob(f"*/{part}/**/*") if path.suffix in (".rt", ".antt"))


def without_comments(text):
    return re.sub(r"(?m)(?:--(?=\s|$)|//).*", "", text)


def stands(name, body, edge):
    """Whether a name stands in the text by itself."""
    return re.search(rf"(?<!{edge}){re.escape(name)}(?!{edge})", body) is not None


def used(name, body, edge):
    """Whether a name, each part of an operator such as `◌≡◌`, or a call of a trait's method stands in the text."""
    parts = [part for part in name.split("◌") if part]
    called = any(f".{method}(" in body for method in METHODS.get(name, ()))
    return called or stands(name, body, edge) or "◌" in name and all(stands(part, body, edge) for part in parts)


def names_of(listed):
    """The names in an import's braces, each with the name by which the file knows it."""
    for item in filter(None, (part.strip() for part in listed.split(","))):
        yield item, item.rpartition(" as ")[2]


def unused(path, text):
    """Each import that the file doesn't use, as the import and the name."""
    body = IMPORT.sub("", without_comments(text))
    edge = r"[^\s(){};.,λ⌜⌝@]" if path.suffix == ".antt" else r"[\w′-]"
    for found in IMPORT.finditer(text):
        start, module, listed, other, _ = found.groups()
        if start.startswith("pub "):
            continue
        if listed is not None:
            names = list(names_of(listed))
        else:
            names = [(module, other or re.split(r"::|\.", module)[-1])]
        for item, name in names:
            if not used(name, body, edge):
                yield found, item


def mended(path, text):
    """The text without the imports that nothing uses."""
    gone = {}
    for found, item in unused(path, text):
        gone.setdefault(found.start(), set()).add(item)

    def kept(found):
        items = gone.get(found.start())
        if items is None:
            return found[0]
        if found[3] is None:
            return None
        left = [item for item, _ in names_of(found[3]) if item not in items]
        return f"{found[1]}{found[2]}.{{{', '.join(left)}}}{found[5]}" if left else None

    out, at = [], 0
    for found in IMPORT.finditer(text):
        out.append(text[at:found.start()])
        line = kept(found)
        at = found.end() if line is not None else found.end() + 1
        out.append(line or "")
    return "".join(out) + text[at:]


def wide(text):
    """The lines that are too long: their numbers and lengths."""
    for number, line in enumerate(text.split("\n"), 1):
        if len(line) > WIDEST:
            yield number, len(line)


def faults():
    """What is to be mended, a line each."""
    for path in sources():
        text = path.read_text()
        place = path.relative_to(ROOT)
        for found, item in unused(path, text):
            yield f"{place}:{text.count(chr(10), 0, found.start()) + 1}: imported and not used: {item}"
        for number, length in wide(text):
            yield f"{place}:{number}: {length} characters"


def main(arguments):
    if arguments == ["--mend"]:
        for path in sources():
            text = path.read_text()
            new = mended(path, text)
            if new != text:
                path.write_text(new)
        return 0
    found = list(faults())
    print("\n".join(found))
    return 1 if found else 0


if __name__ == "__main__":
    sys.exit(main(sys.argv[1:]))
