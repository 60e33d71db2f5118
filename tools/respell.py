#!/usr/bin/env python3
"""Spells the names of this repository's own definitions and lemmas as today's Rattle does, once, after the kit's port.py.

usage: python3 tools/respell.py [FOLDER]        (the top of a checkout; this one if none is given)

- A definition in mixed case gets words joined by `_`: digitsOf becomes digits_of. Types and modules keep their capitals.
- In a lemma's name dashes stay where each word is a name that its statement has; other names are joined by `_`.
  Where a lemma would come to have a definition's name, it gets `_lem`.
- The crates hex, md5 and sha1, whose names are the kit's, are called hex_text, md5_hash and sha1_hash.
- Names that Rattle makes, names from src/, strings, inputs and outputs keep their spelling.

It changes src/ (clauses and ghost lines), specs/, proofs/, must-fail/ and crates.txt, and prints each name that changed. Where two names
would fall together it writes nothing.
"""

import os
import re
import subprocess
import sys

CRATES = {"hex": "hex_text", "md5": "md5_hash", "sha1": "sha1_hash"}
# A module's own name in a `use` line, where a definition of that name comes to stand in the same file.
ALIASES = {"crates/determined/specs/OfTables.antt": {"room_of": "room_reads"}}
CUT = r"[^\s(){}.;,@\"«»`\[\]|]"
TOKEN = re.compile(rf"(?<!{CUT})({CUT}+)")
DEFINED = re.compile(rf"^\s*((?:(?:pub|abbrev|unfoldable|data|record)\s+)*)({CUT}+) :(?: (.*))?$")
LOCAL = re.compile(r"^(?:tie\.|goal\.)")
IMPORT = re.compile(r"^\s*(?:pub |ghost )*use (\S+?)\.\{(.*)\};?\s*$")


def texts(top, *endings):
    for folder, dirs, files in os.walk(os.path.join(top, "crates")):
        dirs[:] = sorted(d for d in dirs if d != "out")
        for name in sorted(files):
            if name.endswith(endings):
                yield os.path.join(folder, name)


def read(path):
    with open(path, encoding="utf-8") as f:
        return f.read()


def imported(line):
    """The module and the names of a `use` line."""
    m = IMPORT.match(line)
    if not m:
        return None, []
    return m[1], [part for item in m[2].split(",") for part in item.split(" as ") if part.strip()]


def statement(lines, i):
    """The words of the statement that begins in line i."""
    indent = len(lines[i]) - len(lines[i].lstrip())
    text = lines[i].split(" : ", 1)[1] if " : " in lines[i] else ""
    for line in lines[i + 1 :]:
        if len(line) - len(line.lstrip()) <= indent or line.lstrip().startswith("unfolding "):
            break
        text += "\n" + line
    return {snake(m[1]) for m in TOKEN.finditer(text)}


def gather(top):
    """The repository's own names, each with the words that stand in every statement of it, and the names that it takes from libraries."""
    own, libraries = {}, set()
    for path in texts(top, ".antt"):
        lines = read(path).splitlines()
        for i, line in enumerate(lines):
            module, names = imported(line)
            if module and not re.match(r"Rattle\.(?!std\.|core\.)", module):
                libraries.update(n.strip() for n in names)
            m = None if module else DEFINED.match(line)
            if m and not LOCAL.match(m[3] or ""):
                words = statement(lines, i)
                own[m[2]] = own[m[2]] & words if m[2] in own else words
            for token in TOKEN.findall(line.split("--")[0]):
                if re.match("[a-z]+[A-Z]", token):
                    own.setdefault(token, set())
    for path in texts(top, ".rt"):
        for line in read(path).splitlines():
            module, names = imported(line)
            if module and re.match(r"Rattle\.(std|core)\.", module):
                libraries.update(n.strip() for n in names)
            elif module:
                for n in names:
                    if re.match("[a-z]+[A-Z]", n.strip()):
                        own.setdefault(n.strip(), set())
    return {n: own[n] for n in own if n not in libraries}


def snake(word):
    """A word in mixed case, with its parts joined by `_`; a type, which begins with a capital, stays."""
    if not re.match(r"[a-zμα-ω]", word):
        return word
    return re.sub(r"(?<=[a-z0-9′'])([A-Z]+)", lambda m: "_" + m[1].lower(), word)


def spelled(name, words):
    """The name as it is to be: `words` are those of its statement."""
    parts = [snake(p) for p in name.split("-")]
    if any(not p for p in parts):
        return name
    units = []
    while parts:
        n = next(n for n in range(len(parts), 0, -1) if n == 1 or "_".join(parts[:n]) in words)
        units.append("_".join(parts[:n]))
        parts = parts[n:]
    return ("-" if all(u in words for u in units) else "_").join(units)


def mapping(own):
    turned = {n: spelled(n, own[n]) for n in own}
    for t, names in twins(own, turned).items():
        first = next((n for n in names if re.search("[a-z][A-Z]", n)), t)
        turned.update((n, f"{t}_lem") for n in names if n != first)
    return {n: t for n, t in turned.items() if n != t}


def quoted(text, at):
    """Whether the place lies between the quotes of a string of its line, or between the back quotes of a comment."""
    line = text[text.rfind("\n", 0, at) + 1 : at]
    return line.count('"') % 2 == 1 or ("--" in line and line.count("`") % 2 == 1)


def turn_antt(text, turned, by_hand=False):
    """A file's text with its names turned; `by_hand`: of a proof that walks the code, whose fields have names that Rattle makes."""
    modules = {n: n.replace("-", "_") for n in re.findall(r"(?m)^use \S+ as (\S*-\S*)$", text)}
    turned = turned | modules

    def one(m):
        token, before = m[1], text[max(0, m.start() - 1) : m.start()]
        if quoted(text, m.start()):
            return token
        if before == "." and (by_hand and "-" in token or not re.search("[a-z][A-Z]|-", token)):
            start = text.rfind("\n", 0, m.start()) + 1
            path = re.search(r"[\w.+'-]*\.$", text[start : m.start()])
            if not (path and path[0].startswith("Rattle.")):
                return token
        return turned.get(token, token)

    return TOKEN.sub(one, text)


def turn_source(text, turned):
    """Clauses and ghost lines: what is in mixed case anywhere outside strings, and names with a dash in `ghost use` lines and clauses."""

    def line(it):
        if '"' in it:
            return it
        it = re.sub(r"(?<!\w)[a-z]\w*", lambda m: turned.get(m[0], m[0]) if re.search("[a-z][A-Z]", m[0]) else m[0], it)
        if it.startswith("ghost use Rattle."):
            it = turn_antt(it, {n: t for n, t in turned.items() if re.search("[A-Z]|-", n)})
        return it

    return "\n".join(line(it) for it in text.split("\n"))


def turn_crates(text, antt):
    for old, new in CRATES.items():
        text = re.sub(rf"\bRattle\.{old}(?=[.\s])", f"Rattle.{new}", text)
        if not antt:
            text = re.sub(rf"(?<![\w.:]){old}::", f"{new}::", text)
    return text


def meetings(top, turned):
    """The names that stand already in a file where a turned name would come to stand."""
    found = {}
    for path in texts(top, ".rt", ".antt"):
        text = read(path)
        if path.endswith(".rt"):
            text = re.sub(r"//.*", "", text)
            tokens = set(re.findall(r"[A-Za-z]\w*", text))
            taken = set(re.findall(r"\b([a-z]\w*): ", text)) | set(re.findall(r"\blet (?:mut )?(\w+)", text))
        else:
            text = re.sub(r"--.*", "", text)
            tokens = {m[1] for m in TOKEN.finditer(text)}
            taken = {m[1] for m in TOKEN.finditer(text) if "." not in (text[m.start() - 1 : m.start()], text[m.end() : m.end() + 1])}
            taken -= turned.keys()
            taken -= set(ALIASES.get(os.path.relpath(path, top), {}))
        for name in tokens & turned.keys():
            if turned[name] in taken:
                found.setdefault(name, []).append(os.path.relpath(path, top))
    return found


def twins(own, turned):
    """Turned names that fall together with one another or with a name that stays."""
    to = {}
    for name in own:
        to.setdefault(turned.get(name, name), []).append(name)
    return {t: names for t, names in to.items() if len(names) > 1}


def write(path, text, old):
    if text != old:
        with open(path, "w", encoding="utf-8") as f:
            f.write(text)


def main(argv):
    top = os.path.abspath(argv[0] if argv else ".")
    own = gather(top)
    turned = mapping(own)
    stop = False
    for t, names in sorted(twins(own, turned).items()):
        print(f"fall together: {', '.join(sorted(names))}: {t}")
        stop = True
    for name, paths in sorted(meetings(top, turned).items()):
        print(f"meets another: {name}, as {turned[name]}, in {', '.join(sorted(paths)[:6])}")
        stop = True
    if stop:
        print("nothing was written: name them in CHOSEN")
        return 1
    for path in texts(top, ".antt", ".rt", ".edit"):
        old = read(path)
        antt = path.endswith(".antt") or (path.endswith(".edit") and ".antt" in old and ".rt" not in old)
        text = old
        for module, other in ALIASES.get(os.path.relpath(path, top), {}).items():
            text = re.sub(rf"\b{module}(?=\.[A-Z])(?<!\.)(?!\.Reads as)|(?<= as ){module}$", other, text, flags=re.M)
        text = turn_antt(text, turned, path.endswith("Proof.antt")) if antt else turn_source(text, turned)
        write(path, turn_crates(text, antt), old)
    listing = os.path.join(top, "crates.txt")
    old = read(listing)
    lines = [l if l.startswith("#") else re.sub(r"[\w]+", lambda m: CRATES.get(m[0], m[0]), l) for l in old.split("\n")]
    write(listing, "\n".join(lines), old)
    for a, b in CRATES.items():
        subprocess.run(["git", "mv", f"crates/{a}", f"crates/{b}"], cwd=top, check=True)
    for name in sorted(turned):
        print(f"{name} -> {turned[name]}")
    print(f"{len(turned)} names")
    return 0


if __name__ == "__main__":
    raise SystemExit(main(sys.argv[1:]))
