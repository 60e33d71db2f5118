"""What scripts show of extended replies and of the challenge's mark (R-6): read from calls and answers. The model is asked for a word's bytes, and for the
dictionary; what a text says is told apart here by itself. offers.py has what they show of texts that are read alone, and of the order of refusals (R-7)."""
import collections
import itertools
import re

from model import PLACE_OF, text_in

LOGINS, RENEWALS = (b"hex", b"word"), (b"init-hex", b"init-word")
TYPES = [*LOGINS, *RENEWALS]
OF_WORDS, OF_VALUES = ("31", "32"), ("51", "21", "23", "24", "63")
# each type's answers; those of the writer
ANSWERS = {kind.decode(): ["ok", "61", "62", "30", "33", "35", *(OF_WORDS if kind.endswith(b"word") else ()), *(OF_VALUES if kind in RENEWALS else ())]
           for kind in TYPES}
WRITTEN = {kind.decode(): ["ok", "40", *(("51", "21", "23", "24") if kind in RENEWALS else ())] for kind in TYPES}
LIMITS = ["ok, 128 bytes", "ok, 129 bytes", "ok, 256 bytes", "30, 257 bytes"]
LAYOUTS = ["34, in upper case", "34, with a blank", "34, no name", "34, another name", "34 before 35", "30 before 34", "30 before 35",
           "35, a login with a part too many", "35, a renewal with a part too few", "35, a renewal with a part too many",
           "33, a login with nothing", "33, the parameters in front", "51, blank parameters"]
VALUES = ["51, a leading zero", "51, a byte that is no digit", "51, no count", "51, a count of 1", "51, five digits or more", "ok, a count of 9999",
          "ok, a count of 2",
          "51 before 21", "21 before 23 or 24", "21, a name in upper case", "23, no seed", "23, 17 characters or more", "24, a blank in the seed",
          "24, another character", "63, in upper case", "ok, a seed in upper case"]
# which of a renewal's two passwords isn't read; what else a password shows
EITHER = ["31, the new password's marks", "31, the present password's marks", "33, the new password alone is blank", "33, the present password alone is blank"]
PASSWORDS = [*EITHER, "33, hex for words", "33, words for hex", "ok or 61, words as hex"]
PLAIN = ["33 by readplain, a colon", "30 by readplain, a colon", "33 by renew, a colon", "30 by renew, a colon"]
MARKS = ["1, ext", "1, ext and a comma", "1, ext and a list", "1, a carriage return in the list", "1, past a tab", "1, ended by a space",
         "1, ended by a newline",
         "0, EXT", "0, extra", "0, ext and a carriage return", "0, ended by a tab", "0, ended by nothing", "0, after a newline", "0, another token first",
         "0, nothing more"]
FORMS = ["bad, a renewal in the short form", "bad, a login in the long form", "bad, no type"]
KINDS = [*(f"{number} by {kind}" for kind, numbers in ANSWERS.items() for number in numbers), *LIMITS, *LAYOUTS, *VALUES, *PASSWORDS, *PLAIN,
         *(f"mark {kind}" for kind in MARKS), *(f"{number} by the writer of {kind}" for kind, numbers in WRITTEN.items() for number in numbers), *FORMS]


def tokens(part):
    return [token for token in re.split(rb"[ \t\r\n]", part) if token]


def are_words(part):
    """Six tokens of one to four letters."""
    return len(tokens(part)) == 6 and all(re.fullmatch(rb"[A-Za-z]{1,4}", token) for token in tokens(part))


def are_digits(part):
    return re.fullmatch(rb"[0-9A-Fa-f]{16}", b"".join(tokens(part))) is not None


def marks(part):
    """31's marks for six words."""
    return "".join("0" if token.decode().upper() in PLACE_OF else "1" for token in tokens(part)) if are_words(part) else ""


def picked(*facts):
    """The kinds of which the fact holds."""
    return [kind for kind, holds in facts if holds]


def type_unknown(kind, parts):
    """34, by what is wrong with the name."""
    alike = kind.lower() in TYPES or kind.strip() in TYPES
    return picked(("34, in upper case", kind.lower() in TYPES), ("34, with a blank", kind.strip() in TYPES), ("34, no name", kind == b""),
                  ("34, another name", kind != b"" and not alike), ("34 before 35", len(parts) not in (1, 3)))


def parts_wrong(kind, parts):
    """35, by how many parts there are."""
    login, count = kind in LOGINS, len(parts)
    return picked(("35, a login with a part too many", login and count > 1), ("35, a renewal with a part too few", not login and count < 3),
                  ("35, a renewal with a part too many", not login and count > 3))


def too_long(text, kind, parts):
    """30, and what else is wrong."""
    return picked(("30, 257 bytes", len(text) == 257), ("30 before 34", kind not in TYPES),
                  ("30 before 35", kind in TYPES and len(parts) != (1 if kind in LOGINS else 3)))


def login(number, kind, part):
    """What a reply of two parts shows."""
    return picked(("33, a login with nothing", number == "33" and not tokens(part)), *passwords_of(number, kind, part))


def passwords_of(number, kind, part):
    """A password that isn't of its type, or could be of either."""
    words = kind.endswith(b"word")
    return [("33, hex for words", number == "33" and words and are_digits(part) and not are_words(part)),
            ("33, words for hex", number == "33" and not words and are_words(part)),
            ("ok or 61, words as hex", number in ("ok", "61") and not words and are_words(part))]


def either(number, answer, present, new):
    """Which of the two passwords of a renewal isn't read."""
    said = answer.split(" ")[-1]
    return picked(("31, the new password's marks", number == "31" and said == marks(new) != marks(present)),
                  ("31, the present password's marks", number == "31" and said == marks(present) != marks(new)),
                  ("33, the new password alone is blank", number == "33" and not tokens(new) and tokens(present)),
                  ("33, the present password alone is blank", number == "33" and not tokens(present) and tokens(new)))


def counts(number, digits):
    """What the word where the count stands shows."""
    return picked(("51, a leading zero", number == "51" and re.fullmatch(rb"0[0-9]{1,3}", digits)),
                  ("51, a byte that is no digit", number == "51" and re.search(rb"\D", digits)),
                  ("51, no count", number == "51" and digits == b""), ("51, a count of 1", number == "51" and digits == b"1"),
                  ("51, five digits or more", number == "51" and re.fullmatch(rb"[1-9][0-9]{4,}", digits)),
                  *((f"ok, a count of {count}", number == "ok" and digits == b"%d" % count) for count in (9999, 2)))


def names(number, name, seed):
    known, good = name in (b"md5", b"sha1"), re.fullmatch(rb"[A-Za-z0-9]{1,16}", seed)
    return picked(("51 before 21", number == "51" and not known), ("21 before 23 or 24", number == "21" and not good),
                  ("21, a name in upper case", number == "21" and name.lower() in (b"md5", b"sha1")))


def seeds(number, seed):
    other = re.search(rb"[^A-Za-z0-9 \t\r\n]", seed)
    return picked(("23, no seed", number == "23" and not seed), ("23, 17 characters or more", number == "23" and len(seed) > 16),
                  ("24, a blank in the seed", number == "24" and not other), ("24, another character", number == "24" and other),
                  ("63, in upper case", number == "63" and seed != seed.lower()), ("ok, a seed in upper case", number == "ok" and seed != seed.lower()))


def new_values(parameters):
    """The algorithm's name, the count and the seed, each empty where it is missing."""
    return [*re.split(rb"[ \t\r\n]+", parameters.strip(b" \t\r\n"), maxsplit=2), b"", b""][:3]


def renewal(number, answer, kind, parts):
    """What a reply of four parts shows."""
    present, parameters, new = parts
    name, digits, seed = new_values(parameters)
    yield from counts(number, digits)
    yield from names(number, name, seed)
    yield from seeds(number, seed)
    yield from picked(("51, blank parameters", number == "51" and not tokens(parameters)),
                      ("33, the parameters in front", number == "33" and tokens(present)[:1] in ([b"md5"], [b"sha1"])), *passwords_of(number, kind, new))
    yield from either(number, answer, present, new)


def replied(number, answer, text):
    """What an extended reply shows."""
    kind, *parts = text.split(b":")
    yield from picked(*((f"ok, {length} bytes", number == "ok" and len(text) == length) for length in (128, 129, 256)),
                      (f"{number} by {kind.decode('latin-1')}", number in ANSWERS.get(kind.decode("latin-1"), ())))
    if number == "30":
        yield from too_long(text, kind, parts)
    if number == "34":
        yield from type_unknown(kind, parts)
    if number == "35":
        yield from parts_wrong(kind, parts)
    if kind in LOGINS and len(parts) == 1:
        yield from login(number, kind, parts[0])
    if kind in RENEWALS and len(parts) == 3:
        yield from renewal(number, answer, kind, parts)


def marked(answer, text):
    """What a challenge that was read shows: the byte behind its seed, the next token on the line and the byte behind that."""
    _, _, _, at, length, _, ext = answer.split(" ")
    ended, rest = text[int(at) + int(length):][:1], text[int(at) + int(length) + 1:]
    blanks, token, after = re.match(rb"([ \t]*)([^ \t\n]*)(.?)", rest, re.S).groups()
    is_list, listed = token[3:4] == b",", token[4:]
    if ended == b"\n":
        return picked(("mark 0, after a newline", ext == "0" and token == b"ext" and after in (b" ", b"\n")))
    if ext == "1":
        return picked(("mark 1, ext", token == b"ext"), ("mark 1, ext and a comma", token == b"ext,"), ("mark 1, ext and a list", is_list and len(listed) > 1),
                      ("mark 1, a carriage return in the list", b"\r" in listed), ("mark 1, past a tab", b"\t" in blanks),
                      ("mark 1, ended by a space", after == b" "), ("mark 1, ended by a newline", after == b"\n"))
    ext_or_list = token == b"ext" or token[:4] == b"ext,"
    return picked(("mark 0, EXT", token.lower() == b"ext" != token), ("mark 0, extra", re.match(rb"ext[A-Za-z]", token)),
                  ("mark 0, ext and a carriage return", token == b"ext\r"), ("mark 0, ended by a tab", ext_or_list and after == b"\t"),
                  ("mark 0, ended by nothing", ext_or_list and after == b""),
                  ("mark 0, another token first", re.match(rb"[^ \t\n]*[ \t]+ext[ \n]", rest[len(blanks):]) and not ext_or_list and token),
                  ("mark 0, nothing more", rest == b""))


def written(number, words):
    """What a call of the writer shows."""
    kind, long = words[0], len(words) == 7
    if number == "bad":
        return picked(("bad, a renewal in the short form", kind.encode("latin-1") in RENEWALS and len(words) == 3),
                      ("bad, a login in the long form", kind.encode("latin-1") in LOGINS and long),
                      ("bad, no type", kind.encode("latin-1") not in TYPES and len(words) in (3, 7)))
    return [f"{number} by the writer of {kind}"]


def shown(line, answer):
    """What one call shows."""
    name, *words = line.split(" ")
    number = answer.split(" ")[1 if answer.startswith("no") else 0]
    if name == "wext" and words:
        return written(number, words)
    if number == "bad" or not words:
        return []
    if name == "chal" and number == "ok":
        return marked(answer, text_in(words[0]))
    if name in ("readplain", "renew") and number in ("30", "33") and b":" in text_in(words[-1]):
        return [f"{number} by {name}, a colon"]
    return replied(number, answer, text_in(words[1])) if name == "reply" and b":" in text_in(words[1]) else []


def kinds_in(lines, answers):
    """How often each kind is shown."""
    return collections.Counter(itertools.chain.from_iterable(shown(*pair) for pair in zip(lines, answers, strict=True)))
