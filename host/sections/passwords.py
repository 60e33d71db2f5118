"""From pass-phrase to password: the digests and the generator through the driver."""
import random
import string

import harness
import model
from harness import ROOT, call

GOOD = (string.ascii_letters + string.digits).encode()


def rows_of(algorithm):
    """RFC 2289, Appendix C: pass-phrase, seed, count, hex, words."""
    rows = (ROOT / "host" / "vectors.tsv").read_text().splitlines()
    return [row.split("\t")[1:] for row in rows if row.startswith(algorithm + "\t")]


def as_calls(algorithm, phrase, seed, count, digits, words):
    """A row as calls with the RFC's answers: the password, and from count 1 on the card of that one line."""
    password = digits.lower()
    yield call("gen", algorithm, phrase.encode(), seed.encode(), count), f"ok {password}"
    if count != "0":
        challenge, line = b"otp-%s %s %s\n" % (model.NAMES[algorithm], count.encode(), seed.encode()), f"{count} {password} {words}\n"
        yield call("card", phrase.encode(), challenge, 1, 52), f"ok {len(line)} {line.encode().hex()} clean"


def appendix_c(driver):
    """The RFC's own answers, through the driver."""
    rows = {name.decode(): [[number, *row] for row in rows_of(name.decode())] for number, name in model.NAMES.items()}
    lines, wanted = zip(*[pair for found in rows.values() for row in found for pair in as_calls(*row)])
    harness.hold_to(lines, harness.asked(driver, lines), wanted)
    counts = ", ".join(f"{len(found)} rows for {name}" for name, found in rows.items())
    return f"{counts}: the generator gives the RFC's hex, the card its hex and words"


def stored_rows(driver):
    """What rt ci holds the program `vectors` to is the RFC's rows, in their order, with the hex in lower case."""
    known = [name.decode() for name in model.NAMES.values()]
    rows = [row.split("\t") for row in (ROOT / "host" / "vectors.tsv").read_text().splitlines()]
    lines = ["\t".join([*row[:4], row[4].lower(), row[5]]) for row in rows if row[0] in known]
    harness.hold_to(lines, (ROOT / "crates" / "vectors" / "stdout").read_text().splitlines(), lines)
    return f"{len(lines)} rows for {' and '.join(known)}"


def digest_lengths(rng):
    """0 to 300, around each multiple of 64 (the padding turns at 55 and 56), and past 4,096."""
    lengths = list(range(301))
    for blocks in range(5, 65):
        lengths += range(64 * blocks - 10, 64 * blocks + 3)
    lengths += [4097, 4098, 4159, 4160, 5000, 8191, 8192, 65535, 65536, 131072]
    return lengths + [rng.randrange(4097) for _ in range(700)]


def digests_at_random(driver):
    """Each digest at each of the lengths, on bytes of any value and on one byte over and over."""
    rng = random.Random(1321)
    texts = [rng.randbytes(length) for length in digest_lengths(rng)]
    texts += [bytes([fill]) * length for fill in (0, 0x80, 0xff) for length in (1, 55, 56, 63, 64, 65, 119, 120, 4096)]
    return harness.same_as_model(driver, [call(name.decode(), text) for name in model.NAMES.values() for text in texts])


def any_algorithm(rng):
    """One of the two mostly; now and then a number that is none's."""
    return rng.choice([*model.NAMES] * 12 + [0, 3, 4, 128, 255])


def any_phrase(rng):
    """Bytes of any value; three in four of a good length, and the edges often."""
    good = [10, 63, rng.randrange(10, 64)]
    return rng.randbytes(rng.choice(good + good + good + [9, 64, rng.randrange(71)]))


def any_seed(rng):
    """0 to 20 bytes of both cases, one in five with a byte that may be no letter or digit."""
    length = rng.choice([1, 16, rng.randrange(1, 17), rng.randrange(1, 17), rng.randrange(21)])
    seed = bytearray(rng.choices(GOOD, k=length))
    if seed and rng.random() < 0.2:
        # the neighbours of the good ranges, blanks, and any byte
        seed[rng.randrange(len(seed))] = rng.choice([*b"/:@[`{_ -\t\n\0", rng.randrange(256)])
    return bytes(seed)


def any_count(rng):
    """Mostly small, since each step costs; some up to and over the limit."""
    if rng.random() < 0.9:
        return rng.choice([rng.randrange(3), rng.randrange(120)])
    return rng.choice([9998, 9999, 10000, 10001, 65535, rng.randrange(10002)])


def generator_at_random(driver):
    rng = random.Random(2289)
    lines = [call("gen", any_algorithm(rng), any_phrase(rng), any_seed(rng), any_count(rng)) for _ in range(5000)]
    for algorithm in model.NAMES:
        lines += [call("gen", algorithm, rng.randbytes(length), b"dog2", count)
                  for length in range(71) for count in (0, 1)]
        lines += [call("gen", algorithm, b"A_Valid_Pass_Phrase", bytes(rng.choices(GOOD, k=length)), 3)
                  for length in range(21)]
        lines += [call("gen", algorithm, b"A_Valid_Pass_Phrase", bytes([byte]), 0) for byte in range(256)]
    return harness.same_as_model(driver, lines)


NO_CALLS = ["nonsense", "md5", "md5 6", "md5 616", "md5 6G", "md5 AB", "md5 61 61", "md5  61",
            "md5 61 ", " md5 61", "md5\t61", "md5 61\r", "MD5 61", "md5 --", "md5 0x61", "md5 -",
            "sha1", "sha1 6", "sha1 61 61", "sha1 AB", "SHA1 61", "sha 61", "sha11 61", "sha1 -",
            "gen 1 - -", "gen 1 - - -", "gen 1 - - 65535", "gen 1 - - 65536", "gen 1 - - 007", "gen 1 - - +1",
            "gen 1 - - 1 2", "gen 1 - - 99999999999999999999999", "gen 1 - - 1.0", "gen 1 6 - 1",
            "gen - - 1", "gen - - - 1", "gen +1 - - 1", "gen 256 - - 1", "gen 255 - - 1", "gen 002 - - 1", "gen sha1 - - 1",
            "wchal 256 6464 1 40", "wchal - 6464 1 40", "wchal 0 6464 1 40", "wchal 6464 1 40",
            "wext", "wext hex", "wext hex 00 96", "wext HEX 0000000000000000 96", "wext init-hex 0000000000000000 96", "wext hex 0000000000000000 96 0",
            "wext init-hex 0000000000000000 1 9 6464 0000000000000000", "wext word 0000000000000000 1 9 6464 0000000000000000 96",
            "wext init-hex 0000000000000000 256 9 6464 0000000000000000 96", "wext init-hex 0000000000000000 1 9 646 0000000000000000 96",
            "read", "read 2", "read 20 20", "read AB", "READ 20", "readplain", "readplain 2", "readplain 20 20", "readplain AB", "readplai 20", "readplains 20",
            "read -", "readplain -", "offer 1 0000000000000000 0",
            "md5 61\0", "md5 \xe9", "md5 61"]


def lines_that_are_no_call(driver):
    """`bad` from both, and what stands around such a line is answered still."""
    return harness.same_as_model(driver, NO_CALLS)
