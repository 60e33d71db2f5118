"""Document 01's checked examples, with the answers that it gives."""
import harness
import model
from harness import call
from model import MD5
from sections import recorded

PHRASE = b"A_Valid_Pass_Phrase"
CARD = b"99 85c43ee03857765b FOWL KID MASH DEAD DUAL OAF\n"


def written(text):
    """The answer of a writer that had room."""
    return f"ok {len(text)} {text.hex()} clean"


def words_example(number, text):
    return call("words", "%016x" % number, 32), written(text)


def waiting(line, turn):
    """The table with `Dog2` enrolled as account 1, with that line and that turn."""
    return f"ok A=1:{MD5}:99:0000000000000000:646f6732:{line}:{turn} P=0:0,0:0,0:0,0:0"


EXAMPLES = [
    # passwords
    (call("gen", MD5, PHRASE, b"AValidSeed", 99), "ok 85c43ee03857765b"),
    (call("gen", MD5, b"123456789", b"a", 0), "no 10"),
    (call("gen", MD5, b"1" * 64, b"a", 0), "no 11"),
    (call("gen", MD5, PHRASE, b"LengthOfSeventeen", 99), "no 23"),
    (call("gen", MD5, PHRASE, b"Length_Okay", 99), "no 24"),
    (call("gen", MD5, PHRASE, b"A Seed", 99), "no 24"),
    # numbers as words: places 0 (A), 5 (ADA), 2,047 (YOKE) and 2,044 (YEAR)
    words_example(0, b"A A A A A A"),
    words_example(1, b"A A A A A ADA"),
    words_example(2**64 - 1, b"YOKE YOKE YOKE YOKE YOKE YEAR"),
    words_example(0x85C43EE03857765B, b"FOWL KID MASH DEAD DUAL OAF"),
    # replies
    (call("read", b"FOWL KID MASH DEAD DUAL OAF"), "ok pw 85c43ee03857765b"),
    (call("read", b"FOWL KID MASH DEAD DUAL NUT"), "no 32"),
    (call("read", b"FOWL KID MASH DEAD DUAL O"), "no 32"),
    (call("read", b"FOWL KID MASH DEAD DUAL OAK"), "no 32"),
    (call("read", b"85C4 3EE0 3857 765B"), "ok pw 85c43ee03857765b"),
    (call("read", b"85C4 3EE0 3857 765"), "no 33"),
    # challenges
    (call("chal", b"otp-md5 487 dog2\n"), f"ok {MD5} 487 12 4 17 0"),
    (call("chal", b"otp-md5 487 dog2"), "no 25"),
    (call("chal", b"otp-md5 0487 dog2\n"), "no 22"),
    (call("chal", b"otp-md5 1 abcdefghijklmnop\n"), f"ok {MD5} 1 10 16 27 0"),
    (call("chal", b"otp-md5 1 abcdefghijklmnopq\n"), "no 23"),
    (call("chal", b"otp-md5 1 Length_Okay\n"), "no 24"),
    (call("chal", b"otp-md5 99 A Seed"), f"ok {MD5} 99 11 1 13 0"),
    # the card
    (call("card", PHRASE, b"otp-md5 99 AValidSeed\n", 1, 100), written(CARD)),
    (call("prog", PHRASE + b"\notp-md5 99 AValidSeed\n1\n"), "ok " + CARD.hex()),
    # the empty building
    ("new", "ok"),
    ("tick 60", "ok"),
    ("dump", "ok A=- P=0:0,0:0,0:0,0:0"),
    (call("enrol", 1, MD5, 99, b"A Seed", "0" * 16), "no 24"),
    (call("enrol", 1, MD5, 99, b"Dog2", "0" * 16), "ok"),
    ("join 0 1", "ok"),
    ("dump", waiting("0", 60)),
    ("tick 59", "ok"),
    ("dump", waiting("0", 1)),
    ("tick 1", "ok"),
    ("dump", waiting("-", 0)),
]


def hold_both_to(driver, lines, answers):
    """The model gives these answers; so does the driver to the calls that are in C."""
    harness.hold_to(lines, model.replay("\n".join(lines)), answers)
    in_c = [(line, answer) for line, answer in zip(lines, answers) if line.split()[0] in harness.IN_C]
    asked = [line for line, _ in in_c]
    harness.hold_to(asked, harness.asked(driver, asked), [answer for _, answer in in_c])
    return f"{len(lines)} calls on the model, {len(in_c)} of them through the driver"


def examples(driver):
    """Document 01's own answers."""
    if not any(line.split()[0] in harness.IN_C for line, _ in EXAMPLES):
        raise harness.Failed("none of the examples is in C")
    return hold_both_to(driver, *zip(*EXAMPLES))


def scripts(driver):
    """Four recorded scripts with answers from elsewhere, which read the documents alike: two of the base, two of the state after R-7."""
    return "; ".join(f"{recorded.kinds(script)}: {hold_both_to(driver, script.lines, script.answers)}" for script in recorded.scripts())
