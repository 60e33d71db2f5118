"""R-6's sentences, each as a scene on the model and on the program `replay`, with answers by hand from document 02, in the order that R-7 gave them; and
the writer of extended replies.

The accounts, and the lines of their cards, are those of lines.py. A renewal that is accepted gives account 7 the password for count 100 of the same
pass-phrase and `lift2`, as hex and as words. Two accounts wait for a password that is given here, that of RFC 2243's example and one of hex letters alone:
their hashes are the model's.
"""
import random

import handheld
import harness
import model
from harness import call
from model import MD5, SHA1
from sections import paper, replies
from sections.lines import EIGHT, SEVEN, START, STORED_7, STORED_8, WORDS_7, WORDS_8, asked, eight, good, seven, shown
from sections.passwords import GOOD, any_algorithm, any_seed
from sections.replay import PROGRAM

HEX_7 = STORED_7.encode()
NEW, NEW_HEX, NEW_WORDS = "c3393c088789b0af", b"c3393c088789b0af", b"NELL OUST AND DOE HOST BILE"
# the words of the six are known, their sum is wrong; the first isn't known, or the last
UNSUMMED, FIRST, LAST = b"FOWL KID MASH DEAD DUAL OAK", b"QQ KID MASH DEAD DUAL OAF", b"FOWL KID MASH DEAD DUAL QQ"
EXAMPLE, RFC_PRESENT, RFC_NEW = b"init-hex:5bf0 75d9 959d 036f:md5 499 ke1235:3712 dcb4 aa53 16c1", 0x5bf075d9959d036f, "3712dcb4aa5316c1"
RFC_STORED, LETTERS_STORED = (f"{model.hashed_once(MD5, password):016x}" for password in (RFC_PRESENT, 0xabeaceadaaddbada))
BOTH = shown(seven("0", 60), eight("-", 0))


def replied(text, answer, port=0):
    return call("reply", port, text), answer


def refused(number, *texts):
    """Replies by port 0, each refused; the turn is kept."""
    return [replied(text, f"no {number}") for text in texts]


def written(text):
    return f"ok {len(text)} {text.hex()} clean"


def init(parameters, kind=b"hex", new=NEW_HEX, present=HEX_7):
    return b"init-%s:%s:%s:%s" % (kind, present, parameters, new)


def words(new=NEW_WORDS, present=WORDS_7):
    return init(b"md5 100 lift2", b"word", new, present)


def renewed(algorithm, count, line="-:0", ports="0:0,0:0,0:0,0:0"):
    """Account 7 after a renewal, and account 8 as it was."""
    return shown(f"7:{algorithm}:{count}:{NEW}:{b'lift2'.hex()}/{b'avalidseed'.hex()}:{line}", eight("-", 0), ports=ports)


def filled(kind, password, length):
    """With blanks before the password, up to that length."""
    return kind + b":" + b" " * (length - len(kind) - 1 - len(password)) + password


SCENES = {
    "the table's Challenge writes ` ext` before its newline; the public writer doesn't": [
        *good("join 0 7"), asked(0, b"otp-md5 99 avalidseed ext\n"), ("challenge 0 25", "no 40 clean"),
        (call("wchal", MD5, b"AValidSeed", 99, 22), written(b"otp-md5 99 avalidseed\n"))],
    "the types `hex` and `word` are logins": [
        *good("join 0 7", "join 1 8"), replied(b"hex:" + HEX_7, "ok 99"), replied(b"word:" + WORDS_8, "ok 98", 1),
        shown(seven("-", 0, 99, STORED_7), eight("-", 0, 98, STORED_8))],
    "passwords with white space and in either case, as in a plain text": [
        *good("join 0 7", "join 1 8"), replied(b"hex:\t85C4 3ee0\r\n3857 765B ", "ok 99"), replied(b"word: pie Nell\tCOCK felt\n\n swam sea\r", "ok 98", 1)],
    "types in lower case and whole: 34": [
        *good("join 0 7"), *refused(34, *(kind + b":" + HEX_7 for kind in
                                          (b"HEX", b"Hex", b" hex", b"hex ", b"\nhex", b"he", b"hexa", b"words", b"init", b"init-", b"init-md5", b"", b"md5"))),
        BOTH],
    "RFC 2243's own example": [
        (call("enrol", 9, MD5, 9, b"ke1234", RFC_STORED), "ok"), *good("join 2 9"), replied(EXAMPLE, "ok 499", 2),
        shown(seven("-", 0), eight("-", 0), f"9:{MD5}:499:{RFC_NEW}:{b'ke1235'.hex()}/{b'ke1234'.hex()}:-:0")],
    "the two `init` types do what Renew does": [
        *good("join 0 7", "tick 5"), replied(init(b"sha1 500 Lift2"), "ok 500"), renewed(SHA1, 500), *good("join 1 7"), asked(1, b"otp-sha1 499 lift2 ext\n"),
        *START, *good("join 0 7"), replied(words(), "ok 100"), renewed(MD5, 100),
        *START, *good("join 0 7"), (call("renew", 0, MD5, 100, b"lift2", NEW, WORDS_7), "ok 100"), renewed(MD5, 100)],
    "34 for the type, 35 for the parts: 34 comes first, and 30 before both": [
        *good("join 0 7"), *refused(34, b":", b"::::", b"md5:a", b"md5:a:b:c:d", b"hexx:a:b"), *refused(35, b"hex:a:b", b"hex::", b"word:a:b:c", b"init-hex:a",
        b"init-hex:a:b", b"init-word:a:b:c:d", b"init-word::::", b"hex:" + HEX_7 + b":"), *refused(30, b"x:" * 129, b"hex:" * 65, b":" * 257), BOTH],
    "256 bytes are read, 257 are 30; 128 is the limit of plain texts alone": [
        *good("join 0 7", "join 1 8"), *refused(30, filled(b"hex", HEX_7, 257), b" " * 129), replied(filled(b"hex", HEX_7, 256), "ok 99"),
        replied(filled(b"word", WORDS_8, 129), "ok 98", 1)],
    "the passwords first; then 51, 21, 23, 24, 63 for the parameters, in that order": [
        *good("join 0 7"), *refused(33, init(b"MD5 x _", new=b"?", present=b"?"), init(b"MD5 x _", present=b"?"), init(b"md5 9 AVALIDSEED", new=b"?")),
        *refused(51, init(b"MD5 x _"), init(b"MD5 1 AValidSeed")),
        *refused(21, init(b"MD5 9 LengthOfSeventeen"), init(b"otp-md5 9 _"), init(b"md5, 9 AValidSeed")),
        *refused(23, init(b"md5 9 LengthOfSeventee_"), init(b"md5 9"), init(b"md5 9  \t")),
        *refused(24, init(b"md5 9 A Seed"), init(b"md5 9 _"), init(b"md5 9 lift2 x")),
        *refused(63, init(b"md5 9 AVALIDSEED"), init(b"sha1 9 avalidseed", present=b"0" * 16)),
        *refused(33, init(b"md5 9 lift2", new=b"?"), init(b"md5 9 lift2", present=b"?"), init(b"md5 9 lift2", new=b"")), BOTH],
    "a count is one to four digits without a leading zero, of 2 to 9,999": [
        *good("join 0 7"), *refused(51, *(init(b"md5 %s lift2" % count) for count in (b"0499", b"x", b"0", b"1", b"10000", b"00", b"+9", b"9x", b"65538")),
        init(b"md5"), init(b"md5 lift2"), init(b""), init(b" \t"), init(b"9 lift2")), BOTH,
        replied(init(b"md5 9999 lift2"), "ok 9999"), renewed(MD5, 9999), *START, *good("join 0 7"), replied(init(b"md5 2 lift2"), "ok 2"), renewed(MD5, 2)],
    "white space of the four kinds between and around the parameters": [
        *good("join 0 7"), replied(init(b"\r\n md5\t\t100 \nlift2\r\n"), "ok 100"), renewed(MD5, 100)],
    "the new password is read before the present one": [
        *good("join 0 7"), replied(words(FIRST, LAST), "no 31 100000"), replied(words(LAST, b"?"), "no 31 000001"), replied(words(UNSUMMED, LAST), "no 32"),
        replied(words(NEW_HEX, FIRST), "no 33"), replied(words(present=FIRST), "no 31 100000"), replied(words(present=UNSUMMED), "no 32"),
        replied(words(present=HEX_7), "no 33"), BOTH, replied(words(), "ok 100")],
    "33 also where the text isn't of its type": [
        *good("join 0 7"), *refused(33, b"word:" + HEX_7, b"hex:" + WORDS_7, b"word:" + WORDS_7[:-4], b"hex:" + HEX_7[1:], b"hex:0x" + HEX_7[2:]),
        *refused(33, init(b"md5 9 lift2", b"word"), init(b"md5 9 lift2", b"hex", NEW_WORDS)), BOTH],
    "sixteen hex letters in six groups are hex for `hex`, and words for `word`": [
        (call("enrol", 9, MD5, 9, b"lift1", LETTERS_STORED), "ok"), *good("join 0 9"), replied(b"word:ABE ACE ADA ADD BAD A", "no 61"),
        *good("join 0 9"), replied(b"hex:ABE ACE ADA ADD BAD A", "ok 8"), *good("join 0 9"), replied(b"word:ABE ACE ADA ADD BAD ADD", "no 32")],
    "an empty part is there, and its own refusal is given": [
        *good("join 0 7"), *refused(33, b"hex:", b"word:", b"word: \t"), *refused(51, init(b""), init(b" \t")),
        *refused(33, b"init-hex:::", b"init-word:a::b", b"init-hex::md5 9 lift2:"), BOTH],
    "parts in another order": [
        *good("join 0 7"), *refused(33, b":".join([b"init-hex", b"md5 100 lift2", HEX_7, NEW_HEX]), b":".join([b"init-hex", HEX_7, NEW_HEX, b"md5 100 lift2"])),
        *refused(34, HEX_7 + b":hex"), replied(init(b"md5 100 lift2", new=HEX_7, present=NEW_HEX), "no 61")],
    "a wrong one counts as a wrong reply does, and a renewal changes nothing then": [
        *good("join 0 7"), replied(b"hex:" + b"0" * 16, "no 61"), *good("join 0 7"), replied(init(b"sha1 9 lift2", present=b"0" * 16), "no 61"),
        *good("join 0 7"), replied(b"word:" + WORDS_8, "no 62"), shown(seven("-", 0), eight("-", 0), ports="0:900,0:0,0:0,0:0"), *good("join 1 7"),
        asked(1, b"otp-md5 99 avalidseed ext\n"), replied(init(b"md5 100 lift2"), "ok 100", 1), renewed(MD5, 100, ports="0:900,0:0,0:0,0:0")],
    "the text's refusals come before the table's own": [
        *(replied(text, answer, 4) for text, answer in ((b"x:", "no 34"), (b":" * 257, "no 30"), (b"hex:", "no 33"), (b"hex:" + HEX_7, "no 55"))),
        replied(b"x:", "no 34"), replied(b"hex:" + HEX_7, "no 59"), *good("join 0 7", "join 1 7"), replied(b"hex::", "no 35", 1),
        replied(b"hex:" + HEX_7, "no 60", 1), *good(call("enrol", 9, MD5, 2, b"AValidSeed", SEVEN), "join 2 9", "join 3 9"),
        replied(b"hex:" + HEX_7, "ok 1", 2), replied(b"x:", "no 34", 3), replied(b"hex:" * 65, "no 30", 3), replied(init(b"x", present=b"?"), "no 33", 3),
        replied(init(b"x"), "no 58", 3), replied(b"hex:" + HEX_7, "no 58", 3)],
    "Renew's text, and what `readplain` reads, stays plain: a colon is 33, and 30 over 128 bytes": [
        *good("join 0 7"), *((call("renew", 0, MD5, 100, b"lift2", NEW, text), answer) for text, answer in
                             ((b"hex:" + HEX_7, "no 33"), (filled(b"hex", HEX_7, 128), "no 33"), (filled(b"hex", HEX_7, 129), "no 30"), (b":", "no 33"))),
        *((call("readplain", text), answer) for text, answer in ((b"hex:" + HEX_7, "no 33"), (filled(b"hex", HEX_7, 129), "no 30"))), BOTH],
    "an accepted renewal's seed is remembered, a refused one's isn't": [
        *good("join 0 7"), *refused(34, b"init:" + init(b"md5 100 lift2")), *refused(35, init(b"md5 100 lift2") + b":"),
        replied(init(b"md5 100 lift2"), "ok 100"), *good("join 0 7"), *refused(63, init(b"md5 9 LIFT2"), init(b"sha1 9 AValidSeed")),
        (call("renew", 0, MD5, 9, b"lift2", NEW, WORDS_7), "no 63")],
    "the mark: the next token on the seed's line is `ext`, alone or with a comma list, and is ended as a seed is": [
        *((call("chal", b"otp-md5 5 dog2" + rest), f"ok {MD5} 5 10 4 {14 + used} 1") for rest, used in
          ((b" ext\n", 5), (b" ext ", 5), (b"  \t ext\nmore", 8), (b" ext,\n", 6), (b" ext,a,b c", 9), (b" ext,a\r\n", 8), (b" ext,EXT,;! ", 12))),
        *((call("chal", b"otp-md5 5 dog2" + rest), f"ok {MD5} 5 10 4 15 0") for rest in
          (b" ext", b" ext\t\n", b" ext\r\n", b" EXT\n", b" extra\n", b" ext;\n", b" a ext\n", b"\next\n", b" \next\n", b"\n", b" ", b" ext,a", b" ext,a\t",
           b" ex\n", b" xext\n", b" ,ext\n", b" ext\0\n"))],
    "a card's challenge may have the mark": [
        (call("card", b"A_Valid_Pass_Phrase", b"otp-md5 99 AValidSeed ext\n", 1, 100), written(b"99 85c43ee03857765b FOWL KID MASH DEAD DUAL OAF\n"))],
    "the writer: 34 is no word of a line, then for `init` types 51, 21, 23, 24, then 40": [
        (call("wext", "hex", STORED_7, 20), written(b"hex:" + HEX_7)), (call("wext", "hex", STORED_7, 19), "no 40 clean"),
        (call("wext", "word", STORED_7, 32), written(b"word:" + WORDS_7)), (call("wext", "word", STORED_7, 31), "no 40 clean"),
        (call("wext", "init-hex", STORED_7, MD5, 100, b"lift2", NEW, 56), written(init(b"md5 100 lift2"))),
        (call("wext", "init-word", STORED_7, SHA1, 9999, b"Lift2", NEW, 81), written(b"init-word:%s:sha1 9999 Lift2:%s" % (WORDS_7, NEW_WORDS))),
        *((call("wext", kind, EIGHT, *values, NEW, 0), answer) for kind in ("init-hex", "init-word") for values, answer in
          (((3, 1, b""), "no 51 clean"), ((3, 10000, b""), "no 51 clean"), ((3, 2, b""), "no 21 clean"), ((0, 2, b"_"), "no 21 clean"),
           ((MD5, 2, b""), "no 23 clean"), ((MD5, 2, b"_" * 17), "no 23 clean"), ((MD5, 2, b"_"), "no 24 clean"), ((MD5, 2, b"a"), "no 40 clean"))),
        *((line, "bad") for line in (call("wext", "init-hex", STORED_7, 96), call("wext", "hex", STORED_7, MD5, 100, b"lift2", NEW, 96), "wext", "wext hex",
                                     call("wext", "HEX", STORED_7, 96), call("wext", "init", STORED_7, 96), call("wext", "-", STORED_7, 96),
                                     call("wext", "init-hex", STORED_7, MD5, 100, b"lift2", NEW), call("wext", "word", STORED_7, 8193)))],
}


def played(driver, scenes):
    """Each scene begins with the two accounts; what of it is in C goes through the driver too."""
    for scene in scenes.values():
        lines, answers = zip(*START, *scene)
        paper.hold_both_to(driver, lines, answers)
        harness.hold_to(lines, harness.asked(PROGRAM, lines), answers)
    return f"{len(scenes)} scenes, {sum(map(len, scenes.values()))} calls on the model and on the program"


def sentences(driver):
    return played(driver, SCENES)


# the writer, and what it writes read back


def any_count(rng):
    return rng.choice([2, 9, 10, 99, 100, 999, 1000, 9999, rng.randrange(2, 10000)])


def good_values(rng):
    """Algorithm, count and seed that the writer takes."""
    return rng.choice([*model.NAMES]), any_count(rng), bytes(rng.choices(GOOD, k=rng.randrange(1, 17)))


def calls_at(rng, kind, values, rooms):
    password, new = f"{rng.getrandbits(64):016x}", f"{rng.getrandbits(64):016x}"
    return [call("wext", kind.decode(), password, *([*values, new] if model.is_init(kind) else []), room) for room in rooms]


def writer_at_every_room(driver):
    """0 to 100 bytes lent, for each type; then at random, with values that are refused. The longest text has 96 bytes."""
    rng = random.Random(2243)
    lines = [line for kind in model.TYPES for _ in range(20) for line in calls_at(rng, kind, good_values(rng), range(101))]
    for _ in range(4000):
        values = any_algorithm(rng), rng.choice([0, 1, any_count(rng), any_count(rng), 10000, 65535]), any_seed(rng)
        lines += calls_at(rng, rng.choice(model.TYPES), values, [rng.choice([rng.randrange(101), 96, 8192])])
    longest = len(model.extended_text(b"init-word", 2**64 - 1, (SHA1, 9999, b"a" * 16), 2**64 - 1))
    if longest != 96:
        raise harness.Failed(f"the longest text has {longest} bytes")
    return harness.same_as_model(driver, lines)


def written_reads_back(driver):
    """What the writer writes is the reply that it was given: read as that, and accepted where that password is waited for, with the values and the new
    password given."""
    rng = random.Random(6)
    given = [(kind, rng.getrandbits(64), good_values(rng), rng.getrandbits(64)) for kind in model.TYPES for _ in range(250)]
    texts = harness.asked(driver, [call("wext", kind.decode(), f"{present:016x}", *([*values, f"{new:016x}"] if model.is_init(kind) else []), 96)
                                   for kind, present, values, new in given])
    pairs = [pair for each, answer in zip(given, texts) for pair in accepted(*each, answer.split(" ")[2])]
    lines, answers = zip(*pairs)
    harness.hold_to(lines, harness.asked(PROGRAM, lines), answers)
    in_c, due = zip(*(pair for pair in pairs if pair[0].startswith("read ")))
    harness.hold_to(in_c, harness.asked(driver, in_c), due)
    return f"{len(given)} replies of the four types, written through the driver, read by driver and program, and taken by the program as they were given"


def accepted(kind, present, values, new, text):
    """A table whose account waits for a password, and the reply, read alone and taken: the calls and their answers."""
    stored, first = f"{model.hashed_once(MD5, present):016x}", b"neverseen".hex()
    algorithm, count, seed = values
    if model.is_init(kind):
        said, after = f"init {algorithm} {count} {seed.hex()} {new:016x} {present:016x}", f"{algorithm}:{count}:{new:016x}:{seed.lower().hex()}/{first}"
    else:
        count, said, after = 8, f"pw {present:016x}", f"{MD5}:8:{present:016x}:{first}"
    return [("new", "ok"), (f"enrol 1 {MD5} 9 {first} {stored}", "ok"), ("join 0 1", "ok"), (f"read {text}", f"ok {said}"),
            (f"reply 0 {text}", f"ok {count}"), ("dump", f"ok A=1:{after}:-:0 P=0:0,0:0,0:0,0:0")]


# texts at random


def some_texts(rng, damage):
    """Damaged in that way, most with the password that account 1 waits for."""
    for _ in range(150):
        kind, present = rng.choice(model.TYPES), rng.choice([int(STORED_7, 16), rng.getrandbits(64)])
        values = any_algorithm(rng), rng.choice([any_count(rng), any_count(rng), 1, 10000]), rng.choice([any_seed(rng), any_seed(rng), b"DOG2"])
        yield damage(rng, handheld.sent(rng, kind, present, values, rng.getrandbits(64)))


def texts_at_random(driver):
    """Replies of every type, good and damaged in each way, read alone, and to a port that has the turn."""
    rng, calls = random.Random(35), 0
    head = ["new", call("enrol", 1, MD5, 9999, b"dog2", SEVEN), "join 0 1"]
    for damage in [handheld.text_of, *handheld.DAMAGES]:
        texts = list(some_texts(rng, damage))
        alone = [call(name, text) for text in texts for name in replies.READ_ALONE]
        harness.same_as_model(driver, alone)
        harness.same_as_model(PROGRAM, [*alone, *(line for text in texts for line in [*head, call("reply", 0, text), "dump"])])
        calls += len(texts)
    return f"{calls} replies of the four types, good or damaged: what is read by driver and program, the answer and the table are the model's"
