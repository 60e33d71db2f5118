"""R-7's sentences, each as a scene on the model and on the program `replay`, with answers by hand from document 02; and days of which the texts are read
apart from what is offered.

The accounts, and the lines of their cards, are those of lines.py; texts of renewals, and what they say, those of extended_replies.py. Two accounts wait for a
password that is given here, eight bytes of 0 or of 255: their hashes are the model's.
"""
import harness
import model
import scripts
from harness import call
from model import MD5, SHA1
from sections.extended_replies import (BOTH, EXAMPLE, FIRST, HEX_7, LAST, NEW, NEW_WORDS, RFC_NEW, RFC_PRESENT, UNSUMMED, filled, init, played, refused,
                                       renewed, replied, words)
from sections.lines import SEVEN, START, STORED_7, STORED_8, WORDS_7, WORDS_8, asked, eight, good, nine, seven, shown
from sections.replay import PROGRAM

LOW, HIGH = "0" * 16, "f" * 16
LOW_STORED, HIGH_STORED = (f"{model.hashed_once(MD5, int(password, 16)):016x}" for password in (LOW, HIGH))
# account 9 has document 01's card at count 2, so that one login uses it up
LAST_LINE = call("enrol", 9, MD5, 2, b"AValidSeed", SEVEN)
UNREAD = [(b" " * 129, "no 30"), (FIRST, "no 31 100000"), (UNSUMMED, "no 32"), (b"?", "no 33"), (b"", "no 33")]
UNREAD_EXTENDED = [(b":" * 257, "no 30"), (b"x:", "no 34"), (b"hex::", "no 35"), (words(FIRST, LAST), "no 31 100000"), (words(UNSUMMED), "no 32"),
                   (b"hex:", "no 33")]
DAYS = range(100, 112)


def read(text, answer):
    return call("read", text), answer


def plain(text, answer):
    """A text that either call reads so."""
    return [(call(name, text), answer) for name in ("read", "readplain")]


def read_init(text, algorithm, count, seed, new=NEW, present=STORED_7):
    """A renewal, as `read` says it."""
    return read(text, " ".join(["ok init", str(algorithm), str(count), model.hex_word(seed), new, present]))


def offered(password, answer, port=0):
    return call("offer", port, password), answer


def renewal(answer, port=0, algorithm=MD5, count=100, seed=b"lift2", present=STORED_7):
    """An offer of a renewal, to the new password."""
    return call("orenew", port, algorithm, count, seed, NEW, present), answer


def by_text(answer, text, port=0, algorithm=MD5, count=100, seed=b"lift2"):
    return call("renew", port, algorithm, count, seed, NEW, text), answer


SCENES = {
    "eight raw bytes and no text": [
        *good("join 0 7", "join 1 8"), offered(STORED_7, "ok 99"), offered(STORED_8, "ok 98", 1),
        shown(seven("-", 0, 99, STORED_7), eight("-", 0, 98, STORED_8))],
    "whichever eight bytes they are": [
        *good(call("enrol", 9, MD5, 9, b"a", LOW_STORED), call("enrol", 10, MD5, 9, b"a", HIGH_STORED), "join 2 9", "join 3 10"), offered(LOW, "ok 8", 2),
        offered(HIGH, "ok 8", 3), shown(seven("-", 0), eight("-", 0), f"9:{MD5}:8:{LOW}:61:-:0", f"10:{MD5}:8:{HIGH}:61:-:0")],
    "a plain text is read to a password, by either call": [
        *(pair for text in (WORDS_7, b"\tfowl Kid\r\nMASH dead dual oaf ", HEX_7, b"85C4 3ee0 3857 765B") for pair in plain(text, f"ok pw {STORED_7}")),
        *plain(WORDS_8, f"ok pw {STORED_8}"), *plain(LOW.encode(), f"ok pw {LOW}"), *(pair for each in UNREAD for pair in plain(*each))],
    "an extended one by `read` alone": [
        *(read(text, f"ok pw {STORED_7}") for text in (b"hex:" + HEX_7, filled(b"hex", HEX_7, 256))), read(b"word: " + WORDS_8.lower(), f"ok pw {STORED_8}"),
        (call("readplain", b"hex:" + HEX_7), "no 33"), (call("readplain", init(b"md5 100 lift2")), "no 33"), (call("readplain", b":" * 128), "no 33"),
        (call("readplain", filled(b"hex", HEX_7, 129)), "no 30")],
    "an `init` text is read to two passwords and its new values": [
        read_init(init(b"md5 100 lift2"), MD5, 100, b"lift2"), read_init(words(), MD5, 100, b"lift2"),
        read_init(EXAMPLE, MD5, 499, b"ke1235", RFC_NEW, f"{RFC_PRESENT:016x}"),
        read_init(b"init-word:%s:\r\n sha1\t9999 \nABCDEFGHijkl6789 :%s" % (WORDS_7, NEW_WORDS), SHA1, 9999, b"ABCDEFGHijkl6789")],
    "a bad count as 0, for Offer to check; any other as the number it is": [
        *good("join 0 7"), *(pair for count in (b"0499", b"+5", b"12345", b"1.5", b"x", b"00", b"007", b"10000", b"-5", b"5e1", b"65538", b"0x9", b"9\xb2")
                             for pair in (read_init(init(b"md5 %s lift2" % count), MD5, 0, b"lift2"), replied(init(b"md5 %s lift2" % count), "no 51"))),
        *(pair for count in (0, 1) for pair in (read_init(init(b"md5 %d lift2" % count), MD5, count, b"lift2"), renewal("no 51", count=count),
                                                replied(init(b"md5 %d lift2" % count), "no 51"))),
        *(read_init(init(b"md5 %d lift2" % count), MD5, count, b"lift2") for count in (2, 9, 10, 99, 100, 999, 1000, 9999)), BOTH],
    "an unknown algorithm as 0": [
        *good("join 0 7"), *(pair for name in (b"MD5", b"Sha1", b"sha", b"md4", b"otp-md5", b"md5,", b"1", b"?") for pair in
                             (read_init(init(b"%s 9 lift2" % name), 0, 9, b"lift2"), replied(init(b"%s 9 lift2" % name), "no 21"))),
        read_init(init(b"x y z"), 0, 0, b"z"), replied(init(b"x y z"), "no 51"), BOTH],
    "where there is no seed, an empty part; where there is no count, 0": [
        *good("join 0 7"), *(pair for parameters in (b"md5 9", b"md5 9  \t\r\n") for pair in
                             (read_init(init(parameters), MD5, 9, b""), replied(init(parameters), "no 23"))),
        *(pair for parameters, algorithm in ((b"sha1", SHA1), (b" sha1 ", SHA1), (b"9", 0), (b"", 0), (b" \n", 0)) for pair in
          (read_init(init(parameters), algorithm, 0, b""), replied(init(parameters), "no 51"))), BOTH],
    "the seed as it stands in the text, of any length; white space inside it belongs to it": [
        *good("join 0 7"), *(pair for seed, answer in ((b"Lift2 x", "no 24"), (b"A \r\n\t Seed", "no 24"), (b"LengthOfSeventeen", "no 23"), (b"_", "no 24"),
                                                       (b"\0\xff", "no 24"), (b"s" * 150, "no 23"), (b"a b " * 40 + b"c", "no 23"), (b"AVALIDSEED", "no 63"))
                             for pair in (read_init(init(b"md5 9 \t" + seed + b"\r "), MD5, 9, seed), replied(init(b"md5 9 " + seed), answer))),
        read_init(init(b"md5 9 LIFT2"), MD5, 9, b"LIFT2"), BOTH, replied(init(b"md5 9 LIFT2"), "ok 9"), renewed(MD5, 9)],
    "reading: 30, 34, 35, then 31 to 33 for the new password, then for the present one; of the parameters nothing": [
        read(b"x:" * 129, "no 30"), read(b"hex:" * 65, "no 30"), read(b"x:::", "no 34"), read(b"init-word:?:?", "no 35"), read(b"init-word::::", "no 35"),
        read(words(FIRST, LAST), "no 31 100000"), read(words(LAST, FIRST), "no 31 000001"), read(words(UNSUMMED, LAST), "no 32"),
        read(words(b"?", LAST), "no 33"), read(words(present=LAST), "no 31 000001"), read(words(present=UNSUMMED), "no 32"), read(words(present=b""), "no 33"),
        read(init(b"MD5 x _", new=b"?"), "no 33"), read(init(b"MD5 x _", present=b"?"), "no 33"), read_init(init(b"MD5 x _"), 0, 0, b"_")],
    "reading looks at no table, and leaves it as it was": [
        *good("join 0 7"), read(WORDS_7, f"ok pw {STORED_7}"), read_init(init(b"md5 100 lift2"), MD5, 100, b"lift2"), read(b"?", "no 33"), BOTH, ("new", "ok"),
        read(WORDS_7, f"ok pw {STORED_7}"), read_init(init(b"md5 100 avalidseed"), MD5, 100, b"avalidseed"), ("dump", "ok A=- P=0:0,0:0,0:0,0:0")],
    "Offer checks 55, 59, 60, 58, and compares": [
        *(offered(STORED_7, "no 55", port) for port in (4, 255, 256, 260, 65535)), offered(STORED_7, "no 59"), *good("join 0 7", "join 1 7"),
        offered(STORED_7, "no 60", 1), shown(seven("0.1", 60), eight("-", 0)), *good(LAST_LINE, "join 2 9", "join 3 9"), offered(STORED_7, "ok 1", 2),
        offered(STORED_7, "no 58", 3), offered(LOW, "no 58", 3), shown(seven("0.1", 60), eight("-", 0), nine("3", 60)), offered(STORED_8, "no 61"),
        shown(seven("1", 60), eight("-", 0), nine("3", 60), ports="1:0,0:0,0:0,0:0"), offered(STORED_7, "ok 99", 1)],
    "60 before 58": [
        *good(LAST_LINE, "join 0 9", "join 1 9", "join 2 9"), offered(STORED_7, "ok 1"), offered(STORED_7, "no 58", 1), offered(STORED_7, "no 60", 2),
        renewal("no 58", 1), renewal("no 60", 2), renewal("no 60", 2, 3, 1, b""), shown(seven("-", 0), eight("-", 0), nine("1.2", 60))],
    "for renewal the new values as before: 51, 21, 23, 24, 63 behind 58, in that order; then it compares": [
        *good(LAST_LINE, "join 2 9", "join 3 9", "join 0 7", "join 1 7"), offered(STORED_7, "ok 1", 2),
        *(renewal(answer, port, 3, 1, b"Length_Of_Seventeen", LOW) for port, answer in ((4, "no 55"), (2, "no 59"), (1, "no 60"), (3, "no 58"), (0, "no 51"))),
        *(renewal("no 51", count=count, algorithm=0, seed=seed, present=LOW) for count in (0, 1, 10000, 65535) for seed in (b"", b"avalidseed")),
        *(renewal("no 21", algorithm=algorithm, seed=seed, present=LOW) for algorithm in (0, 3, 255) for seed in (b"Length_Of_Seventeen", b"AVALIDSEED")),
        *(renewal("no 23", seed=seed, present=LOW) for seed in (b"", b"Length_Of_Seventeen", b"_" * 17)),
        *(renewal("no 24", seed=seed, present=LOW) for seed in (b"_", b"A Seed", b"avalidseed ", b"lift2\0")),
        *(renewal("no 63", seed=seed, algorithm=algorithm, present=LOW) for seed in (b"avalidseed", b"AValidSeed") for algorithm in (MD5, SHA1)),
        shown(seven("0.1", 60), eight("-", 0), nine("3", 60)), renewal("no 61", present=LOW), renewal("ok 100", 1)],
    "an accepted renewal takes the new values and the new password, whatever it is": [
        *good("join 0 7", "tick 5"), renewal("ok 9999", algorithm=SHA1, count=9999, seed=b"Lift2"), renewed(SHA1, 9999), *good("join 1 7"),
        asked(1, b"otp-sha1 9998 lift2 ext\n"), (call("orenew", 1, MD5, 2, b"a", HIGH, NEW), "no 61"), *START, *good("join 0 8"),
        (call("orenew", 0, MD5, 2, b"a", HIGH, STORED_8), "ok 2"), shown(seven("-", 0), f"8:{MD5}:2:{HIGH}:61/{b'test'.hex()}:-:0")],
    "what is offered is hashed by the present algorithm, also where the renewal changes it": [
        *good(call("enrol", 9, SHA1, 9, b"a", SEVEN), "join 2 9"), offered(STORED_7, "no 61", 2), *good("join 2 9"), renewal("no 61", 2, MD5),
        *good("join 0 7"), renewal("ok 100", algorithm=SHA1), *good("remove 9"), renewed(SHA1, 100, ports="0:0,0:0,2:0,0:0")],
    "an accepted offer's port leaves its line: the same again is 59": [
        *good("join 0 7", "join 1 7"), offered(STORED_7, "ok 99"), offered(STORED_7, "no 59"), renewal("no 59"), replied(WORDS_7, "no 59"),
        shown(seven("1", 60, 99, STORED_7), eight("-", 0)), offered(STORED_7, "no 61", 1), offered(STORED_7, "no 59", 1), *good("join 0 7"),
        renewal("no 61"), renewal("no 59")],
    "a wrong offer counts as a wrong reply, of whichever kind; the third shuts the port": [
        *good("join 0 7"), offered(STORED_8, "no 61"), *good("join 0 8"), renewal("no 61"), *good("join 0 7"), offered(LOW, "no 62"),
        shown(seven("-", 0), eight("-", 0), ports="0:900,0:0,0:0,0:0"), ("join 0 7", "no 57"), *good("join 1 7"), replied(WORDS_8, "no 61", 1),
        *good("join 1 7"), offered(STORED_7, "ok 99", 1), shown(seven("-", 0, 99, STORED_7), eight("-", 0), ports="0:900,0:0,0:0,0:0")],
    "a reading refusal now comes before the table's: 55, 59, 60, 58": [
        *good(LAST_LINE, "join 2 9", "join 3 9", "join 0 7", "join 1 7"), offered(STORED_7, "ok 1", 2),
        *(replied(text, answer, port) for port in (4, 2, 1, 3, 0) for text, answer in [*UNREAD, *UNREAD_EXTENDED]),
        *(replied(text, answer, port) for port, answer in ((4, "no 55"), (2, "no 59"), (1, "no 60"), (3, "no 58"))
          for text in (WORDS_7, b"hex:" + HEX_7, words())),
        shown(seven("0.1", 60), eight("-", 0), nine("3", 60))],
    "and before 51, 21, 23, 24, 63 of a renewal": [
        *good(LAST_LINE, "join 2 9", "join 3 9", "join 0 7", "join 1 7"), offered(STORED_7, "ok 1", 2),
        *(by_text(answer, text, port, *values) for port in (4, 2, 1, 3) for values in ((MD5, 100, b"lift2"), (3, 1, b"")) for text, answer in UNREAD),
        *(by_text(answer, text, 0, *values) for text, answer in [*UNREAD, (b"hex:" + HEX_7, "no 33"), (filled(b"hex", HEX_7, 129), "no 30")]
          for values in ((MD5, 1, b"lift2"), (3, 9, b"lift2"), (MD5, 9, b""), (MD5, 9, b"_"), (MD5, 9, b"AVALIDSEED"), (3, 1, b"_" * 17), (MD5, 9, b"lift2"))),
        *(by_text(answer, WORDS_7, port, 3, 1, b"_" * 17) for port, answer in ((4, "no 55"), (2, "no 59"), (1, "no 60"), (3, "no 58"), (0, "no 51"))),
        *refused(33, *(init(parameters, new=b"?") for parameters in (b"md5 1 lift2", b"x 9 lift2", b"md5 9", b"md5 9 _", b"md5 9 avalidseed"))),
        shown(seven("0.1", 60), eight("-", 0), nine("3", 60))],
    "30 to 35 are no wrong replies: nothing changes, and the port keeps its turn": [
        *good("join 0 7", "tick 7"), *(replied(*each) for each in [*UNREAD, *UNREAD_EXTENDED] * 3), shown(seven("0", 53), eight("-", 0)),
        replied(WORDS_7, "ok 99")],
    "reading followed by offering gives what the one call gives": [
        *good("join 0 7"), replied(WORDS_7, "ok 99"), shown(seven("-", 0, 99, STORED_7), eight("-", 0)),
        *START, *good("join 0 7"), read(WORDS_7, f"ok pw {STORED_7}"), offered(STORED_7, "ok 99"), shown(seven("-", 0, 99, STORED_7), eight("-", 0)),
        *START, *good("join 0 7"), replied(words(), "ok 100"), renewed(MD5, 100),
        *START, *good("join 0 7"), read_init(words(), MD5, 100, b"lift2"), renewal("ok 100"), renewed(MD5, 100),
        *START, *good("join 0 7"), by_text("ok 100", WORDS_7), renewed(MD5, 100),
        *START, *good("join 0 7"), (call("readplain", WORDS_7), f"ok pw {STORED_7}"), renewal("ok 100"), renewed(MD5, 100)],
}


def sentences(driver):
    return played(driver, SCENES)


# whole days, in other words


def apart(line):
    """A call with a text as the two that it is made of, or the first where the text isn't read. Any other call is as it was."""
    name, *words_of = line.split(" ")
    reader = {"reply": "read", "renew": "readplain"}.get(name)
    said = model.replay(f"{reader} {words_of[-1]}")[0].split(" ") if reader else []
    if said[:1] != ["ok"]:
        return [f"{reader} {words_of[-1]}" if said else line]
    new = said[2:6] if said[1] == "init" else words_of[1:-1]
    return [f"{reader} {words_of[-1]}", " ".join(["orenew" if new else "offer", words_of[0], *new, said[-1]])]


def together(line):
    """An offer as a call with a text, the password in hex. Any other call is as it was."""
    name, *words_of = line.split(" ")
    by_name = {"offer": "reply", "orenew": "renew"}
    return " ".join([by_name[name], *words_of[:-1], words_of[-1].encode().hex()]) if name in by_name else line


def days(_driver):
    """Each call of a day that reads and offers as its two halves, of which the last is answered as the whole was; and each offer as a text."""
    calls = 0
    for seed in DAYS:
        day = scripts.script(seed)
        pairs = [pair for pair in zip(filter(scripts.is_call, day.lines), day.answers) if pair[1] != "bad"]
        halves = [apart(line) for line, _ in pairs]
        said = iter(harness.asked(PROGRAM, [line for each in halves for line in each]))
        last = [[next(said) for _ in each][-1] for each in halves]
        lines, answers = zip(*pairs)
        harness.hold_to(lines, last, answers)
        texts = [together(line) for line in lines]
        harness.hold_to(texts, harness.asked(PROGRAM, texts), answers)
        calls += sum(map(len, halves)) + len(texts)
    return f"{len(DAYS)} days, {calls} calls: texts read first and then offered, and offers as texts, answered as on the day"
