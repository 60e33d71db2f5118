"""That the comparison can fail: tests of the tests."""
import collections
import itertools
import pathlib
import random
import sys

import extensions
import harness
import listing
import model
import offers
import remembered
import scripts
import tidy
from compare import claims
from harness import Failed, call
from sections import believed, challenges, commands, compared, docs, house, numbers, promises, refused, replay, replies, terminal, tools

sys.path.append(str(harness.ROOT / "bench"))

import bounds  # noqa: E402


def fails(check, *given):
    """Whether a check fails, as it should here."""
    try:
        check(*given)
    except Failed:
        return True
    return False


def comparison_can_fail(driver):
    """A wrong, a missing and a surplus answer, and a program that ends badly, are found."""
    lines = [call("md5", b"abc"), call("md5", b"")]
    right = harness.asked(driver, lines)
    wrong = [right[0], right[1][:-1] + ("0" if right[1][-1] != "0" else "1")]
    found = [
        not fails(harness.hold_to, lines, right, list(right)),
        fails(harness.hold_to, lines, right, wrong),
        fails(harness.hold_to, lines, right[:1], right),
        fails(harness.hold_to, lines, right + ["ok"], right),
        fails(harness.same_as_model, "/bin/false", lines),
        fails(harness.same_as_model, "/bin/cat", lines),
    ]
    if not all(found):
        raise Failed(f"of the six, as they should be: {found}")
    return f"{len(found)} cases: a difference is reported, and nothing else"


def refusals_can_fail(driver):
    """A wrong function that is let pass, or is refused for what it calls or for a proof's shape, is found."""
    own = "fn wordlist::word_at: no proof: expected answers in ./proofs/word_at/Answers.antt; `search` did not prove `returns`"
    calls = "it calls `wordlist::place_of`, which is not proved\n"
    differ = "./proofs/word_at/Answers.antt:9:5: error: `returns`: as printed, the two types first differ\n"
    field, name = "`returns`: record `row` has no field `args`\n", "`returns`: module `Goals` has no `returns-in-At` that can be named\n"
    alone = ["fn wordlist::word_at: not proved\n", f"{own}\n", f"{own}; {calls}"]
    said = [
        "fn wordlist::word_at: proved\n",
        "fn wordlist::place_of: not proved\n",
        f"fn wordlist::word_at: not proved; {calls}",
        f"fn wordlist::word_at: no proof: {calls}",
        f"{alone[0]}./proofs/word_at/Answers.antt:13:23: error: {field}",
        f"{alone[0]}./proofs/word_at/Answers.antt:2:5: error: {name}",
        f"{alone[0]}{differ}./proofs/word_at/Answers.antt:2:5: error: {name}",
        f"{alone[0]}{differ}./proofs/place_of/Answers.antt:2:5: error: {name}",
        f"{alone[0]}{differ}./proofs/Arms.antt:2:5: error: {name}",
    ]
    change = ("src/lib.rt", "WORDS.get(place)", "WORDS.get(0)")
    held = [lambda log=log: refused.refused_alone("wordlist", "an edit", log, [change]) for log in [*alone, *said]]
    found = [*(not fails(check) for check in held[:len(alone)]), *(fails(check) for check in held[len(alone):]), *theorems_refused()]
    if not all(found):
        raise Failed(f"of the {len(found)}, as they should be: {found}")
    return f"{len(found)} logs: a wrong function or theorem that is not refused by itself is reported, and nothing else"


def theorems_refused():
    """Two theorems made wrong in one edit, of which each is refused; one isn't, or only for what it cites. A definition beside them, for which another
    theorem is refused, or none is; and two definitions."""
    begins, in_line = ("specs/Demand3.antt", "TurnBegins p i 180 later", ""), ("specs/TablesMade.antt", "s.rooms) ≤ 4", "")
    example, empty = ("specs/Examples.antt", "DUAL NUT", ""), ("specs/NoAccounts.antt", "answer_without (Call.Remove id) =", "")
    log = "".join(f"specs/A.antt:1:1: error: `{name}`: expected type\n" for name in ("turn_begins", "four_in_line"))
    cited = "error: `four_in_line`: `turn_begins` was not admitted\n"
    more = "error: `examples_hold`: differ\n"

    def held(said, *changes):
        return refused.said_wrong("demands", "an edit", said, [begins, in_line, *changes])
    first = log.partition("\n")[0]
    return [not fails(held, log), fails(held, first), fails(held, first + cited),
            not fails(held, log + more, example), fails(held, log, example), fails(held, log + more, example, empty)]


def runs_of_the_gate():
    """What rt ci says of two crates and three edits, and of a program for which more is made than its sources have; then of an edit more, of a bad one, of
    a crate that isn't proved, of a library with a function that no head was found for, of fewer functions than there are; and what is no end of a run."""
    crates = {"table": 4, "card": 1}
    said = ("== table\nfn table::fresh: proved\nlogic=proved functions=4 sum=0\nrt: table proved\n== card\nlogic=proved functions=2 axioms=8\n"
            "rt: ok; handles allowed: none; must-fail edits: 3 refused; every proof and must-fail edit was done in this run\n5 passed, 0 failed\n")
    kept = said[said.index("rt: ok"):]
    wrong = [(said, 4), *((said.replace(*change), 3) for change in
                          ((" refused;", " refused, 1 bad;"), ("5 passed, 0", "4 passed, 1"), ("functions=4", "functions=5"), ("functions=4", "functions=3"),
                           ("functions=2", "functions=0"), ("failed\n", "failed\nmore\n"), ("rt: ok", "rt: note")))]
    return [not fails(docs.whole_run, said, crates, 3), not fails(docs.whole_run, kept, crates, 3),
            *(fails(docs.whole_run, text, crates, edits) for text, edits in wrong)]


def gate_can_fail(driver):
    """A flag that .ci/run has and the README has not, or the other way round, is found; so is a run of the gate that isn't as it should be."""
    readme = "## Test it\n\n```console\n$ make %stest\n```\n"
    run = "\n".join(["#!/usr/bin/env bash", *commands.TO_THE_TOP, "exec make test", ""])
    found = [
        not fails(commands.same_command, readme % "", run),
        fails(commands.same_command, readme % "", run.replace("make", "make --no-print-directory")),
        fails(commands.same_command, readme % "", run.replace("exec", "export MAKEFLAGS=-s\nexec")),
        fails(commands.same_command, readme % "-s ", run),
        fails(commands.same_command, readme % "", run + "true\n"),
        *runs_of_the_gate(),
    ]
    if not all(found):
        raise Failed(f"of the {len(found)}, as they should be: {found}")
    return f"{len(found)} pairs of commands and runs: a flag in one of them, and what isn't so of a run, is reported, and nothing else"


def without_each(check, whole):
    """A run that covers what it should; then one without each part of it."""
    counted = collections.Counter(whole)
    return [not fails(check, counted), *(fails(check, collections.Counter(set(whole) - {part})) for part in whole)]


def manners():
    """Days as they should be; those of one manner like another's, or with few ports in line; and without some of the long ticks."""
    ways = {scripts.CROWD: [(4,), (3, 1)], scripts.SPREAD: [(1, 1, 1), (2, 1, 1)], scripts.MIX: [(3,), (1, 1, 1)], "few": [(2,), (1, 1), ()]}
    days = {manner: collections.Counter(each) for manner, each in ways.items()}
    return [not fails(replay.hold_to_manners, days), *without_each(replay.hold_to_ticks, scripts.TICKED),
            *(fails(replay.hold_to_manners, {**days, one: days[other]}) for one, other in itertools.permutations(days, 2) if one != "few")]


def rings():
    """Days as they should be; and those of one ring like another's, or with the present seed alone named again."""
    again = {ring: f"{'63' if ring <= remembered.PLACES else 'ok'}, {ring - 1} back" for ring in scripts.RINGS}
    days = {ring: collections.Counter({again[ring]: 3, "63, 0 back": 9, "ok, 12 back": 2}) for ring in scripts.RINGS}
    days["present"] = collections.Counter({"63, 0 back": 9})
    return [not fails(replay.hold_to_rings, days),
            *(fails(replay.hold_to_rings, {**days, one: days[other]}) for one, other in itertools.permutations(days, 2) if one != "present")]


def enrolled(id, seed):
    return [(call("enrol", id, 1, 9, seed, "0" * 16), "ok")]


def renewed(seed, answer="ok 9", id=7, algorithm=1):
    """Port 0 joins an account and renews it."""
    return [(f"join 0 {id}", "ok"), (call("renew", 0, algorithm, 9, seed, "0" * 16, b"?"), answer)]


def by_offer(seed, answer):
    """Port 0 joins account 7 and offers a renewal."""
    return [("join 0 7", "ok"), (call("orenew", 0, 1, 9, seed, "0" * 16, "0" * 16), answer)]


def unread(seed):
    """A renewal by port 0, wherever it is, with a text that isn't read."""
    return call("renew", 0, 1, 9, seed, "0" * 16, b"?"), "no 33"


def removed(*ids):
    return [(f"remove {id}", "ok") for id in ids]


def by_reply(text, answer):
    """Port 0 joins account 7 and replies."""
    return [("join 0 7", "ok"), (call("reply", 0, text), answer)]


# 31 accounts, and short scripts, each with what it shows, once and nothing else. A seed that shows nothing is one that only a wrong reader knows:
# of an account that was removed, or forgot it, or had another room, or was in the table before the last; or named by an unread text out of turn.
MANY = [pair for id in range(101, 132) for pair in enrolled(id, b"a")]
NEW = [("new", "ok")]
SHORT = [
    ([*enrolled(7, b"lift1"), *renewed(b"lift2"), ("join 0 7", "ok"), ("reply 0 -", "ok 8"), *renewed(b"LIFT1", "no 63", algorithm=2),
      *renewed(b"lift", "no 61")[1:], *renewed(b"lift"), *renewed(b"lift12"),
      ("dump", f"ok A=7:1:9:{'0' * 16}:6c6966743132/6c696674/6c69667432/6c69667431:-:0 P=0:0,1:0,0:0,0:0")],
     ["63, 1 back", "63 in upper case", "63 under the other algorithm", "63 after a reply", "ok after 61", "ok, begins a remembered one",
      "ok, begins with a remembered one", "dump, 4 remembered"]),
    ([*enrolled(7, b"lift1"), *enrolled(8, b"dog1"), *(pair for number in range(2, 10) for pair in renewed(b"dog%d" % number, id=8)),
      *renewed(b"dog1"), *renewed(b"dog2"), *removed(8), *renewed(b"dog3")], ["ok, of another account"]),
    ([*enrolled(7, b"lift1"), *renewed(b"lift2"), *removed(7), *enrolled(8, b"cat1"), *renewed(b"lift2", id=8), *removed(8), *enrolled(7, b"dog1"),
      *renewed(b"lift1")], ["ok, of an account removed under this id"]),
    ([*enrolled(7, b"lift1"), *(pair for number in range(2, 10) for pair in renewed(b"lift%d" % number)), *removed(7), *enrolled(7, b"dog1"),
      *renewed(b"lift1")], []),
    ([*enrolled(7, b"lift1"), *(pair for number in range(2, 10) for pair in renewed(b"lift%d" % number)), *enrolled(8, b"lift1"), *renewed(b"lift1")],
     ["ok, 8 back"]),
    ([*MANY, *enrolled(7, b"lift1"), *renewed(b"lift2"), *removed(7), *enrolled(8, b"dog1"), *renewed(b"lift1", id=8)],
     ["ok, of another removed from this room"]),
    ([*MANY, *enrolled(7, b"lift1"), *renewed(b"lift2"), *removed(7), *enrolled(7, b"dog1"), *renewed(b"lift1")],
     ["ok, of an account removed under this id"]),
    ([*MANY, *enrolled(7, b"lift1"), *removed(7, 101), *enrolled(8, b"dog1"), *renewed(b"lift1", id=8), *renewed(b"cat1", id=8)], []),
    ([*MANY, *enrolled(7, b"lift1"), *removed(7), *NEW, *enrolled(8, b"dog1"), *renewed(b"lift1", id=8)], []),
    ([*enrolled(7, b"lift1"), *removed(7), *enrolled(7, b"dog1"), *NEW, *enrolled(7, b"cat1"), *renewed(b"lift1"), *renewed(b"dog1"),
      *NEW, *NEW, *enrolled(7, b"dog2"), *renewed(b"cat1")], ["ok, of the table before"]),
    ([*enrolled(7, b"lift1"), *by_reply(b"init-hex:?: sha1\t9 lift2 :?", "ok 9"), *renewed(b"lift1", "no 63", algorithm=2),
      *by_reply(b"init-word:?:md5 9 LIFT2:?", "no 63"), *by_reply(b"init-word:?:md5 9 dog1:?", "no 61"), *renewed(b"dog1")],
     ["63, 0 back", "63, 1 back", "63 under the other algorithm", "ok after 61"]),
    ([*enrolled(7, b"lift1"), *by_reply(b"hex:?", "ok 8"), *by_reply(b"init-hex:?:md5 9 lift1", "no 35"), *by_reply(b"init-hex:?:md5 9:?", "no 23"),
      *by_reply(b"HEX:?:md5 9 lift1:?", "no 34")], []),
    ([*enrolled(7, b"lift1"), *by_offer(b"lift2", "no 61"), *by_offer(b"lift2", "ok 9"), ("join 0 7", "ok"), (call("offer", 0, "0" * 16), "ok 8"),
      *by_offer(b"LIFT1", "no 63"), *by_offer(b"dog1", "no 59")], ["ok after 61", "63, 1 back", "63 in upper case", "63 after a reply"]),
    ([*enrolled(7, b"lift1"), *by_reply(b"init-word:?:md5 9 dog1:?", "no 33"), (call("reply", 3, b"init-word:?:md5 9 cat1:?"), "no 33"),
      *renewed(b"cat1")[1:], *renewed(b"dog1"), *removed(7), unread(b"cat1")], ["ok after 33"]),
    ([*enrolled(7, b"lift1"), ("join 1 7", "ok"), ("join 0 7", "ok"), unread(b"dog1"), ("leave 1", "ok"), ("tick 60", "ok"), unread(b"dog1"),
      *renewed(b"dog2", "no 61"), unread(b"dog1"), *renewed(b"dog1")], []),
    ([*enrolled(7, b"lift1"), ("join 1 7", "ok"), ("tick 50", "ok"), ("join 0 7", "ok"), ("tick 69", "ok"), unread(b"dog1"), *renewed(b"dog1")[1:]],
     ["ok after 33"]),
]


def memory():
    """The short scripts, each as it should be read; and runs without some kind."""
    return [*(remembered.kinds_in(*zip(*pairs)) == collections.Counter(due) for pairs, due in SHORT),
            *without_each(replay.hold_to_remembered, remembered.KINDS)]


def challenged(rest, used, ext):
    return call("chal", b"otp-md5 5 dog2" + rest), f"ok 1 5 10 4 {used} {ext}"


def replied(text, answer):
    return call("reply", 0, text), answer


SIX, OTHER_SIX, DIGITS = b"A A A A A A", b"A A A A A QQ", b"0" * 16
# calls with their answers, and what each shows; what shows nothing is what only a wrong reader takes for it
SHOWING = [
    (replied(b"hex:" + DIGITS, "ok 8"), ["ok by hex"]), (replied(b"hex:" + b" " * 108 + DIGITS, "ok 8"), ["ok by hex", "ok, 128 bytes"]),
    (replied(DIGITS, "ok 8"), []), (replied(b"hex:" + b" " * 107 + DIGITS, "ok 8"), ["ok by hex"]),
    (replied(b":" * 257, "no 30"), ["30, 257 bytes", "30 before 34"]), (replied(b"hex:" + b" " * 253, "no 30"), ["30 by hex", "30, 257 bytes"]),
    (replied(b"hex:" * 65, "no 30"), ["30 by hex", "30 before 35"]), (replied(b"HEX:", "no 34"), ["34, in upper case"]),
    (replied(b"hex :", "no 34"), ["34, with a blank"]),
    (replied(b":", "no 34"), ["34, no name"]), (replied(b"a:b:c", "no 34"), ["34, another name", "34 before 35"]),
    (replied(b"a:", "no 60"), []),
    (replied(b"hex:", "no 60"), []), (replied(b"hex::", "no 35"), ["35 by hex", "35, a login with a part too many"]),
    (replied(b"init-hex:", "no 35"), ["35 by init-hex", "35, a renewal with a part too few"]),
    (replied(b"hex:", "no 33"), ["33 by hex", "33, a login with nothing"]), (replied(b"word:" + DIGITS, "no 33"), ["33 by word", "33, hex for words"]),
    (replied(b"hex:" + SIX, "no 33"), ["33 by hex", "33, words for hex"]),
    (replied(b"hex:abe ace ada add bad a", "no 61"), ["61 by hex", "ok or 61, words as hex"]),
    (replied(b"word:" + SIX, "no 61"), ["61 by word"]), (replied(b"word:" + OTHER_SIX, "no 31 000001"), ["31 by word"]),
    (replied(b"init-word:A:md5 0499 a:" + SIX, "no 51"), ["51 by init-word", "51, a leading zero"]),
    (replied(b"init-word:A:MD5 x a:" + SIX, "no 51"), ["51 by init-word", "51, a byte that is no digit", "51 before 21"]),
    (replied(b"init-word:sha1:md5:A", "no 33"), ["33 by init-word", "33, the parameters in front"]),
    (replied(b"init-word:A:md5:A", "no 51"), ["51 by init-word", "51, no count"]),
    (replied(b"init-hex:A: :A", "no 51"), ["51 by init-hex", "51, no count", "51, blank parameters", "51 before 21"]),
    (replied(b"init-hex:A:MD5 9 _:A", "no 21"), ["21 by init-hex", "21, a name in upper case", "21 before 23 or 24"]),
    (replied(b"init-hex:A:md5 9 a b:A", "no 24"), ["24 by init-hex", "24, a blank in the seed"]),
    (replied(b"init-hex:A:md5 9 A:", "no 63"), ["63 by init-hex", "63, in upper case"]),
    (replied(b"init-hex:A:md5 9999 A:A", "ok 9999"), ["ok by init-hex", "ok, a count of 9999", "ok, a seed in upper case"]),
    (replied(b"init-word:%s:md5 9 a:%s" % (SIX, OTHER_SIX), "no 31 000001"), ["31 by init-word", "31, the new password's marks"]),
    (replied(b"init-word:%s:md5 9 a:%s" % (OTHER_SIX, SIX), "no 31 000001"), ["31 by init-word", "31, the present password's marks"]),
    (replied(b"init-word:%s:md5 9 a:%s" % (OTHER_SIX, OTHER_SIX), "no 31 000001"), ["31 by init-word"]),
    (replied(b"init-hex:A:md5 9 a: ", "no 33"), ["33 by init-hex", "33, the new password alone is blank"]),
    (replied(b"init-hex: :md5 9 a:A", "no 33"), ["33 by init-hex", "33, the present password alone is blank"]),
    (replied(b"hex:" + b" " * 109 + DIGITS, "ok 8"), ["ok by hex", "ok, 129 bytes"]), (replied(b"word:" + b" " * 251, "ok 8"), ["ok by word", "ok, 256 bytes"]),
    (replied(b"init-word::::", "no 35"), ["35 by init-word", "35, a renewal with a part too many"]),
    (replied(b"init-hex:A:md5 1 a:A", "no 51"), ["51 by init-hex", "51, a count of 1"]),
    (replied(b"init-hex:A:md5 10000 a:A", "no 51"), ["51 by init-hex", "51, five digits or more"]),
    (replied(b"init-hex:A:md5 2 a:A", "ok 2"), ["ok by init-hex", "ok, a count of 2"]),
    (replied(b"init-hex:A:md5 9:A", "no 23"), ["23 by init-hex", "23, no seed"]),
    (replied(b"init-hex:A:md5 9 %s:A" % (b"a" * 17), "no 23"), ["23 by init-hex", "23, 17 characters or more"]),
    (replied(b"init-hex:A:md5 9 a_:A", "no 24"), ["24 by init-hex", "24, another character"]),
    ((call("readplain", b"a:" + b" " * 127), "no 30"), ["30 by readplain, a colon"]), ((call("read", b"a:" + b" " * 255), "no 30"), []),
    (("renew 9 1 9 61 " + "0" * 16 + " " + "3a" * 129, "no 30"), ["30 by renew, a colon"]),
    (challenged(b" ext,\n", 20, 1), ["mark 1, ext and a comma", "mark 1, ended by a newline"]),
    ((call("readplain", b"a:"), "no 33"), ["33 by readplain, a colon"]), ((call("readplain", b"a"), "no 33"), []), ((call("read", b"a:"), "no 34"), []),
    (("renew 9 1 9 61 " + "0" * 16 + " 3a", "no 33"), ["33 by renew, a colon"]),
    (challenged(b" ext\n", 19, 1), ["mark 1, ext", "mark 1, ended by a newline"]),
    (challenged(b" \text,a,\r ", 24, 1), ["mark 1, ext and a list", "mark 1, a carriage return in the list", "mark 1, past a tab", "mark 1, ended by a space"]),
    (challenged(b" EXT\n", 15, 0), ["mark 0, EXT"]), (challenged(b" extra\n", 15, 0), ["mark 0, extra"]),
    (challenged(b" ext\r\n", 15, 0), ["mark 0, ext and a carriage return"]),
    (challenged(b" ext\t", 15, 0), ["mark 0, ended by a tab"]), (challenged(b" ext", 15, 0), ["mark 0, ended by nothing"]),
    (challenged(b"\next\n", 15, 0), ["mark 0, after a newline"]), (challenged(b" a ext\n", 15, 0), ["mark 0, another token first"]),
    (challenged(b" ", 15, 0), ["mark 0, nothing more"]), (challenged(b"\n", 15, 0), []),
    ((call("wext", "hex", "0" * 16, 20), "ok 20 00 clean"), ["ok by the writer of hex"]), (("wext hex 1", "bad"), []),
    (("wext init-hex 0 0", "bad"), ["bad, a renewal in the short form"]), (("wext hex 0 0 0 0 0 0", "bad"), ["bad, a login in the long form"]),
    (("wext HEX 0 0", "bad"), ["bad, no type"]),
]


def extended():
    """Each call as it should be read; and runs without some kind."""
    return [*(extensions.kinds_in(*zip(pair)) == collections.Counter(due) for pair, due in SHOWING),
            *without_each(replay.hold_to_extended, extensions.KINDS)]


def read(text, answer):
    return call("read", text), answer


def read_init(parameters, algorithm, count, seed):
    """A renewal in hex that was read, with what is said of its values."""
    return read(b"init-hex:0:%s:0" % parameters, f"ok init {algorithm} {count} {model.hex_word(seed)} {'0' * 16} {'0' * 16}")


def offered(answer, *values):
    """An offer at port 0: of a password, or of a renewal with these values."""
    return call("orenew" if values else "offer", 0, *values, *["0" * 16] * (2 if values else 1)), answer


INIT_READ = "ok by read, init-hex"
# calls with their answers, and what each shows; what shows nothing is what only a wrong reader takes for it
OFFERING = [
    (read(DIGITS, f"ok pw {'0' * 16}"), ["ok by read, plain"]), (read(b"hex:" + DIGITS, f"ok pw {'0' * 16}"), ["ok by read, hex"]),
    (read(b"HEX:", "no 34"), ["34 by read"]), (read(b" hex:", "no 34"), ["34 by read"]), (read(b"word::", "no 35"), ["35 by read, word"]),
    (read(b" " * 129, "no 30"), ["30 by read, plain"]), (read(b"word:" + b" " * 252, "no 30"), ["30 by read, word"]),
    ((call("readplain", b"hex:"), "no 33"), ["33 by readplain"]), ((call("readplain", SIX), f"ok pw {'0' * 16}"), ["ok by readplain"]),
    (read_init(b"md5 9 a", 1, 9, b"a"), [INIT_READ, "read: algorithm 1", "read: count 9, as it is"]),
    (read_init(b"sha1 1 a", 2, 1, b"a"), [INIT_READ, "read: algorithm 2", "read: count 1, as it is"]),
    (read_init(b"sha1 0 a", 1, 0, b"a"), [INIT_READ, "read: count 0, as it is"]),
    (read_init(b"MD5 0499 a", 0, 0, b"a"), [INIT_READ, "read: algorithm 0, a name in upper case", "read: count 0, a leading zero"]),
    (read_init(b"md4 1.5 a", 0, 0, b"a"), [INIT_READ, "read: algorithm 0, another name", "read: count 0, a byte that is no digit"]),
    (read_init(b"md5 12345 A", 1, 0, b"A"), [INIT_READ, "read: algorithm 1", "read: count 0, five digits or more", "read: a seed in upper case"]),
    (read_init(b"md5 12345 A", 1, 2345, b"a"), [INIT_READ, "read: algorithm 1"]),
    (read_init(b"md5", 1, 0, b""), [INIT_READ, "read: algorithm 1", "read: count 0, nothing there", "read: no seed"]),
    (read_init(b" ", 0, 0, b""), [INIT_READ, "read: count 0, nothing there", "read: no seed"]),
    (read_init(b"md5 2 " + b"_ " * 55 + b"a", 1, 2, b"_ " * 55 + b"a"),
     [INIT_READ, "read: algorithm 1", "read: count 2, as it is", "read: a seed of 17 bytes or more", "read: a seed of 100 bytes or more",
      "read: a seed with a blank", "read: a seed with another character"]),
    (read(b"init-word:%s:md5 9 a:%s" % (SIX, OTHER_SIX), "no 31 000001"), ["31 by read, init-word", "read: 31, the new password's marks"]),
    (read(b"init-word:%s:md5 9 a:%s" % (OTHER_SIX, SIX), "no 31 000001"), ["31 by read, init-word", "read: 31, the present password's marks"]),
    (read(b"init-word:%s:x:%s" % (OTHER_SIX, OTHER_SIX), "no 31 000001"), ["31 by read, init-word"]),
    (read(b"init-hex:A:md5 9 a: ", "no 33"), ["33 by read, init-hex", "read: 33, the new password alone is blank"]),
    (read(b"init-hex: :md5 9 a:A", "no 33"), ["33 by read, init-hex", "read: 33, the present password alone is blank"]),
    (read(b"init-hex:::", "no 33"), ["33 by read, init-hex"]), (("read", "bad"), []), (("offer 0", "bad"), []),
    (offered("ok 8"), ["ok by offer"]), (offered("no 61"), ["61 by offer"]), (offered("no 60", 1, 9, b"a"), ["60 by orenew"]),
    (offered("no 58", 1, 1, b"a"), ["58 by orenew", "orenew: 58 before a value's"]),
    (offered("no 59", 1, 9, b"_"), ["59 by orenew", "orenew: 59 before a value's"]),
    (offered("no 51", 3, 1, b"a"), ["51 by orenew", "orenew: 51 before 21"]), (offered("no 51", 1, 10000, b""), ["51 by orenew", "orenew: 51 before 23 or 24"]),
    (offered("no 21", 0, 9, b"_"), ["21 by orenew", "orenew: 21 before 23 or 24"]), (offered("no 21", 0, 9, b"a"), ["21 by orenew"]),
    (offered("no 23", 1, 9, b"_" * 17), ["23 by orenew", "orenew: 23 before 24"]), (offered("no 24", 1, 9, b"_"), ["24 by orenew"]),
    (offered("no 63", 1, 9, b"a"), ["63 by orenew"]), (offered("ok 9", 1, 9, b"a"), ["ok by orenew"]),
]
# the same again at the port that was accepted: right after it, after a wrong one, by the other call, with a call between
TWICE = [([offered("ok 8"), offered("no 59")], "59 by offer, after ok", 1), ([offered("no 61"), offered("no 59")], "59 by offer, after ok", 0),
         ([offered("ok 9", 1, 9, b"a"), offered("no 59", 1, 9, b"a")], "59 by orenew, after ok", 1),
         ([offered("ok 8"), offered("no 59", 1, 9, b"a")], "59 by orenew, after ok", 0),
         ([offered("ok 8"), ("dump", "ok"), offered("no 59")], "59 by offer, after ok", 0)]
# calls on a table where port 0 is in front of port 1, and port 2 at an account that is used up; what each hides
BEHIND = [
    ("reply 4 3f", "no 33", ["unread before 55, plain", "33 before the table's"]),
    ("reply 3 783a", "no 34", ["unread before 59, extended", "34 before the table's"]),
    (call("reply", 1, b"init-hex:"), "no 35", ["unread before 60, init", "35 before the table's"]), (call("reply", 0, b"init-hex:"), "no 35", []),
    (call("reply", 2, OTHER_SIX), "no 31 000001", ["unread before 58, plain", "31 before the table's"]),
    ("reply 2 3030", "no 58", []), ("reply 0 3f", "no 33", []),
    (call("reply", 0, b"init-hex::md5 9 DOG2:"), "no 33", ["unread before 63, init", "33 before the table's"]),
    (call("reply", 0, b"init-hex::md5 9 a:"), "no 33", []), ("read 3f", "no 33", []), ("reply 0", "bad", []),
    *((call("renew", 0, *values, "0" * 16, b"?"), "no 33", [f"unread before {number}, renew", "33 before the table's"]) for number, values in
      ((51, (3, 1, b"")), (21, (3, 9, b"")), (23, (1, 9, b"")), (24, (1, 9, b"_")), (63, (2, 9, b"Dog2")))),
    (call("renew", 0, 1, 9, b"a", "0" * 16, b"?"), "no 33", []),
]


def behind():
    """What each call hides, on that table."""
    table = model.Table()
    stored = f"{model.hashed_once(model.MD5, 0):016x}"
    for line in (f"enrol 1 1 9 646f6732 {stored}", f"enrol 2 1 2 61 {stored}", "join 0 1", "join 1 1", "join 3 2", "join 2 2", f"offer 3 {'0' * 16}"):
        model.answer(table, line)
    return [offers.hidden(table, line, answer) == due for line, answer, due in BEHIND]


def offering():
    """Each call as it should be read; and runs without some kind."""
    return [*(offers.kinds_in(*zip(pair)) == collections.Counter(due) for pair, due in OFFERING), *behind(),
            *(offers.kinds_in(*zip(*pairs))[kind] == count for pairs, kind, count in TWICE), *without_each(replay.hold_to_offers, offers.KINDS)]


def coverage_can_fail(driver):
    """A run in which some refusal never came, or no reply was accepted under some algorithm, is found; so is one with few challenges, without
    some pattern of misread words, without some way of four ports in lines, with one line at a time, with a manner or a ring that doesn't show, or
    without some kind of renewal, of extended reply, of mark, of reading or of offer."""
    numbers_given = [*map(str, scripts.NUMBERS), *(f"21 by {name}" for name in scripts.TOLD),
                     *(f"31 with two marks or more by {name}" for name in scripts.READING)]
    logins = [(name, each, each) for name in ("reply", "offer") for each in (1, 2)]
    accepted = [*logins, *itertools.product(("renew", "init", "orenew"), (1, 2), (1, 2))]
    made = list(replies.patterns(random.Random(64), 20))
    said = [f"ok {number} 1 10 1 12" for number in model.NAMES] * 2000 + [f"no {number}" for number in range(20, 26)]
    found = [*without_each(replay.hold_to_numbers, numbers_given), *without_each(replay.hold_to_algorithms, accepted),
             *without_each(replay.hold_to_lines, scripts.WAYS), fails(replay.hold_to_lines, collections.Counter([*scripts.WAYS, *[(1,)] * 40])),
             *manners(), *rings(), *memory(), *extended(), *offering(),
             not fails(replies.all_patterns, made), fails(replies.all_patterns, [(pattern, text.upper()) for pattern, text in made]),
             *(fails(replies.all_patterns, [each for each in made if each[0] != gone]) for gone in ("000000", "101010")),
             not fails(challenges.enough, said), *(fails(challenges.enough, said[at:][:len(said) - 1]) for at in (0, 1))]
    if not all(found):
        raise Failed(f"of the {len(found)}, as they should be: {found}")
    return f"{len(found)} runs: what one lacks is reported, and nothing else"


def drawings():
    """A drawing that is true, and three that aren't: a use to the left, a crate drawn twice, one not drawn."""
    crates = {"card": ["cards", "check"], "cards": ["text"], "text": []}
    right = "What stands higher uses what stands below it:\n\n    card   a program\n    cards  text   the rest\n\n"
    wrong = [right.replace("cards  text", "text  cards"), right.replace("    card ", "    text  card "),
             right.replace("cards  text", "cards")]
    held = [lambda drawing=drawing: house.true_of(house.drawn(drawing), crates) for drawing in [right, *wrong]]
    return [not fails(held[0]), *(fails(check) for check in held[1:])]


def imports():
    """A page all of whose imports are used, and three with one that isn't; a source with a trait's method, and one without; lines of 160 and 161."""
    page = pathlib.Path("Page.antt")
    text = "use a.B.{one, ◌two◌}\nuse a.C as c\n\nthree : one two c.x\nthree = one\n"
    unused = [list(tidy.unused(page, each)) for each in
              (text, text.replace(" c.x", ""), text.replace(" two", ""), text.replace("one two", "ones two").replace("= one", "= 1"))]
    trait, source = "use std::io::Read;\n", pathlib.Path("main.rt")
    return [not unused[0], *map(bool, unused[1:]), not list(tidy.unused(source, trait + "let n = input.read(x)?;")),
            bool(list(tidy.unused(source, trait + "let n = spread(x);"))), not list(tidy.wide("x" * 160)), bool(list(tidy.wide("x\n" + "x" * 161)))]


def names_and_uses():
    """Names that are each for one thing, and two that aren't; uses that are listed, one too many and one missing; one of what is measured."""
    brought = {"line": [("crate", "line"), ("module", "laws")], "port": [("crate", "port"), ("definitions", "laws")]}
    same = {**brought, "port": [*brought["port"], ("definitions", "line")]}
    twice = {**brought, "port": [*brought["port"], ("module", "shut"), ("module", "shut")]}
    named = {"line": set(), "port": {"line"}}.get
    lists = [{"line": [], "port": ["line"]}, {"line": ["port"], "port": ["line"]}, {"line": [], "port": []}]
    return [not fails(house.one_thing, brought), fails(house.one_thing, same), fails(house.one_thing, twice),
            not fails(house.held_to, lists[0], named), *(fails(house.held_to, each, named) for each in lists[1:]),
            not fails(house.apart, lists[0]), fails(house.apart, {"line": [], "port": ["painted"]})]


def house_can_fail(driver):
    """What isn't so of the drawing, the imports, the lines, the names and the uses is found."""
    found = [*drawings(), *imports(), *names_and_uses()]
    if not all(found):
        raise Failed(f"of the {len(found)}, as they should be: {found}")
    return f"{len(found)} cases: what isn't so is reported, and nothing else"


def refusals():
    """The three lists as they are; then a number that isn't document 01's, a name for another, a row with nothing to do, two rows swapped."""
    header, code, guide = (path.read_text() for path in (numbers.HEADER, numbers.CODE, numbers.GUIDE))
    rows = [line for line in guide.splitlines() if line.startswith("| ")]
    first, second = (next(row for row in rows if row.startswith(f"| {number} ")) for number in (20, 21))
    wrong = [(header.replace("= 70", "= 71"), code, guide), (header, code.replace("IdZero", "IdNone"), guide),
             (header, code, guide.replace(first, first.rpartition("|")[0].rpartition("|")[0] + "|")),
             (header, code, guide.replace(f"{first}\n{second}", f"{second}\n{first}"))]
    return [not fails(numbers.same, header, code, guide), *(fails(numbers.same, *each) for each in wrong)]


def beliefs():
    """The list of files as it is; then without a file, and without one of the names that a row has of a file."""
    rows, others = promises.section("What a reader must believe"), believed.inner(promises.PAGE.read_text())
    lists = [believed.listed([[cells[0].replace(*change)] for cells in rows]) for change in
             (("", ""), (", Steps.antt", ""), ("`every`, `same` alone", "`every` alone"))]
    held = [lambda each=each: believed.closed(each, others, [*each, *believed.sources()]) for each in lists]
    return [not fails(held[0]), *(fails(check) for check in held[1:])]


def typing():
    """A command that hides what is typed, one that shows it, one that prints something else, and one that has the pass-phrase in it."""
    hides, shows = "IFS= read -rs phrase; echo good", "IFS= read -r phrase; echo good"
    return [not fails(terminal.held, hides, "good\n"), fails(terminal.held, shows, "good\n"), fails(terminal.held, hides, "bad\n"),
            fails(terminal.held, f"{hides} # {terminal.PHRASE.strip()}", "good\n")]


def owners():
    """What a trait asks for with a promise, in an impl of that trait; then as a type's own function, in an impl of another trait, and by another name. A
    method and what a public trait asks for are among the functions with clauses, the latter public. A trait's function is wrong where an impl's is."""
    asked = {("Words", "order")}
    impl, head = "impl Words for State {", "    fn order() -> Order {"
    source = "\n".join(["pub trait Words {", "    fn order() -> Order", "        ensures { a };", "}",
                        "impl State {", "    fn own(self)", "        ensures { b }", "    {", "    }", "}", ""])
    name, known = "block::hashing::Words::order", {"Words": {"StateWords"}}
    return [docs.is_asked_for(impl, head, asked), not docs.is_asked_for("impl State {", head, asked),
            not docs.is_asked_for("impl Folded for State {", head, asked), not docs.is_asked_for(impl, head.replace("order", "initial"), asked),
            [(name, head.split()[0]) for name, head in listing.heads(source)] == [("Words::order", "pub"), ("State::own", "fn")],
            refused.is_of("block::kept::StateWords::order", name, known), not refused.is_of("block::kept::State::order", name, known)]


def lists_can_fail(driver):
    """What isn't so of the refusals, of the files to believe, of a quotation, of what is typed, of a program's crates and of a function's owner is found."""
    text, sources = "```rust\nfn one() {}\n```\n", {"rust": ["fn two() {}\nfn one() {}\n"], "edit": []}
    quotations = [not fails(docs.quoted, text, sources), fails(docs.quoted, text.replace("one", "three"), sources),
                  fails(docs.quoted, text.replace("rust", "edit"), sources)]
    crates = {"card": ["text", "check"], "text": ["refusal"], "refusal": [], "other": []}
    counts = [not fails(tools.counted, [("card", "3")], crates), fails(tools.counted, [("card", "4")], crates), fails(tools.counted, [], crates)]
    found = [*refusals(), *beliefs(), *quotations, *typing(), *counts, *owners()]
    if not all(found):
        raise Failed(f"of the {len(found)}, as they should be: {found}")
    return f"{len(found)} cases: what isn't so is reported, and nothing else"


def outcomes():
    """A case in each of its ways, and the status of a run with it: for a person, and where our half alone counts."""
    claim = claims.Claim("a-case", "a package", "a day", "it fails", "we don't")
    ways = [("we don't", "it fails"), ("we don't", None), ("we don't", "it doesn't"), ("we do", "it fails"), ("we do", None)]
    came = [claims.outcome(claim, *way) for way in ways]
    due = [claims.SEEN, claims.PASSED_OVER, claims.NOT_SEEN, claims.FAILED, claims.FAILED]
    return [came == due, [claims.status([each], False) for each in came] == [0, 0, 1, 1, 1],
            [claims.status([each], True) for each in came] == [0, 0, 0, 1, 1]]


def readme_rows():
    """A table that has what is stored, and three that haven't: another figure, a row missing, one too many."""
    rows = [claims.Claim(name, "a package 1", "a day", "it fails", "refused") for name in ("one", "two")]
    lines = [claims.readme_row(row) for row in rows]
    tables = [lines, [lines[0], lines[1].replace("a day", "today")], lines[:1], [*lines, lines[1]]]
    texts = ["\n".join(["before", claims.TABLE, "|---|---|---|---|", *table, "", "after"]) for table in tables]
    return [not fails(compared.held, texts[0], rows), *(fails(compared.held, text, rows) for text in texts[1:])]


def marks():
    """A bound that is met, one met as printed, one that isn't, and an aim that isn't."""
    return ["NOT MET" not in bounds.said(0.99, 1.0), "NOT MET" not in bounds.said(1.004, 1.0), "NOT MET" in bounds.said(1.01, 1.0),
            bounds.said(0.3, 0.5, 0.25) == "0.50, met; aim 0.25, not met", bounds.said(0.2, 0.5, 0.25) == "0.50, met; aim 0.25, met"]


def comparisons_can_fail(driver):
    """What isn't so of the others' programs, of their table and of the benchmark's bounds is found."""
    found = [*outcomes(), *readme_rows(), *marks()]
    if not all(found):
        raise Failed(f"of the {len(found)}, as they should be: {found}")
    return f"{len(found)} cases: what isn't as claimed is reported, and nothing else"
