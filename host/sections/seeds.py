"""R-5's sentences, each as a scene on the model and on the program `replay`, with answers by hand from document 02.

The accounts, and the lines of their cards, are those of lines.py. A renewal gives an account the count and the password that it has, so that one
line of the card is right for all of them; a table doesn't know which seed a password was made with. One renewal alone gives account 8 those of
account 7, and what follows it there is refused. The other accounts that are renewed were enrolled with account 7's count and password.
"""
import collections

import harness
import model
import remembered
from harness import call
from model import MD5, SHA1
from sections.lines import EIGHT, NO_PASSWORD, SEVEN, START, STORED_7, WORDS_7, WORDS_8, WRONG, asked, good, shown
from sections.replay import PROGRAM, hold_to_remembered

FIRST = b"avalidseed"
LIFTS = [b"lift%d" % number for number in range(1, 9)]
NEWEST_FIRST = [*LIFTS[::-1], FIRST]
LONG, UNKNOWN, UNSUMMED = b" " * 129, b"FOWL KIO MASH DEAD DUAL OAF", b"FOWL KID MASH DEAD DUAL OAK"


def renewed(seed, answer="ok 100", port=0, algorithm=MD5, count=100, text=WORDS_7):
    """A renewal with the count, the password and the line of account 7, of the account that the port joined; mostly it is account 7."""
    return call("renew", port, algorithm, count, seed, SEVEN, text), answer


def taken(*seeds):
    """Renewals of account 7, one after the other."""
    return [pair for seed in seeds for pair in [*good("join 0 7"), renewed(seed)]]


def refused(*seeds):
    """Renewals by port 0, each naming a seed that the account remembers; the turn is kept."""
    return [renewed(seed, "no 63") for seed in seeds]


def listed(seeds):
    return "/".join(seed.hex() for seed in seeds)


def seven_with(*seeds, line="-:0"):
    return f"7:{MD5}:100:{SEVEN}:{listed(seeds)}:{line}"


def eight_with(*seeds, line="-:0"):
    return f"8:{SHA1}:99:{EIGHT}:{listed(seeds)}:{line}"


def both(*seeds, line="-:0", ports="0:0,0:0,0:0,0:0"):
    """Account 7 with these seeds, and account 8 as it was enrolled."""
    return shown(seven_with(*seeds, line=line), eight_with(b"test"), ports=ports)


SCENES = {
    "an account begins with one seed, in lower case": [
        both(FIRST), *good("join 0 7"), renewed(b"Lift1"), both(b"lift1", FIRST), *good("join 1 7"), asked(1, b"otp-md5 99 lift1 ext\n")],
    "from lift1 to lift2 and back: 63, and the turn and the challenge are as they were": [
        *taken(b"lift1", b"lift2"), *good("join 0 7", "tick 20"), *refused(b"lift1"), both(b"lift2", b"lift1", FIRST, line="0:40"),
        asked(0, b"otp-md5 99 lift2 ext\n"), (call("reply", 0, WORDS_7), "ok 99")],
    "eight are remembered, newest first; after eight renewals the first is free, and the ninth takes it": [
        *(pair for number in range(1, 8) for pair in [*taken(LIFTS[number - 1]), both(*NEWEST_FIRST[8 - number:])]),
        *good("join 0 7"), *refused(FIRST, *LIFTS[:7]), both(*NEWEST_FIRST[1:], line="0:60"),
        renewed(b"lift8"), both(*LIFTS[::-1]), *good("join 0 7"), *refused(*LIFTS), renewed(FIRST), both(FIRST, *LIFTS[:0:-1]),
        *good("join 0 7"), *refused(b"lift2", FIRST), renewed(b"lift1"), both(b"lift1", FIRST, *LIFTS[:1:-1])],
    "a seed that was forgotten for longer": [
        *taken(*LIFTS, b"lift9", FIRST), both(FIRST, b"lift9", *LIFTS[:1:-1]), *taken(b"lift1"), both(b"lift1", FIRST, b"lift9", *LIFTS[:2:-1])],
    "case is folded, in what is remembered and in what is new": [
        *good("join 0 7"), renewed(b"LIFT1"), *taken(b"Lift2"), *good("join 0 7"),
        *refused(b"lift1", b"LIFT1", b"lIfT1", b"AVALIDSEED", b"LIFT2"), both(b"lift2", b"lift1", FIRST, line="0:60")],
    "whatever the algorithm: a seed of md5 isn't free for sha1, nor the other way round": [
        *taken(b"lift1"), *good("join 0 7"), renewed(FIRST, "no 63", algorithm=SHA1), renewed(b"lift1", "no 63", algorithm=SHA1),
        *good("join 1 8"), (call("renew", 1, SHA1, 99, b"lift1", EIGHT, WORDS_8), "ok 99"), *good("join 1 8"),
        (call("renew", 1, MD5, 99, b"test", EIGHT, WORDS_8), "no 63"), (call("renew", 1, MD5, 100, b"lift2", SEVEN, WORDS_8), "ok 100"),
        *good("join 1 8"), *(renewed(seed, "no 63", 1, algorithm) for seed in (b"Test", b"lift1", b"lift2") for algorithm in (MD5, SHA1)),
        shown(seven_with(b"lift1", FIRST, line="0:60"), f"8:{MD5}:100:{SEVEN}:{listed([b'lift2', b'lift1', b'test'])}:1:60")],
    "a wrong renewal remembers nothing, the third in a row neither": [
        *good("join 0 7"), renewed(b"lift1", "no 61", text=WRONG), both(FIRST, ports="1:0,0:0,0:0,0:0"), *taken(b"lift1"),
        *(pair for answer in ("no 61", "no 61", "no 62") for pair in [*good("join 1 7"), renewed(b"lift2", answer, 1, text=WORDS_8)]),
        both(b"lift1", FIRST, ports="0:0,0:900,0:0,0:0"), *taken(b"lift2"), both(b"lift2", b"lift1", FIRST, ports="0:0,0:900,0:0,0:0")],
    "a refused renewal remembers nothing": [
        renewed(b"lift1", "no 55", 4), renewed(b"lift1", "no 59"), *good("join 0 7", "join 1 7"), renewed(b"lift1", "no 60", 1),
        renewed(b"lift1", "no 51", count=1), renewed(b"lift1", "no 51", count=10000), renewed(b"lift1", "no 21", algorithm=3),
        renewed(b"lift1", "no 30", text=LONG), renewed(b"lift1", "no 31 010000", text=UNKNOWN), renewed(b"lift1", "no 32", text=UNSUMMED),
        renewed(b"lift1", "no 33", text=NO_PASSWORD), both(FIRST, line="0.1:60"), renewed(b"lift1"), both(b"lift1", FIRST, line="1:60")],
    "nor does 63 keep a seed for longer": [
        *taken(*LIFTS[:7]), *good("join 0 7"), *refused(FIRST, FIRST, b"lift3"), renewed(b"lift8"), *taken(FIRST), both(FIRST, *LIFTS[:0:-1])],
    "63 stands behind 51, 21, 23 and 24; all that is said of the text comes before them, but whether it is right": [
        *taken(b"lift1"), *good("join 0 7", "join 1 7"), renewed(FIRST, "no 60", 1), renewed(FIRST, "no 51", algorithm=3, count=1),
        renewed(FIRST, "no 21", algorithm=3), renewed(FIRST + b"1234567", "no 23"), renewed(FIRST + b"_", "no 24"), renewed(b"", "no 23"),
        *(renewed(FIRST, answer, text=text) for text, answer in ((LONG, "no 30"), (UNKNOWN, "no 31 010000"), (UNSUMMED, "no 32"), (NO_PASSWORD, "no 33"),
                                                                 (b"", "no 33"), (WRONG, "no 63"), (WORDS_7, "no 63"))), both(b"lift1", FIRST, line="0.1:60")],
    "another seed is one that begins with a remembered one, or that a remembered one begins with": [
        *taken(b"lift1", b"lift12", b"lift", b"l", b"ift1", b"lift1lift1lift12", b"lift1lift1lift1"), *good("join 0 7"), renewed(b"lift1lift1lift13"),
        both(b"lift1lift1lift13", b"lift1lift1lift1", b"lift1lift1lift12", b"ift1", b"l", b"lift", b"lift12", b"lift1")],
    "replies, turns that run out and other accounts' renewals change nothing of it": [
        *taken(b"lift1"), *good("join 0 7"), (call("reply", 0, WORDS_7), "ok 99"), *good("join 0 7", "tick 60", "join 1 8"),
        (call("renew", 1, SHA1, 99, b"lift2", EIGHT, WORDS_8), "ok 99"), *good("join 0 7"), *refused(FIRST, b"lift1"),
        shown(f"7:{MD5}:99:{STORED_7}:{listed([b'lift1', FIRST])}:0:60", eight_with(b"lift2", b"test"))],
    "each account remembers its own seeds": [
        *taken(b"lift1", b"test"), *good("join 1 8"), (call("renew", 1, SHA1, 99, b"lift1", EIGHT, WORDS_8), "ok 99"), *good("join 1 8"),
        (call("renew", 1, SHA1, 99, FIRST, EIGHT, WORDS_8), "ok 99"), shown(seven_with(b"test", b"lift1", FIRST), eight_with(FIRST, b"lift1", b"test")),
        *good("join 1 8"), (call("renew", 1, SHA1, 99, b"Test", EIGHT, WORDS_8), "no 63"), *good("join 0 7"), *refused(FIRST)],
    "two accounts with eight each": [
        *taken(*LIFTS[:7]), *(pair for seed in LIFTS for pair in [*good("join 1 8"), (call("renew", 1, SHA1, 99, seed, EIGHT, WORDS_8), "ok 99")]),
        shown(seven_with(*NEWEST_FIRST[1:]), eight_with(*LIFTS[::-1])), *good("join 0 7"), *refused(FIRST, b"lift4"), renewed(b"test"),
        shown(seven_with(b"test", *LIFTS[6::-1]), eight_with(*LIFTS[::-1]))],
    "Remove forgets them": [
        *taken(b"lift1", b"lift2"), *good("remove 7", call("enrol", 7, MD5, 100, b"lift1", SEVEN)), both(b"lift1"),
        *taken(FIRST, b"lift2"), both(b"lift2", FIRST, b"lift1")],
    "an account has nothing of the one whose room it has": [
        *good(*(f"enrol {id} 1 9 61 {'0' * 16}" for id in range(100, 130))), *taken(*LIFTS[:3]),
        *good("remove 7", call("enrol", 6, MD5, 100, b"lift5", SEVEN)), ("enrol 99 1 9 61 0000000000000000", "no 53"),
        *(pair for seed in (FIRST, b"lift1", b"lift2") for pair in [*good("join 0 6"), renewed(seed)]), *good("join 0 6"), *refused(b"lift5"),
        shown(f"6:{MD5}:100:{SEVEN}:{listed([b'lift2', b'lift1', FIRST, b'lift5'])}:0:60", eight_with(b"test"),
              *(f"{id}:1:9:{'0' * 16}:61:-:0" for id in range(100, 130)))],
    "a fresh table remembers nothing": [
        *taken(*LIFTS[:7]), *START, *taken(b"lift7", b"lift3"), both(b"lift3", b"lift7", FIRST)],
}


IDS = range(1, 33)


def own(id, number):
    """A seed of sixteen characters that no other account has."""
    return b"account%03dseed%02d" % (id, number)


def all_shown(newest):
    """32 accounts, each with eight seeds of its own."""
    return shown(*(f"{id}:{MD5}:100:{SEVEN}:{listed(own(id, newest - back) for back in range(8))}:-:0" for id in IDS))


def full():
    """The most that a table remembers: 32 accounts are renewed in turn, eight times; each refuses its own last eight, and takes its own first."""
    yield "new", "ok"
    yield from ((call("enrol", id, MD5, 100, own(id, 0), SEVEN), "ok") for id in IDS)
    for number in range(1, 9):
        for id in IDS:
            yield from [*good(f"join 0 {id}"), renewed(own(id, number))]
        if number > 6:
            yield all_shown(number)
    for id in IDS:
        yield from [*good(f"join 0 {id}"), *refused(*(own(id, number) for number in range(1, 9))), renewed(own(id, 0))]
        yield from [*good(f"join 0 {id}"), *refused(own(id, 0), own(id, 2)), renewed(own(id % 32 + 1, 8))]


def held(pairs):
    """The model and the program give these answers. Hands back which kinds they show."""
    lines, answers = zip(*pairs)
    harness.hold_to(lines, model.replay("\n".join(lines)), answers)
    harness.hold_to(lines, harness.asked(PROGRAM, lines), answers)
    return remembered.kinds_in(lines, answers)


def sentences(_driver):
    """Each scene begins with the two accounts; all together show each kind that the random scripts have to show. Then the full table."""
    hold_to_remembered(sum((held([*START, *scene]) for scene in SCENES.values()), collections.Counter()))
    held(largest := [*full()])
    return f"{len(SCENES)} scenes, {sum(map(len, SCENES.values()))} calls, and {len(largest)} on a full table, on the model and on the program"
