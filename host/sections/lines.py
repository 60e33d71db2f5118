"""R-4's sentences, each as a scene on the model and on the program `replay`, with answers by hand from document 02.

Account 7 has document 01's card at count 100, so that the line for count 99 is asked for; account 8 has that of RFC 2289, Appendix C,
for `TeSt` under SHA-1 at count 99. Two passwords are the model's: account 7's at count 100, which is the hash of document 01's for
99, and account 8's at count 98, of which the RFC's for 99 is the hash.
"""
import harness
import model
from harness import call
from model import MD5, SHA1
from sections.replay import PROGRAM

SEVEN, EIGHT = "5bbf1b9685bd80a2", "87fec7768b73ccf9"
START = [("new", "ok"), (call("enrol", 7, MD5, 100, b"AValidSeed", SEVEN), "ok"), (call("enrol", 8, SHA1, 99, b"TeSt", EIGHT), "ok")]
# the line of either card that is asked for first, and what is stored once it is accepted
WORDS_7, STORED_7 = b"FOWL KID MASH DEAD DUAL OAF", "85c43ee03857765b"
WORDS_8, STORED_8 = b"PIE NELL COCK FELT SWAM SEA", "33d865a2bf9e5e76"
NO_PASSWORD, WRONG = b"?", b"0000 0000 0000 0000"


def seven(line, turn, count=100, password=SEVEN):
    return f"7:{MD5}:{count}:{password}:{b'avalidseed'.hex()}:{line}:{turn}"


def eight(line, turn, count=99, password=EIGHT):
    return f"8:{SHA1}:{count}:{password}:{b'test'.hex()}:{line}:{turn}"


def nine(line, turn):
    """An account that document 01's card used up."""
    return f"9:{MD5}:1:{STORED_7}:{b'avalidseed'.hex()}:{line}:{turn}"


def shown(*accounts, ports="0:0,0:0,0:0,0:0"):
    """The table that a dump shows."""
    return "dump", f"ok A={','.join(accounts)} P={ports}"


def good(*calls):
    return [(line, "ok") for line in calls]


def asked(port, text):
    """A challenge, with room for no byte more."""
    return call("challenge", port, len(text)), f"ok {len(text)} {text.hex()} clean"


SCENES = {
    "two technicians with two accounts don't wait for each other, and a tick lowers both turns": [
        *good("join 0 7", "join 1 8"), shown(seven("0", 60), eight("1", 60)),
        asked(0, b"otp-md5 99 avalidseed ext\n"), asked(1, b"otp-sha1 98 test ext\n"),
        *good("tick 10"), shown(seven("0", 50), eight("1", 50)),
        (call("reply", 1, WORDS_8), "ok 98"), shown(seven("0", 50), eight("-", 0, 98, STORED_8)),
        (call("reply", 0, WORDS_7), "ok 99"), shown(seven("-", 0, 99, STORED_7), eight("-", 0, 98, STORED_8))],
    "four ports may have four turns, and none of the calls of one changes the others'": [
        *good("enrol 9 1 9 61 0000000000000000", "enrol 10 1 9 61 0000000000000000", "join 0 7", "tick 1", "join 1 8", "tick 1", "join 2 9", "tick 1"),
        *good("join 3 10"), shown(seven("0", 57), eight("1", 58), "9:1:9:0000000000000000:61:2:59", "10:1:9:0000000000000000:61:3:60"),
        *good("leave 2", "remove 10"), shown(seven("0", 57), eight("1", 58), "9:1:9:0000000000000000:61:-:0"),
        *good("tick 57"), shown(seven("-", 0), eight("1", 1), "9:1:9:0000000000000000:61:-:0")],
    "a port is in one line at most": [
        *good("join 0 7"), ("join 0 8", "no 56"), ("join 0 7", "no 56"), shown(seven("0", 60), eight("-", 0)),
        *good("leave 0", "join 0 8"), shown(seven("-", 0), eight("0", 60)), ("join 0 9", "no 54"), ("join 0 7", "no 56")],
    "Remove empties that account's line, and no other": [
        *good("join 0 7", "join 1 8", "join 2 7", "tick 20"), shown(seven("0.2", 40), eight("1", 40)),
        *good("remove 7"), shown(eight("1", 40)), ("leave 0", "no 59"), ("challenge 2 64", "no 59 clean"),
        *good("join 2 8"), shown(eight("1.2", 40)), (call("enrol", 7, MD5, 100, b"AValidSeed", SEVEN), "ok"), shown(seven("-", 0), eight("1.2", 40))],
    "60 is for who isn't in front of its own line": [
        *good("join 3 7", "join 1 8", "join 2 7", "join 0 8"), ("challenge 2 64", "no 60 clean"), (call("reply", 0, WORDS_8), "no 60"),
        (call("renew", 0, MD5, 9, b"lift1", "0" * 16, WORDS_8), "no 60"), asked(3, b"otp-md5 99 avalidseed ext\n"), asked(1, b"otp-sha1 98 test ext\n"),
        shown(seven("3.2", 60), eight("1.0", 60)), *good("leave 1"), shown(seven("3.2", 60), eight("0", 60)),
        ("challenge 2 64", "no 60 clean"), (call("reply", 0, WORDS_8), "ok 98")],
    "the next in one line starts at 60, and the other line's turn goes on": [
        *good("join 0 7", "tick 10", "join 1 8", "join 2 7", "tick 49"), shown(seven("0.2", 1), eight("1", 11)),
        *good("tick 1"), shown(seven("2", 60), eight("1", 10)), *good("tick 10"), shown(seven("2", 50), eight("-", 0)),
        *good("join 3 7", "leave 2"), shown(seven("3", 60), eight("-", 0)),
        *good("join 0 7", "join 1 8", "tick 15", "leave 0"), shown(seven("3", 45), eight("1", 45))],
    "a turn by the 180th tick in a line of four, and at once in a line of its own": [
        *good("join 0 7", "join 1 7", "join 2 7", "join 3 7", "tick 179"), shown(seven("2.3", 1), eight("-", 0)), ("challenge 3 64", "no 60 clean"),
        *good("tick 1"), shown(seven("3", 60), eight("-", 0)), asked(3, b"otp-md5 99 avalidseed ext\n"),
        *good("join 0 7", "join 1 7", "tick 30", "join 2 8"), shown(seven("3.0.1", 30), eight("2", 60)), (call("reply", 2, WORDS_8), "ok 98")],
    "a wrong reply leaves its own line, and the port is shut for every account": [
        *good("join 0 7", "join 1 8", "join 2 8", "tick 5"), (call("reply", 1, WORDS_7), "no 61"),
        shown(seven("0", 55), eight("2", 60), ports="0:0,1:0,0:0,0:0"), *good("join 1 7"), (call("reply", 1, WRONG), "no 60"),
        *good("leave 0"), (call("reply", 1, NO_PASSWORD), "no 33"), (call("reply", 1, WRONG), "no 61"),
        *good("join 1 7"), (call("reply", 1, WORDS_8), "no 62"), shown(seven("-", 0), eight("2", 60), ports="0:0,0:900,0:0,0:0"),
        ("join 1 7", "no 57"), ("join 1 8", "no 57"), (call("reply", 2, WORDS_8), "ok 98"),
        *good("tick 900", "join 1 8"), shown(seven("-", 0), eight("1", 60, 98, STORED_8))],
    "who finds the account used up at its turn stays in line, and 60 comes before 58": [
        *good(call("enrol", 9, MD5, 2, b"AValidSeed", SEVEN), "join 0 9", "join 1 9", "join 2 9"), (call("reply", 0, WORDS_7), "ok 1"),
        ("join 0 9", "no 58"), ("challenge 1 64", "no 58 clean"), (call("reply", 1, NO_PASSWORD), "no 33"), (call("reply", 1, WRONG), "no 58"),
        (call("renew", 1, MD5, 9, b"lift1", "0" * 16, WORDS_7), "no 58"), ("challenge 2 64", "no 60 clean"), (call("reply", 2, WRONG), "no 60"),
        (call("renew", 2, MD5, 9, b"lift1", "0" * 16, WORDS_7), "no 60"), shown(seven("-", 0), eight("-", 0), nine("1.2", 60)),
        *good("tick 10", "leave 1"), shown(seven("-", 0), eight("-", 0), nine("2", 60)), ("challenge 2 64", "no 58 clean"),
        (call("reply", 2, WRONG), "no 58"), *good("tick 59"), shown(seven("-", 0), eight("-", 0), nine("2", 1)),
        *good("tick 1"), shown(seven("-", 0), eight("-", 0), nine("-", 0))],
    "a renewal keeps the account's line": [
        *good("join 0 7", "join 1 7", "join 2 8", "tick 3"), (call("renew", 0, SHA1, 9, b"Lift1", "0" * 16, WORDS_7), "ok 9"),
        shown(f"7:{SHA1}:9:{'0' * 16}:{b'lift1'.hex()}/{b'avalidseed'.hex()}:1:60", eight("2", 57)), asked(1, b"otp-sha1 8 lift1 ext\n")],
}


def sentences(_driver):
    """Each scene begins with the two accounts and nobody in line."""
    for scene in SCENES.values():
        lines, answers = zip(*START, *scene)
        harness.hold_to(lines, model.replay("\n".join(lines)), answers)
        harness.hold_to(lines, harness.asked(PROGRAM, lines), answers)
    return f"{len(SCENES)} scenes, {sum(map(len, SCENES.values()))} calls on the model and on the program"
