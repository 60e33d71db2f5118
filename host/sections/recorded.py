"""The recorded scripts under host/replay: two of the base, base_a and base_b, in today's line format, and two of the state after R-7, r7_a and r7_b.

They stay as they were recorded, with their answers, from a model that isn't ours. Those of R-7 are in today's words; what follows is of the base. R-1 put
the algorithm into some lines and answers, and made `sha1` a known name: what is recorded is put into that form here. R-2 made 31's place into marks: the
recorded place has to be that of the first, and the others are our model's.

At the base one line served the whole controller. What was recorded is right under R-4 as long as all that wait do so for one account, and no longer:
from the join that puts a second account in line until a dump shows at most one there, the recorded answers don't apply, and the calls on the table are
left out, 60 of 1,283 in the one script and 600 of 1,338 in the other. At that dump the recorded table is made anew, by calls of our own with answers of
our own, and held to the dump: 76 calls, 5 times, in the one script and 1,888, 42 times, in the other. The scripts of R-7 have several lines at once.

Where a challenge named sha1, which the base refused, another unknown name of the same length stands for it: 15 calls of the one script
and 14 of the other.

R-5 has an account remember its seeds. No recorded renewal that was accepted takes one back. One of the first script that was wrong names one, and another
seed stands for it, so that the recorded 61 holds. Of what a dump shows now the present seeds were recorded; those before them, 86 in the one script and
16 in the other, are the ones that the recorded enrolments and renewals took, since the account was enrolled or made anew.

R-6 has the table's Challenge write ` ext` before its newline: it is lent four bytes more, and the recorded text has the mark put in. No challenge that was
recorded as read has the mark, and no text that is read or replied has a colon.

R-7 has a text read before the table is looked at. Where the table's refusal was recorded to a text that isn't read, one that is read stands for it, so that
the recorded refusal holds: 20 calls of the one script and 3 of the other, of those that aren't left out. What `read` answers is said to be a password:
`ok P` becomes `ok pw P`.
"""
import collections
import re

import model
from harness import ROOT, Failed, call

# the calls that got an algorithm, and the word in front of which it stands
ALGORITHM_AT = {"gen": 1, "wchal": 1, "enrol": 2, "renew": 2}
# a name that the base refused and R-1 knows; one of the same length that is refused still
SHA1, UNKNOWN = b"otp-sha1".hex(), b"otp-sha0".hex()
# what R-6's Challenge writes before its newline, and the most that a writer is lent
MARK, MOST_ROOM = b" ext", 8192
# a seed, and a text that is read, that no recorded call has
NEW_SEED, NEW_TEXT = b"neverseen".hex(), b"0123456789abcdef".hex()
# of each script of the base: how many calls name it, how many are left out, how many of our own make a table anew, and how many times; of what isn't left
# out, how many calls have a new seed, how many seeds in dumps weren't recorded, and how many calls have a new text
Counted = collections.namedtuple("Counted", "renamed left_out made times reseeded older reworded")
COUNTED = {"base_a": Counted(15, 60, 76, 5, 1, 86, 20), "base_b": Counted(14, 600, 1888, 42, 0, 16, 3)}
# those that are in today's words
TODAY = ("r7_a", "r7_b")
# a script of today, and of its calls how many make a table anew, and how many times
Script = collections.namedtuple("Script", "lines answers made times", defaults=(0, 0))
ON_THE_TABLE = {"new", "enrol", "remove", "join", "leave", "challenge", "reply", "renew", "tick", "dump"}
# an account that no recorded table has, at which ports give wrong replies
HELPER, WRONG = 65534, b"0" * 16

# a recorded dump: (id, seed, count, password) of each account, (wrong run, shut ticks) of each port, (port, id) of each that waits, the turn
Dump = collections.namedtuple("Dump", "accounts ports line turn")


def dump_in(answer):
    parts = [[] if part[2:] == "-" else [entry.split(":") for entry in part[2:].split(",")] for part in answer.split(" ")[1:]]
    accounts, ports, line, turn = parts
    return Dump([(int(id), seed, int(count), password) for id, seed, count, password in accounts],
                [(int(run), int(shut)) for run, shut in ports], [(int(port), int(id)) for port, id in line], int(turn[0][0]))


# today's form


def folded(seed):
    """A seed in hex, in lower case."""
    return bytes.fromhex(seed).lower().hex()


def call_today(line):
    """A call of the base: md5 is its algorithm."""
    words = line.replace(SHA1, UNKNOWN).split(" ")
    if words[0] in ALGORITHM_AT:
        words.insert(ALGORITHM_AT[words[0]], "1")
    if words[0] == "challenge":
        words[2] = str(min(MOST_ROOM, int(words[2]) + len(MARK)))
    return " ".join(words)


def seeds_today(id, seed, seeds):
    """What the account remembers, newest first; the newest was recorded."""
    if seeds[id][0] != seed:
        raise Failed(f"account {id}: {seeds[id]}, and the seed that was recorded is {seed}")
    return "/".join(seeds[id])


def dump_today(dump, seeds):
    """All that wait do so for one account."""
    lines = {id: ".".join(str(port) for port, _ in dump.line) + f":{dump.turn}" for _, id in dump.line}
    accounts = ",".join(f"{id}:1:{count}:{password}:{seeds_today(id, seed, seeds)}:{lines.get(id, '-:0')}" for id, seed, count, password in dump.accounts)
    return f"ok A={accounts or '-'} P=" + ",".join(f"{run}:{shut}" for run, shut in dump.ports)


def marks_today(text, place):
    """31's marks for a text in hex, of which the first was recorded by its place."""
    marks = model.marks_of(bytes.fromhex(text).decode().upper().split())
    if marks.find("1") + 1 != int(place):
        raise Failed(f"{text}: {marks}, and the place that was recorded is {place}")
    return marks


def marked(words):
    """The answer of a Challenge, with the mark in its text."""
    text = bytes.fromhex(words[2])[:-1] + MARK + b"\n"
    return ["ok", str(len(text)), text.hex(), *words[3:]]


def answer_today(line, answer, seeds):
    """The answer that was recorded to that call; `seeds` has what each account remembers then."""
    name, words = line.split(" ")[0], answer.split(" ")
    if words[:2] == ["no", "31"]:
        words[2] = marks_today(line.split(" ")[-1], words[2])
    if name == "read" and words[0] == "ok":
        words = ["ok", "pw", words[1]]
    if name == "chal" and words[0] == "ok":
        words = ["ok", "1", *words[1:], "0"]
    if name == "challenge" and words[0] == "ok":
        words = marked(words)
    return dump_today(dump_in(answer), seeds) if name == "dump" else " ".join(words)


# a recorded table, made anew


def can_be_made(dump):
    """At most one account is waited for, it isn't used up, and no port was shut since its front's turn began."""
    waited = {id for _, id in dump.line}
    used_up = {id for id, _, count, _ in dump.accounts if count == 1}
    return len(waited) < 2 and not waited & used_up and all(900 - shut >= passed(dump) for _, shut in dump.ports if shut)


def passed(dump):
    """The ticks since the turn began."""
    return 60 - dump.turn if dump.line else 0


def used_up(id, seed, password):
    """An account at count 1, by its last reply."""
    stored = model.hashed_once(model.MD5, int(password, 16))
    return [(f"enrol {id} 1 2 {seed} {stored:016x}", "ok"), (f"join 0 {id}", "ok"), (call("reply", 0, password.encode()), "ok 1")]


def wrong(port, answers):
    """Wrong replies of a port, with these answers."""
    for answer in answers:
        yield from [(f"join {port} {HELPER}", "ok"), (call("reply", port, WRONG), answer)]


def records(dump):
    """The ports' records, up to the ticks since the turn began: those shut first have the fewest ticks left."""
    shut = sorted((ticks, port) for port, (_, ticks) in enumerate(dump.ports) if ticks)
    until = [ticks for ticks, _ in shut[1:]] + [900 - passed(dump)]
    for (ticks, port), next_ticks in zip(shut, until):
        yield from wrong(port, ["no 61", "no 61", "no 62"])
        yield f"tick {next_ticks - ticks}", "ok"
    for port, (run, _) in enumerate(dump.ports):
        yield from wrong(port, ["no 61"] * run)


def made(dump):
    """Calls that make this table, with their answers."""
    yield "new", "ok"
    for id, seed, count, password in dump.accounts:
        if count == 1:
            yield from used_up(id, seed, password)
    yield f"enrol {HELPER} 1 9 61 {'0' * 16}", "ok"
    yield from records(dump)
    yield f"remove {HELPER}", "ok"
    yield from ((f"enrol {id} 1 {count} {seed} {password}", "ok") for id, seed, count, password in dump.accounts if count > 1)
    yield from ((f"join {port} {id}", "ok") for port, id in dump.line)
    yield f"tick {passed(dump)}", "ok"


# what of a script applies


def waiting_after(waiting, line, answer):
    """Which account each port waits for, by what is recorded. Who may or may not have lost the turn by a tick counts until the next dump."""
    name, *words = line.split(" ")
    left = answer == "ok" if name == "leave" else name in ("reply", "renew") and (answer[:2] == "ok" or answer in ("no 61", "no 62"))
    if name == "dump":
        return dict(dump_in(answer).line)
    if name == "join" and answer == "ok":
        return {**waiting, int(words[0]): int(words[1])}
    if name == "tick" and int(words[0]) >= 60 * len(waiting):
        return {}
    return {port: id for port, id in waiting.items()
            if not (left and port == int(words[0])) and not (name == "remove" and answer == "ok" and id == int(words[0]))}


def seeds_after(seeds, waiting, line, answer):
    """What each account remembers, newest first, by the enrolments and renewals that are recorded as accepted."""
    name, *words = line.split(" ")
    if name == "enrol" and answer == "ok":
        return {**seeds, int(words[0]): [folded(words[2])]}
    if name == "renew" and answer[:2] == "ok":
        id = waiting[int(words[0])]
        return {**seeds, id: [folded(words[2]), *seeds[id]][:8]}
    return seeds


def reseeded(seeds, waiting, line, answer):
    """A renewal that was wrong or wasn't read, of which the seed changes nothing: another one for a seed that is remembered."""
    name, *words = line.split(" ")
    if name == "renew" and re.match("no (3[0-3]|6[12])", answer) and folded(words[2]) in seeds[waiting[int(words[0])]]:
        words[2] = NEW_SEED
    return " ".join([name, *words])


def is_read(text):
    try:
        model.read_plain(text)
    except model.Refused:
        return False
    return True


def reworded(line, answer):
    """A refusal of the table's, to a text that isn't read: one for it that is, and for which the table refuses as it did."""
    name, *words = line.split(" ")
    if name in ("reply", "renew") and re.match("no (?!3[0-3]|6[12])", answer) and not is_read(model.text_in(words[-1])):
        words[-1] = NEW_TEXT
    return " ".join([name, *words])


def followed(lines, answers):
    """Each call with its answer, whether the recorded table is there once it is answered, whether it is made anew for it, and what the accounts remember."""
    waiting, seeds, applies = {}, {}, True
    for line, answer in zip(lines, answers, strict=True):
        today = reworded(reseeded(seeds, waiting, line, answer), answer)
        seeds, waiting = seeds_after(seeds, waiting, line, answer), waiting_after(waiting, line, answer)
        applies = applies and len(set(waiting.values())) < 2
        anew = not applies and line == "dump" and can_be_made(dump_in(answer))
        if anew:
            applies, seeds = True, {id: [seed] for id, seed, *_ in dump_in(answer).accounts}
        yield today, answer, applies, anew, seeds


def applying(lines, answers):
    """For each call that applies, those that make the table before it, where it wasn't there, and the call itself, each with its answer of today."""
    for line, answer, applies, anew, seeds in followed(lines, answers):
        if applies or line.split(" ")[0] not in ON_THE_TABLE:
            yield [*made(dump_in(answer))] if anew else [], (call_today(line), answer_today(line, answer, seeds))


def recorded(name):
    """A script's calls and its answers."""
    return ((ROOT / "host" / "replay" / f"{name}.{kind}").read_text().splitlines() for kind in ("calls", "answers"))


def of_the_base(name, due):
    """A script of the base, as its calls and answers of today."""
    lines, answers = recorded(name)
    ours, kept = zip(*applying(lines, answers))
    counted = Counted(sum(SHA1 in line for line in lines), len(lines) - len(kept), sum(map(len, ours)), sum(map(bool, ours)),
                      sum(NEW_SEED in line for line, _ in kept), sum(answer.count("/") for _, answer in kept),
                      sum(NEW_TEXT in line for line, _ in kept))
    if counted != due:
        raise Failed(f"{name}: {counted}, not {due}")
    return Script(*zip(*(pair for before, each in zip(ours, kept) for pair in [*before, each])), due.made, due.times)


def scripts():
    """Each script in today's words."""
    yield from (of_the_base(*each) for each in COUNTED.items())
    yield from (Script(*recorded(name)) for name in TODAY)


def kinds(script):
    """How many of its answers were recorded, and how many calls are our own."""
    anew = f" and {script.made:,} calls that make a table anew, {script.times} times" if script.made else ""
    return f"{len(script.lines) - script.made:,} recorded answers{anew}"
