"""The program `replay`: every call, through the proved crates as they are compiled."""
import collections
import itertools
import random
import re
import subprocess

import extensions
import harness
import model
import offers
import remembered
import scripts
from harness import ROOT, Failed, call
from sections import recorded as kept_scripts
from sections import replies
from sections.passwords import NO_CALLS

PROGRAM = harness.program("replay")
SEEDS = range(60)
MOST = 1 << 20  # bytes of input


def recorded(_driver):
    """The recorded scripts, answered to the byte."""
    kept = list(kept_scripts.scripts())
    for script in kept:
        harness.hold_to(script.lines, harness.asked(PROGRAM, script.lines), script.answers)
    return "; ".join(map(kept_scripts.kinds, kept))


def tally(lines, answers):
    """How often each answer was given, by number; 21, and 31 with two marks or more, by the call that gave it."""
    seen = collections.Counter()
    for line, answer in zip(lines, answers):
        name, words = line.split(" ")[0], answer.split(" ")
        seen[words[1] if words[0] == "no" else words[0]] += 1
        if words[:2] == ["no", "21"]:
            seen["21 by " + name] += 1
        if words[:2] == ["no", "31"] and words[2].count("1") > 1:
            seen["31 with two marks or more by " + name] += 1
    return seen


def hold_to_numbers(seen):
    """Fails if some number of document 01 was never given, 21 by some call that is told an algorithm, or 31 with two marks by some reader."""
    wanted = [*map(str, scripts.NUMBERS), *("21 by " + name for name in scripts.TOLD),
              *("31 with two marks or more by " + name for name in scripts.READING)]
    missing = [number for number in wanted if not seen[number]]
    if missing:
        raise Failed(f"never given: {', '.join(missing)}")


def hold_to_algorithms(accepted):
    """Fails if no login was accepted under some algorithm, read from a text or offered by itself, or no renewal from one to another or to the same."""
    logins = [(name, each, each) for name in ("reply", "offer") for each in model.NAMES]
    wanted = [*logins, *itertools.product(("renew", "init", "orenew"), model.NAMES, model.NAMES)]
    missing = [each for each in wanted if not accepted[each]]
    if missing:
        raise Failed(f"never accepted: {missing}")
    return ", ".join(f"{name} {before} to {after}: {accepted[name, before, after]}" for name, before, after in wanted)


def lines_in(dump):
    """How many ports a dump has in each line, the longest first."""
    accounts = dump.split(" ")[1].removeprefix("A=").split(",")
    lines = [account.split(":")[5] for account in accounts if account != "-"]
    return tuple(sorted((line.count(".") + 1 for line in lines if line != "-"), reverse=True))


def hold_to_lines(seen):
    """Fails if no dump has the four ports in lines in some way, or fewer than a tenth have two lines or more."""
    missing = [way for way in scripts.WAYS if not seen[way]]
    if missing:
        raise Failed(f"never in lines of {missing}")
    several = sum(count for way, count in seen.items() if len(way) > 1)
    if 10 * several < seen.total():
        raise Failed(f"{several} of {seen.total()} dumps with two lines or more")
    return f"{several} of {seen.total()} dumps with two lines or more, " + ", ".join(f"{'+'.join(map(str, way))}: {seen[way]}" for way in scripts.WAYS)


def manner_in(ways):
    """What three in four of the dumps with three ports or more in line have: a line of three, three lines, or neither."""
    waiting = [way for way in ways.elements() if sum(way) > 2]
    if 4 * sum(way[0] > 2 for way in waiting) > 3 * len(waiting):
        return scripts.CROWD
    if 4 * sum(len(way) > 2 for way in waiting) > 3 * len(waiting):
        return scripts.SPREAD
    return scripts.MIX if waiting else None


def hold_to_manners(ways):
    """Fails if the days of some manner don't show it."""
    wrong = [f"{manner}: {manner_in(ways[manner])}" for manner in scripts.MANNERS if manner_in(ways[manner]) != manner]
    if wrong:
        raise Failed(f"manners that aren't as they should be: {', '.join(wrong)}")


def hold_to_ticks(ticked):
    """Fails if no call had as many ticks as a turn, a wait or a shut port takes, while there was one line or while there were more."""
    missing = [each for each in scripts.TICKED if not ticked[each]]
    if missing:
        raise Failed(f"never so many ticks at once, with so many lines: {missing}")
    return ", ".join(f"{long} ticks or more in one line: {ticked[long, 1]}, in several: {ticked[long, 2]}" for long in scripts.LONG)


def each_shown(kinds, seen):
    """Fails if one of these kinds was never shown."""
    missing = [kind for kind in kinds if not seen[kind]]
    if missing:
        raise Failed(f"never shown: {'; '.join(missing)}")
    return ", ".join(f"{kind}: {seen[kind]}" for kind in kinds)


def hold_to_remembered(seen):
    """Each kind of renewal, and of what an account remembers."""
    return each_shown(remembered.KINDS, seen)


def hold_to_extended(seen):
    """Each kind of extended reply, of the challenge's mark and of the writer's calls."""
    return each_shown(extensions.KINDS, seen)


def hold_to_offers(seen):
    """Each kind of reading, of offer, and of the order of the two."""
    return each_shown(offers.KINDS, seen)


def ring_in(seen):
    """How many seeds are in the ring that shows. Round a ring of n, a seed is named again when n - 1 others were taken since, and most seeds that are
    named again are so by going round. The present seed, with none taken since, doesn't count."""
    again = collections.Counter()
    for kind, count in seen.items():
        if found := re.fullmatch(r"(?:63|ok), ([1-9]\d*) back", kind):
            again[int(found[1])] += count
    return again.most_common(1)[0][0] + 1 if again else None


def hold_to_rings(shown):
    """Fails if the days of some ring don't show it."""
    wrong = [f"{ring}: {ring_in(shown[ring])}" for ring in scripts.RINGS if ring_in(shown[ring]) != ring]
    if wrong:
        raise Failed(f"rings that aren't as they should be: {', '.join(wrong)}")


def stored(_driver):
    """rt ci runs the program on its stored script; here the stored answers are held to the model."""
    script, said = ((ROOT / "crates" / "replay" / name).read_bytes().decode() for name in ("stdin", "stdout"))
    lines, answers = [line for line in script.split("\n") if scripts.is_call(line)], said.split("\n")[:-1]
    harness.hold_to(lines, answers, model.replay("\n".join(lines)))
    seen = tally(lines, answers)
    hold_to_numbers(seen)
    return f"{len(lines)} calls, every number of document 01: the stored answers are the model's"


def misread(_driver):
    """Each pattern of misread words, read alone and at a port that has the turn: 31 keeps it, and the table stays as it was."""
    head = [call("enrol", 1, model.MD5, 9, b"dog2", "0" * 16), "join 0 1", "dump"]
    first = model.replay("\n".join(head))
    lines, wanted = [*head], [*first]
    for pattern, text in replies.patterns(random.Random(63), 2):
        if "1" in pattern:
            lines += [call("read", text), call("readplain", text), call("reply", 0, text), call("renew", 0, model.SHA1, 9, b"lift1", "0" * 16, text)]
            wanted += [f"no 31 {pattern}"] * 4
    lines, wanted = [*lines, "dump"], [*wanted, first[-1]]
    harness.hold_to(lines, harness.asked(PROGRAM, lines), wanted)
    return f"{len(lines) - len(head) - 1} calls: marked as the words were made, and the table as it was"


def at_random(driver):
    """Each script on the program; its calls that are in C through the driver too."""
    seen, accepted, ticked, extended, offered = (collections.Counter() for _ in range(5))
    calls, in_c = 0, 0
    ways = {manner: collections.Counter() for manner in scripts.MANNERS}
    shown = {ring: collections.Counter() for ring in scripts.RINGS}
    for seed in SEEDS:
        day = scripts.script(seed)
        found = scripts.differences(PROGRAM, day)
        if found:
            raise Failed(f"script {seed}: {len(found)} answers differ:\n  {found[0][:2000]}")
        answered = list(zip(filter(scripts.is_call, day.lines), day.answers))
        seen += tally(*zip(*answered))
        accepted += day.accepted
        ticked += day.ticked
        ways[day.manner].update(lines_in(answer) for line, answer in answered if line == "dump")
        shown[day.ring] += remembered.kinds_in(*zip(*answered))
        extended += extensions.kinds_in(*zip(*answered))
        offered += offers.kinds_in(*zip(*answered)) + day.hidden
        lines, answers = zip(*[pair for pair in answered if pair[0].split(" ")[0] in harness.IN_C])
        harness.hold_to(lines, harness.asked(driver, lines), answers)
        calls, in_c = calls + len(answered), in_c + len(lines)
    hold_to_numbers(seen)
    hold_to_manners(ways)
    hold_to_rings(shown)
    numbers = ", ".join(f"{number}: {seen[str(number)]}" for number in scripts.NUMBERS)
    return (f"{len(SEEDS)} scripts, {calls} calls, {in_c} of them through the driver too: same answers as the model "
            f"({hold_to_lines(sum(ways.values(), collections.Counter()))}; {hold_to_ticks(ticked)}; accepted, by algorithm, {hold_to_algorithms(accepted)}; "
            f"{hold_to_remembered(sum(shown.values(), collections.Counter()))}; {hold_to_extended(extended)}; {hold_to_offers(offered)}; "
            f"ok: {seen['ok']}, bad: {seen['bad']}, {numbers})")


def printed(stdin):
    """What the program prints for these bytes."""
    done = subprocess.run(harness.runs([PROGRAM]), input=stdin, timeout=60, stdout=subprocess.PIPE, stderr=subprocess.PIPE)
    if done.returncode != 0 or done.stderr:
        raise Failed(f"status {done.returncode}, {done.stderr[:500]} on {stdin[:100]}")
    return done.stdout


def filled(line):
    """The line, and comments up to the longest input."""
    return line + b"#" * (MOST - len(line))


INPUTS = [
    b"", b"\n", b"\n\n\n", b"#", b"# new\n", b"new", b"new\n", b"\nnew", b"new\n\n", b"new\r\n", b"\r\n", b" ", b" \n",
    b"\0", b"\0\n", b"\xff\n", b"dump\ndump", b"tick 60\ndump\n", b"leave 0\nmd5 -\n", b"new\0\n", b"md5 61\0\n",
    b"\n" * MOST, b"#" * MOST, b"x" * MOST, filled(b"new\n"),
    *(filled(name + b" " + b"61" * length + b"\n") for name in model.NAMES.values() for length in (4096, 4097)),
    b"md5 " + b"61" * ((MOST - 4) // 2), b"read " + b"20" * 500000 + b"\n", b"read " + b"3a" * 500000 + b"\n", b"readplain " + b"20" * 500000 + b"\n",
    b"orenew 0 1 9 " + b"61" * 500000 + b" " + b"00" * 8 + b" " + b"00" * 8 + b"\n",
    b"reply 0 " + b"20" * 500000 + b"\n", b"reply 0 " + b"3a" * 500000 + b"\n", b"gen 2 " + b"61" * 200000 + b" " + b"61" * 300000 + b" 1\n",
    b"prog " + b"0a" * 257 + b"\n", b"prog " + b"0a" * 500000 + b"\n", b"#\n" * (MOST // 2), b"new\n" * 5000,
]


def inputs(_driver):
    """From no input to the longest; the model answers each line that there is."""
    for stdin in INPUTS:
        lines = [line for line in stdin.decode("latin-1").split("\n") if scripts.is_call(line)]
        harness.hold_to(lines, printed(stdin).decode().split("\n")[:-1], model.replay("\n".join(lines)))
    for stdin in (b"new\n" * (MOST // 4) + b"\n", b"#" * (MOST + 1), b"\n" * (2 * MOST)):
        if printed(stdin) != b"bad\n":
            raise Failed(f"{len(stdin)} bytes of input are not answered by one `bad`")
    return f"{len(INPUTS)} inputs as the model answers them; 3 of more than 1 MiB: one `bad`"


def no_calls(_driver):
    """Lines that are no call are `bad`, and the table stays as it was."""
    lines = [call("enrol", 1, model.SHA1, 9, b"dog2", "0" * 16), "join 1 1"]
    for line in NO_CALLS + MORE_NO_CALLS:
        lines += [line, "dump"]
    return harness.same_as_model(PROGRAM, lines)


MORE_NO_CALLS = [
    "new 1", "new ", " new", "New", "ne", "newt", "enrol", "enrol 2 1 9 6464", "enrol 2 1 9 6464 0000000000000000 0",
    "enrol 2 1 9 6464 000000000000000", "enrol 2 1 9 6464 00000000000000000", "enrol 2 1 9 6464 000000000000000G",
    "enrol 2 1 9 6464 000000000000000A", "enrol 65536 1 9 6464 0000000000000000", "enrol 2 1 65536 6464 0000000000000000",
    "enrol -1 1 9 6464 0000000000000000", "enrol 2 1 9 646 0000000000000000", "enrol 2 1 9  0000000000000000",
    "enrol 2 256 9 6464 0000000000000000", "enrol 2 sha1 9 6464 0000000000000000", "enrol 2 9 6464 0000000000000000",
    "remove", "remove 65536", "remove x", "remove 0x1", "join 1", "join 1 1 1", "join 65536 1", "join 1  1",
    "leave", "leave -", "leave 1 ", "challenge 1", "challenge 1 8193", "challenge 65536 1", "challenge 1 1.0",
    "reply 1", "reply 1 0", "reply 1 20 ", "reply 1 zz", "renew 1 1 9 6464 0000000000000000",
    "read", "read 2", "read 20 20", "reads 20", "readplain", "readplain 2", "readplain 20 20", "readplain 20 ", "readplai 20", "readplainx 20", "READPLAIN 20",
    "offer", "offer 1", "offer 1 ", "offer 1 -", "offer 1 000000000000000", "offer 1 00000000000000000", "offer 1 000000000000000A",
    "offer 1 000000000000000g", "offer 65536 0000000000000000", "offer -1 0000000000000000", "offer x 0000000000000000", "offer 1 0000000000000000 0",
    "offers 1 0000000000000000", "offe 1 0000000000000000", "offer  1 0000000000000000",
    "orenew", "orenew 1 1 9 6464 0000000000000000", "orenew 1 1 9 6464 0000000000000000 0000000000000000 0", "orenew 1 1 9 6464 0000000000000000 20",
    "orenew 1 1 9 6464 20 0000000000000000", "orenew 1 256 9 6464 0000000000000000 0000000000000000", "orenew 1 1 65536 6464 0000000000000000 0000000000000000",
    "orenew 65536 1 9 6464 0000000000000000 0000000000000000", "orenew 1 1 9 646 0000000000000000 0000000000000000",
    "orenew 1 9 6464 0000000000000000 0000000000000000", "orenew 1 1 9 6464 0000000000000000 -", "orenew 1 1 9 6464 - 0000000000000000",
    "orenews 1 1 9 6464 0000000000000000 0000000000000000", "orenew 1 1 -1 6464 0000000000000000 0000000000000000",
    "renew 1 1 9 6464 - 20", "renew 1 1 9 6464 0000000000000000 2", "renew 1 256 9 6464 0000000000000000 20",
    "renew 1 9 6464 0000000000000000 20", "tick", "tick 100001", "tick -1", "tick 1e3",
    "tick 99999999999999999999999999", "tick 18446744073709551617", "dump 0", "DUMP", "dumps", "prog", "prog 0",
    "words 0 10", "words 0000000000000000", "hex 0000000000000000 8193", "hex - 16", "wchal 1 6464 1", "card - - 1",
    "wext", "wext ", "wext i", "wext init-", "wext hex", "wext init-hex", "wext hex 0000000000000000", "wext  0000000000000000 96",
    "wext - 0000000000000000 96", "wext HEX 0000000000000000 96", "wext words 0000000000000000 96",
    "wext hex 0000000000000000 8193", "wext hex 000000000000000 96",
    "wext hex 0000000000000000 96 ", "wext init-hex 0000000000000000 96", "wext init 0000000000000000 96", "wext init-hexa 0000000000000000 96",
    "wext hex 0000000000000000 1 9 6464 0000000000000000 96", "wext i 0000000000000000 1 9 6464 0000000000000000 96",
    "wext init-word 0000000000000000 256 9 6464 0000000000000000 96", "wext init-word 0000000000000000 1 65536 6464 0000000000000000 96",
    "wext init-word 0000000000000000 1 9 646 0000000000000000 96", "wext init-word 0000000000000000 1 9 6464 000000000000000 96",
    "wext init-word 0000000000000000 1 9 6464 0000000000000000", "wext init-word 0000000000000000 1 9 6464 0000000000000000 96 0",
    "wextx hex 0000000000000000 96", "wext init-word 0000000000000000 1 9 - 0000000000000000 96", "wext hex 0000000000000000 96"]
