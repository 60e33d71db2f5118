"""The host tests: `python3 host/test.py`, after `rt ci`, whose words `make test` keeps in target/ci.log.

Builds the archive of the exported functions and the C programs over it, and
runs each section below, a line each. Any failure ends it with status 1. With
an argument it tests that archive and builds none.
"""
import pathlib
import subprocess
import sys
import time

sys.dont_write_bytecode = True

import harness  # noqa: E402
from sections import believed, cards, challenges, commands, compared, docs, extended_replies, house, lines, numbers, paper  # noqa: E402
from sections import passwords, promises, read_first, refused, replay, replies, seeds, selftest, terminal, tools  # noqa: E402

SECTIONS = [
    ("comparison can fail", selftest.comparison_can_fail),
    ("reading of refusals can fail", selftest.refusals_can_fail),
    ("comparison of the gate's commands can fail", selftest.gate_can_fail),
    ("checks of what a run covers can fail", selftest.coverage_can_fail),
    ("checks of the house can fail", selftest.house_can_fail),
    ("checks of the lists can fail", selftest.lists_can_fail),
    ("comparisons with others can fail", selftest.comparisons_can_fail),
    ("document 01's examples", paper.examples),
    ("recorded scripts", paper.scripts),
    ("RFC 2289, Appendix C", passwords.appendix_c),
    ("Appendix C as the program vectors prints it", passwords.stored_rows),
    ("digests at random", passwords.digests_at_random),
    ("generator at random", passwords.generator_at_random),
    ("lines that are no call", passwords.lines_that_are_no_call),
    ("Appendix C as words and hex", replies.appendix_c),
    ("every word at each place", replies.every_word),
    ("each pattern of misread words", replies.each_pattern),
    ("replies at random and damaged", replies.replies_at_random),
    ("words and hex at every room", replies.writers_at_every_room),
    ("challenges at random and damaged", challenges.challenges_at_random),
    ("algorithms that aren't known", challenges.unknown_algorithms),
    ("challenge writer at every room", challenges.writer_at_every_room),
    ("challenges written and read", challenges.written_reads_back),
    ("extended replies at every room", extended_replies.writer_at_every_room),
    ("cards of every length", cards.cards_of_every_length),
    ("cards at random", cards.cards_at_random),
    ("program card", cards.program),
    ("program replay on the recorded scripts", replay.recorded),
    ("program replay's stored script", replay.stored),
    ("program replay on its inputs", replay.inputs),
    ("program replay on lines that are no call", replay.no_calls),
    ("program replay on misread words", replay.misread),
    ("a line for each account", lines.sentences),
    ("the last eight seeds", seeds.sentences),
    ("extended replies", extended_replies.sentences),
    ("extended replies written and taken", extended_replies.written_reads_back),
    ("extended replies at random and damaged", extended_replies.texts_at_random),
    ("read first, offer afterwards", read_first.sentences),
    ("days read first, offered afterwards", read_first.days),
    ("program replay at random", replay.at_random),
    ("uses in crates.txt", house.uses),
    ("layers in README.md", house.layers),
    ("one name for one thing", house.words),
    ("imports and long lines", house.layout),
    ("what docs/PROMISES.md names", promises.page),
    ("files to believe in docs/PROMISES.md", believed.page),
    ("the list of refusals", numbers.page),
    ("the must-fail edits' logs", refused.page),
    ("figures in README.md", docs.figures),
    ("the table of others' programs", compared.table),
    ("the gate's command", commands.same_gate),
    ("ways to call make", commands.makes),
    ("tools that are missing", tools.missing),
    ("crates as they are proved", tools.progress),
    ("crates of a program", tools.needed),
    ("how a program is started", tools.processors),
    ("quotations in the documents", docs.quotes),
    ("what the guide has typed at a terminal", terminal.typed_by_hand),
    ("commands in the documents", docs.commands),
]


def said_of(name, section, *given):
    """Runs one section; whether it passed."""
    started = time.monotonic()
    try:
        outcome, passed = section(*given), True
    except (harness.Failed, OSError, subprocess.SubprocessError) as failure:
        outcome, passed = f"FAILED: {failure}", False
    print(f"host: {name}: {outcome} ({time.monotonic() - started:.1f} s)", flush=True)
    return passed


def boundary(library):
    """The C test of each exported function, with what sanitizers there are."""
    sources = [*sorted((harness.ROOT / "host").glob("boundary*.c")), "host/lend.c"]
    program = harness.build("boundary", sources, library, harness.SANITIZERS)
    return harness.run([program]).strip().replace("\n", "; ")


def main(arguments):
    try:
        library = pathlib.Path(arguments[0]).resolve() if arguments else harness.archive()
        driver = harness.build("driver", ["host/driver.c", "host/lend.c"], library, ["-O2"])
    except harness.Failed as failure:
        print(f"host: FAILED to build: {failure}")
        return 1
    passed = [said_of(f"C boundary ({harness.SANITIZED})", boundary, library)]
    passed += [said_of(name, section, driver) for name, section in SECTIONS]
    print(f"host: {passed.count(True)} sections passed, {passed.count(False)} failed")
    return 0 if all(passed) else 1


if __name__ == "__main__":
    sys.exit(main(sys.argv[1:]))
