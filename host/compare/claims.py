"""What is claimed of each case: measured.tsv beside this file has both halves as they were measured, with versions and date.

The table in README.md has the same rows; a host test holds it to the file, and
`make compare` holds what it sees to it.
"""
import collections
import pathlib

STORE = pathlib.Path(__file__).resolve().parent / "measured.tsv"
HEADING = "case\tmeasured with\ton\ttheirs\tours"
TABLE = "| `make compare` with | Theirs, as measured | With | Ours |"

Claim = collections.namedtuple("Claim", "case versions date theirs ours")

# what becomes of a case
SEEN, NOT_SEEN, PASSED_OVER, FAILED = "as measured", "NOT as measured", "passed over", "FAILED"


def stored():
    """Each case's claim, by its name."""
    rows = [Claim(*line.split("\t")) for line in STORE.read_text().splitlines()[1:]]
    return {row.case: row for row in rows}


def unmeasured(case):
    """The claim of a case that isn't stored: what it shows is not what is claimed."""
    return Claim(case, "never measured", "no day", "nothing", "nothing")


def store(rows):
    STORE.write_text("".join("\t".join(row) + "\n" for row in [HEADING.split("\t"), *rows]))


def outcome(claim, ours, others):
    """Our half has to be as claimed. The others' half may not be there (None), and else is as measured or isn't."""
    if ours != claim.ours:
        return FAILED
    if others is None:
        return PASSED_OVER
    return SEEN if others == claim.theirs else NOT_SEEN


def status(outcomes, ours_alone):
    """0 if all that ran is as claimed; where our half alone is asked for, if that is."""
    wrong = {FAILED} if ours_alone else {FAILED, NOT_SEEN}
    return 1 if wrong & set(outcomes) else 0


def readme_row(claim):
    return f"| CASE={claim.case} | {claim.theirs} | {claim.versions}, {claim.date} | {claim.ours} |"


def in_readme(text):
    """The rows of the README's table."""
    lines = text.splitlines()
    after = lines[lines.index(TABLE) + 2:] if TABLE in lines else []
    end = next((at for at, line in enumerate(after) if not line.startswith("|")), len(after))
    return after[:end]
