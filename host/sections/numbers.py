"""The list of refusals: the same numbers and names in lift.h, in the code and in the guide, and all of document 01's."""
import re

import scripts
from harness import ROOT, Failed

HEADER, CODE, GUIDE = (ROOT / path for path in ("include/lift.h", "crates/refusal/src/lib.rt", "docs/GUIDE.md"))
CHANGES = ROOT / "docs" / "CHANGES.md"


def in_header(text):
    """lift.h's names, each with its number."""
    listed = re.search(r"^enum lift_refusal \{\n(.*?)^\};$", text, re.M | re.S)
    return [(name, int(number)) for name, number in re.findall(r"^ +LIFT_(\w+) = (\d+),?$", listed[1], re.M)]


def in_code(text):
    """The names in crate `refusal`, in capitals as C has them, each with the number that is answered."""
    found = re.findall(r"^ +Refusal::(\w+)(?: \{ \w+ \})? => Listing\((\d+), ", text, re.M)
    return [(re.sub(r"(?<=.)(?=[A-Z])", "_", name).upper(), int(number)) for name, number in found]


def in_guide(text):
    """The rows of the guide's list: number and name, where it also says by whom it is given, what is wrong and what to do."""
    found = re.findall(r"^\| (\d+) \| `LIFT_(\w+)` \| [^|]+ \| [^|]+ \| [^|]+ \|$", text, re.M)
    return [(name, int(number)) for number, name in found]


def same(header, code, guide):
    """Each number of document 01 once, in its order, and one name for it."""
    listed = in_header(header)
    if [number for _, number in listed] != scripts.NUMBERS:
        raise Failed(f"lift.h hasn't document 01's numbers in their order: {[number for _, number in listed]}")
    for where, found in (("crates/refusal", in_code(code)), ("docs/GUIDE.md", in_guide(guide))):
        if found != listed:
            raise Failed(f"lift.h and {where} differ: {sorted(set(listed) ^ set(found)) or 'in their order'}")
    return len(listed)


def version(header, changes):
    """LIFT_VERSION is n after change request R-n, by the headings of docs/CHANGES.md, and 0 before the first."""
    said = re.findall(r"^#define LIFT_VERSION (\d+)$", header, re.M)
    due = max([0, *map(int, re.findall(r"^#+ .*\bR-(\d+)\b", changes, re.M))])
    if said != [str(due)]:
        raise Failed(f"lift.h: LIFT_VERSION is {said}, and should be {due}")


def page(driver):
    """The three lists, and the header's version."""
    count = same(*(path.read_text() for path in (HEADER, CODE, GUIDE)))
    version(HEADER.read_text(), CHANGES.read_text() if CHANGES.exists() else "")
    return f"{count} refusals, with one name and number in lift.h, in crate refusal and in docs/GUIDE.md: all of document 01's"
