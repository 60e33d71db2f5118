"""The README's table of others' programs is made of what was measured, and nothing else."""
from compare import claims
from harness import ROOT, Failed


def held(readme, rows):
    """The table has a row for each that is stored, in that order, and no other."""
    shown, wanted = claims.in_readme(readme), [claims.readme_row(row) for row in rows]
    if shown != wanted:
        other = next((pair for pair in zip(shown, wanted) if pair[0] != pair[1]), (len(shown), len(wanted)))
        raise Failed(f"README.md and host/compare/measured.tsv differ: {other[0]} and {other[1]}")
    return len(wanted)


def table(driver):
    return f"{held((ROOT / 'README.md').read_text(), claims.stored().values())} cases, as stored in host/compare/measured.tsv"
