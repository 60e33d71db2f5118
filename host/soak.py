"""More random scripts on the program `replay`: `python3 host/soak.py N [SEED]`.

N scripts, with the seeds SEED, SEED + 1 and so on; without SEED, from one that
nobody has seen. Fifteen in a row have each manner of scripts.py with each ring.
Ends with status 1 at the first answer that isn't the model's: the script's
seed, the line, the answer and the model's are printed, and the script is kept
under target/host. `python3 host/soak.py 1 SEED` runs it again.
"""
import random
import sys
import time

sys.dont_write_bytecode = True

import harness  # noqa: E402
import scripts  # noqa: E402

PROGRAM = harness.program("replay")


def kept(seed, lines):
    """The script as a file, to run by hand."""
    harness.BUILT.mkdir(parents=True, exist_ok=True)
    path = harness.BUILT / f"soak-{seed}.calls"
    path.write_bytes("".join(line + "\n" for line in lines).encode("latin-1"))
    return path.relative_to(harness.ROOT)


def differs(seed):
    """Runs the script of a seed; whether some answer is not the model's."""
    day = scripts.script(seed)
    try:
        found = scripts.differences(PROGRAM, day)
    except harness.Failed as failure:
        found = [str(failure)]
    if found:
        print(f"soak: script {seed}: {len(found)} differ, first\n  {found[0][:4000]}\n"
              f"soak: the script is in {kept(seed, day.lines)}; make soak N=1 SEED={seed} runs it again")
    return found != []


def main(arguments):
    try:
        number, first = int(arguments[0]), int(arguments[1]) if len(arguments) > 1 else None
    except (IndexError, ValueError):
        print(__doc__)
        return 2
    if first is None:
        first = random.SystemRandom().randrange(10**9, 10**12)
    print(f"soak: {number} scripts of 1,000 calls, seeds {first} to {first + number - 1}", flush=True)
    started = time.monotonic()
    for seed in range(first, first + number):
        if differs(seed):
            return 1
    print(f"soak: all answers are the model's ({time.monotonic() - started:.1f} s)")
    return 0


if __name__ == "__main__":
    sys.exit(main(sys.argv[1:]))
