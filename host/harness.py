"""What the sections share: building the C programs, asking them, comparing."""
import os
import pathlib
import platform
import subprocess

import model

ROOT = pathlib.Path(__file__).resolve().parent.parent
BUILT = ROOT / "target" / "host"
WARNINGS = ("-std=c11 -Wall -Wextra -Werror -pedantic -Wshadow -Wconversion -Wcast-qual "
            "-Wstrict-prototypes -Wmissing-prototypes -Wvla").split()
# what rt compiles, and the C that is linked with it, is for x86-64; on another machine it runs under the kit's emulator
X86_64 = ROOT / "host" / "x86_64"
NATIVE = platform.machine() == "x86_64"
# the kit has no sanitizer's library for x86-64: elsewhere undefined behaviour traps, and addresses have the guard pages alone
SANITIZED = "AddressSanitizer and UndefinedBehaviorSanitizer" if NATIVE else "undefined behaviour traps, no AddressSanitizer here"
SANITIZERS = (["-g", "-fsanitize=address,undefined", "-fno-sanitize-recover=all"] if NATIVE else
              ["-g", "-fsanitize=undefined", "-fsanitize-trap=all"])

# the crate of a static library, where C links its archive by another's name
EXPORTS = {"panel": "panel_c"}

# the calls that the driver knows: those of lift.h so far
IN_C = {"md5", "sha1", "gen", "read", "readplain", "hex", "words", "chal", "wchal", "wext", "card"}


class Failed(Exception):
    """A check that does not hold, said in a line or a few."""


def typed(**more):
    """The environment of a command that a person types: without what a make around this test hands on."""
    of_make = {"MAKEFLAGS", "MAKELEVEL", "MFLAGS", "GNUMAKEFLAGS", "MAKEOVERRIDES", "MAKE_TERMERR", "MAKE_TERMOUT"}
    return {**{name: value for name, value in os.environ.items() if name not in of_make}, **more}


def program(name):
    """Where rt leaves a program of the repository."""
    return ROOT / "crates" / name / "out" / name


def runs(command):
    """The command, and where it is one of the programs what runs it."""
    path = pathlib.Path(command[0])
    return [X86_64 / "run", *command] if path == program(path.name) else command


def run(command, **options):
    """What a command prints; a status that isn't 0 fails the check."""
    words = [str(word) for word in runs(command)]
    try:
        done = subprocess.run(words, cwd=ROOT, timeout=1800, stdout=subprocess.PIPE,
                              stderr=subprocess.STDOUT, **options)
    except (OSError, subprocess.TimeoutExpired) as trouble:
        raise Failed(f"{' '.join(words)}: {trouble}") from None
    said = done.stdout.decode("latin-1")
    if done.returncode != 0:
        raise Failed(f"status {done.returncode} of {' '.join(words)}\n{said[-3000:]}")
    return said


def archive(crate="panel"):
    """A crate's exported functions, by the name that C links. rt proves what they stand on once more where it has kept nothing of it but for rt ci."""
    run(["host/prove", EXPORTS.get(crate, crate)])
    return ROOT / "target" / "staticlib" / f"lib{crate}.a"


def build(name, sources, library, flags):
    """A C program linked with the archive."""
    BUILT.mkdir(parents=True, exist_ok=True)
    run([X86_64 / "gcc", *WARNINGS, *flags, "-Iinclude", *sources, library, "-o", BUILT / name])
    return BUILT / name


def linked(program):
    """The program itself, where in its place stands a script that runs it."""
    return program if NATIVE else program.with_name(f"{program.name}.x86_64")


def call(name, *words):
    """A call as a line: bytes as hex, numbers in decimal, a string as it is."""
    return " ".join([name] + [model.hex_word(word) if isinstance(word, bytes) else str(word)
                              for word in words])


def asked(program, lines):
    """The program's answers to the lines."""
    said = run([program], input="".join(line + "\n" for line in lines).encode("latin-1"))
    return said.split("\n")[:-1]


def differences(lines, got, wanted):
    """The lines whose two answers differ; a missing answer is one."""
    if len(got) != len(wanted):
        return [f"{len(wanted)} answers wanted, {len(got)} given"]
    return [f"{line}\n    given  {g}\n    wanted {w}"
            for line, g, w in zip(lines, got, wanted) if g != w]


def hold_to(lines, got, wanted):
    """Fails with the first few differences."""
    found = differences(lines, got, wanted)
    if found:
        raise Failed("\n".join([f"{len(found)} of {len(lines)} differ:"] +
                               ["  " + each[:2000] for each in found[:5]]))


def same_as_model(program, lines):
    """The program answers each line as the model does. Says how many were refused."""
    wanted = model.replay("\n".join(lines))
    hold_to(lines, asked(program, lines), wanted)
    refused = sum(answer.startswith("no") for answer in wanted)
    return f"{len(lines)} calls, {refused} of them refused: same answers as the model"
