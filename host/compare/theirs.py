"""What the cases share: programs of others run in children with a time limit, and our answers."""
import collections
import contextlib
import functools
import os
import pathlib
import pwd
import signal
import subprocess

import harness

HERE = pathlib.Path(__file__).resolve().parent
ABSENT = 3  # the status of our small C programs where the library isn't installed

# status is None where the time limit ended it; a signal's number is below 0
Ended = collections.namedtuple("Ended", "status said")


class NotShown(Exception):
    """Why the others' half says nothing here, in a line."""


class Absent(NotShown):
    """A package that isn't installed here, by its Debian name."""

    def __init__(self, package):
        super().__init__(f"Debian package {package} is not installed here")


def say(line):
    """A line of a case."""
    print(f"    {line}", flush=True)


def versions(*packages):
    """What Debian calls the installed versions, or Absent for the first that isn't there."""
    return ", ".join(f"{package} {version(package)}" for package in packages)


def version(package):
    """The version and, in brackets, the kind of machine that it is for: of one for other machines beside it nothing is said."""
    shown = dpkg("dpkg-query", "-W", "-f", "${db:Status-Status} ${Architecture} ${Version}\n", package)
    kinds = ["all", *dpkg("dpkg", "--print-architecture").split()]
    rows = [line.split(" ") for line in shown.splitlines()]
    found = [f"{number} ({kind})" for status, kind, number in rows if status == "installed" and kind in kinds]
    if not found:
        raise Absent(package)
    return found[0]


def dpkg(*command):
    """What Debian's package manager prints; nothing where there is none."""
    try:
        return subprocess.run(command, stdout=subprocess.PIPE, stderr=subprocess.DEVNULL, check=False).stdout.decode()
    except OSError:
        return ""


def built(source):
    """One of the C programs beside this file; it finds the others' library when it starts."""
    harness.BUILT.mkdir(parents=True, exist_ok=True)
    program = harness.BUILT / f"compare-{pathlib.Path(source).stem}"
    harness.run(["gcc", *harness.WARNINGS, "-O2", HERE / source, "-ldl", "-o", program])
    return program


# others' programs: each in a process group of its own, which is gone afterwards


@contextlib.contextmanager
def started(command, **options):
    """A child until the block is left; it is asked to end before it has to."""
    try:
        child = subprocess.Popen([str(word) for word in command], start_new_session=True, **options)
    except OSError as trouble:
        raise NotShown(f"{command[0]}: {trouble}") from None
    try:
        yield child
    finally:
        child.terminate()
        with contextlib.suppress(subprocess.TimeoutExpired):
            child.wait(5)
        with contextlib.suppress(ProcessLookupError):
            os.killpg(child.pid, signal.SIGKILL)
        child.wait()


def limited(command, seconds, said_to_it="", **options):
    """Runs a program to its end or the limit."""
    with started(command, stdin=subprocess.PIPE, stdout=subprocess.PIPE,
                 stderr=subprocess.STDOUT, **options) as child:
        try:
            said, _ = child.communicate(said_to_it.encode(), timeout=seconds)
            return Ended(child.returncode, said.decode("latin-1"))
        except subprocess.TimeoutExpired:
            return Ended(None, f"no end within {seconds} s")


def how(ended):
    """What a program said last, or how it ended."""
    if ended.status is not None and ended.status < 0:
        return f"crashed ({signal.Signals(-ended.status).name})"
    return ended.said.strip().split("\n")[-1]


def unprivileged():
    """The one who runs this; where that is root, nobody."""
    if os.geteuid() != 0:
        return os.geteuid(), os.getegid()
    nobody = pwd.getpwnam("nobody")
    return nobody.pw_uid, nobody.pw_gid


def as_unprivileged():
    """The options that start a program so; only root can start one as another."""
    uid, gid = unprivileged()
    return {"user": uid, "group": gid, "extra_groups": []} if os.geteuid() == 0 else {}


# our half


@functools.cache
def linked(name, *sources):
    """A C program over the functions of include/lift.h, built once for all cases."""
    return harness.build(name, sources, archive(), ["-O2"])


@functools.cache
def archive():
    return harness.archive()


def ours(lines):
    """What the functions of include/lift.h answer."""
    return harness.asked(linked("driver", "host/driver.c", "host/lend.c"), lines)


def replay(lines):
    """What program replay answers, for the table, which lift.h hasn't."""
    harness.run(["host/prove", "replay"])
    return harness.asked(harness.program("replay"), lines)


def hold(answers, claimed):
    """Our own half has to be as claimed, or the comparison fails."""
    if answers != claimed:
        raise harness.Failed(f"our answers are {answers}, claimed were {claimed}")


def row(whose, said):
    return f"{whose:16} {said}"
