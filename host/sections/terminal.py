"""What docs/GUIDE.md has a person type at a terminal: each such block is typed at one, and shows all that is seen there but standard error."""
import os
import pty
import re
import subprocess
import termios
import time

from harness import ROOT, Failed, typed

PHRASE, OTHERS, END = "A_Valid_Pass_Phrase\n", "otp-md5 99 AValidSeed\n1\n", "\x04"
LIMIT = 20  # seconds until a command that hides the pass-phrase does so


def blocks(text):
    """The command of each block marked terminal, and what is seen under it: what is typed and shown, then what is printed."""
    return re.findall(r"^```terminal\n\$ ([^\n]*)\n(.*?)^```$", text, re.M | re.S)


def wait_until_hidden(terminal):
    """Until the terminal doesn't show any more what is typed."""
    end = time.monotonic() + LIMIT
    while termios.tcgetattr(terminal)[3] & termios.ECHO:
        if time.monotonic() > end:
            raise Failed("what is typed is still shown")
        time.sleep(0.02)


def all_of(terminal):
    """What was shown on a terminal that nobody writes to any more."""
    shown = b""
    while True:
        try:
            part = os.read(terminal, 4096)
        except OSError:  # how Linux says that the other side is closed
            part = b""
        if not part:
            return shown.decode("latin-1").replace("\r\n", "\n")
        shown += part


def seen(command):
    """A command at a terminal of its own. Where it reads a line by itself, that is the pass-phrase, and is typed once it is hidden."""
    ours, its = pty.openpty()
    child = subprocess.Popen(["bash", "-c", command], cwd=ROOT, env=typed(), stdin=its, stdout=its, stderr=subprocess.DEVNULL,
                             start_new_session=True)
    try:
        hides = "read -rs" in command
        if hides:
            wait_until_hidden(its)
        os.write(ours, (PHRASE if hides else PHRASE + OTHERS + END).encode())
        child.wait(timeout=1800)
        os.close(its)
        return all_of(ours)
    finally:
        child.kill()
        os.close(ours)


def held(command, shown):
    """What is seen is what is shown; and the pass-phrase doesn't stand in the command, which the shell keeps."""
    if PHRASE.strip() in command:
        raise Failed(f"the pass-phrase is in the shell's history: {command}")
    if (there := seen(command)) != shown:
        raise Failed(f"{command}\n    seen  {there!r}\n    shown {shown!r}")


def typed_by_hand(driver):
    """Each block of the guide."""
    found = blocks((ROOT / "docs" / "GUIDE.md").read_text())
    for block in found:
        held(*block)
    if len(found) != 2:
        raise Failed(f"{len(found)} blocks, not two")
    return f"{len(found)} ways to type a card's three lines at a terminal, one of which shows no pass-phrase"
