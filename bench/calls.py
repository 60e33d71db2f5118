"""What the login table's calls take: the program `meter` repeats one of them, on 0, 1 and 32 accounts."""
import collections
import ctypes
import re
import resource
import statistics
import subprocess

import bounds
import harness
import model

METER = harness.program("meter")
ROUNDS = 15
# how many thousand times a call is repeated; a reading by itself, which is soon done, twenty times as often
THOUSANDS, THOUSANDS_READ = 100, 2000
# the accounts of a table, by the character that asks for them
ACCOUNTS = {"0": "0 accounts", "1": "1 account", "3": "32 accounts"}

# a row's title, and what the meter's last table then has, after 1,000 calls on a table with an account
Row = collections.namedtuple("Row", "title left")
# Each call by its letter, a capital one for accounts with SHA-1. Port 0 is in front of three others, all for one account; Join finds the three; in the
# rows of four lines each port is in front of its own, and for Leave has been for a tick, so that the turns of the others show that they go on. A port in
# line is never shut, so Tick has another row with a line. What is offered is a password as a number, or a renewal's new values and two passwords; in the
# rows of reading and Offer a text is read first, in each repetition. The offer of a renewal has a row for an account with its first seed, and one for an
# account with eight, all as long as the new one and like it up to the last of 16 characters, so that none is passed over; the text of type init-word is a
# renewal of that account too. With an account all are accepted but Enrol at 32 (53).
# What is left is: ports in line (of a challenge its first letter, o), the turns of the first of them and of the fourth, port 0's wrong run, port 3's shut
# ticks (of a renewal how long the seed is that the account had before).
CALLS = {
    "e": Row("Enrol", "0 0 0 0 0"),
    "r": Row("Remove, four ports leave", "0 0 0 0 0"),
    "j": Row("Join, as the fourth", "4 60 60 0 0"),
    "l": Row("Leave, three behind", "3 60 0 0 0"),
    "m": Row("Leave, of four lines", "3 59 0 0 0"),
    "c": Row("Challenge", "111 60 60 0 0"),
    "i": Row("Tick, nobody in line", "0 0 0 0 0"),
    "t": Row("Tick, four in one line", "4 20 60 0 0"),
    "f": Row("Tick, four in four lines", "4 20 20 0 0"),
    "u": Row("Tick, one in line, three shut", "1 20 0 0 860"),
    "h": Row("Offer", "3 60 0 0 0"),
    "H": Row("Offer, SHA-1", "3 60 0 0 0"),
    "w": Row("Reading and Offer, words", "3 60 0 0 0"),
    "k": Row("Reading and Offer, hex", "3 60 0 0 0"),
    "W": Row("Reading and Offer, SHA-1, words", "3 60 0 0 0"),
    "g": Row("Reading and Offer, type hex", "3 60 0 0 0"),
    "y": Row("Reading and Offer, init-word", "3 60 0 0 16"),
    "n": Row("Offer of a renewal, the first", "3 60 0 0 10"),
    "o": Row("Offer of a renewal, eight seeds", "3 60 0 0 16"),
}
# a text read by itself, with no table looked at, and the password that it says
READINGS = {"a": Row("Reading, words", "85c43ee03857765b"), "b": Row("Reading, hex", "85c43ee03857765b")}
# without an account nobody is in line
NO_LINE = "0 0 0 0 0"
# the rows that are for a line, or for four, with the accounts that it takes
WITH_LINES = {"t": "13", "u": "13", "f": "3", "m": "3"}
# Each offer, by itself, and that of a password behind a reading, with the one hash that it does, to a multiple of which it is held, and what is aimed for;
# MD5's and SHA-1's
MD5, SHA1 = "s", "S"
HELD = {"h": (MD5, 2.5, None), "H": (SHA1, 2.5, None), "n": (MD5, 2.5, None), "o": (MD5, 2.5, None),
        "w": (MD5, 5, 3), "k": (MD5, 5, 3), "g": (MD5, 5, 3), "W": (SHA1, 5, None)}
# those that hash: every other call is held to one hash of MD5 and the copying
HASHING = [*HELD, "y"]
# the loop without a call, in which the table is only copied, with what that has
LOOP, FOUND = "x", "4 60 60 0 0"


def on(call):
    """The tables that a call is repeated on: where the row is for lines, those that can have them."""
    return [accounts for accounts in ACCOUNTS if accounts in WITH_LINES.get(call, ACCOUNTS)]


def repeated():
    """Each call with the accounts that it is repeated on."""
    return [(call, accounts) for call in CALLS for accounts in on(call)]


def due(call, accounts):
    """What the meter's last table has to have."""
    if call == LOOP:
        return FOUND
    return CALLS[call].left if accounts != "0" else NO_LINE


def check_hashes():
    """A thousand hashes from the password 0, of either algorithm, are the model's."""
    for call, algorithm in ((MD5, model.MD5), (SHA1, model.SHA1)):
        due = 0
        for _ in range(1000):
            due = model.hashed_once(algorithm, due)
        said = harness.run([METER], input=f"{call}01".encode()).strip()
        if said != f"{due:016x}":
            raise harness.Failed(f"meter, {call}: {said}, not {due:016x}")


def check():
    """Each call finds and leaves what its row says: what is timed is what the title has."""
    harness.run(["host/prove", "meter"])
    check_hashes()
    for call, row in READINGS.items():
        said = harness.run([METER], input=f"{call}01".encode()).strip()
        if said != row.left:
            raise harness.Failed(f"meter, {call}: {said}, not {row.left}")
    for call, accounts in [(LOOP, "3"), *repeated()]:
        said = harness.run([METER], input=f"{call}{accounts}1".encode()).strip()
        if said != due(call, accounts):
            raise harness.Failed(f"meter, {call} on {ACCOUNTS[accounts]}: its last table has {said}, not {due(call, accounts)}")


def spent(asked):
    """Nanoseconds of processor time that the meter takes."""
    before = resource.getrusage(resource.RUSAGE_CHILDREN).ru_utime
    subprocess.run(harness.runs([METER]), input=asked.encode(), check=True, stdout=subprocess.DEVNULL)
    return (resource.getrusage(resource.RUSAGE_CHILDREN).ru_utime - before) * 1e9


def once(call, accounts):
    """Nanoseconds of one repetition, less a run of 1,000."""
    thousands = THOUSANDS_READ if call in READINGS else THOUSANDS
    few, many = spent(f"{call}{accounts}1"), spent(f"{call}{accounts}{thousands + 1}")
    return (many - few) / (thousands * 1000)


def rotated(rows, number):
    """The rows from that one on, and then those before it."""
    start = number % len(rows)
    return rows[start:] + rows[:start]


def measured():
    """Nanoseconds of one repetition, by its letter and accounts: the median of the rounds, each of which starts at another row."""
    wanted = [(MD5, "0"), (SHA1, "0"), *((call, "0") for call in READINGS), (LOOP, "3"), *repeated()]
    rounds = [{row: once(*row) for row in rotated(wanted, number * len(wanted) // ROUNDS)} for number in range(ROUNDS)]
    return {row: statistics.median(times[row] for times in rounds) for row in wanted}


class Account(ctypes.Structure):
    _fields_ = [("id", ctypes.c_uint16), ("algorithm", ctypes.c_uint8), ("seed", ctypes.c_uint8 * 16), ("len", ctypes.c_size_t),
                ("count", ctypes.c_uint16), ("older_count", ctypes.c_uint8), ("password", ctypes.c_uint64)]


class Port(ctypes.Structure):
    _fields_ = [("wrong", ctypes.c_uint8), ("shut", ctypes.c_uint16)]


class Place(ctypes.Structure):
    _fields_ = [("port", ctypes.c_uint8), ("room", ctypes.c_uint8), ("turn", ctypes.c_uint8)]


class Lines(ctypes.Structure):
    _fields_ = [("places", Place * 4), ("len", ctypes.c_size_t)]


class Table(ctypes.Structure):
    _fields_ = [("rooms", Account * 32), ("ports", Port * 4), ("lines", Lines)]


def table_bytes():
    """The bytes of a `Table`, its fields laid out as C does; the program has to copy blocks of just that size."""
    size = ctypes.sizeof(Table)
    code = harness.run(["objdump", "-d", "--no-show-raw-insn", METER])
    if f"${size:#x},%edx" not in code:
        raise harness.Failed(f"the compiled calls copy no block of {size} bytes: is a Table laid out otherwise now?")
    return size


def older_bytes():
    """The bytes for the older seeds of all accounts, which a controller keeps beside its table: by the head of the offer that is lent them."""
    head = re.search(r"^pub fn offer_renewal\(.*?older: &mut \[u8; (\d+)\]", (harness.ROOT / "crates" / "turns" / "src" / "lib.rt").read_text(), re.M | re.S)
    return int(head[1])


def kept_bytes():
    """What a controller keeps, in words."""
    of_table, of_older = table_bytes(), older_bytes()
    return f"a Table has {of_table:,} bytes, and the older seeds, which are lent to the offer of a renewal, have {of_older:,}: {of_table + of_older:,} in all"


def call_row(call, calls, limit):
    """A row of the table; a call without a hash that is over the limit on some table is marked."""
    cells = [f"{calls[call, accounts]:14.1f}" if (call, accounts) in calls else f"{'':14}" for accounts in ACCOUNTS]
    worst = max(calls[call, accounts] for accounts in on(call))
    mark = "  NOT MET" if call not in HASHING and not bounds.met(worst, limit) else ""
    return f"{CALLS[call].title:32}{''.join(cells)}{mark}"


def table():
    check()
    found = measured()
    md5, sha1, copied = found[MD5, "0"], found[SHA1, "0"], found[LOOP, "3"]
    calls = {what: taken - copied for what, taken in found.items() if what[0] in CALLS}
    limit = md5 + copied
    print(f"The login table: nanoseconds of a call, median of {ROUNDS} rounds, less the loop without a call.")
    print(f"{'':32}" + "".join(f"{title:>14}" for title in ACCOUNTS.values()))
    print("\n".join(call_row(call, calls, limit) for call in CALLS))
    print("Without an account every call but Enrol and Tick is refused, after a text is read.")
    print("\n".join(f"{row.title + ', no table':32}{found[call, '0']:14.1f}" for call, row in READINGS.items()))
    print(f"One hash takes {md5:.1f} by MD5 and {sha1:.1f} by SHA-1, the loop without a call, which copies the table, {copied:.1f}; "
          f"{kept_bytes()}.")
    print(f"A call without a hash is to take one hash by MD5 and the copying at most, {limit:.1f}; one that is over it is marked.")
    for call, (hash_of, most, aim) in HELD.items():
        hashes = calls[call, "3"] / found[hash_of, "0"]
        print(f"{CALLS[call].title}, to its one hash: {hashes:.2f}; at most {bounds.said(hashes, most, aim)}")
