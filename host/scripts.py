"""Random replay scripts: a day at a controller with everything that can go wrong, under both algorithms.

`script(seed, calls)` is the same for the same two numbers. Each call is run on
the model as it is made, so that the next one can suit the table: the right
reply of a port that has a turn, a full table, four ports in line. The days come
in three manners: all ports crowd at one account, they spread over four, or mix.
On each day two technicians renew accounts round rings of seeds, of a size that
differs from day to day. Half of the replies are a service handheld's, and of
the technicians' renewals a third, or half where some other text stands for the
present password. A radio module offers passwords that no text was read to
(R-7), alone or with new values.
"""
import collections
import itertools
import random

import handheld
import harness
import model
import offers
from harness import call
from sections import challenges, passwords, replies
from technician import Technician

PORTS = (0, 1, 2, 3)
PHRASES = [b"A_Valid_Pass_Phrase", b"This is a test.", b"\0" * 10, bytes(range(128, 191))]

# what is 23 or 24 for a new seed, or both
NO_SEEDS = [b"", b"LengthOfSeventeen", b"_", b"A Seed", b"Length_of_seventeen"]

# the numbers of document 01, each of which some call can give
NUMBERS = [10, 11, 12, 13, *range(20, 26), *range(30, 36), 40, *range(50, 64), 70]
# the calls that are told an algorithm, by number or in a text: each can give 21
TOLD = ["gen", "chal", "wchal", "wext", "card", "enrol", "reply", "renew", "orenew"]
# and those that read a reply
READING = ["read", "readplain", "reply", "renew"]
# those that come down to an offer at a port
OFFERING = ["reply", "renew", "offer", "orenew"]
# how the ports join: days with seeds one after the other take these in turn
CROWD, SPREAD, MIX = MANNERS = ("crowd", "spread", "mix")
# how many seeds the technicians' rings have, in turn too: up to 8 the first is remembered still when it comes up again, with 9 it is just forgotten
RINGS = (2, 7, 8, 9, 10)
# the ways in which four ports can stand in lines: how many in each, the longest first
WAYS = [(4,), (3, 1), (2, 2), (2, 1, 1), (1, 1, 1, 1)]
# ticks in one call: as many as a turn has, a line of four waits, a port is shut; each while there is one line, and while there are more
LONG = [60, 180, 900]
TICKED = list(itertools.product(LONG, (1, 2)))


class Day:
    """A table, what is known of its passwords, how often each call is made; the lines so far, and the model's answers."""

    def __init__(self, seed):
        self.rng = random.Random(seed)
        self.table = model.Table()
        self.lines, self.answers = [], []
        self.accepted = collections.Counter()  # the calls of OFFERING, and renewals by a reply, with the account's algorithm before and after
        self.hidden = collections.Counter()  # what the table would have refused to texts that aren't read
        self.ticked = collections.Counter()  # the most of LONG that a call had, with the lines before it, 2 for more
        self.before = {}  # a password -> the one that it is the hash of
        self.long_left = 2  # very long texts and long waits that the script may still have
        self.calls, self.weights = zip(*self.mood())
        self.manner = MANNERS[seed % len(MANNERS)]
        self.ring = RINGS[seed % len(RINGS)]
        self.technicians = [Technician(self, self.ring, id) for id in (1, 2)]
        self.next = None  # what a technician does right after his last call
        self.filling = self.rng.choice([False, False, True])  # a day in three begins with a full table
        if self.filling:
            self.most_ids = max(self.most_ids, 40)

    def mood(self):
        """The weight of each kind of call: another one for each day."""
        rng = self.rng
        self.most_ids = rng.choice([3, 8, 40, 40, 65535])
        self.right = rng.choice([0.1, 0.5, 0.8])
        weights = {
            self.enrol: rng.choice([4, 8, 30]), self.remove: rng.choice([1, 1, 6]),
            self.join: rng.choice([20, 30, 40]), self.leave: rng.choice([1, 2, 4]),
            self.challenge: 4, self.reply: rng.choice([10, 20, 30]), self.renew: rng.choice([5, 10]), self.ringed: rng.choice([30, 50]),
            self.offer: rng.choice([4, 8, 16]), self.orenew: rng.choice([5, 10]), self.tick: rng.choice([2, 5, 10]), self.dump: 6, self.new: 0.1,
            self.digest: 3, self.gen: 3, self.words: 2, self.hex: 2, self.read: 12, self.readplain: 3, self.chal: 10,
            self.wchal: 3, self.wext: 4, self.card: 3, self.prog: 3, self.no_call: 2}
        return weights.items()

    def answer(self, line):
        """The model's answer to one more line."""
        name, account, lines = line.split(" ")[0], self.account_of(line), len(self.busy())
        before = account and account.algorithm
        self.answers.append(model.answer(self.table, line))
        self.hidden.update(offers.hidden(self.table, line, self.answers[-1]))
        if name in OFFERING and self.answers[-1].startswith("ok"):
            by_text = name == "reply" and line.split(" ")[2].startswith(model.INIT.hex())
            self.accepted["init" if by_text else name, before, account.algorithm] += 1
        if name == "tick" and self.answers[-1] == "ok":
            self.ticked[max([0, *(long for long in LONG if long <= int(line.split(" ")[1]))]), min(lines, 2)] += 1

    def account_of(self, line):
        """The account in whose line the port is that offers."""
        words = line.split(" ")
        return self.table.waited_for(int(words[1])) if words[0] in OFFERING and words[1:] and words[1].isdecimal() else None

    def busy(self):
        """The accounts in whose line somebody is."""
        return [account for account in self.table.accounts.values() if account.line]

    def line(self):
        """One more line, made of the table as it is. Where nobody waits, mostly somebody comes first, and where there are few accounts one more."""
        if self.next:
            made, self.next = self.next, None
            return made()
        if self.filling:
            self.filling = len(self.table.accounts) < 32
            return self.enrol()
        made = self.rng.choices(self.calls, self.weights)[0]
        if not self.busy() and made in (self.reply, self.renew, self.offer, self.orenew, self.challenge, self.leave):
            made = self.rng.choice([self.join] * 5 + [made])
        if len(self.table.accounts) < 4 and made == self.join:
            made = self.rng.choice([self.enrol, made])
        return made()

    # words

    def any_id(self):
        return self.rng.choice([0, 1, 65535, *[self.rng.randint(1, self.most_ids)] * 12])

    def id(self):
        """Mostly one that is there."""
        there = list(self.table.accounts)
        return self.rng.choice(there) if there and self.rng.random() < 0.85 else self.any_id()

    def any_port(self):
        return self.rng.choice([*PORTS * 6, 4, 255, 256, 259, 65535])

    def port(self):
        """Mostly in front of some line; anywhere in one, others, over 3 and over 255 now and then."""
        lines = [account.line for account in self.busy()]
        chosen = self.rng.choice([*[[line[0] for line in lines]] * 6, sum(lines, []), []])
        return self.rng.choice(chosen) if chosen else self.any_port()

    def joined_id(self):
        """Mostly by the day's manner: an account that is waited for, one that isn't, or either."""
        accounts = self.table.accounts.items()
        waited = [id for id, account in accounts if account.line]
        suit = {CROWD: waited, SPREAD: [id for id, account in accounts if not account.line and account.count > 1],
                MIX: self.rng.choice([waited, []])}[self.manner]
        return self.rng.choice(suit) if suit and self.rng.random() < 0.9 else self.id()

    def crowded(self):
        """Whether somebody waits, on a day on which all ports crowd at one account."""
        return self.manner == CROWD and self.busy() != []

    def count(self):
        return self.rng.choice([2, 2, 3, 5, *[self.rng.randrange(2, 60)] * 12, 0, 1, 9999, 10000, 65535])

    def seed(self):
        return self.rng.choice([b"dog2", b"Lift1", b"ke1234", passwords.any_seed(self.rng)])

    def algorithm(self):
        return passwords.any_algorithm(self.rng)

    def room(self, length):
        """Around what a text of that length needs."""
        return self.rng.choice([length, length - 1, length + 1, 0, 64, self.rng.randrange(80), 8192])

    def password(self):
        return "%016x" % self.rng.choice([0, 2**64 - 1, *[self.rng.getrandbits(64)] * 6])

    def chained(self, algorithm, seed, count):
        """The password of `kept`, where there is one for these values. Now and then by any algorithm."""
        if self.rng.random() < 0.1:
            algorithm = self.rng.choice([*model.NAMES])
        if algorithm not in model.NAMES or not 0 < count < 100:
            return self.password()
        return self.kept(algorithm, seed, count)

    def kept(self, algorithm, seed, count):
        """The password of some pass-phrase at that count; those below it are kept."""
        passed = model.chain(algorithm, self.rng.choice(PHRASES), seed, count)
        self.before.update(zip(passed[1:], passed))
        return "%016x" % passed[-1]

    def new_values(self):
        """Algorithm, count, seed and password for an account."""
        algorithm, count, seed = self.algorithm(), self.count(), self.seed()
        return algorithm, count, seed, self.chained(algorithm, seed, count)

    def offered(self, port):
        """The right password of the port, or now and then of another line's; another one, or none."""
        account, busy = self.table.waited_for(port), self.busy()
        if busy and (account is None or self.rng.random() < 0.05):
            account = self.rng.choice(busy)
        password = self.before.get(account.password) if account else None
        if password is None or self.rng.random() > self.right:
            return self.rng.choice([None, self.rng.getrandbits(64)])
        return password

    def reply_text(self, port):
        """A password as hex or words, or no password."""
        password = self.offered(port)
        return self.any_reply() if password is None else handheld.spelt(self.rng, self.rng.choice([*model.READER_OF]), password)

    def values_at(self, port):
        """New values for the account that a port waits for; now and then with a seed that it remembers, or with one that is none."""
        algorithm, count, seed, new = self.new_values()
        account = self.table.waited_for(port)
        if account and self.rng.random() < 0.1:
            seed = replies.some_case(self.rng, self.rng.choice([account.seeds[0], account.seeds[0], self.rng.choice(account.seeds)]))
        elif self.rng.random() < 0.1:
            seed = self.rng.choice(NO_SEEDS)
        return algorithm, count, seed, new

    def extended(self, port, kinds=model.TYPES):
        """A handheld's reply of one of these types; where there is no password, and now and then where there is one, damaged."""
        password, (algorithm, count, seed, new) = self.offered(port), self.values_at(port)
        sent = handheld.sent(self.rng, self.rng.choice(kinds), password or 0, (algorithm, count, seed), int(new, 16))
        return (handheld.damaged if password is None or self.rng.random() < 0.5 else handheld.text_of)(self.rng, sent)

    def any_reply(self):
        if self.long():
            return b"A" * self.rng.choice([129, 5000, 60000])
        return replies.some_case(self.rng, self.rng.choice(replies.KINDS)(self.rng))

    def long(self):
        """Now and then, and few in a script: what is very long, or takes long."""
        if self.long_left == 0 or self.rng.random() > 0.01:
            return False
        self.long_left -= 1
        return True

    # calls on the table

    def new(self):
        return "new"

    def enrol(self):
        return call("enrol", self.any_id(), *self.new_values())

    def remove(self):
        """Seldom a technician's account, which is to be renewed many times."""
        id = self.id()
        return call("remove", self.any_id() if self.spared(id) else id)

    def spared(self, id):
        """Whether an account is left alone by others than its technician: mostly, where it has one."""
        return id in [technician.id for technician in self.technicians] and self.rng.random() < 0.9

    def idle(self):
        """The ports that don't wait yet and aren't shut."""
        return [port for port in PORTS if not self.table.waited_for(port) and not self.table.ports[port].shut_ticks]

    def join(self):
        """Mostly a port that could."""
        idle = self.idle()
        port = self.rng.choice(idle) if idle and self.rng.random() < 0.8 else self.any_port()
        return call("join", port, self.joined_id())

    def leave(self):
        return call("leave", self.any_port())

    def challenge(self):
        return call("challenge", self.port(), self.room(self.rng.choice([21, 22])))

    def reply(self):
        """A plain one or a handheld's. Seldom a renewal at a technician's account, in whose ring one seed more would be."""
        port = self.port()
        if self.rng.random() < 0.5:
            return call("reply", port, self.reply_text(port))
        return call("reply", port, self.extended(port, [*model.READER_OF] if self.ringed_at(port) else model.TYPES))

    def renew(self):
        """Seldom with the right reply at a technician's account; now and then with a handheld's, which isn't plain."""
        port = self.port()
        spared = self.ringed_at(port)
        text = self.extended(port) if self.rng.random() < 0.1 else self.any_reply() if spared else self.reply_text(port)
        return call("renew", port, *self.values_at(port), text)

    def raw(self, port):
        """A password in hex that no text was read to: mostly the right one, since each that isn't counts as a wrong reply; or any."""
        account = self.table.waited_for(port)
        right = self.before.get(account.password) if account else None
        return self.password() if right is None or self.rng.random() < 0.3 else f"{right:016x}"

    def offer(self):
        """By a radio module. Now and then it offers the same again, whatever was answered."""
        port = self.port()
        return self.repeated(call("offer", port, self.raw(port)))

    def orenew(self):
        """Seldom with the right password at a technician's account."""
        port = self.port()
        return self.repeated(call("orenew", port, *self.values_at(port), self.password() if self.ringed_at(port) else self.raw(port)))

    def repeated(self, line):
        if self.rng.random() < 0.2:
            self.next = lambda: line
        return line

    def ringed_at(self, port):
        """Whether a port waits for an account that others than its technician leave alone now."""
        return any(port in account.line and self.spared(id) for id, account in self.table.accounts.items())

    def ringed(self):
        """What one of the technicians does next."""
        return self.rng.choice(self.technicians).line()

    def tick(self):
        if self.long():
            return call("tick", self.rng.choice([5000, 100000]))
        return call("tick", self.rng.choice([0, *[1, 7, 30] * 5, 59, 60, 61, 179, 180, 181, 899, 900, 901]))

    def dump(self):
        return "dump"

    # calls that need no table

    def digest(self):
        name = self.rng.choice(challenges.NAMES).decode()
        if self.long():
            return call(name, b"x" * self.rng.choice([4096, 4097, 100000]))
        return call(name, self.rng.randbytes(self.rng.choice([0, 55, 56, 64, self.rng.randrange(200)])))

    def gen(self):
        count = passwords.any_count(self.rng) if self.long() else self.rng.choice([0, 1, 30, 10000, 65535])
        return call("gen", self.algorithm(), passwords.any_phrase(self.rng), self.seed(), count)

    def words(self):
        return call("words", self.password(), self.room(self.rng.randrange(11, 30)))

    def hex(self):
        return call("hex", self.password(), self.room(16))

    def read(self):
        return call("read", self.extended(self.any_port()) if self.rng.random() < 0.7 else self.any_reply())

    def readplain(self):
        return call("readplain", self.extended(self.any_port()) if self.rng.random() < 0.2 else self.any_reply())

    def chal(self):
        return call("chal", self.rng.choice([challenges.any_challenge, challenges.marked_challenge])(self.rng))

    def wchal(self):
        return call("wchal", self.algorithm(), self.seed(), self.count(), self.room(self.rng.choice([17, 18])))

    def wext(self):
        """A writer of either form; now and then with the other's words, or with a name that is no type's."""
        kind, (algorithm, count, seed, new) = self.rng.choice(model.TYPES), self.new_values()
        name = self.rng.choice([*[kind] * 12, *model.TYPES, b"HEX", b"words", b"init", b"-"]).decode()
        values, password = (algorithm, count, self.rng.choice([seed, seed, passwords.any_seed(self.rng), self.rng.choice(NO_SEEDS)])), self.password()
        length = len(model.extended_text(kind, int(password, 16), values, int(new, 16))) if algorithm in model.NAMES else 60
        return call("wext", name, password, *([*values, new] if model.is_init(kind) else []), self.room(length))

    def some_challenge(self):
        if self.rng.random() < 0.3:
            return challenges.any_challenge(self.rng)
        return b"%s %d dog2\n" % (challenges.good_opening(self.rng), self.rng.randrange(60))

    def some_phrase(self):
        return passwords.any_phrase(self.rng) if self.rng.random() < 0.2 else PHRASES[0]

    def card(self):
        lines = self.rng.choice([0, 1, 2, 9, 59, 99, 100, 65535])
        room = self.rng.choice([0, 47, 48, 100, 5148, 8192])
        return call("card", self.some_phrase(), self.some_challenge(), lines, room)

    def prog(self):
        lines = self.rng.choice([b"1", b"2", b"10", b"0", b"01", b"100", b""])
        rest = self.rng.randbytes(self.rng.choice([0, 0, 1, 300]))
        return call("prog", self.some_phrase() + b"\n" + self.some_challenge() + lines + b"\n" + rest)

    # lines that are no call

    def no_call(self):
        """An empty line, a comment, or a good line with one thing wrong."""
        line = self.rng.choice([self.join, self.gen, self.hex, self.tick, self.enrol, self.read, self.readplain, self.wchal, self.wext, self.renew,
                                self.offer, self.orenew])()
        words = line.split(" ")
        at = self.rng.randrange(len(words))
        changed = self.rng.choice(["", words[at] + " ", words[at] + "\r", words[at].upper(), "-", "x",
                                   "256", "65536", "8193", "100001", "-1", "+1", "1.0", "\0", "\xe9", "0" * 17,
                                   "9" * 30, words[at][:-1], words[at] + "0"])
        return self.rng.choice(["", "# " + line, " " + line, line + " ", line + " 0", line + "\r",
                                " ".join(words[:-1]), line.replace(" ", "\t"), line.upper(),
                                *[" ".join(words[:at] + [changed] + words[at + 1:])] * 8])


def is_call(line):
    """A line that is answered."""
    return line != "" and not line.startswith("#")


def script(seed, calls=1000):
    """A day of that many answered lines, with some that aren't between them."""
    day = Day(seed)
    while len(day.answers) < calls:
        day.lines.append(day.line())
        if is_call(day.lines[-1]):
            day.answer(day.lines[-1])
    return day


def differences(program, day):
    """Where the program answers the day's lines otherwise than the model did, in a few lines each."""
    numbered = [f"line {at}: {line}" for at, line in enumerate(day.lines, 1) if is_call(line)]
    return harness.differences(numbered, harness.asked(program, day.lines), day.answers)
