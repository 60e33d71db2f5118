"""What scripts show of the seeds that accounts remember (R-5): read from calls and answers; the model is asked for nothing but a word's bytes. A reply of
an `init` type (R-6) that has all its parts is a renewal, and so is an offer with new values (R-7)."""
import collections

import extensions
from model import text_in

ALGORITHMS = {b"md5": 1, b"sha1": 2}

PLACES = 8
# what is answered to a renewal that may name a seed which is taken later; of these, what is answered to a text that isn't read, whoever has the turn
REFUSALS = ("21", "30", "31", "32", "33", "51", "60", "61", "62", "63")
OF_THE_TEXT = ("30", "31", "32", "33")
# what can be shown: a renewal's answer, and how many renewals before the account took that seed; what else is true of the seed; what a dump has
KINDS = [*(f"63, {back} back" for back in range(PLACES)), "ok, 8 back", "ok, 9 back",
         "63 in upper case", "63 under the other algorithm", "63 after a reply", *(f"ok after {number}" for number in REFUSALS),
         "ok, of an account removed under this id", "ok, of another removed from this room", "ok, of the table before", "ok, of another account",
         "ok, begins with a remembered one", "ok, begins a remembered one",
         *(f"dump, {number} remembered" for number in range(1, PLACES + 1)), "dump, two with eight"]


def values_in(text):
    """The algorithm and the seed that a reply of an `init` type names; None where it hasn't both."""
    parts = text.split(b":")
    if parts[0] not in extensions.RENEWALS or len(parts) != 4:
        return None
    name, _, seed = extensions.new_values(parts[2])
    return (ALGORITHMS.get(name, 0), seed) if seed else None


class Account:
    """The seeds that an account took, newest first, each with its algorithm; `gone` has what isn't its own, by what it is of. The ports in its line, front
    first, and the ticks left of the front's turn."""

    def __init__(self, seed, algorithm, gone):
        self.taken, self.gone = [(seed, algorithm)], gone
        self.refused = collections.defaultdict(set)  # by the seed, the refusals of renewals that named it
        self.replied = set()  # the seeds in whose time a reply was accepted, or in that of a newer one
        self.line, self.turn = [], 0

    def join(self, port):
        self.turn = self.turn if self.line else 60
        self.line.append(port)

    def leave(self, port):
        self.turn = 60 if self.line[0] == port else self.turn
        self.line.remove(port)

    def tick(self, ticks):
        while self.line and ticks >= self.turn:
            ticks, self.turn = ticks - self.turn, 60
            del self.line[0]
        self.turn -= ticks

    def seeds(self):
        return [seed for seed, _ in self.taken]

    def remembered(self):
        return self.seeds()[:PLACES]

    def shown(self, answer, seed, algorithm, others):
        """What a renewal to that seed shows, by its answer; `seed` is as it was given."""
        folded, remembered = seed.lower(), self.remembered()
        back = self.seeds().index(folded) if folded in self.seeds() else None
        if back is not None:
            yield f"{answer}, {back} back"
        if answer == "63" and back:
            yield from ["63 in upper case"] * (seed != folded)
            yield from ["63 under the other algorithm"] * (algorithm != self.taken[back][1])
            yield from ["63 after a reply"] * (folded in self.replied)
        if answer == "ok":
            yield from (f"ok after {number}" for number in self.refused[folded])
            yield from (f"ok, of {whose}" for whose, seeds in [*self.gone.items(), ("another account", others)] if back is None and folded in seeds)
            yield from ["ok, begins with a remembered one"] * any(folded.startswith(each) for each in remembered)
            yield from ["ok, begins a remembered one"] * any(each.startswith(folded) for each in remembered)


class Reader:
    """The accounts, by their ids."""

    def __init__(self):
        self.seen = collections.Counter()
        self.accounts = {}
        self.removed, self.room, self.before = {}, (), ()

    def read(self, line, answer):
        name, *words = line.split(" ")
        number = answer.split(" ")[1 if answer.startswith("no") else 0]
        if name in ("renew", "reply", "orenew") and number in ("ok", *REFUSALS) and (new := self.new_values(name, words)):
            self.renew(number, int(words[0]), *new)
        elif number == "ok" and name in ("new", "enrol", "remove", "join", "leave", "reply", "offer", "tick"):
            getattr(self, name)(*words)
        elif number == "ok" and name == "dump":
            self.dump(answer)
        if name in ("renew", "reply", "orenew", "offer") and number in ("ok", "61", "62"):
            self.leave(words[0])

    def new(self):
        self.before = self.remembered(self.accounts.values())
        self.accounts, self.removed, self.room = {}, {}, ()

    def enrol(self, id, algorithm, _count, seed, _password):
        own = self.removed.get(int(id), ())
        gone = {"an account removed under this id": own, "another removed from this room": () if self.room is own else self.room,
                "the table before": self.before}
        self.accounts[int(id)] = Account(text_in(seed).lower(), int(algorithm), gone)
        self.room = ()

    def remove(self, id):
        """Of 32 accounts one is removed: the next that is enrolled has its room, if no other is removed before."""
        full = len(self.accounts) == 32
        self.removed[int(id)] = self.accounts.pop(int(id)).remembered()
        self.room = self.removed[int(id)] if full else ()

    def join(self, port, id):
        self.accounts[int(id)].join(int(port))

    def leave(self, port):
        self.waited_for(int(port)).leave(int(port))

    def tick(self, ticks):
        for account in self.accounts.values():
            account.tick(int(ticks))

    def waited_for(self, port):
        """The account in whose line the port is; None: in no line."""
        return next((account for account in self.accounts.values() if port in account.line), None)

    @staticmethod
    def new_values(name, words):
        """The algorithm and the seed that a renewal names; None for a login."""
        return values_in(text_in(words[1])) if name == "reply" else (int(words[1]), text_in(words[3]))

    def reply(self, port, _text):
        account = self.waited_for(int(port))
        account.replied |= {*account.seeds()}

    offer = reply

    def renew(self, answer, port, algorithm, given):
        """A text that isn't read is refused at any port, and counts while the port has the turn. Any other answer is of the account that the port waits
        for."""
        account = self.waited_for(port)
        if answer in OF_THE_TEXT and (account is None or account.line[0] != port):
            return
        others = self.remembered(each for each in self.accounts.values() if each is not account)
        self.seen.update(account.shown(answer, given, algorithm, others))
        if answer != "ok":
            account.refused[given.lower()].add(answer)
            return
        account.taken.insert(0, (given.lower(), algorithm))
        account.refused.pop(given.lower(), None)
        account.replied.discard(given.lower())

    def dump(self, answer):
        shown = answer.split(" ")[1].removeprefix("A=")
        numbers = [len(account.split(":")[4].split("/")) for account in shown.split(",") if account != "-"]
        self.seen.update(f"dump, {number} remembered" for number in numbers)
        self.seen["dump, two with eight"] += numbers.count(PLACES) > 1

    @staticmethod
    def remembered(accounts):
        return {seed for account in accounts for seed in account.remembered()}


def kinds_in(lines, answers):
    """How often each kind is shown."""
    reader = Reader()
    for line, answer in zip(lines, answers, strict=True):
        reader.read(line, answer)
    return reader.seen
