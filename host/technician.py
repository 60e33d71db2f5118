"""A technician of a random day, who renews an account round a ring of seeds.

With a ring of n seeds the first comes up again at the nth renewal. Of eight or fewer it is still remembered then (63), and he begins a new ring; of more it
was forgotten, and he goes round. In between he asks for a remembered seed, in either case and under either algorithm; has a wrong reply, or something else
wrong, with the seed that comes next, and takes that seed afterwards all the same; replies; and removes the account and enrols it anew. He renews by a
reply of an `init` type, or with new values of his own beside a plain text or a password.
"""
import collections

import extensions
import handheld
import model
from harness import call
from sections import passwords, replies


def seeds(rng, size):
    """New seeds that are easily taken for each other: numbered, each with the one before as its beginning, or of sixteen characters that differ in one."""
    letters = bytes(rng.choices(passwords.GOOD, k=16))
    start, at = rng.randrange(1, 18 - size), rng.randrange(16)
    return rng.choice([[letters[:3] + b"%d" % n for n in range(size)],
                       [letters[:length] for length in range(start, start + size)],
                       [letters[:at] + b"%d" % n + letters[at + 1:] for n in range(size)]])


class Technician:
    """Makes one call at a time, out of the day's table as it is then."""

    def __init__(self, day, size, id):
        self.day, self.rng, self.size, self.id = day, day.rng, size, id
        self.begin()

    def begin(self):
        """A new ring; what comes next stands first."""
        self.ring = collections.deque(seeds(self.rng, self.size))

    def line(self):
        """Whatever is next for a renewal: an account whose right reply is known, a port in front of its line."""
        accounts = self.day.table.accounts
        account = accounts.get(self.id)
        if account is None:
            return self.enrol()
        password = self.day.before.get(account.password)
        known = password is not None and model.hashed_once(account.algorithm, password) == account.password
        if not known or account.count == 1 or self.rng.random() < (0.05 if len(accounts) == 32 else 0.005):
            self.day.next = self.enrol
            return call("remove", self.id)
        if not account.line:
            return self.join()
        return self.rng.choices([self.round, self.back, self.wrong, self.refused, self.reply], [10, 3, 1, 2, 2])[0](account, password)

    def enrol(self):
        """The account, under its id or another, with the ring turned back by one: the seed that was taken last comes next, and the one before it is
        enrolled. In a full table he takes an account that is there. Never the other technician's id, so that two rings don't mix."""
        accounts, others = self.day.table.accounts, [each.id for each in self.day.technicians if each is not self]
        if len(accounts) == 32:
            self.id = self.rng.choice([id for id in accounts if id not in others])
            return self.line()
        self.id = self.rng.choice([id for id in (self.id, self.rng.randrange(1, 65536)) if id not in others])
        self.ring.rotate(1)
        return call("enrol", self.id, *self.values(self.ring[-1]))

    def join(self):
        """With a port that is free. Where there is none the others go on first, and where all crowd at another account he does as they do."""
        idle = self.day.idle()
        if not idle:
            return self.day.reply() if self.rng.random() < 0.5 else call("tick", 30)
        if self.day.crowded():
            return self.day.join()
        return call("join", self.rng.choice(idle), self.id)

    def values(self, seed):
        """Algorithm, count, the seed in some case, and the password at that count."""
        algorithm, count = self.rng.choice([*model.NAMES]), self.rng.randrange(3, 60)
        return algorithm, count, replies.some_case(self.rng, seed), self.day.kept(algorithm, seed, count)

    def renewal(self, port, values, present, text=None):
        """With new values beside a password or a plain text, or by a text that says them; `text` is what stands for the present password, if it isn't the
        one that is given, and then there is a text."""
        algorithm, count, seed, new = values
        way = self.rng.choice(["renew", "reply"] if text is not None else ["renew", "reply", "orenew"])
        if way == "orenew":
            return call("orenew", port, *values, f"{present:016x}")
        if way == "renew":
            return call("renew", port, *values, model.hex_of(present) if text is None else text)
        sent = handheld.sent(self.rng, self.rng.choice(extensions.RENEWALS), present, (algorithm, count, seed), int(new, 16))
        return call("reply", port, handheld.text_of(self.rng, sent if text is None else sent._replace(present=text)))

    # what the port in front does

    def round(self, account, present):
        """The next seed of the ring, with the right reply; where it is remembered, a new ring begins."""
        line = self.renewal(account.line[0], self.values(self.ring[0]), present)
        if self.ring[0].lower() in account.seeds:
            self.begin()
        else:
            self.ring.rotate(-1)
        return line

    def back(self, account, present):
        """The seed at one of the eight places, if there is one; a text that isn't read comes before 63."""
        place = self.rng.randrange(8)
        if place >= len(account.seeds):
            return self.round(account, present)
        return self.renewal(account.line[0], self.values(account.seeds[place]), present, self.rng.choice([None, None, None, self.day.any_reply()]))

    def wrong(self, account, _present):
        """The next seed of the ring, with a password at random."""
        return self.renewal(account.line[0], self.values(self.ring[0]), self.rng.getrandbits(64))

    def refused(self, account, present):
        """The next seed of the ring, with something else that is wrong: the port, the count, the algorithm, or mostly the text."""
        port, algorithm, count, seed, password, text = account.line[0], *self.values(self.ring[0]), None
        what = self.rng.choice(["port", "count", "algorithm", *["text"] * 3])
        if what == "port":
            port = account.line[-1] if account.line[1:] else self.day.any_port()
        elif what == "count":
            count = self.rng.choice([0, 1, 10000])
        elif what == "algorithm":
            algorithm = self.rng.choice([0, 3, 255])
        else:
            text = self.rng.choice([*[self.day.any_reply()] * 9, b" " * 129])
        return self.renewal(port, (algorithm, count, seed, password), present, text)

    def reply(self, account, present):
        """A login, by a plain text, by one of the two types, or by the password alone."""
        sent = handheld.sent(self.rng, self.rng.choice([*model.READER_OF]), present, (model.MD5, 2, b"a"), 0)
        return self.rng.choice([call("reply", account.line[0], self.rng.choice([sent.present, handheld.text_of(self.rng, sent)])),
                                call("offer", account.line[0], f"{present:016x}")])
