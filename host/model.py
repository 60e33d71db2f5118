"""An independent model: the rules of documents 01 and 02 in Python.

It shares no code with the proved crates: hashlib gives the digests, and all
else is written from the two documents and RFC 2289, and for R-6 from RFC 2243's
example of a reply, which document 02 names. A rule that refuses raises Refused. `python3 host/model.py < SCRIPT` answers a script of replay lines.
"""
import collections
import hashlib
import pathlib
import re
import struct
import sys

WORDS = (pathlib.Path(__file__).parent / "words.txt").read_text().split()
PLACE_OF = {word: place for place, word in enumerate(WORDS)}


class Refused(Exception):
    """One of document 01's refusal numbers; 31 has its marks too (02, R-2)."""

    def __init__(self, number, marks=""):
        super().__init__(number)
        self.number, self.marks = number, marks


def refuse_if(fault, number, marks=""):
    if fault:
        raise Refused(number, marks)


# 02, R-1: an algorithm is a number at a call, and a name in a text

MD5, SHA1 = 1, 2
NAMES = {MD5: b"md5", SHA1: b"sha1"}


def check_algorithm(algorithm):
    """1 or 2, else 21."""
    refuse_if(algorithm not in NAMES, 21)


def algorithm_named(name):
    """In lower case and whole, else 21."""
    numbers = {known: number for number, known in NAMES.items()}
    refuse_if(name not in numbers, 21)
    return numbers[name]


# 01, From pass-phrase to password; 02, R-1


def digest(algorithm, data):
    """0 to 4,096 bytes, else 12."""
    refuse_if(len(data) > 4096, 12)
    return hashlib.new(NAMES[algorithm].decode(), data).digest()


def fold_md5(sixteen):
    """Byte i xor byte i+8."""
    return bytes(a ^ b for a, b in zip(sixteen[:8], sixteen[8:]))


def fold_sha1(twenty):
    """RFC 2289, Appendix A: five words to two, each written least significant byte first."""
    words = struct.unpack(">5I", twenty)
    return struct.pack("<2I", words[0] ^ words[2] ^ words[4], words[1] ^ words[3])


FOLDS = {MD5: fold_md5, SHA1: fold_sha1}


def hashed(algorithm, data):
    """The folded digest; the 8 bytes are a number, the first most significant."""
    return int.from_bytes(FOLDS[algorithm](digest(algorithm, data)), "big")


def hashed_once(algorithm, password):
    """The password at the next count."""
    return hashed(algorithm, password.to_bytes(8, "big"))


def check_phrase(phrase):
    """10 to 63 bytes of any value."""
    refuse_if(len(phrase) < 10, 10)
    refuse_if(len(phrase) > 63, 11)


def check_seed(seed):
    """1 to 16 ASCII letters and digits; the length is looked at first."""
    refuse_if(not 1 <= len(seed) <= 16, 23)
    refuse_if(not re.fullmatch(rb"[A-Za-z0-9]*", seed), 24)


def chain(algorithm, phrase, seed, count):
    """The passwords at counts 0 to count: seed in lower case, then pass-phrase."""
    passwords = [hashed(algorithm, seed.lower() + phrase)]
    for _ in range(count):
        passwords.append(hashed_once(algorithm, passwords[-1]))
    return passwords


def generator(algorithm, phrase, seed, count):
    """21, 10, 11, 23, 24, 13 in that order."""
    check_algorithm(algorithm)
    check_phrase(phrase)
    check_seed(seed)
    refuse_if(count > 9999, 13)
    return chain(algorithm, phrase, seed, count)[count]


# 01, Six words and hex


def pair_sum(password):
    """The 32 pairs of bits added, modulo 4."""
    return sum(password >> 2 * i & 3 for i in range(32)) % 4


def places_of(password):
    """64 bits and the pair sum's two, cut into six numbers of 11 bits."""
    bits = password << 2 | pair_sum(password)
    return [bits >> 11 * i & 2047 for i in range(5, -1, -1)]


def words_of(password):
    """Upper case, one space between."""
    return " ".join(WORDS[place] for place in places_of(password)).encode()


def hex_of(password):
    """Sixteen lower-case digits."""
    return b"%016x" % password


def into_room(text, room):
    """40 if the buffer is shorter than the text."""
    refuse_if(room < len(text), 40)
    return text


def marks_of(words):
    """02, R-2: `1` where a word isn't in the dictionary, else `0`."""
    return "".join("0" if word in PLACE_OF else "1" for word in words)


def read_words(tokens):
    """Six tokens of letters: 31 with a `1` for each unknown word, then 32."""
    words = [token.decode().upper() for token in tokens]
    marks = marks_of(words)
    refuse_if("1" in marks, 31, marks)
    bits = 0
    for word in words:
        bits = bits << 11 | PLACE_OF[word]
    password = bits >> 2
    refuse_if(pair_sum(password) != bits & 3, 32)
    return password


WHITE = b" \t\r\n"


def tokens_in(text):
    """What stands between white space of the four kinds."""
    return [token for token in re.split(rb"[ \t\r\n]", text) if token]


def is_six(tokens):
    """Six tokens of one to four letters."""
    return len(tokens) == 6 and all(re.fullmatch(rb"[A-Za-z]{1,4}", token) for token in tokens)


def read_hex(text):
    """Sixteen digits, else 33."""
    digits = b"".join(tokens_in(text))
    refuse_if(not re.fullmatch(rb"[0-9A-Fa-f]{16}", digits), 33)
    return int(digits, 16)


def read_six(text):
    """Six tokens of letters, else 33."""
    refuse_if(not is_six(tokens_in(text)), 33)
    return read_words(tokens_in(text))


def read_plain(text):
    """30; six tokens of one to four letters are words; sixteen digits; 33. A colon is neither letter nor digit."""
    refuse_if(len(text) > 128, 30)
    return read_six(text) if is_six(tokens_in(text)) else read_hex(text)


# 01, Challenges


def token_at(text, at):
    """The token that starts at `at`: it ends before a space, tab, newline or the end."""
    return re.compile(rb"[^ \t\n]*").match(text, at).group()


def after_blanks(text, at):
    """The place after the spaces and tabs at `at`."""
    return re.compile(rb"[ \t]*").match(text, at).end()


def marked_to(text, at):
    """02, R-6: behind the seed and its space, past blanks, `ext`, alone or with a comma list, and a space or newline straight after it: the place after
    that byte. 0 where there is no mark."""
    start = after_blanks(text, at)
    token = token_at(text, start)
    end = start + len(token)
    return end + 1 if token.split(b",")[0] == b"ext" and text[end:end + 1] in (b" ", b"\n") else 0


def read_challenge(text):
    """Steps 1 to 5: the algorithm, the count, where the seed starts, its length, the bytes used; and 1 for the mark, else 0."""
    refuse_if(text[:4] != b"otp-", 20)
    name = token_at(text, 4)
    algorithm = algorithm_named(name)
    count_at = after_blanks(text, 4 + len(name))
    digits = token_at(text, count_at)
    refuse_if(not re.fullmatch(rb"0|[1-9][0-9]{0,3}", digits), 22)
    seed_at = after_blanks(text, count_at + len(digits))
    seed = token_at(text, seed_at)
    check_seed(seed)
    end = seed_at + len(seed)
    refuse_if(text[end:end + 1] not in (b" ", b"\n"), 25)
    marked = marked_to(text, end + 1) if text[end:end + 1] == b" " else 0
    return algorithm, int(digits), seed_at, len(seed), marked or end + 1, int(marked > 0)


def challenge_text(algorithm, seed, count, mark=b""):
    """Single spaces, the seed in lower case and a newline, before which the mark may stand."""
    return b"otp-%s %d %s%s\n" % (NAMES[algorithm], count, seed.lower(), mark)


def write_challenge(algorithm, seed, count, room):
    """21, 23, 24, 13, 40 in that order."""
    check_algorithm(algorithm)
    check_seed(seed)
    refuse_if(count > 9999, 13)
    return into_room(challenge_text(algorithm, seed, count), room)


# 02, R-6: extended replies


# each type's reader and writer of passwords; those of a renewal have `init-` before the name of the others
READER_OF, WRITER_OF = {b"hex": read_hex, b"word": read_six}, {b"hex": hex_of, b"word": words_of}
INIT = b"init-"
TYPES = [*READER_OF, *(INIT + name for name in READER_OF)]


def is_init(kind):
    return kind.startswith(INIT)


def check_new(algorithm, count, seed):
    """51, 21, 23, 24: what an enrolment and a renewal are told."""
    refuse_if(not 2 <= count <= 9999, 51)
    check_algorithm(algorithm)
    check_seed(seed)


def parts_of(text):
    """30 over 256 bytes, 34, 35: the type, and the parts between colons after it, one or for `init` types three."""
    refuse_if(len(text) > 256, 30)
    kind, *parts = text.split(b":")
    refuse_if(kind not in TYPES, 34)
    refuse_if(len(parts) != (3 if is_init(kind) else 1), 35)
    return kind, parts


def parameters_of(part):
    """Algorithm, count and all that follows it, the seed as it stands. A name that isn't known, and what is no count, is 0: it is refused where it is
    offered."""
    name, digits, seed = [*re.split(rb"[ \t\r\n]+", part.strip(WHITE), maxsplit=2), b"", b""][:3]
    number = next((number for number, known in NAMES.items() if known == name), 0)
    return number, int(digits) if re.fullmatch(rb"0|[1-9][0-9]{0,3}", digits) else 0, seed


def extended_text(kind, password, values=None, new=None):
    """Type, colon, password; for `init` types then colon, algorithm, space, count, space, seed as given, colon, new password."""
    spelt = WRITER_OF[kind.removeprefix(INIT)]
    if not is_init(kind):
        return b"%s:%s" % (kind, spelt(password))
    algorithm, count, seed = values
    return b"%s:%s:%s %d %s:%s" % (kind, spelt(password), NAMES[algorithm], count, seed, spelt(new))


def write_login(kind, password, room):
    """40."""
    return into_room(extended_text(kind, password), room)


def write_renewal(kind, password, algorithm, count, seed, new, room):
    """51, 21, 23, 24, 40."""
    check_new(algorithm, count, seed)
    return into_room(extended_text(kind, password, (algorithm, count, seed), new), room)


# 02, R-7: what the text of a reply is read to; no table is looked at


Login = collections.namedtuple("Login", "password")
Renewal = collections.namedtuple("Renewal", "algorithm count seed new password")


def read_reply(text):
    """A text without a colon is plain. Of an extended one 30, 34, 35; then the new password before the present one. Of the new values nothing is refused."""
    if b":" not in text:
        return Login(read_plain(text))
    kind, parts = parts_of(text)
    read = READER_OF[kind.removeprefix(INIT)]
    if not is_init(kind):
        return Login(read(parts[0]))
    new = read(parts[2])
    return Renewal(*parameters_of(parts[1]), new, read(parts[0]))


# 01, The card


def card_text(phrase, challenge, lines):
    """10, 11, 20 to 25, 70; then a line each for counts n down to n-k+1, by the challenge's algorithm."""
    check_phrase(phrase)
    algorithm, count, at, length, *_ = read_challenge(challenge)
    refuse_if(not 1 <= lines <= min(99, count), 70)
    passwords = chain(algorithm, phrase, challenge[at:at + length], count)
    return b"".join(
        b"%d %s %s\n" % (n, hex_of(passwords[n]), words_of(passwords[n]))
        for n in range(count, count - lines, -1))


def write_card(phrase, challenge, lines, room):
    """40 comes last, before a byte is written."""
    return into_room(card_text(phrase, challenge, lines), room)


def three_lines(stdin):
    """Only the challenge keeps its newline; a missing line is empty."""
    phrase, _, rest = stdin.partition(b"\n")
    challenge, newline, rest = rest.partition(b"\n")
    return phrase, challenge + newline, rest.partition(b"\n")[0]


def card_program(stdin):
    """What program `card` prints: the card, or `refused` and the number."""
    try:
        refuse_if(len(stdin) > 256, 12)
        phrase, challenge, k = three_lines(stdin)
        # a malformed k is 0 lines: 70, but only after the other checks
        lines = int(k) if re.fullmatch(rb"[1-9][0-9]?", k) else 0
        return card_text(phrase, challenge, lines)
    except Refused as refusal:
        return b"refused %d\n" % refusal.number


# 01, Table, ports and turns


class Account:
    """02, R-4: with the line of the ports that wait for it, front first, and the ticks left of the front's turn.
    R-5: with its last eight seeds, the present one first."""

    def __init__(self, *values):
        self.seeds = []
        self.take(*values)
        self.line, self.turn = [], 0

    def take(self, algorithm, count, seed, password):
        """The values of an enrolment or a renewal."""
        self.algorithm, self.count, self.password = algorithm, count, password
        self.seeds = [seed.lower(), *self.seeds][:8]

    def check_renewal(self, algorithm, count, seed):
        """51, 21, 23, 24, then 63 for a seed that is remembered."""
        check_new(algorithm, count, seed)
        refuse_if(seed.lower() in self.seeds, 63)

    def join(self, port):
        """To the back; in an empty line the turn starts at once."""
        if not self.line:
            self.turn = 60
        self.line.append(port)

    def leave(self, port):
        """Whenever the front port leaves, the next starts at 60; nobody: 0."""
        front = self.line[0] == port
        self.line.remove(port)
        if front:
            self.turn = 60 if self.line else 0

    def tick(self):
        """While somebody waits the turn falls; at 0 the front port leaves."""
        if self.line:
            self.turn -= 1
            if self.turn == 0:
                self.leave(self.line[0])


class Port:
    def __init__(self):
        self.wrong_run = self.shut_ticks = 0


class Table:
    """A fresh table: no accounts, and zeros."""

    def __init__(self):
        self.accounts = {}
        self.ports = [Port() for _ in range(4)]

    def enrol(self, id, algorithm, count, seed, password):
        """50, 51, 21, 23, 24, 52, 53."""
        refuse_if(id == 0, 50)
        check_new(algorithm, count, seed)
        refuse_if(id in self.accounts, 52)
        refuse_if(len(self.accounts) == 32, 53)
        self.accounts[id] = Account(algorithm, count, seed, password)

    def remove(self, id):
        """54. The account's line goes with it, and what it remembers."""
        refuse_if(id not in self.accounts, 54)
        del self.accounts[id]

    def join(self, port, id):
        """55, 54, 56, 57, 58. The port goes to the back of the account's line, if it is in no line."""
        refuse_if(port > 3, 55)
        refuse_if(id not in self.accounts, 54)
        refuse_if(self.waited_for(port), 56)
        refuse_if(self.ports[port].shut_ticks > 0, 57)
        refuse_if(self.accounts[id].count == 1, 58)
        self.accounts[id].join(port)

    def leave(self, port):
        """55, 59."""
        self.own_account(port).leave(port)

    def challenge(self, port, room):
        """The checks of a turn, then 40. The account's algorithm, stored count less 1, the seed and the mark."""
        account = self.account_in_turn(port)
        return into_room(challenge_text(account.algorithm, account.seeds[0], account.count - 1, b" ext"), room)

    def offer(self, port, password):
        """The checks of a turn. What is accepted is kept, and the count steps down; the answer is the new count."""
        account = self.account_in_turn(port)
        self.compare(port, account, password)
        account.password = password
        account.count -= 1
        return account.count

    def offer_renewal(self, port, algorithm, count, seed, new, password):
        """The checks of a turn, 51, 21, 23, 24, 63. Only what is accepted changes the algorithm, and is remembered; the answer is the new count."""
        account = self.account_in_turn(port)
        account.check_renewal(algorithm, count, seed)
        self.compare(port, account, password)
        account.take(algorithm, count, seed, new)
        return count

    def tick(self):
        """Shut counts fall, then the turn of every line that isn't empty."""
        for port in self.ports:
            port.shut_ticks = max(0, port.shut_ticks - 1)
        for account in self.accounts.values():
            account.tick()

    def waited_for(self, port):
        """The account in whose line the port is; None: in no line."""
        return next((account for account in self.accounts.values() if port in account.line), None)

    def own_account(self, port):
        """55, 59: the account in whose line the port is."""
        refuse_if(port > 3, 55)
        account = self.waited_for(port)
        refuse_if(account is None, 59)
        return account

    def account_in_turn(self, port):
        """55, 59, 60, 58: the account whose line the port is in front of."""
        account = self.own_account(port)
        refuse_if(account.line[0] != port, 60)
        refuse_if(account.count == 1, 58)
        return account

    def compare(self, port, account, password):
        """Hash once, by the account's algorithm, and compare: the port leaves either way; 61, or 62 at the third."""
        right = hashed_once(account.algorithm, password) == account.password
        account.leave(port)
        record = self.ports[port]
        record.wrong_run = 0 if right else record.wrong_run + 1
        if record.wrong_run == 3:
            record.wrong_run, record.shut_ticks = 0, 900
            raise Refused(62)
        refuse_if(not right, 61)

    def dump(self):
        """The table on a line: accounts by rising id, each with its seeds, line and turn; ports."""
        accounts = ",".join(
            f"{id}:{a.algorithm}:{a.count}:{a.password:016x}:{'/'.join(seed.hex() for seed in a.seeds)}:{'.'.join(map(str, a.line)) or '-'}:{a.turn}"
            for id, a in sorted(self.accounts.items()))
        ports = ",".join(f"{p.wrong_run}:{p.shut_ticks}" for p in self.ports)
        return f"A={accounts or '-'} P={ports}"


# The line format: one call a line, one answer a line


class Bad(Exception):
    """A line that is no call."""


def text_in(word):
    """Bytes as lower-case hex; `-` is the empty text."""
    if word == "-":
        return b""
    if not re.fullmatch("([0-9a-f]{2})+", word):
        raise Bad
    return bytes.fromhex(word)


def password_in(word):
    if not re.fullmatch("[0-9a-f]{16}", word):
        raise Bad
    return int(word, 16)


def number_to(most):
    def number_in(word):
        if not re.fullmatch("0*[0-9]{1,6}", word) or int(word) > most:
            raise Bad
        return int(word)
    return number_in


def one_of(*names):
    def name_in(word):
        if word.encode("latin-1") not in names:
            raise Bad
        return word.encode()
    return name_in


TEXT, PASSWORD = text_in, password_in
LOGIN, RENEWAL = one_of(*READER_OF), one_of(*(INIT + name for name in READER_OF))
ALGORITHM, NUMBER, ROOM, TICKS = number_to(255), number_to(65535), number_to(8192), number_to(100000)


def hex_word(text):
    return text.hex() or "-"


def ticks(table, n):
    for _ in range(n):
        table.tick()


def said(reading):
    """What a text was read to, in words."""
    if isinstance(reading, Login):
        return "pw %016x" % reading
    return "init %d %d %s %016x %016x" % reading._replace(seed=hex_word(reading.seed))


def reply(table, port, text):
    """02, R-7: a caller reads, then offers. So what the text is refused for comes before what the table refuses."""
    reading = read_reply(text)
    return (table.offer if isinstance(reading, Login) else table.offer_renewal)(port, *reading)


def renew(table, port, algorithm, count, seed, new, text):
    """The text is plain."""
    return table.offer_renewal(port, algorithm, count, seed, new, read_plain(text))


# each call's kinds of words, and what it does on the table: the values of its answer
CALLS = {
    "md5": ([TEXT], lambda t, data: hex_word(digest(MD5, data))),
    "sha1": ([TEXT], lambda t, data: hex_word(digest(SHA1, data))),
    "gen": ([ALGORITHM, TEXT, TEXT, NUMBER], lambda t, *given: "%016x" % generator(*given)),
    "words": ([PASSWORD, ROOM], lambda t, p, room: into_room(words_of(p), room)),
    "hex": ([PASSWORD, ROOM], lambda t, p, room: into_room(hex_of(p), room)),
    "read": ([TEXT], lambda t, text: said(read_reply(text))),
    "readplain": ([TEXT], lambda t, text: said(Login(read_plain(text)))),
    "chal": ([TEXT], lambda t, text: "%d %d %d %d %d %d" % read_challenge(text)),
    "wchal": ([ALGORITHM, TEXT, NUMBER, ROOM], lambda t, *given: write_challenge(*given)),
    "wext": ([LOGIN, PASSWORD, ROOM], lambda t, *given: write_login(*given)),
    "wext init": ([RENEWAL, PASSWORD, ALGORITHM, NUMBER, TEXT, PASSWORD, ROOM], lambda t, *given: write_renewal(*given)),
    "card": ([TEXT, TEXT, NUMBER, ROOM], lambda t, *given: write_card(*given)),
    "prog": ([TEXT], lambda t, stdin: hex_word(card_program(stdin))),
    "new": ([], Table.__init__),
    "enrol": ([NUMBER, ALGORITHM, NUMBER, TEXT, PASSWORD], Table.enrol),
    "remove": ([NUMBER], Table.remove),
    "join": ([NUMBER, NUMBER], Table.join),
    "leave": ([NUMBER], Table.leave),
    "challenge": ([NUMBER, ROOM], Table.challenge),
    "offer": ([NUMBER, PASSWORD], Table.offer),
    "orenew": ([NUMBER, ALGORITHM, NUMBER, TEXT, PASSWORD, PASSWORD], Table.offer_renewal),
    "reply": ([NUMBER, TEXT], reply),
    "renew": ([NUMBER, ALGORITHM, NUMBER, TEXT, PASSWORD, TEXT], renew),
    "tick": ([TICKS], ticks),
    "dump": ([], Table.dump),
}


def answer(table, line):
    """The answer to one call; `bad` to a line that is none."""
    name, *words = line.split(" ")
    # one name for two calls: KIND says which
    form = "wext init" if name == "wext" and words and words[0].startswith("init-") else name
    kinds, act = CALLS.get(form, (None, None))
    if kinds is None or len(words) != len(kinds):
        return "bad"
    # only a writer is lent room, as its last word; a model's buffer is never dirty
    clean = " clean" if ROOM in kinds else ""
    try:
        value = act(table, *(kind(word) for kind, word in zip(kinds, words)))
    except Bad:
        return "bad"
    except Refused as refusal:
        marks = f" {refusal.marks}" if refusal.marks else ""
        return f"no {refusal.number}{marks}{clean}"
    if clean:
        value = f"{len(value)} {hex_word(value)}"
    return "ok" + ("" if value is None else f" {value}") + clean


def replay(script):
    """The answers to a script; empty lines and comments are passed over."""
    table = Table()
    return [answer(table, line) for line in script.split("\n")
            if line and not line.startswith("#")]


if __name__ == "__main__":
    for one in replay(sys.stdin.buffer.read().decode("latin-1")):
        print(one)
