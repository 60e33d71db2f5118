"""What scripts show of reading a text and of offering a password or a renewal (R-7): read from calls and answers, as in extensions.py; only what the table
would have refused of a text that isn't read is asked of the model's table."""
import collections
import itertools
import re

import extensions
import model
from extensions import RENEWALS, picked
from model import text_in

# of the turn; of the new values
TURN, VALUES = ("55", "59", "60", "58"), ("51", "21", "23", "24", "63")
UNREAD = ("30", "31", "32", "33", "34", "35")
# what a text is, by its type; and what reading it by `read` may answer
TYPES = ["plain", *(kind.decode() for kind in extensions.TYPES)]
READ = {kind: ["ok", "30", *([] if kind.endswith("hex") else ["31", "32"]), "33", *([] if kind == "plain" else ["35"])] for kind in TYPES}
PLAINLY = ["ok", "30", "31", "32", "33"]
# what `read` says of a renewal's new values
ALGORITHMS = ["algorithm 1", "algorithm 2", "algorithm 0, a name in upper case", "algorithm 0, another name"]
COUNTS = ["count 0, a leading zero", "count 0, a byte that is no digit", "count 0, five digits or more", "count 0, nothing there",
          *(f"count {count}, as it is" for count in (0, 1, 2, 9999))]
SEEDS = ["no seed", "a seed in upper case", "a seed of 17 bytes or more", "a seed of 100 bytes or more", "a seed with a blank", "a seed with another character"]
# offers, by their answers, and which of two faults is answered
OFFERS = {"offer": ["ok", "61", "62", *TURN], "orenew": ["ok", "61", "62", *TURN, *VALUES]}
ORDERS = [*(f"{number} before a value's" for number in TURN), "51 before 21", "51 before 23 or 24", "21 before 23 or 24", "23 before 24"]
AGAIN = ["59 by offer, after ok", "59 by orenew, after ok"]
# a text that isn't read, at a port or with values that the table would have refused: which call it is, and the table's number
HIDDEN = [*(f"unread before {number}, {what}" for what in ("plain", "extended", "init", "renew")
            for number in [*TURN, *(VALUES if what in ("init", "renew") else ())]),
          *(f"{number} before the table's" for number in UNREAD)]
KINDS = [*(f"{number} by read, {kind}" for kind, numbers in READ.items() for number in numbers), "34 by read",
         *(f"{number} by readplain" for number in PLAINLY),
         *(f"read: {kind}" for kind in [*ALGORITHMS, *COUNTS, *SEEDS, *extensions.EITHER]),
         *(f"{number} by {name}" for name, numbers in OFFERS.items() for number in numbers), *(f"orenew: {kind}" for kind in ORDERS), *AGAIN, *HIDDEN]


def type_of(text):
    """`plain`, one of the four names, or nothing for another."""
    name = text.partition(b":")[0]
    return "plain" if b":" not in text else name.decode() if name in extensions.TYPES else None


# a text that is read


def algorithms(number, name):
    return picked((f"algorithm {number}", number in ("1", "2") and name == {"1": b"md5", "2": b"sha1"}[number]),
                  ("algorithm 0, a name in upper case", number == "0" and name.lower() in (b"md5", b"sha1")),
                  ("algorithm 0, another name", number == "0" and name and name.lower() not in (b"md5", b"sha1")))


def counts(number, digits):
    return picked(("count 0, a leading zero", number == "0" and re.fullmatch(rb"0[0-9]{1,3}", digits)),
                  ("count 0, a byte that is no digit", number == "0" and re.search(rb"[^0-9]", digits)),
                  ("count 0, five digits or more", number == "0" and re.fullmatch(rb"[1-9][0-9]{4,}", digits)),
                  ("count 0, nothing there", number == "0" and not digits),
                  (f"count {number}, as it is", number.encode() == digits))


def seeds(said, seed):
    """Only a seed that is said as it stands in the text."""
    if text_in(said) != seed:
        return []
    return picked(("no seed", not seed), ("a seed in upper case", seed != seed.lower()), ("a seed of 17 bytes or more", len(seed) > 16),
                  ("a seed of 100 bytes or more", len(seed) > 99), ("a seed with a blank", re.search(rb"[ \t\r\n]", seed)),
                  ("a seed with another character", re.search(rb"[^A-Za-z0-9 \t\r\n]", seed)))


def renewal_read(number, answer, parts):
    """What a text of an `init` type with all its parts shows."""
    present, parameters, new = parts
    words = answer.split(" ")
    if words[:2] == ["ok", "init"]:
        name, digits, seed = extensions.new_values(parameters)
        return [*algorithms(words[2], name), *counts(words[3], digits), *seeds(words[4], seed)]
    return extensions.either(number, answer, present, new)


def read(number, answer, text):
    """What reading a text shows."""
    kind, parts = type_of(text), text.split(b":")
    yield from picked(("34 by read", number == "34" and not kind), (f"{number} by read, {kind}", number in READ.get(kind, ())))
    if kind and kind.encode() in RENEWALS and len(parts) == 4:
        yield from (f"read: {each}" for each in renewal_read(number, answer, parts[1:]))


# what is offered


def values_wrong(algorithm, count, seed):
    """Which of 51, 21, 23 and 24 the new values deserve."""
    return {number for number, wrong in (("51", not 2 <= count <= 9999), ("21", algorithm not in (1, 2)), ("23", not 1 <= len(seed) <= 16),
                                         ("24", re.search(rb"[^A-Za-z0-9]", seed))) if wrong}


def orders(number, algorithm, count, seed, *_passwords):
    """Which of two faults of a renewal is answered."""
    wrong = values_wrong(int(algorithm), int(count), text_in(seed))
    of_seed = bool(wrong & {"23", "24"})
    return picked((f"{number} before a value's", number in TURN and wrong), ("51 before 21", number == "51" and "21" in wrong),
                  ("51 before 23 or 24", number == "51" and of_seed), ("21 before 23 or 24", number == "21" and of_seed),
                  ("23 before 24", number == "23" and "24" in wrong))


def shown(line, answer):
    """What one call shows."""
    name, *words = line.split(" ")
    number = answer.split(" ")[1 if answer.startswith("no") else 0]
    if number == "bad" or not words:
        return
    if name == "read":
        yield from read(number, answer, text_in(words[0]))
    if name == "readplain":
        yield f"{number} by readplain"
    if name in OFFERS:
        yield f"{number} by {name}"
    if name == "orenew":
        yield from (f"orenew: {each}" for each in orders(number, *words[1:]))


def again(before, after):
    """A port that was accepted and offers once more, in the very next call: it isn't in line any more."""
    (line, answer), (next_line, next_answer) = before, after
    (name, *words), (next_name, *next_words) = line.split(" "), next_line.split(" ")
    if name in OFFERS and answer.startswith("ok") and next_name == name and words[0] == next_words[0] and next_answer == "no 59":
        yield f"59 by {name}, after ok"


def kinds_in(lines, answers):
    """How often each kind is shown, but for those that need a table."""
    pairs = list(zip(lines, answers, strict=True))
    return collections.Counter(itertools.chain(*itertools.starmap(shown, pairs), *itertools.starmap(again, itertools.pairwise(pairs))))


# what a text hides that isn't read


def values_told(name, words):
    """Whether a reply is plain, a renewal by its text or another extended one, or it is `renew`; and the new values that it names, as far as it does."""
    if name == "renew":
        return "renew", (int(words[1]), int(words[2]), text_in(words[3]))
    kind, *parts = text_in(words[1]).split(b":")
    if kind in RENEWALS and parts:
        return "init", model.parameters_of(parts[1]) if len(parts) == 3 else None
    return "extended" if parts else "plain", None


def hidden(table, line, answer):
    """What the table would have refused to a text that isn't read, and leaves as it was."""
    name, *words = line.split(" ")
    if name not in ("reply", "renew") or not re.match("no 3[0-5]", answer):
        return []
    what, values = values_told(name, words)
    try:
        account = table.account_in_turn(int(words[0]))
        if values:
            account.check_renewal(*values)
    except model.Refused as refusal:
        return [f"unread before {refusal.number}, {what}", f"{answer.split(' ')[1]} before the table's"]
    return []
