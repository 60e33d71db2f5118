"""What a service handheld sends: extended replies (R-6), good, and damaged in every way that the papers speak of.

A reply is its parts: the type, the present password, the parameters, the new password. A login has the first two alone. Each way of damage is a
function of such a reply, or of the text that it makes.
"""
import collections

import model
from sections import replies

# the type; the present password; algorithm's name, count and seed; the new password
Sent = collections.namedtuple("Sent", "kind present name count seed new")
WRONG_TYPES = [b"", b"hexa", b"he", b"words", b"wor", b"init", b"init-", b"init-he", b"init-md5", b"inithex", b"init hex", b"init_word", b"md5", b"skey",
               b"hex\0", b"hex,word", b"-hex", b"init-init-hex"]
WRONG_COUNTS = [b"0499", b"007", b"x", b"", b"0", b"1", b"10000", b"12345", b"00", b"-5", b"+5", b"5.", b"1.5", b"5e1", b"65538", b"99999999999999999999"]
WRONG_NAMES = [b"MD5", b"Sha1", b"md4", b"sha", b"otp-md5", b"md5,", b"1"]
LENGTHS = [126, 127, *[128, 129] * 4, 130, 254, 255, *[256, 257] * 4, 258]


def spelt(rng, kind, password):
    """A password as the type has it, in some case, with white space."""
    spaced = replies.spaced(rng, model.WRITER_OF[kind.removeprefix(model.INIT)](password).split())
    return replies.some_case(rng, spaced)


def sent(rng, kind, present, values, new):
    """A good reply, if the values are; the algorithm by its number."""
    algorithm, count, seed = values
    return Sent(kind, spelt(rng, kind, present), model.NAMES.get(algorithm, rng.choice(WRONG_NAMES)), b"%d" % count, seed, spelt(rng, kind, new))


def parts(rng, reply):
    """Its parts: two, or for a renewal four, of which the third has white space between and around what it says."""
    if not model.is_init(reply.kind):
        return [reply.kind, reply.present]
    said = [word for word in (reply.name, reply.count, reply.seed) if word]
    return [reply.kind, reply.present, replies.spaced(rng, said), reply.new]


def text_of(rng, reply):
    return b":".join(parts(rng, reply))


# ways of damage


def other_case(rng, reply):
    """The type's name in upper case, or with one letter of it."""
    at = rng.randrange(len(reply.kind))
    return text_of(rng, reply._replace(kind=rng.choice([reply.kind.upper(), reply.kind[:at] + reply.kind[at:at + 1].upper() + reply.kind[at + 1:]])))


def blank_type(rng, reply):
    """White space at the type's name."""
    blank = bytes([rng.choice(model.WHITE)])
    return text_of(rng, reply._replace(kind=rng.choice([blank + reply.kind, reply.kind + blank])))


def wrong_type(rng, reply):
    return b":".join([rng.choice(WRONG_TYPES), *parts(rng, reply)[1:]])


def other_type(rng, reply):
    """Another of the four names before the same parts: hex where words are asked, words where hex is; a part too many or too few."""
    return b":".join([rng.choice([kind for kind in model.TYPES if kind != reply.kind]), *parts(rng, reply)[1:]])


def part_missing(rng, reply):
    """A part less, the type too; where a colon is left it is an extended reply still."""
    made = parts(rng, reply)
    del made[rng.randrange(len(made))]
    return b":".join(made)


def part_more(rng, reply):
    """One part or two more, empty or like one that is there."""
    made = parts(rng, reply)
    for _ in range(rng.choice([1, 1, 2])):
        made.insert(rng.randrange(1, len(made) + 1), rng.choice([b"", b" ", *made]))
    return b":".join(made)


def parts_swapped(rng, reply):
    made = parts(rng, reply)
    one, other = rng.sample(range(len(made)), 2)
    made[one], made[other] = made[other], made[one]
    return b":".join(made)


def part_blank(rng, reply):
    """One part or more without anything but white space."""
    made = parts(rng, reply)
    for at in rng.sample(range(1, len(made)), rng.choice([1, 1, len(made) - 1])):
        made[at] = rng.choice([b"", replies.blanks(rng, 1)])
    return b":".join(made)


def near_a_limit(rng, reply):
    """Of about 128 bytes, which is no limit here, or 256, which is: filled up with white space in some part, or at a colon's edge."""
    made = parts(rng, reply)
    fill = bytes(rng.choices(model.WHITE, k=max(0, rng.choice(LENGTHS) - len(b":".join(made)))))
    at = rng.randrange(1, len(made))
    made[at] = rng.choice([fill + made[at], made[at] + fill])
    return b":".join(made)


def too_long(rng, reply):
    """Too long, and something else wrong: 30 comes first."""
    return rng.choice([wrong_type, part_missing, part_more, wrong_values])(rng, reply) + b":" + b" " * 256


def unread_present(rng, reply):
    return text_of(rng, reply._replace(present=some_plain(rng)))


def unread_new(rng, reply):
    return text_of(rng, reply._replace(new=some_plain(rng)))


def unread_both(rng, reply):
    return text_of(rng, reply._replace(present=some_plain(rng), new=some_plain(rng)))


def some_plain(rng):
    """A plain text, good or bad, or a blank one. A colon in it is a part more."""
    return rng.choice([b"", b" ", replies.unknown_words(rng), *(replies.some_case(rng, kind(rng)) for kind in rng.sample(replies.KINDS, 3))])[:128]


def wrong_values(rng, reply):
    """Something wrong with one of the new values, or with several; now and then the passwords too."""
    changed = {"name": rng.choice([b"", *WRONG_NAMES]), "count": rng.choice(WRONG_COUNTS),
               "seed": rng.choice([b"", reply.seed + b" " + reply.seed, b"A Seed", b"a\tb", reply.seed + b"_", b"_", b"LengthOfSeventeen",
                                   reply.seed + b"x" * 16, b"x" * 120])}
    names = rng.sample([*changed, "seed"], rng.choice([1, 1, 1, 2, 3]))
    return rng.choice([text_of] * 4 + [unread_both])(rng, reply._replace(**{name: changed[name] for name in names}))


def values_missing(rng, reply):
    """Of algorithm, count and seed the first two at most."""
    made = parts(rng, reply)
    if model.is_init(reply.kind):
        made[2] = replies.spaced(rng, [reply.name, reply.count][:rng.randrange(3)])
    return b":".join(made)


def misread(rng, reply):
    """Words that aren't in the dictionary, or whose sum is wrong, for one password or for both."""
    texts = {name: rng.choice([replies.unknown_words, replies.another_word])(rng) for name in rng.choice([["present"], ["new"], ["present", "new"]])}
    return text_of(rng, reply._replace(**texts))


def most_count(rng, reply):
    """The highest count, and the lowest."""
    return text_of(rng, reply._replace(count=rng.choice([b"9999", b"2"])))


def byte_changed(rng, reply):
    """A byte put in, dropped, doubled or another; or cut short."""
    text = text_of(rng, reply)
    at = rng.randrange(len(text))
    byte = bytes([rng.choice([*b": \n\0,-_", 0x80, rng.randrange(256)])])
    return rng.choice([text[:at] + byte + text[at:], text[:at] + text[at + 1:], text[:at] + text[at:at + 1] + text[at:], text[:at] + byte + text[at + 1:],
                       text[:at]])


def hex_words(rng, reply):
    """Six tokens of sixteen hex letters: six words, or not, for the one type, and sixteen digits for the other."""
    letters = bytes(rng.choices(b"abcdef", k=16))
    ends = [0, *sorted(rng.choice([[3, 6, 9, 12, 15], [4, 8, 12, 13, 14]])), 16]
    groups = replies.spaced(rng, [letters[a:b] for a, b in zip(ends, ends[1:])])
    return text_of(rng, reply._replace(**{rng.choice(["present", "new"]): groups}))


def any_parts(rng, reply):
    """Parts and colons in any order."""
    pieces = [*parts(rng, reply), b"", b" ", b":", b"md5 499 ke1235", *model.TYPES]
    return b":".join(rng.choices(pieces, k=rng.randrange(1, 7)))


# some more often, since they show many kinds
DAMAGES = [other_case, blank_type, wrong_type, other_type, part_missing, part_more, *[parts_swapped] * 2, part_blank, *[near_a_limit] * 5, too_long,
           unread_present, unread_new, *[unread_both] * 2, *[misread] * 3, *[wrong_values] * 8, *[values_missing] * 3, *[most_count] * 3, byte_changed,
           *[hex_words] * 2, any_parts]


def damaged(rng, reply):
    return rng.choice(DAMAGES)(rng, reply)
