"""Six words and hex: writing, and reading replies that people and lines damage."""
import itertools
import random

import harness
import model
from harness import Failed, call
from sections import passwords

# the calls that read a plain text alone, and alike
READ_ALONE = ("read", "readplain")
BLANKS = b" \t\r\n"
HEX_WORDS = [word for word in model.WORDS if set(word) <= set("ABCDEF")]


def appendix_c(driver):
    """Every row of the RFC, for each algorithm: both forms, both cases, both ways."""
    pairs = []
    for *_, digits, words in (row for algorithm in ("md4", "md5", "sha1")
                              for row in passwords.rows_of(algorithm)):
        password = digits.lower()
        grouped = " ".join(digits[at:at + 4] for at in range(0, 16, 4))
        pairs += [(call(name, text.encode()), f"ok pw {password}") for name in READ_ALONE
                  for text in (words, words.lower(), words.title(),
                               digits, password, grouped, grouped.lower())]
        pairs += [(call("words", password, 29), f"ok {len(words)} {words.encode().hex()} clean"),
                  (call("hex", password, 16), f"ok 16 {password.encode().hex()} clean")]
    lines, wanted = zip(*pairs)
    harness.hold_to(lines, harness.asked(driver, lines), wanted)
    return f"{len(lines)} calls: the RFC's words and hex"


def every_word(driver):
    """Each of the 2,048 words at each of the six places, in a text with a right sum."""
    rng = random.Random(2048)
    lines, wanted = [], []
    for place in range(6):
        for word in range(2048):
            bits, password = 0, 1
            while model.pair_sum(password) != bits & 3:
                places = [rng.randrange(2048) for _ in range(6)]
                places[place] = word
                bits = sum(at << 11 * (5 - i) for i, at in enumerate(places))
                password = bits >> 2
            text = " ".join(model.WORDS[at] for at in places)
            lines += [call(name, text.encode()) for name in READ_ALONE]
            wanted += [f"ok pw {password:016x}"] * len(READ_ALONE)
    harness.hold_to(lines, harness.asked(driver, lines), wanted)
    return f"{len(lines)} readings: the password that the text was made from"


def upper(_rng, text):
    return text.upper()


def lower(_rng, text):
    return text.lower()


def mixed(rng, text):
    return bytes(byte ^ 0x20 if chr(byte).isalpha() and byte < 128 and rng.random() < 0.5
                 else byte for byte in text)


CASES = [upper, lower, mixed]


def some_case(rng, text):
    """Letters in upper, lower or mixed case."""
    return rng.choice(CASES)(rng, text)


def blanks(rng, least):
    return bytes(rng.choices(BLANKS, k=rng.choice([least, 1, 1, 1, 2, 3])))


def spaced(rng, tokens):
    """Tokens with white space of any kind between and, now and then, around them."""
    text = b"".join(blanks(rng, 1) + token for token in tokens)
    if rng.random() < 0.7:
        text = text.lstrip(BLANKS)
    return text + (blanks(rng, 0) if rng.random() < 0.3 else b"")


def some_words(rng):
    """The six words of a random password."""
    return model.words_of(rng.getrandbits(64)).split()


def good_words(rng):
    return spaced(rng, some_words(rng))


def one_letter_changed(rng):
    words = some_words(rng)
    place = rng.randrange(6)
    word = bytearray(words[place])
    word[rng.randrange(len(word))] = rng.randrange(ord("A"), ord("Z") + 1)
    words[place] = bytes(word)
    return spaced(rng, words)


def another_word(rng):
    """Another word of the dictionary at one place: a wrong sum, mostly."""
    words = some_words(rng)
    words[rng.randrange(6)] = rng.choice(model.WORDS).encode()
    return spaced(rng, words)


def other_number_of_words(rng):
    words = some_words(rng) + some_words(rng)
    return spaced(rng, words[:rng.choice([1, 4, 5, 5, 7, 7, 8, 12])])


def unknown_words(rng):
    """One to six tokens of letters at random; all that are unknown are marked."""
    words = some_words(rng)
    for place in rng.sample(range(6), rng.randrange(1, 7)):
        words[place] = bytes(rng.choices(range(ord("A"), ord("Z") + 1), k=rng.randrange(1, 6)))
    return spaced(rng, words)


def near_the_limit(rng):
    """126 to 130 bytes: 128 is the last good length, white space included."""
    text = rng.choice([good_words, another_word, hex_digits])(rng).strip(BLANKS)
    fill = bytes(rng.choices(BLANKS, k=rng.randrange(126, 131) - len(text)))
    cut = rng.choice([0, len(fill), rng.randrange(len(fill) + 1)])
    at = text.find(b" ") + 1  # after a space inside, or in front
    return rng.choice([fill[:cut] + text + fill[cut:], text[:at] + fill + text[at:]])


def hex_digits(rng):
    """15 to 17 digits, white space anywhere between."""
    digits = b"%017x" % rng.getrandbits(68)
    text = digits[:rng.choice([15, 16, 16, 16, 17])]
    for _ in range(rng.choice([0, 0, 3, 5, 15])):
        at = rng.randrange(len(text) + 1)
        text = text[:at] + blanks(rng, 1) + text[at:]
    return text


def six_groups_of_hex(rng):
    """Sixteen hex digits in six groups: words if all are letters, one digit makes it hex."""
    digits = bytearray(rng.choices(b"abcdef", k=16))
    if rng.random() < 0.3:
        digits[rng.randrange(16)] = rng.choice(b"0123456789")
    ends = sorted(rng.sample(range(1, 16), 5))
    return spaced(rng, [bytes(digits[a:b]) for a, b in zip([0] + ends, ends + [16])])


def words_of_hex_letters(rng):
    """Words of the dictionary that could be hex: a right sum, 32, and never hex."""
    return spaced(rng, [rng.choice(HEX_WORDS).encode() for _ in range(6)])


def foreign_byte(rng):
    """A byte that is neither letter, digit nor white space, put in or in a byte's place."""
    text = rng.choice([good_words, hex_digits])(rng)
    byte = bytes([rng.choice([0, 11, 12, 0xa0, 0xff, *b"@[`{/:G-_.,", rng.randrange(256)])])
    at = rng.randrange(len(text) + 1)
    return text[:at] + byte + text[at + rng.randrange(2):]


def byte_dropped_or_doubled(rng):
    text = rng.choice([good_words, hex_digits])(rng)
    at = rng.randrange(len(text))
    return text[:at] + rng.choice([b"", text[at:at + 1] * 2]) + text[at + 1:]


def cut_short(rng):
    text = rng.choice([good_words, hex_digits])(rng)
    return text[:rng.randrange(len(text) + 1)]


def only_blanks(rng):
    return bytes(rng.choices(BLANKS, k=rng.randrange(132)))


def any_bytes(rng):
    """Bytes at random, from few or from all."""
    alphabet = rng.choice([range(256), range(128), BLANKS + b"AbCdEf019", BLANKS + b"A"])
    return bytes(rng.choices(alphabet, k=rng.randrange(140)))


KINDS = [good_words, one_letter_changed, another_word, other_number_of_words, unknown_words,
         near_the_limit, hex_digits, six_groups_of_hex, words_of_hex_letters, foreign_byte,
         byte_dropped_or_doubled, cut_short, only_blanks, any_bytes]
ODD = [b"", b" ", b"0x85c43ee03857765b", b"FOWL KID MASH DEAD DUAL 0", b"FOWLKIDMASHDEADDUALOAF",
       b"FOWL,KID,MASH,DEAD,DUAL,OAF", b"word:FOWL KID MASH DEAD DUAL OAF",
       b"hex:85c43ee03857765b", b"FOWL KID MASH DEAD DUAL OAF\0", b"\0", b"A A A A A A" + b" " * 117,
       b"A A A A A A" + b" " * 118, b"f" * 128, b"f" * 129, b"ABED FADE DEED FACE FEED DEAF"]


def answers_wanted(wanted):
    """The run is worth something only if every answer of the reader came up."""
    missing = {"no 30", "no 31", "no 32", "no 33"} - {answer[:5] for answer in wanted}
    marks = {answer for answer in wanted if answer.startswith("no 31")}
    accepted = sum(answer.startswith("ok") for answer in wanted)
    if missing or len(marks) != 63 or accepted < 2000:
        raise Failed(f"too little covered: {missing}, {len(marks)} kinds of marks, {accepted} accepted")


def known(rng):
    return rng.choice(model.WORDS).encode()


def unknown(rng):
    """One to four letters that are no word."""
    while True:
        word = bytes(rng.choices(range(ord("A"), ord("Z") + 1), k=rng.randrange(1, 5)))
        if word.decode() not in model.PLACE_OF:
            return word


def patterns(rng, count):
    """Texts of each of the 64 patterns of known and unknown words, in upper, lower and mixed case."""
    for pattern, case in itertools.product(map("".join, itertools.product("01", repeat=6)), CASES):
        for _ in range(count):
            words = [unknown(rng) if mark == "1" else known(rng) for mark in pattern]
            yield pattern, case(rng, spaced(rng, words))


def all_patterns(made):
    """Fails if some pattern is missing in some case."""
    kinds = {(pattern, text.isupper(), text.islower()) for pattern, text in made}
    if len(kinds) != 64 * 3:
        raise Failed(f"{len(kinds)} kinds of texts, not 64 patterns in three cases")


def each_pattern(driver):
    """What is marked is what was made so; where nothing was, the answer is the model's, and not 31."""
    made = list(patterns(random.Random(64), 20))
    all_patterns(made)
    lines = [call(name, text) for name in READ_ALONE for _, text in made]
    wanted = [f"no 31 {pattern}" if "1" in pattern else model.replay(line)[0] for (pattern, _), line in zip(made * len(READ_ALONE), lines)]
    marked = sum(answer.startswith("no 31") for answer in wanted)
    if marked != 63 * 3 * 20 * len(READ_ALONE):
        raise Failed(f"{marked} readings are marked, of which {63 * 3 * 20 * len(READ_ALONE)} were made so")
    harness.hold_to(lines, model.replay("\n".join(lines)), wanted)
    harness.hold_to(lines, harness.asked(driver, lines), wanted)
    return f"{len(made)} texts of 64 patterns in three cases, by driver and model: marked as they were made"


def replies_at_random(driver):
    rng = random.Random(33)
    texts = ODD + [some_case(rng, kind(rng)) for kind in KINDS for _ in range(1600)]
    answers_wanted(model.replay("\n".join(call("readplain", text) for text in texts)))
    return harness.same_as_model(driver, [call(name, text) for text in texts for name in READ_ALONE])


def writers_at_every_room(driver):
    """0 to 32 bytes lent; the driver says whether a byte past the text was touched."""
    rng = random.Random(40)
    numbers = [0, 1, 2, 3, 2**63, 2**64 - 1, 0x85C43EE03857765B] + [1 << bit for bit in range(64)]
    numbers += [rng.getrandbits(64) for _ in range(60)]
    lines = [call(writer, "%016x" % number, room)
             for number in numbers for writer in ("words", "hex") for room in range(33)]
    lines += [call(writer, "%016x" % rng.getrandbits(64), rng.choice([0, 28, 29, 30, 8192]))
              for _ in range(2000) for writer in ("words", "hex")]
    return harness.same_as_model(driver, lines)
