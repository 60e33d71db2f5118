"""Challenges: reading what a wire may bring, and writing them."""
import collections
import random

import harness
import model
from harness import Failed, call
from sections.passwords import GOOD, any_algorithm, any_seed

# bytes that mean something in a challenge, their neighbours, and some that mean nothing
TELLING = b" \t\n\r\0-0129:/Aazo_\x0b\x80\xff"
SAMPLES = [b"otp-md5 487 dog2\n", b"otp-md5 0 a ", b"otp-sha1\t9999 \t ABCDEFGHIJKLMNOP\n",
           b"otp-md5 1 z9\nmore", b"otp-md5 99 A Seed", b"otp-sha1 5 ke4452 \n", b"otp-md4 5 ke4452 \n",
           b"otp-md5 5 ke4452 ext\n", b"otp-sha1 5 ke4452 \t ext,a, more"]
# what may stand where the mark does
TOKENS = [b"ext", b"ext,", b"ext,a,b", b"ext,a\r", b"ext,ext", b"EXT", b"Ext", b"EXT,a", b"extra", b"ext\r", b"ext;a", b"ex", b"xext", b",ext", b"ext\0", b"a"]
NAMES = [*model.NAMES.values()]
# no algorithm's name, or one's in another case, with too little or too much, or two of them
WRONG_NAMES = [b"", b"m", b"md", b"MD5", b"Md5", b"md4", b"md55", b"md5-", b"md5\0", b"md5\r", b"-md5", b"md5sha1",
               b"s", b"sha", b"sHa1", b"SHA1", b"Sha1", b"sha0", b"sha2", b"sha11", b"sha1x", b"sha1\r", b"sha-1", b"sha1md5", b"sha256",
               b"1", b"2"]


def damaged(text):
    """Each byte changed, dropped, doubled, one put before it; cut at every length."""
    for at in range(len(text) + 1):
        yield text[:at]
        yield text[:at] + text[at + 1:]
        yield text[:at] + text[at:at + 1] + text[at:]
        for byte in TELLING:
            yield text[:at] + bytes([byte]) + text[at + 1:]
            yield text[:at] + bytes([byte]) + text[at:]


def blanks(rng):
    return bytes(rng.choices(b" \t", k=rng.choice([1, 1, 1, 1, 2, 3, 0])))


def any_digits(rng):
    """0 to 5 digits, leading zeros too, now and then a byte that is none."""
    digits = bytearray(rng.choices(b"0123456789", k=rng.choice([0, 1, 2, 3, 4, 4, 5])))
    if digits and digits[0] == ord("0") and rng.random() < 0.7:
        digits[0] = ord("7")
    if digits and rng.random() < 0.1:
        digits[rng.randrange(len(digits))] = rng.choice(TELLING)
    return bytes(digits)


def good_opening(rng):
    return b"otp-" + rng.choice(NAMES)


def any_mark(rng):
    """What comes behind a seed that a space ends: often the mark, or what is nearly one, and how it is ended."""
    token = rng.choice([b"ext", b"ext", *TOKENS])
    first = rng.choice([b""] * 6 + [b"a ", b"\n"])
    return blanks(rng)[1:] + first + token + rng.choice([b"\n", b"\n", b" ", b" ", b"\t", b"", b"\r\n"])


def any_challenge(rng):
    """Parts that are good mostly, each wrong now and then."""
    start = rng.choice([b"otp-"] * 30 + [b"", b"OTP-", b"otp", b" otp-", b"otp_", b"Otp-"])
    name = rng.choice([*NAMES * 3, rng.choice(WRONG_NAMES)])
    end = rng.choice([b"\n", b" ", b" ", b"\n", b"\t", b"", b"\r\n", b"\0"])
    after = rng.choice([b"", any_mark(rng)]) + rng.randbytes(rng.choice([0, 0, 1, 5, 300]))
    return (start + name + blanks(rng) + any_digits(rng) + blanks(rng) + any_seed(rng) + end
            + after)


def marked_challenge(rng):
    """A good one up to the seed, and then the mark or what is nearly one."""
    seed = bytes(rng.choices(GOOD, k=rng.randrange(1, 17)))
    end, after = rng.choice([b" ", b" ", b" ", b"\n"]), rng.randbytes(rng.choice([0, 0, 5]))
    return b"%s %d %s" % (good_opening(rng), rng.randrange(10000), seed) + end + any_mark(rng) + after


def long_seed(rng):
    """Seeds of 0 to 18 bytes, the last of which may be bad: 23 before 24."""
    seed = bytearray(rng.choices(GOOD, k=rng.randrange(19)))
    if seed and rng.random() < 0.3:
        seed[-1] = rng.choice(b"_\r\0-")
    return b"%s %d %s\n" % (good_opening(rng), rng.randrange(10000), bytes(seed))


def any_bytes(rng):
    return bytes(rng.choices(TELLING + b"otp-md5sha1", k=rng.randrange(40)))


def enough(wanted):
    """The run is worth something only if every refusal of the reader came up, and each algorithm often."""
    refused = {answer[:5] for answer in wanted if answer.startswith("no")}
    accepted = collections.Counter(int(answer.split()[1]) for answer in wanted if answer.startswith("ok"))
    if refused != {f"no {number}" for number in range(20, 26)} or any(accepted[number] < 2000 for number in model.NAMES):
        raise Failed(f"too little covered: {refused}, accepted {accepted}")


def challenges_at_random(driver):
    rng = random.Random(25)
    texts = [text for sample in SAMPLES for text in damaged(sample)]
    texts += [any_challenge(rng) for _ in range(16000)]
    texts += [long_seed(rng) for _ in range(2000)] + [marked_challenge(rng) for _ in range(4000)]
    texts += [any_bytes(rng) for _ in range(500)]
    texts += [(b"otp-%s 1 a\n" % name + rng.randbytes(length))[:length] for name in NAMES for length in (4096, 65536, 131072)]
    lines = [call("chal", text) for text in texts]
    enough(model.replay("\n".join(lines)))
    return harness.same_as_model(driver, lines)


def unknown_algorithms(driver):
    """21, by the ruling and not by the model: each wrong name, alone and before a good rest; each number but the two."""
    lines = [call("chal", b"otp-" + name + rest) for name in WRONG_NAMES for rest in (b"", b" ", b" 1 a\n", b"\t1 a ")]
    lines += [call("gen", number, b"A_Valid_Pass_Phrase", b"dog2", 1) for number in range(256) if number not in model.NAMES]
    wanted = ["no 21"] * len(lines)
    lines += [call("wchal", number, b"dog2", 1, 40) for number in range(256) if number not in model.NAMES]
    wanted += ["no 21 clean"] * (len(lines) - len(wanted))
    harness.hold_to(lines, model.replay("\n".join(lines)), wanted)
    harness.hold_to(lines, harness.asked(driver, lines), wanted)
    return f"{len(WRONG_NAMES)} names in challenges and {256 - len(model.NAMES)} numbers: 21, by the model and through the driver"


def writer_at_every_room(driver):
    """0 to 40 bytes lent, for each algorithm and each length of seed and of count; then at random."""
    rng = random.Random(13)
    seeds = [bytes(rng.choices(GOOD, k=length)) for length in range(18)]
    lines = [call("wchal", algorithm, seed, count, room) for algorithm in model.NAMES
             for seed in seeds for count in (0, 9, 10, 999, 1000, 9999, 10000) for room in range(41)]
    lines += [call("wchal", any_algorithm(rng), any_seed(rng), rng.choice([rng.randrange(10002), 65535]),
                   rng.choice([rng.randrange(41), 8192])) for _ in range(4000)]
    return harness.same_as_model(driver, lines)


def written_reads_back(driver):
    """What was written reads as the same algorithm and count and the seed in lower case, all bytes used, without the mark."""
    rng = random.Random(17)
    given = [(algorithm, bytes(rng.choices(GOOD, k=rng.randrange(1, 17))), rng.randrange(10000))
             for _ in range(1000) for algorithm in model.NAMES]
    written = harness.asked(driver, [call("wchal", *each, 31) for each in given])
    texts = [bytes.fromhex(answer.split()[2]) for answer in written]
    lines = [call("chal", text) for text in texts]
    wanted = [f"ok {algorithm} {count} {len(text) - len(seed) - 1} {len(seed)} {len(text)} 0"
              for (algorithm, seed, count), text in zip(given, texts)]
    harness.hold_to(lines, harness.asked(driver, lines), wanted)
    for (_, seed, _), text in zip(given, texts):
        if text[-len(seed) - 1:] != seed.lower() + b"\n":
            raise Failed(f"{text} does not end in {seed} in lower case")
    return f"{len(lines)} challenges written and read back"
