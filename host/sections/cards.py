"""The card: the writer through the driver, and the program `card` itself."""
import random
import subprocess

import harness
import model
from harness import Failed, call
from sections.challenges import NAMES, any_challenge, good_opening
from sections.passwords import any_phrase

PHRASE = b"A_Valid_Pass_Phrase"
CHALLENGE = b"otp-md5 99 AValidSeed\n"


def cards_of_every_length(driver):
    """k 1 to 99: exact room, one byte short, room to spare; the count at k and far above."""
    lines = []
    cases = [(k, count, name) for k in range(1, 100) for count in (k, k + 1, 9999 if k in (1, 50, 99) else 3 * k) for name in NAMES]
    for k, count, name in cases:
        challenge = b"otp-%s %d dog2\n" % (name, count)
        length = len(model.card_text(PHRASE, challenge, k))
        lines += [call("card", PHRASE, challenge, k, room)
                  for room in (length, length - 1, length + 1, 8192, 0)]
    return harness.same_as_model(driver, lines)


def cards_at_random(driver):
    """The order 10, 11, 20 to 25, 70, 40 where several things are wrong."""
    rng = random.Random(70)
    lines = []
    for _ in range(3000):
        phrase = any_phrase(rng) if rng.random() < 0.3 else PHRASE
        challenge = (any_challenge(rng) if rng.random() < 0.3 else
                     b"%s %d dog2\n" % (good_opening(rng), rng.choice([0, 1, 98, 99, 100, rng.randrange(200)])))
        k = rng.choice([0, 1, 2, 5, 98, 99, 100, 65535, *rng.sample(range(1, 50), 8)])
        lines.append(call("card", phrase, challenge, k, rng.choice([0, 47, 48, 5148, 8192, 8192])))
    return harness.same_as_model(driver, lines)


def printed(stdin):
    """What the program prints on that input."""
    done = subprocess.run(harness.runs([harness.program("card")]), input=stdin, timeout=60,
                          stdout=subprocess.PIPE, stderr=subprocess.PIPE)
    if done.returncode != 0 or done.stderr:
        raise Failed(f"status {done.returncode}, {done.stderr[:500]} on {stdin}")
    return done.stdout


def of_length(length):
    """Three good lines and a rest that is ignored, `length` bytes in all."""
    start = PHRASE + b"\n" + CHALLENGE + b"1\n"
    return start + b"x" * (length - len(start))


INPUTS = [
    b"", b"\n", b"\n\n\n", PHRASE, PHRASE + b"\n", PHRASE + b"\n" + CHALLENGE,
    PHRASE + b"\n" + CHALLENGE.strip(), PHRASE + b"\n" + CHALLENGE + b"1",
    *(PHRASE + b"\n" + CHALLENGE + k + b"\n" for k in
      (b"1", b"9", b"10", b"99", b"100", b"0", b"00", b"01", b"a", b"1a", b"1 ", b" 1", b"", b"-1", b"1\r")),
    *(PHRASE + b"\notp-%s %d dog2\n%d\n" % (name, *pair) for name in NAMES for pair in
      ((0, 1), (1, 1), (1, 2), (98, 99), (98, 98), (9999, 99))),
    *(PHRASE + b"\notp-%s 99 dog2\n1\n" % name for name in (b"md4", b"SHA1", b"sha", b"sha1x", b"")),
    PHRASE + b"\r\n" + CHALLENGE + b"1\n",
    (PHRASE + b"\n" + CHALLENGE + b"1\n").replace(b"\n", b"\r\n"),
    bytes(range(200, 230)) + b"\n" + CHALLENGE + b"2\n",
    b"\0" * 10 + b"\n" + CHALLENGE + b"2\n",
    PHRASE + b"\notp-md5 99 A Seed\n3\n", PHRASE + b"\notp-md5 99 A Seed",
    PHRASE[:9] + b"\n" + CHALLENGE + b"0\n", b"x" * 64 + b"\n" + CHALLENGE + b"0\n",
    b"x" * 63 + b"\n" + CHALLENGE + b"99\n", b"x" * 10 + b"\n" + CHALLENGE + b"99\n",
    PHRASE + b"\notp-md4 99 dog2\n0\n", PHRASE + b"\notp-sha1 99 dog2\n0\n", PHRASE + b"\n\n1\n", b"\n" + CHALLENGE + b"1\n",
    of_length(255), of_length(256), of_length(257), b"x" * 256, b"x" * 257, b"\n" * 257, b"y" * 100000,
]


def any_input(rng):
    """Three lines, mostly good, now and then cut or with a rest."""
    phrase = any_phrase(rng) if rng.random() < 0.3 else PHRASE
    challenge = (any_challenge(rng) if rng.random() < 0.3 else
                 b"%s %d dog2\n" % (good_opening(rng), rng.randrange(300)))
    k = b"%d" % rng.randrange(1, 105) if rng.random() < 0.9 else rng.randbytes(rng.randrange(3))
    text = phrase + b"\n" + challenge + k + b"\n" + rng.randbytes(rng.choice([0, 0, 20, 250]))
    return text[:rng.randrange(len(text))] if rng.random() < 0.1 else text


def program(_):
    """Program `card` prints what the model does."""
    rng = random.Random(12)
    inputs = INPUTS + [any_input(rng) for _ in range(400)]
    harness.hold_to([call("prog", stdin) for stdin in inputs],
                    [printed(stdin) for stdin in inputs],
                    [model.card_program(stdin) for stdin in inputs])
    return f"{len(inputs)} inputs, from none to 100,000 bytes: prints as the model does"
