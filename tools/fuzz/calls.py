"""Makes what a call is given, its words and its text."""

from . import dialogues, events, heard, images, inputs, misheard, serve
from .device import NEW_IMAGE, Device
from .explain import JSON, RAW
from .heard import weighted
from .texts import INPUT_LIMIT, Given

OTHER_WORDS = ("-", "--", "-x", "-i", "--help", "-h", "--version", "--preambles=5", "--imag=00", "--Image", "--image", "--image=",
               "help", "00", "")


def dump_given(rng):
    """What `hart dump` is given."""
    return Given([], inputs.dump_input(rng))


def explain_given(rng):
    """What `hart explain` is given."""
    make = weighted(rng, (5, misheard.misheard), (3, misheard.spoken), (2, heard.random_heard), (4, dialogues.dialogue))
    chars = make(rng)
    words = weighted(rng, (30, []), (10, [RAW]), (30, [JSON]), (5, [RAW, JSON]), (5, [JSON, RAW]), (1, bad_explain_words(rng)))
    text = bytes(char.byte for char in chars) if RAW in words else with_marks(rng, inputs.input_text(rng, chars))
    return Given(words, None if rng.random() < 0.002 else text, portions(rng) if rng.random() < 0.1 else ())


def portions(rng):
    """Returns the numbers of bytes that the reads of a pipe give in turn, over and over."""
    return tuple(rng.choice((1, 1, 2, 3, 4, 5, 7, 11, 64, 300)) for _ in range(rng.randint(1, 6)))


def with_marks(rng, text):
    """Puts up to five marks into a text: a `/`, at which the line falls silent, or a date."""
    for _ in range(weighted(rng, (4, 0), (3, 1), (2, 2), (1, 5))):
        place = rng.randrange(len(text) + 1)
        text = text[:place] + (b"/" if rng.random() < 0.5 else date(rng)) + text[place:]
    return text


def date(rng):
    """A date with a separator after it. A few have no word, too long a word, another byte in it, or no separator."""
    word = bytes(rng.randint(0x21, 0x7E) for _ in range(weighted(rng, (40, rng.randint(1, 32)), (1, 0), (1, 32), (1, 33))))
    other = weighted(rng, (60, b""), (1, b"\x7f"), (1, b"\x80"), (1, b"\x00"))
    return b"@" + word + other + weighted(rng, (60, b" "), (5, b"\n"), (1, b""))


def bad_explain_words(rng):
    """Words that `hart explain` does not take."""
    return rng.choice(([RAW, RAW], [b"--raw=true"], [b"--image", b"00"], [b"extra"], [b"--help"], [RAW, b"extra"], [JSON, JSON],
                       [b"--json=true"], [JSON, b"--help"], [JSON, RAW, JSON], [b"--jso"], [b"--JSON"]))


def encode_given(rng):
    """What `hart encode` is given."""
    return Given(inputs.encode_input(rng), b"")


def answer_given(rng):
    """What `hart answer` is given."""
    return with_image(rng, inputs.answer_input)


def sim_given(rng):
    """What `hart sim` is given."""
    return with_image(rng, events.sim_input)


def serve_given(rng):
    """What `hart serve` is given."""
    return with_image(rng, serve.serve_input)


def with_image(rng, make):
    """What a call that takes an image is given: no image, a good one or a bad word, mostly with a text made for its device."""
    image, word, other = NEW_IMAGE, None, 0.02
    kind = weighted(rng, (3, "none"), (6, "good"), (3, "bad"))
    if kind == "good":
        image = images.good_image(rng)
        word = inputs.data_word(rng, image)
    elif kind == "bad":
        word, other = images.bad_word(rng), 0.3
    text = other_text(rng) if rng.random() < other else make(rng, Device.from_image(image))
    return Given(image_words(rng, word), text)


def image_words(rng, word):
    """The words that give a call its image, or no words; sometimes spoilt."""
    words = [] if word is None else rng.choice((["--image", word], [f"--image={word}"]))
    if rng.random() < 0.08:
        words = spoilt_words(rng, words)
    encoded = [word.encode() for word in words]
    if encoded and rng.random() < 0.01:
        encoded[-1] += rng.choice((b"\xFF", b"\x80", b"\xC3", b"\xED\xA0\x80"))
    return encoded


def other_text(rng):
    """A text that one call or another refuses, or None, of which no read succeeds."""
    return weighted(rng, (6, None), (6, b"0G"), (6, b"turn X ok ok"), (6, b"noise FFFF0280000082"), (1, b" " * (INPUT_LIMIT + 1)))


def spoilt_words(rng, words):
    """Words with one of them missing, all of them twice, or one too many."""
    place = rng.randrange(len(words) + 1)
    more = rng.choice(OTHER_WORDS)
    return rng.choice((words[:place] + words[place + 1:], words + words, words[:place] + [more] + words[place:], words + ["--"]))
