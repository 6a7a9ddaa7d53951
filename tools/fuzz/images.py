"""Makes random images, and words that are no images."""

from . import events, heard, inputs, scripts
from .device import NEW_IMAGE, Device
from .heard import weighted
from .texts import Given

LONGEST_WORD = 130_000
BAD_DATES = [bytes.fromhex(date) for date in ("1D0200", "000164", "010000", "200101", "010D01", "1F0400", "FFFFFF", "000001", "1E0264")]
NO_DIGITS = ("G", "g", "@", "`", "/", ":", " ", "!", "-", "\n", "\x7f", "é", "\u0663", "€", "\uff10", "\U0001d7d8")


def good_date(rng):
    """The bytes of a day of the calendar, or of a date that is not set."""
    some = rng.choice(("000000", "1D0264", "1F0CFF", "010100", "1C02C8", "1E0401"))
    return bytes.fromhex(some) if rng.random() < 0.5 else bytes([rng.randint(1, 28), rng.randint(1, 12), rng.randrange(256)])


def packed(rng, length):
    """Any packed text, also one in which a message stands."""
    text = weighted(rng, (3, rng.randbytes(length)), (1, bytes(length)), (1, b"\xFF" * length), (2, heard.BLANK_TAG[:3] * (length // 3)))
    return heard.with_message_inside(rng, text) if rng.random() < 0.2 else text


def random_image(rng):
    """A good image of either version with any registers, a counter near its ends, and any flags."""
    polling = rng.choice((0, 0, 1, 5, 62, 63, rng.randrange(64)))
    tag = rng.choice((heard.BLANK_TAG, heard.OTHER_TAG, packed(rng, 6)))
    counter = rng.choice((0, 1, 0xFFFE, 0xFFFF, 0x00FF, 0xFF00, rng.randrange(0x10000)))
    version = rng.choice((1, 2))
    long_tag = rng.choice((heard.BLANK_LONG_TAG, heard.OTHER_LONG_TAG, rng.randbytes(32), bytes(32))) if version == 2 else b""
    return (bytes([version, polling, rng.randrange(2)]) + packed(rng, 24) + tag + packed(rng, 12) + good_date(rng)
            + rng.randbytes(3) + long_tag + counter.to_bytes(2, "big") + bytes([rng.randrange(8)]))


def earlier_image(rng):
    """The image in the last line of an earlier `hart sim`, which began with the new device or with another image."""
    image = rng.choice((NEW_IMAGE, random_image(rng)))
    script = events.script_text(rng, events.quiet_script(rng, Device.from_image(image)))
    ended = scripts.sim(Given([b"--image", image.hex().encode()], script))
    return bytes.fromhex(ended.written.split()[-1].decode()) if ended.status == 0 else image


def good_image(rng):
    """An image of some device."""
    return weighted(rng, (5, random_image), (2, earlier_image), (1, lambda _: NEW_IMAGE))(rng)


def with_field(image, place, field):
    """An image with other bytes at a place."""
    return image[:place] + field + image[place + len(field):]


def bad_field(rng, image):
    """Bytes of an image's length with one or two bad fields."""
    for _ in range(rng.choice((1, 1, 1, 2))):
        date = rng.choice((*BAD_DATES, bytes([32 + rng.randrange(224), 1, 0]), bytes([1, 13 + rng.randrange(243), 0])))
        image = with_field(image, *rng.choice((
            (1, bytes([rng.choice((0x40, 0x41, 0x7F, 0x80, 0xFF, rng.randrange(64, 256)))])),
            (2, bytes([rng.choice((2, 3, 0x80, 0xFF, rng.randrange(2, 256)))])),
            (45, date), (len(image) - 1, bytes([rng.choice((8, 9, 0x0F, 0x10, 0x80, 0xFF, rng.randrange(8, 256)))])))))
    return image


def bad_version(rng, image):
    """Bytes of any length, also of an image's, that begin with an unknown version."""
    version = rng.choice((0, 3, 3, 4, 0xFF, 0x10, 0x81))
    return bytes([version]) + rng.choice((image, image + bytes(32), b"", image[:20], rng.randbytes(rng.randrange(300))))[1:]


def bad_length(rng, image):
    """An image with too few or too many bytes, or with the other version; sometimes with a bad field too."""
    image = image if rng.random() < 0.7 else bad_field(rng, image)
    longer = image + rng.choice((b"\x00", rng.randbytes(1), rng.randbytes(32), image, rng.randbytes(rng.randrange(1, 300))))
    other = bytes([3 - image[0]]) + image[1:]
    fewer = image[:rng.randrange(1, len(image))]
    return rng.choice((image[:-1], longer[:len(image) + 1], longer, other, fewer, image[:1], b""))


def bad_bytes(rng):
    """Bytes that are no image."""
    return rng.choice((bad_field, bad_field, bad_version, bad_length))(rng, good_image(rng))


def bad_digits(rng):
    """A word that is not two hex digits for each byte: its length is odd, or it has other characters."""
    digits = inputs.in_any_case(rng, rng.choice((good_image, bad_bytes))(rng).hex())
    if rng.random() < 0.05:
        digits *= LONGEST_WORD // max(len(digits), 1)
    place = rng.choice((0, 1, len(digits) - 1, len(digits), rng.randrange(len(digits) + 1)))
    odd = "".join(rng.choices(NO_DIGITS, k=rng.choice((1, 1, 2))))
    return rng.choice((digits[:-1], digits[:place] + odd + digits[place:], digits[:place] + odd + digits[place + 1:],
                       digits[:place] + rng.choice("0fF") + digits[place:], f"0x{digits}", odd, rng.choice("0aF"), f'"{digits}"'))


def bad_word(rng):
    """A word that is no image, as a rule."""
    return bad_digits(rng) if rng.random() < 0.5 else inputs.data_word(rng, bad_bytes(rng))
