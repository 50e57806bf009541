"""Files of bounds as docs/FORMATS.md tells them, checked and changed with no help of the program; import/base.py reads them."""

import hashlib
import struct

from base import live_rank
from tally import BASE_START

HEAD = 64
DIGEST = 32
POSITIONS = {1: 601, 2: 106552, 3: 7953353}
A_PAGE = 1024
WORD = 5
PAIR = 2 * WORD
POINT = 1 << 32
# The fields of a head from the version to the starts, of one checker without a cube, for money and by the Jacoby rule after 8 rounds, and at 2-2 in a
# match to two points after 16.
CUBELESS = (3, 1, 0, 0, 0, 0, 0, 1, 8, 0)
MONEY = (3, 1, 1, 0, 0, 0, 0, 3, 8, 0)
JACOBY = (3, 1, 2, 0, 0, 0, 0, 3, 8, 0)
MATCH = (3, 1, 3, 2, 2, 0, 2, 6, 16, 2)
# The places of the cube for money.
KINDS = ("centred", "mine", "theirs")


def digest(text):
    return hashlib.sha256(text).digest()


def header(fields, positions):
    """The first bytes of a file."""
    return BASE_START + struct.pack(">10I2Q", *fields, positions, 0)


def as_words(units):
    return b"".join((it + 2**36).to_bytes(WORD, "big") for it in units)


def front(fields, starts=()):
    """What stands before the pages of a file of one checker, with the words of its starts."""
    text = header(fields, POSITIONS[1]) + as_words(starts)
    return text + digest(text)


def of_one_checker(fields, pairs, widest, starts=()):
    """A file of one checker with the words of its starts, in which each pair is from one of these values below 0 to it above, but for those of these
    live ranks in the first kind."""
    text, kinds = front(fields, starts), fields[7]
    states = [(-widest, widest)] * (POSITIONS[1] * kinds)
    for rank, pair in pairs.items():
        states[rank * kinds] = pair
    page = b"".join(map(as_words, states))
    return text + page + digest(text[-DIGEST:] + struct.pack(">Q", 0) + page)


def page_length(kinds):
    return A_PAGE * kinds * PAIR + DIGEST


def file_length(checkers, kinds):
    """The length of a file of version 3 without starts."""
    positions = POSITIONS[checkers]
    return HEAD + DIGEST + positions * kinds * PAIR + (positions + A_PAGE - 1) // A_PAGE * DIGEST


def pages(text, kinds):
    """The pages of a file without starts, each with its digest."""
    for place in range(HEAD + DIGEST, len(text), page_length(kinds)):
        yield text[place : place + page_length(kinds)]


def bound_digest(text, number, pairs):
    """The digest of a page's pairs, bound to the digest of the head of a file without starts and the page's number."""
    return digest(b"".join((text[HEAD : HEAD + DIGEST], struct.pack(">Q", number), pairs)))


def is_sealed(text, kinds):
    """Whether the digests of the head and of all pages are right."""
    bound = (bound_digest(text, number, it[:-DIGEST]) == it[-DIGEST:] for number, it in enumerate(pages(text, kinds)))
    return digest(text[:HEAD]) == text[HEAD : HEAD + DIGEST] and all(bound)


def in_older_version(text, kinds, version, as_words):
    """A file of version 3 in an older one, whose pages' digests are of their pairs alone."""
    head = text[:8] + struct.pack(">I", version) + text[12:HEAD]
    parts = [head] + [as_words(page[:-DIGEST]) for page in pages(text, kinds)]
    return b"".join(part + digest(part) for part in parts)


def as_version_one(text, kinds):
    """A file of version 3 in version 1, whose words take eight bytes each."""
    return in_older_version(text, kinds, 1, longer_words)


def as_version_two(text, kinds):
    """A file of version 3 in version 2."""
    return in_older_version(text, kinds, 2, bytes)


def longer_words(pairs):
    return b"".join(bytes(3) + pairs[place : place + WORD] for place in range(0, len(pairs), WORD))


def with_page_of(text, number, other, other_number, kinds):
    """A file with a page of another one, or of itself, in place of its own with this number."""
    place = HEAD + DIGEST + number * page_length(kinds)
    page = list(pages(other, kinds))[other_number]
    return text[:place] + page + text[place + len(page) :]


def with_tighter_bound(text, position, kind):
    """A file for money in which the lower bound of a position and kind is one unit tighter, with its page sealed anew."""
    rank, length = live_rank(*position), page_length(len(KINDS))
    number = rank // A_PAGE
    page = HEAD + DIGEST + number * length
    end = min(page + length, len(text)) - DIGEST
    place = page + (rank % A_PAGE * len(KINDS) + KINDS.index(kind)) * PAIR
    tighter = int.from_bytes(text[place : place + WORD], "big") + 1
    changed = bytearray(text)
    changed[place : place + WORD] = tighter.to_bytes(WORD, "big")
    changed[end : end + DIGEST] = bound_digest(changed, number, changed[page:end])
    return bytes(changed)
