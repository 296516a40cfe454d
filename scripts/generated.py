"""The ids that the program generates: told by its replies, or foretold where its seed is known."""
import json
import re
import uuid

# A UUID of version 4 in small letters.
FORM = "[0-9a-f]{8}-[0-9a-f]{4}-4[0-9a-f]{3}-[89ab][0-9a-f]{3}-[0-9a-f]{12}"


def shown_ids(reply):
    """The ids of the documents that a reply says were inserted."""
    try:
        status = json.loads(reply).get("status", {})
    except ValueError:
        return []
    return status.get("insertedIds", [status["upsertedId"]] if "upsertedId" in status else [])


class Told:
    """Ids that no model can tell: each is taken from the reply that shows it first, and none comes twice."""

    def __init__(self):
        self.seen = set()

    def draw(self):
        return None

    def settle(self, drawn, reply, place):
        """The id of the document that the reply shows at this place; where it shows none, a text of the length of one."""
        shown = dict(enumerate(shown_ids(reply))).get(place)
        if not isinstance(shown, str) or not re.fullmatch(FORM, shown) or shown in self.seen:
            shown = f"(generated id {len(self.seen)})".ljust(36)
        self.seen.add(shown)
        return shown


class Foretold:
    """The ids of a session whose seed is known: the key is the seed and the session's number, the stream the base's."""

    def __init__(self, seed, base, session):
        self.key = seed + (session % 2 ** 32).to_bytes(4, "big")
        self.stream = base
        self.drawn = 0

    def draw(self):
        block, place = divmod(self.drawn, 4)
        self.drawn += 1
        return str(uuid.UUID(bytes=key_stream(self.key, block, self.stream)[16 * place:16 * place + 16], version=4))

    def settle(self, drawn, reply, place):
        return drawn


# ---- ChaCha20: the block function of RFC 8439, section 2.3, with a counter and a nonce of 64 bits each ----

ROUNDS = [(0, 4, 8, 12), (1, 5, 9, 13), (2, 6, 10, 14), (3, 7, 11, 15),
          (0, 5, 10, 15), (1, 6, 11, 12), (2, 7, 8, 13), (3, 4, 9, 14)]


def turned(word, count):
    return (word << count | word >> (32 - count)) % 2 ** 32


def quarter_round(words, a, b, c, d):
    for x, y, z, count in [(a, b, d, 16), (c, d, b, 12), (a, b, d, 8), (c, d, b, 7)]:
        words[x] = (words[x] + words[y]) % 2 ** 32
        words[z] = turned(words[z] ^ words[x], count)


def words_of(piece):
    return [int.from_bytes(piece[i:i + 4], "little") for i in range(0, len(piece), 4)]


def key_stream(key, block, nonce):
    """The 64 bytes of a block."""
    start = words_of(b"expand 32-byte k" + key + block.to_bytes(8, "little") + nonce.to_bytes(8, "little"))
    words = list(start)
    for _ in range(10):
        for four in ROUNDS:
            quarter_round(words, *four)
    return b"".join(((a + b) % 2 ** 32).to_bytes(4, "little") for a, b in zip(start, words))
