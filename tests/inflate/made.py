"""Streams and members that zlib makes of random bytes, and others that are made from them."""
import gzip
import random
import zlib

STRATEGIES = (zlib.Z_DEFAULT_STRATEGY, zlib.Z_FILTERED, zlib.Z_HUFFMAN_ONLY, zlib.Z_RLE,
              zlib.Z_FIXED)
FLUSHES = (zlib.Z_SYNC_FLUSH, zlib.Z_FULL_FLUSH, zlib.Z_PARTIAL_FLUSH, zlib.Z_BLOCK)
WINDOWS = range(9, 16)
LEVELS = range(10)
WORDS = (b"[[package]]\n", b'name = "', b'version = "1.0.', b"checksum", b"fn main() {", b"let ")


def text(chance):
    words = [*WORDS, chance.randbytes(6), chance.randbytes(3)]
    return b"".join(chance.choice(words) for _ in range(chance.randrange(2000)))


def runs(chance):
    return b"".join(bytes([chance.randrange(256)]) * chance.randrange(1, 600)
                    for _ in range(chance.randrange(40)))


def noise(chance):
    return chance.randbytes(chance.randrange(4000))


def few(chance):
    return bytes(chance.choices(b"aab\0", k=chance.randrange(8000)))


def skewed(chance):
    """Bytes of which each is twice as frequent as the next one, for long codewords."""
    return bytes(min(int(chance.expovariate(0.7)), 255) for _ in range(chance.randrange(9000)))


def far(chance):
    """Bytes that come again after up to 32,768 others."""
    piece = chance.randbytes(chance.randrange(4, 300))
    return piece + bytes(chance.randrange(32200, 32800)) + piece


SOURCES = (text, runs, noise, few, skewed, far, lambda chance: b"")


def deflated(chance):
    """A stream of random bytes, at a random level, with a random window and strategy."""
    level, window = chance.choice(LEVELS), chance.choice(WINDOWS)
    strategy, memory = chance.choice(STRATEGIES), chance.randrange(1, 10)
    packer = zlib.compressobj(level, zlib.DEFLATED, -window, memory, strategy)
    made = []
    for _ in range(chance.choice((1, 1, 1, 2, 5))):
        made.append(packer.compress(chance.choice(SOURCES)(chance)))
        if chance.random() < 0.3:
            made.append(packer.flush(chance.choice(FLUSHES)))
    return b"".join(made) + packer.flush()


def zero_ended(chance):
    return bytes(chance.choices(range(1, 256), k=chance.randrange(20))) + b"\0"


def header(chance):
    """A header with random parts, whose checksum is right."""
    flags = chance.randrange(32)
    made = bytes([31, 139, 8, flags]) + chance.randbytes(6)
    if flags & 4:
        extra = chance.randbytes(chance.randrange(40))
        made += len(extra).to_bytes(2, "little") + extra
    for flag in (8, 16):
        made += zero_ended(chance) if flags & flag else b""
    if flags & 2:
        made += (zlib.crc32(made) & 65535).to_bytes(2, "little")
    return made


def zipped(chance):
    """A member, by Python's gzip or with a header of its own."""
    if chance.random() < 0.1:
        return gzip.compress(chance.choice(SOURCES)(chance), chance.choice(LEVELS))
    stream = deflated(chance)
    data = zlib.decompress(stream, -15)
    ends = zlib.crc32(data).to_bytes(4, "little") + (len(data) % (1 << 32)).to_bytes(4, "little")
    return header(chance) + stream + ends


def flip(chance, data):
    at = chance.randrange(len(data))
    return data[:at] + bytes([data[at] ^ 1 << chance.randrange(8)]) + data[at + 1:]


def flip_early(chance, data):
    at = chance.randrange(min(len(data), 24))
    return data[:at] + bytes([data[at] ^ 1 << chance.randrange(8)]) + data[at + 1:]


def replace(chance, data):
    at = chance.randrange(len(data))
    return data[:at] + chance.randbytes(chance.randrange(1, 4)) + data[at + 1:]


def cut(chance, data):
    return data[:chance.randrange(len(data))]


def cut_late(chance, data):
    return data[:-chance.randrange(1, 10)]


def remove(chance, data):
    at = chance.randrange(len(data))
    return data[:at] + data[at + 1:]


def follow(chance, data):
    return data + chance.randbytes(chance.randrange(1, 20))


def late(chance, data):
    at = len(data) - chance.randrange(1, min(len(data), 9) + 1)
    return data[:at] + bytes([data[at] ^ 1 << chance.randrange(8)]) + data[at + 1:]


CHANGES = (flip, flip, flip_early, flip_early, replace, cut, cut_late, remove, follow, late)


def mutated(chance, data):
    """Another input, by one to three changes."""
    for _ in range(chance.randrange(1, 4)):
        data = chance.choice(CHANGES)(chance, data) if data else chance.randbytes(5)
    return data


def dynamic_noise(chance):
    """Random bits behind the head of a last block with codes of its own."""
    return bytes([chance.randbytes(1)[0] & 0xF8 | 5]) + chance.randbytes(chance.randrange(120))


def chance_of(seed):
    return random.Random(seed)
