"""Asks the program, and what zlib of Python makes of the same inputs."""
import collections
import re
import struct
import subprocess
import zlib

# How an input is asked: whether it is a member of gzip, the limit, and the growth that is refused.
Question = collections.namedtuple("Question", "is_member data limit growth lone")
# What is answered: its name, the bytes, the place behind, growths and blocks that were left over.
Answer = collections.namedtuple("Answer", "name data next growths left")
# What zlib makes of an input: the name of the answer, the bytes, and the place behind it.
Known = collections.namedtuple("Known", "name data next")

AMPLE = 1 << 26
NUMBERS = struct.Struct("<QQQQ")
NAME_ROOM = 24
# What zlib says of a member, and the names of the answers.
NO_HEADER = ("incorrect header check", "unknown compression method", "unknown header flags set")
NAMES = {
    "header crc mismatch": "WrongHeaderChecksum",
    "incorrect data check": "WrongChecksum",
    "incorrect length check": "WrongLength",
    **{it: "NoHeader" for it in NO_HEADER},
}


def stream(data, limit=AMPLE, growth=0, lone=False):
    return Question(False, data, limit, growth, lone)


def member(data, limit=AMPLE, growth=0, lone=False):
    return Question(True, data, limit, growth, lone)


def packed(question):
    kind = b"g" if question.is_member else b"i"
    numbers = (question.limit, question.growth, question.lone, len(question.data))
    return kind + NUMBERS.pack(*numbers) + question.data


def answers_of(out):
    at = 0
    while at < len(out):
        name = out[at:at + NAME_ROOM].rstrip(b"\0").decode()
        next_, growths, left, length = NUMBERS.unpack_from(out, at + NAME_ROOM)
        at += NAME_ROOM + NUMBERS.size
        yield Answer(name, out[at:at + length], next_, growths, left)
        at += length


def ask(program, questions):
    """Asks them in one process, and returns the answers."""
    given = b"".join(packed(it) for it in questions)
    ran = subprocess.run([program], input=given, capture_output=True)
    found = list(answers_of(ran.stdout))
    if ran.returncode or len(found) != len(questions):
        last = questions[len(found)] if len(found) < len(questions) else None
        raise RuntimeError(f"status {ran.returncode} {ran.stderr.decode()} at {last}")
    return found


def known_stream(data):
    """What zlib makes of a stream."""
    inflater = zlib.decompressobj(-15)
    try:
        found = inflater.decompress(data)
    except zlib.error:
        return Known("Malformed", b"", 0)
    if not inflater.eof:
        return Known("Malformed", b"", 0)
    return Known("Ok", found, len(data) - len(inflater.unused_data))


def header_end(data):
    """Where the stream of a member begins, if its header is whole. Its marks are right."""
    if len(data) < 10:
        return None
    flags, at = data[3], 10
    if flags & 4:
        if len(data) < at + 2:
            return None
        at += 2 + int.from_bytes(data[at:at + 2], "little")
    for flag in (8, 16):
        if flags & flag:
            zero = data.find(b"\0", at)
            if zero < 0:
                return None
            at = zero + 1
    at += 2 if flags & 2 else 0
    return at if at <= len(data) else None


def known_cut(data):
    """What is missing of a member that zlib reads to the end of the input: a part of the header, of
    the stream, or of what is behind it."""
    start = header_end(data)
    if start is None:
        return "NoHeader"
    return "CutShort" if known_stream(data[start:]).name == "Ok" else "Malformed"


def known_member(data):
    """What zlib makes of a member."""
    inflater = zlib.decompressobj(31)
    try:
        found = inflater.decompress(data)
    except zlib.error as fault:
        said = re.search(r": ([^:]*)$", str(fault))[1]
        return Known(NAMES.get(said, "Malformed"), b"", 0)
    if not inflater.eof:
        return Known(known_cut(data), b"", 0)
    return Known("Ok", found, len(data) - len(inflater.unused_data))
