"""The commands of gkr on a case, called on bytes in memory.

    >>> import gkr
    >>> gkr.verify(open("examples/vectors/product.case", "rb").read())
    Reply(status=<Status.DONE: 0>, text=b'accepted\\n')

Each function runs one command as the program `gkr` does on its standard input, and gives the number
that the program ends with and its reply. The library is libgkr.so beside this file, or what the
environment's GKR_LIBRARY names. Other threads run during a call, and any number of them may call at
once. As a program, `python3 gkr.py COMMAND.. < INPUT` does what `gkr COMMAND.. < INPUT` does.
"""

import ctypes
import enum
import mmap
import os
import sys
from typing import NamedTuple, Sequence


class Status(enum.IntEnum):
    """How a call ended: the number that the program ends with."""

    DONE = 0  # done; of verify: accepted
    REJECTED = 1  # the proof fails an equation of acceptance
    USAGE = 2  # no such kind or version; of run: the words are no command
    BAD_CASE = 3  # the input is no text of a case
    BAD_PROGRAM = 4  # the case's program is refused, or its circuit is too large
    BAD_COUNT = 5  # another number of inputs or outputs than the program has
    BAD_PROOF = 6  # the proof's bytes spell no messages of the circuit's shape
    WRITE_FAULT = 8  # no memory was found for the reply; the text is a prefix of it
    MEMORY = 9  # no memory was found, or the circuit has over 33,554,432 gates; the text is empty
    TOO_LONG = 10  # the input is longer than a case may be
    UNREADABLE = 11  # of run: the words are no text
    NOT_HERE = 12  # of run: the words name a command that isn't on a case


class Kind(enum.IntEnum):
    """The kinds of a proof."""

    LINES_1 = 1  # by lines, in version 1
    LINES_2 = 2  # by lines, in version 2, which is shorter
    PAIRS = 3  # by pairs


class Reply(NamedTuple):
    """How a call ended, and the bytes of the reply."""

    status: Status
    text: bytes


_HERE = os.path.dirname(os.path.abspath(__file__))
_library = ctypes.CDLL(os.environ.get("GKR_LIBRARY") or os.path.join(_HERE, "libgkr.so"))
# Room that most replies fit in, in bytes, and room that every reply of prove and convert fits in,
# so that a proof is made once. Pages that no reply touches cost nothing.
_ROOM, _MOST = 4096, 8 << 20


def _function(name: str, *before: type):
    function = getattr(_library, "gkr_c_" + name)
    function.restype = ctypes.c_uint8
    pointer, size = ctypes.c_void_p, ctypes.c_size_t
    function.argtypes = [*before, ctypes.c_char_p, size, pointer, size, ctypes.POINTER(size)]
    return function


def _call(function, before: tuple, case: bytes, room: int) -> Reply:
    case = bytes(case)
    needed = ctypes.c_size_t()
    while True:
        # ctypes would write zeros over all of a large array, and fresh pages are zero already
        kind = ctypes.c_uint8 * room
        reply = kind() if room <= 65536 else kind.from_buffer(mmap.mmap(-1, room))
        status = function(*before, case, len(case), reply, room, ctypes.byref(needed))
        if needed.value <= room:
            return Reply(Status(status), ctypes.string_at(reply, needed.value))
        room = needed.value


_eval, _circuit = _function("eval"), _function("circuit")
_verify, _audit = _function("verify"), _function("audit")
_prove, _convert = (_function(name, ctypes.c_uint32) for name in ("prove", "convert"))
_run = _function("run", ctypes.c_char_p, ctypes.c_size_t)


def eval(case: bytes) -> Reply:
    """The outputs of a case without outputs: `output C y1 .. yC`."""
    return _call(_eval, (), case, _ROOM)


def circuit(case: bytes) -> Reply:
    """The sizes of the circuit of a case without outputs."""
    return _call(_circuit, (), case, _ROOM)


def verify(case: bytes) -> Reply:
    """The verdict on the proof of a case: `accepted`, or the first equation that fails."""
    return _call(_verify, (), case, _ROOM)


def audit(case: bytes) -> Reply:
    """What an audit finds in the proof of a case, which is by lines."""
    return _call(_audit, (), case, _ROOM)


def prove(case: bytes, kind: int = Kind.LINES_1) -> Reply:
    """The case with its outputs and a proof of them. An unknown kind ends with Status.USAGE."""
    return _call(_prove, (kind,), case, _MOST)


def convert(case: bytes, version: int) -> Reply:
    """The case with its proof by lines in version 1 or 2. Others end with Status.USAGE."""
    return _call(_convert, (version,), case, _MOST)


def run(words: Sequence[str], case: bytes) -> Reply:
    """Any command on a case, by its words, as run(["prove", "--proof", "pair"], case)."""
    text = "\0".join(words).encode(errors="surrogateescape")
    room = _MOST if words and words[0] in ("prove", "convert") else _ROOM
    return _call(_run, (text, len(text)), case, room)


def _main() -> int:
    reply = run(sys.argv[1:], sys.stdin.buffer.read())
    sys.stdout.buffer.write(reply.text)
    return reply.status


if __name__ == "__main__":
    sys.exit(_main())
