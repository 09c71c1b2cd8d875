"""A script of any length as pieces, and the replies to them. `scripts/split-script`, `scripts/join-replies`, `scripts/slurm/submit` and
`scripts/check-many` use it.

A script is as docs/formats.md has it, but for three limits: it may be of any length, have any number of jobs, and clients from 1 to
999,999,999. The piece of a job is its case. It is named for the job, PLACE-CLIENT, with the place in the script, from 0, in seven digits
or more. `scripts/prove-piece` writes the reply: what `gkr prove` replies to the case, and one more line, `reply PLACE-CLIENT CASE REPLY`,
with SHA-256 of the case and of what is before the line.
"""

import hashlib
import mmap
import re

P = 2**31 - 1
CLIENTS = 999_999_999
NUMBER = re.compile(rb"0|[1-9][0-9]{0,10}")
VALUES = re.compile(rb"(?: (?:0|[1-9][0-9]{0,9}))*\n")
CLAIM = re.compile(rb"output [1-9][0-9]*(?: [0-9]+)+\nproof ([0-9]+)\n(474b5231[0-9a-f]*)\nend\n")
REFUSAL = re.compile(rb"refused (?:program \w+ [0-9]+(?: [0-9]+)?|count input [0-9]+ [0-9]+)\n")
SEAL = re.compile(rb"reply ([0-9]+-[0-9]+) ([0-9a-f]{64}) ([0-9a-f]{64})\n")


class Refused(Exception):
    """A text that is no script: what `serve` says of it, and why where that alone doesn't tell."""

    def __init__(self, kind, at, why=None):
        super().__init__(f"refused case {kind} {at}")
        self.why = why


class Reader:
    """Reads a text part by part, by the rule of docs/formats.md on the place of a refusal."""

    def __init__(self, text):
        self.text, self.at = text, 0

    def refused(self, kind, at):
        return Refused(kind if at < len(self.text) else "end", at)

    def fixed(self, word, kind):
        found = self.text[self.at : self.at + len(word)]
        if found != word:
            same = next((i for i, byte in enumerate(found) if byte != word[i]), len(found))
            raise self.refused(kind, self.at + same)
        self.at += len(word)

    def number(self, least, most, kind):
        digits = NUMBER.match(self.text, self.at)
        if not digits:
            raise self.refused("number", self.at)
        value = 0
        for taken, digit in enumerate(digits.group()):
            value = 10 * value + digit - 48
            if not least <= value <= most:
                raise Refused(kind, self.at + taken)
        self.at = digits.end()
        return value

    def values(self, count):
        """Takes so many values and the LF after them: at once, or one by one where there is something to refuse."""
        line = VALUES.match(self.text, self.at)
        if line:
            words = line.group().split()
            if len(words) == count and all(int(word) < P for word in words):
                self.at = line.end()
                return
        for _ in range(count):
            self.fixed(b" ", "number")
            self.number(0, P - 1, "range")
        self.fixed(b"\n", "number")

    def case(self):
        two = self.text[self.at + 9 : self.at + 10] == b"2"
        self.fixed(b"gkr case 2\n" if two else b"gkr case 1\n", "header")
        self.fixed(b"program ", "section")
        length = self.number(0, 65_536, "length")
        self.fixed(b"\n", "number")
        self.at = min(self.at + length, len(self.text))
        self.fixed(b"\n", "section")
        self.fixed(b"input ", "section")
        self.values(self.number(0, 262_144, "length"))
        self.fixed(b"end\n", "section")


def jobs_of(text, clients=CLIENTS):
    """Gives for each job of a script its client, up to the number `clients`, and where its case begins and ends."""
    reader = Reader(text)
    while True:
        begin = text[reader.at : reader.at + 9]
        if begin[:1] != b"c":
            break
        reader.fixed(b"client ", "section")
        client = reader.number(1, clients, "length")
        reader.fixed(b"\n", "number")
        case = reader.at
        reader.case()
        yield client, case, reader.at
    if begin == b"withdraw\n" and reader.at:
        why = "whether a job is withdrawn is the schedule's choice, so its reply has no one answer that jobs proved apart could be joined to"
        raise Refused("section", reader.at, why)
    reader.fixed(b"done\n", "section")
    if reader.at < len(text):
        raise Refused("rest", reader.at)


def name_of(place, client):
    return f"{place:07d}-{client}"


def digest(text):
    return hashlib.sha256(text).hexdigest().encode()


def read_script(path):
    """Returns the bytes of a file without reading them all."""
    with open(path, "rb") as it:
        try:
            return mmap.mmap(it.fileno(), 0, access=mmap.ACCESS_READ)
        except ValueError:
            return it.read()  # no bytes, or no file that can be mapped


def trouble_of(name, case, text):
    """Returns the reply of `prove` to the case of this name that the text of a reply has, and what is wrong of it, one of them None."""
    begin = text.rfind(b"\n", 0, len(text) - 1) + 1
    reply, seal = text[:begin], SEAL.fullmatch(text, begin)
    if not seal:
        return None, "is cut short or altered: its last line isn't `reply NAME CASE REPLY`"
    if seal.group(1) != name.encode():
        return None, f"is the reply to {seal.group(1).decode()}"
    if seal.group(2) != digest(case):
        return None, "is the reply to a job of another script: its case is another"
    if seal.group(3) != digest(reply):
        return None, "is altered: SHA-256 of the reply isn't the one of its last line"
    head = case[: -len(b"end\n")]
    claim = CLAIM.fullmatch(reply, len(head)) if reply.startswith(head) else None
    if claim and len(claim.group(2)) == 2 * int(claim.group(1)) or REFUSAL.fullmatch(reply):
        return reply, None
    return None, "is no reply of `gkr prove` to the case"
