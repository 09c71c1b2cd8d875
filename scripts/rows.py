"""Runs the program on the tables of tests/, and on inputs that are computed here. `scripts/check-program` calls it.

A file tests/NAME.rows has tables. An unindented line begins one: what its rows are, and behind a colon the words of a command, or of several
with commas between them. Each indented line is a row, whose cells stand between ` | `. A line that begins with `#` is for the reader.

    programs [in language N]   program | inputs | reply: the case of this program and of these words of its line of inputs
    claims      program | inputs | outputs | proof | reply: a case with these outputs and this proof, in which a number stands for so many zeros
    kept        the same with no reply: the case is written as it is
    zeros       program | inputs | outputs | proof: the case is proved by just this proof, and is accepted
    proved      program | inputs | outputs | bytes of its proof by lines in version 1, in version 2, and by pairs
    sessions    program | inputs | words | reply: a session of this case with these words
    texts       text | reply: any text
    prefixes    text: each shorter text that it begins with is refused as a case that ends there
    filled      byte | count | reply: so many of this byte
    nested      front | open | count | inner | close | end | inputs | reply: a program that opens and closes so many times
    words       words: behind the colon stands the reply, and the rows are command lines, with the case of `input a; output a;` on 5
    batches [in language N]   program | shared | inputs | reply: the batch of this program, these words of its line of shared values, and, with
                ` / ` between them, of its lines of inputs; `N x WORDS` are N such lines
    claimed_batches     program | shared | inputs | outputs | proof | reply: a batch with these outputs and this proof
    proved_batches      program | shared | inputs | outputs | bytes of its proof by lines in version 1, in version 2, and by pairs
    other_proofs        program | shared | inputs | outputs | shared | inputs | reply: the first batch with these outputs, and with the proof by
                lines of the second

Cells have the escapes of bytes in Python; in a program none is needed. In a reply ` / ` stands between lines, and the last one ends. The exit
status of each command must be that of its reply, and nothing may be written to standard error.
"""

import glob
import hashlib
import os
import re
import shlex
import subprocess

P = 2**31 - 1
COPY = "input a; output a;"
PRODUCT = "input a; input b; output a*b;"
COUNTS = ("1", "2", "3", "64")
# Whether the program has the commands on batches. Until then scripts/check-batches tries their rows on scripts/reference.py alone.
HAS_BATCHES = False


def raw(cell):
    """Returns the bytes that a cell spells."""
    return cell.encode("latin-1").decode("unicode_escape").encode("latin-1")


def lines_of(cell):
    return b"".join(line.encode() + b"\n" for line in cell.split(" / "))


def opened(program, inputs, language=1):
    """Returns the text of a case up to its last line."""
    program = program if isinstance(program, bytes) else program.encode()
    return b"gkr case %d\nprogram %d\n%s\ninput %s\n" % (language, len(program), program, raw(inputs))


def case_of(program, inputs, language=1):
    return opened(program, inputs, language) + b"end\n"


def proof_of(cell):
    """Returns the bytes of a proof: a number stands for so many zeros."""
    return b"".join(bytes(int(it)) if it.isdecimal() else raw(it) for it in cell.split())


def claim_of(program, inputs, outputs, proof):
    return opened(program, inputs) + b"output %s\nproof %d\n%s\nend\n" % (outputs.encode(), len(proof), proof.hex().encode())


def many_lines(word, cell):
    """Returns a line of this word for each group of words in a cell, of which one may be there many times."""
    lines = b""
    for words in cell.split(" / "):
        times, _, one = words.rpartition(" x ")
        lines += b"%s %s\n" % (word, raw(one)) * int(times or 1)
    return lines


def opened_batch(program, shared, inputs, language=1):
    """Returns the text of a batch up to its last line."""
    lines = many_lines(b"input", inputs)
    front = b"gkr batch %d\nprogram %d\n%s\nshared %s\n" % (language, len(program), program.encode(), raw(shared))
    return front + b"batch %d\n" % lines.count(b"\n") + lines


def batch_of(program, shared, inputs, language=1):
    return opened_batch(program, shared, inputs, language) + b"end\n"


def proved_lines(proof):
    return b"proof %d\n%s\nend\n" % (len(proof), proof.hex().encode())


def claimed_batch(program, shared, inputs, outputs, proof):
    return opened_batch(program, shared, inputs) + many_lines(b"output", outputs) + proved_lines(proof)


def proof_in(text):
    """Returns the bytes of the proof in a text."""
    return bytes.fromhex(text.split(b"\n")[-3].decode())


def tables(path):
    """Returns the tables of a file: the line that begins each, and its rows with their lines."""
    found = []
    with open(path, encoding="utf-8") as it:
        for number, line in enumerate(it.read().split("\n"), 1):
            if not line.strip() or line.startswith("#"):
                continue
            if line.startswith("    "):
                # A first cell may be empty.
                found[-1][1].append((number, [cell.strip(" ") for cell in re.split(r"(?:^|(?<= ))\|(?: |$)", line[4:])]))
            else:
                found.append((line, []))
    return found


class Rows:
    """The program, and where it is told whether it did as a row says."""

    def __init__(self, gkr, tell, status_of):
        self.gkr, self.tell, self.status_of = gkr, tell, status_of

    def ran(self, words, text, argv0="gkr"):
        how = {"input": text, "stdout": subprocess.PIPE, "stderr": subprocess.PIPE}
        return subprocess.run([argv0, *words], executable=self.gkr, check=False, **how)

    def written(self, at, words, text, is_right):
        """Runs the program, and returns what it wrote, once that was compared, and its status and standard error too."""
        ran = self.ran(words, text)
        due = self.status_of(ran.stdout.decode(errors="replace"))
        good = is_right(ran.stdout) and ran.returncode == due and not ran.stderr
        self.tell(good, f"{at}: gkr {shlex.join(words)}", f" ends with {ran.returncode} and wrote {ran.stdout[:300]!r} {ran.stderr[:300]!r}")
        return ran.stdout

    def sees(self, at, words, text, reply):
        return self.written(at, words, text, lambda found: found == reply)

    def programs(self, at, commands, cells, language=1):
        program, inputs, reply = cells
        for words in commands:
            self.sees(at, words, case_of(program, inputs, language), lines_of(reply))

    def claims(self, at, commands, cells):
        program, inputs, outputs, proof, reply = cells
        for words in commands:
            self.sees(at, words, claim_of(program, inputs, outputs, proof_of(proof)), lines_of(reply))

    def kept(self, at, commands, cells):
        program, inputs, outputs, proof = cells
        text = claim_of(program, inputs, outputs, proof_of(proof))
        for words in commands:
            self.sees(at, words, text, text)

    def zeros(self, at, commands, cells):
        program, inputs, outputs, proof = cells
        text = claim_of(program, inputs, outputs, proof_of(proof))
        for words in commands:
            self.sees(at, words, case_of(program, inputs), text)
            self.sees(at, ["verify"], text, b"accepted\n")

    def one_proof(self, at, words, case, outputs, size):
        """Sees everything of a proved case but the digits of its proof, and that it is accepted; returns it."""
        front = case[: -len(b"end\n")] + b"output %s\nproof %d\n" % (outputs.encode(), size)
        is_right = lambda text: text.startswith(front) and text.endswith(b"\nend\n") and len(text) == len(front) + 2 * size + 5
        text = self.written(at, words, case, is_right)
        self.sees(at, ["verify"], text, b"accepted\n")
        return text

    def converts(self, at, one, two):
        """Sees that a proof in both versions is converted to each and audited as one that says nothing false."""
        for version, text, to in (("2", one, two), ("2", two, two), ("1", two, one), ("1", one, one)):
            self.sees(at, ["convert", "--to", version], text, to)
        self.sees(at, ["audit"], two, b"accepted\nmeaning same\nmessage none\nchallenge none\n")

    def proved(self, at, commands, cells):
        program, inputs, outputs, sizes = cells
        case = case_of(program, inputs)
        one, two, pair = (int(it) for it in sizes.split())
        for words in commands:
            first = self.one_proof(at, words, case, outputs, one)
            second = self.one_proof(at, [*words, "--proof", "2"], case, outputs, two)
            self.converts(at, first, second)
            pairs = self.one_proof(at, [*words, "--proof", "pair"], case, outputs, pair)
            self.sees(at, [*words, "--workers", "3", "--proof=pair"], case, pairs)

    def sessions(self, at, commands, cells):
        program, inputs, said, reply = cells
        text = case_of(program, inputs) + b"words %s\ndone\n" % said.encode()
        for words in commands:
            self.sees(at, words, text, lines_of(reply))

    def texts(self, at, commands, cells):
        text, reply = cells
        for words in commands:
            self.sees(at, words, raw(text), lines_of(reply))

    def prefixes(self, at, commands, cells):
        text = raw(cells[0])
        for words in commands:
            for length in range(len(text)):
                self.sees(at, words, text[:length], b"refused case end %d\n" % length)

    def filled(self, at, commands, cells):
        byte, count, reply = cells
        for words in commands:
            self.sees(at, words, raw(byte) * int(count), lines_of(reply))

    def nested(self, at, commands, cells):
        front, opens, count, inner, closes, end, inputs, reply = cells
        program = raw(front) + raw(opens) * int(count) + raw(inner) + raw(closes) * int(count) + raw(end)
        for words in commands:
            self.sees(at, words, case_of(program, inputs), lines_of(reply))

    def batches(self, at, commands, cells, language=1):
        program, shared, inputs, reply = cells
        for words in commands:
            self.sees(at, words, batch_of(program, shared, inputs, language), lines_of(reply))

    def claimed_batches(self, at, commands, cells):
        *batch, proof, reply = cells
        for words in commands:
            self.sees(at, words, claimed_batch(*batch, proof_of(proof)), lines_of(reply))

    def proved_batches(self, at, commands, cells):
        program, shared, inputs, outputs, sizes = cells
        batch = batch_of(program, shared, inputs)
        for words in commands:
            for kind, size in zip(("1", "2", "pair"), sizes.split()):
                front = batch[:-4] + many_lines(b"output", outputs) + b"proof %s\n" % size.encode()
                is_right = lambda text, front=front, size=size: text.startswith(front) and len(text) == len(front) + 2 * int(size) + 5
                option = [] if kind == "1" else [f"--proof={kind}"]
                text = self.written(at, [*words, *option], batch, is_right)
                self.sees(at, ["verify-many"], text, b"accepted\n")
                self.sees(at, [*words, "--workers", "3", *option], batch, text)

    def other_proofs(self, at, commands, cells):
        program, shared, inputs, outputs, *others, reply = cells
        other = batch_of(program, *others)
        proved = self.written(at, ["prove-many"], other, lambda text: text.startswith(other[:-4]))
        for words in commands:
            self.sees(at, words, claimed_batch(program, shared, inputs, outputs, proof_in(proved)), lines_of(reply))

    def table(self, path, head, rows):
        kind, rest = head.split(":", 1)
        kind, _, language = kind.partition(" in language ")
        for number, cells in rows:
            at = f"{path}:{number}"
            if kind == "words":
                self.sees(at, shlex.split(cells[0]), case_of(COPY, "1 5"), lines_of(rest.strip()))
                continue
            commands = [shlex.split(it) for it in rest.split(",")]
            more = {"language": int(language)} if language else {}
            getattr(self, kind)(at, commands, cells, **more)


def hashed(state, data=b""):
    return hashlib.sha256(state + data).digest()


def challenge(state):
    """Returns the challenge of a transcript in this state."""
    return int.from_bytes(state[:8], "little") % P, int.from_bytes(state[8:16], "little") % P


def begun(program, given, claimed):
    """Returns the state that a transcript of a program begins in, for one input and one output."""
    data = len(program).to_bytes(4, "little") + program.encode()
    for number in (1, given, 1, claimed):
        data += number.to_bytes(4, "little")
    return hashed(b"gkr-transcript-1\n", data)


def times(x, y):
    return (x[0] * y[0] - x[1] * y[1]) % P, (x[0] * y[1] + x[1] * y[0]) % P


def last_point(state):
    """Returns the point that a layer of two rounds and a line of two coefficients ends at, where all messages are zeros and a challenge of the
    output point comes first: b + t (c - b) for the challenges b and c of the rounds and t of the line."""
    drawn = []
    state = hashed(state, b"\x02")
    for zeros in (24, 24, 16):
        state = hashed(hashed(state, b"\x01" + bytes(zeros)), b"\x02")
        drawn.append(challenge(state))
    b, c, t = drawn
    step = times(t, ((c[0] - b[0]) % P, (c[1] - b[1]) % P))
    return (b[0] + step[0]) % P, (b[1] + step[1]) % P


def false_claims(rows):
    """Verdicts that have a challenge in them, by SHA-256 alone."""
    at = "false claims"
    text = claim_of(COPY, "1 0", "1 1", proof_of("GKR1 64"))
    reply = "rejected sum 0 1 0,0 %d,%d" % challenge(hashed(begun(COPY, 0, 1), b"\x02"))
    rows.sees(at, ["verify"], text, lines_of(reply))
    rows.sees(at, ["audit"], text, lines_of(f"{reply} / meaning differs / message none / challenge none"))
    # A proof of version 2 fails no sum, and what its messages say is another input.
    text = claim_of(COPY, "1 5", "1 0", proof_of("GKR2 48"))
    reply = "rejected input 0,0 %d,%d" % times((5, 0), last_point(begun(COPY, 5, 0)))
    rows.sees(at, ["verify"], text, lines_of(reply))
    rows.sees(at, ["audit"], text, lines_of(f"{reply} / meaning differs / message 0 1 / challenge none"))
    one = rows.written(at, ["convert", "--to", "1"], text, lambda found: found.startswith(opened(COPY, "1 5")))
    rows.sees(at, ["verify"], one, lines_of(reply))
    rows.sees(at, ["convert", "--to", "2"], one, text)


def heights(rows):
    """The greatest height of language 1: 256 layers, and a sum of too many terms."""
    at = "heights"
    lines = ["circuit 256", "layer 0 2 0", "layer 1 2 0", *[f"layer {layer} 4 0" for layer in range(2, 256)]]
    lines += ["layer 256 2 0", "proof 30612", "challenges 1277", "bound 2551"]
    program = "input a; let s = a; for i in 0..255 { s = s+a; } output s;"
    rows.sees(at, ["circuit"], case_of(program, "1 1"), lines_of(" / ".join(lines)))
    for terms, reply in ((256, b"accepted\n"), (301, b"refused program deep 301\n")):
        program = "input a; output " + "+".join(["a"] * terms) + ";"
        rows.sees(at, ["verify"], claim_of(program, "1 0", "1 0", proof_of("GKR1 30608")), reply)


def chains(rows):
    """Functions that each call the one before, within 60 levels of nesting: 64 of them, which is the most, end with their answer."""
    at = "chains"

    def chain(count, levels):
        bodies = ["x", *[f"f{n:02}(x)" for n in range(count - 1)]]
        text = "".join(f"def f{n:02}(x)={'(' * levels}{body}{')' * levels};" for n, body in enumerate(bodies))
        return text + f"output f{count - 1:02}(7);"

    rows.sees(at, ["eval"], case_of(chain(64, 60), "0", 2), b"output 1 7\n")
    last = len(chain(65, 0)) - len("def f64(x)=f63(x);output f64(7);")
    rows.sees(at, ["eval"], case_of(chain(65, 0), "0", 2), b"refused program defs %d\n" % last)


def digits_of_proofs(rows):
    """Hex digits in either case. They begin at byte 71, after the line `proof 68`."""
    at = "digits of proofs"
    for front, reply in ((b"474b5231", b"accepted\n"), (b"474B5231", b"accepted\n"), (b"474b523g", b"refused case hex 78\n"), (b"474b523 ", b"refused case hex 78\n")):
        for more, due in ((b"", reply), (b"0", reply if reply.startswith(b"refused") else b"refused case hex 207\n")):
            text = opened(COPY, "1 0") + b"output 1 0\nproof 68\n" + front + b"00" * 64 + more + b"\nend\n"
            rows.sees(at, ["verify"], text, due)


def generated_cases(rows):
    """`demo`: the digest by SHA-256 of the proof that `prove` writes, each size, and any number of workers."""
    at = "generated cases"
    program = "input a[2][2]; input b[2][2]; output sum(matmul(a,b));"
    for number, inputs, output in (("0", "8 1 2 3 4 5 6 7 8", "134"), ("4294967295", "8 2 3 4 5 6 7 8 9", "214")):
        text = rows.one_proof(at, ["prove"], case_of(program, inputs), f"1 {output}", 828)
        digest = hashlib.sha256(proof_in(text)).hexdigest()
        reply = f"demo {number} / size 2 / output {output} / layers 5 / proof 828 / digest {digest} / accepted"
        rows.sees(at, ["demo", number], b"", lines_of(reply))
    for number in range(15):
        front = b"demo %d\nsize %d\noutput " % (number, number + 2)
        rows.written(at, ["demo", str(number)], b"", lambda text, front=front: text.startswith(front) and text.endswith(b"\naccepted\n"))
    one = rows.ran(["demo", "11"], b"").stdout
    for count in COUNTS:
        rows.sees(at, ["demo", "11", "--workers", count], b"", one)
        rows.sees(at, ["demo", "--workers", count, "11"], b"", one)


def many_workers(rows):
    """The sum of the numbers from 1 to 4,096, by a tree of 13 layers: the same proof by any number of workers."""
    at = "many workers"
    case = case_of("input a[64][64]; output sum(a);", " ".join(["4096", *map(str, range(1, 4097))]))
    rows.sees(at, ["eval"], case, b"output 1 8390656\n")
    lines = ["circuit 13", "layer 0 2 0", *[f"layer {layer} {1 << layer} 0" for layer in range(1, 14)], "proof 5204", "challenges 196", "bound 456"]
    rows.sees(at, ["circuit"], case, lines_of(" / ".join(lines)))
    one = rows.one_proof(at, ["prove"], case, "1 8390656", 5204)
    for count in COUNTS:
        rows.sees(at, ["prove", "--workers", count], case, one)
    two = rows.written(at, ["prove", "--workers", "2", "--proof", "2"], case, lambda text: text.startswith(case[:-4]))
    rows.sees(at, ["verify"], two, b"accepted\n")
    rows.converts(at, one, two)
    any_workers(rows, "many workers, narrow", case_of("input a; input b; output a*b;", "2 3 4"))
    any_workers(rows, "many workers", case)
    # the widest layer has 2^16 values
    wide = " ".join(["50000", *(str(value % 1000) for value in range(50000))])
    any_workers(rows, "many workers, wide", case_of("input a[200][250]; output sum(a*a);", wide))
    # more than 2^17 values, so that all stages are shared
    widest = " ".join(["136900", *(str(value % 1000) for value in range(136900))])
    any_workers(rows, "many workers, widest", case_of("input a[370][370]; output sum(a*a);", widest, 2))


def any_workers(rows, at, case):
    """Each kind of proof of a case is the same by any number of workers, and accepted."""
    for kind in ("1", "2", "pair"):
        words = ["prove", "--proof", kind]
        one = rows.written(at, words, case, lambda text: text.startswith(case[:-4]))
        rows.sees(at, ["verify"], one, b"accepted\n")
        for count in COUNTS:
            rows.sees(at, [*words, "--workers", count], case, one)


def served(client, case, outputs, proof):
    return b"client %d\n" % client + case[:-4] + b"output %s\nproof %d\n%s\nend\n" % (outputs.encode(), len(proof), proof.hex().encode())


def scripts(rows):
    """`serve`: the same replies by any number of workers, provers and clients, and with a history of which the schedule chooses the order."""
    at = "scripts"
    first, last, refused = case_of(COPY, "1 0"), case_of(PRODUCT, "2 0 0"), case_of("output z;", "0")
    jobs = ((1, first), (2, refused), (1, first), (3, last))
    script = b"".join(b"client %d\n" % client + case for client, case in jobs) + b"done\n"
    replies = served(1, first, "1 0", proof_of("GKR1 64")) + b"client 2\nrefused program unknown 7\n"
    replies += served(1, first, "1 0", proof_of("GKR1 64")) + served(3, last, "1 0", proof_of("GKR1 184")) + b"jobs 4 proved 3 refused 1"
    for workers in COUNTS:
        for provers in COUNTS:
            for clients in COUNTS:
                words = ["serve", "--workers", workers, "--provers", provers, "--clients", clients]
                rows.sees(at, words, script, replies + b"\n")
    for count in COUNTS:
        words = ["serve", "--history", "--provers", count, "--clients", "3"]
        rows.written(at, words, script, lambda text: text.startswith(replies + b" withdrawn 0\nhistory 12\nsubmit 0 "))
    # A job by itself, and one that is marked, which is proved or withdrawn.
    reply = served(1, first, "1 0", proof_of("GKR1 64"))
    history = reply + b"jobs 1 proved 1 refused 0 withdrawn 0\nhistory 3\nsubmit 0 0\ntake 0\nfinish 0\n"
    withdrawn = b"client 1\nwithdrawn\njobs 1 proved 0 refused 0 withdrawn 1\nhistory 2\nsubmit 0 0\nwithdraw 0\n"
    rows.sees(at, ["serve", "--history"], b"client 1\n" + first + b"done\n", history)
    rows.sees(at, ["serve", "--provers", "3", "--history"], b"client 1\n" + first + b"done\n", history)
    rows.written(at, ["serve", "--history"], b"client 1\n" + first + b"withdraw\ndone\n", lambda text: text in (history, withdrawn))
    # As many jobs as a script may have, and one more.
    job = b"client 2\n" + refused
    for option in ("--workers", "--provers", "--clients"):
        rows.sees(at, ["serve", option, "3"], job * 256 + b"done\n", b"client 2\nrefused program unknown 7\n" * 256 + b"jobs 256 proved 0 refused 256\n")
    rows.sees(at, ["serve"], job * 257 + b"done\n", b"refused case section 13312\n")
    # The longest Plain case, of 2,949,163 bytes, and one of 8,388,608 bytes, which is refused after its last value.
    front = opened("output 1;".ljust(65_536), "262144" + " 2147483646" * 262_144)[:-1]
    text = b"client 1\n" + front + b"\nend\ndone\n"
    rows.tell(len(text) == 9 + 2_949_163 + 5, f"{at}: the longest case has {len(text)} bytes")
    rows.sees(at, ["serve"], text, b"client 1\nrefused count input 262144 0\njobs 1 proved 0 refused 1\n")
    text = b"client 1\n" + front.ljust(8_388_608) + b"done\n"
    rows.sees(at, ["serve"], text, b"refused case number 2949167\n")


def begun_batch(name, shared, instances):
    """Returns the state that a transcript of this name begins in, for COPY on a batch of such inputs and one output each."""
    spelt = lambda *numbers: b"".join(number.to_bytes(4, "little") for number in numbers)
    data = spelt(len(COPY)) + COPY.encode() + spelt(len(shared), *shared, len(instances), 1 - len(shared), 1)
    return hashed(name + b"\n" + data + b"".join(hashed(spelt(*own, output)) for own, output in instances))


def false_batches(rows):
    """Verdicts that have a challenge in them, by SHA-256 alone: where all messages are zeros, the claim before the first sum is left over. Of
    three instances one has the output 1, the first or the last, which stands for the copies 2 and 3: those with the high bit."""
    at = "false batches"
    rest = lambda x: ((1 - x[0]) % P, -x[1] % P)
    first, last = lambda low, high: times(rest(low), rest(high)), lambda low, high: high
    for shared, own in (([], [0]), ([0], [])):
        for outputs, weight in (((1, 0, 0), first), ((0, 0, 1), last)):
            cells = [" ".join(map(str, [len(shared), *shared])), "3 x " + " ".join(map(str, [len(own), *own])), " / ".join(f"1 {one}" for one in outputs)]
            for name, proof in ((b"gkr-transcript-b", "GKR1 176"), (b"gkr-transcript-q", "GKRP 160")):
                state, drawn = begun_batch(name, shared, [(own, output) for output in outputs]), []
                for _ in range(3):
                    state = hashed(state, b"\x02")
                    drawn.append(challenge(state))
                reply = "rejected sum 0 1 0,0 %d,%d" % times(drawn[0], weight(*drawn[1:]))
                rows.sees(at, ["verify-many"], claimed_batch(COPY, *cells, proof_of(proof)), lines_of(reply))


def wide_batches(rows):
    """As many copies, bytes and values as a batch may have, and more."""
    at = "wide batches"
    rows.sees(at, ["eval-many"], batch_of(COPY, "0", "65536 x 1 5"), b"output 1 5\n" * 65_536)
    rows.sees(at, ["eval-many"], batch_of(COPY, "0", "65537 x 1 5"), b"refused case length 61\n")
    # Sixteen lines have all but one of the values that there may be.
    line, less = b"262144" + b" 0" * 262_144 + b"\n", b"262143" + b" 0" * 262_143 + b"\n"
    front = b"gkr batch 1\nprogram 18\n" + COPY.encode() + b"\nshared " + line + b"batch 16\n" + (b"input " + line) * 14 + b"input " + less
    rows.sees(at, ["eval-many"], front + b"input 1 0\nend\n", b"refused count shared 262144 1\n")
    rows.sees(at, ["eval-many"], front + b"input 2 0\nend\n", b"refused case length %d\n" % (len(front) + 6))


def tables_in(top, wanted):
    """Returns the tables of these files of tests/, each with its path."""
    found = []
    for path in sorted(glob.glob(f"{top}/tests/*.rows")):
        if wanted(os.path.basename(path)):
            found += [(os.path.relpath(path, top), *one) for one in tables(path)]
    return found


def run_batches(rows, top):
    """What there is on batches."""
    for one in tables_in(top, lambda name: name == "many.rows"):
        rows.table(*one)
    for part in (false_batches, wide_batches):
        part(rows)


def run(top, gkr, tell, status_of):
    rows = Rows(gkr, tell, status_of)
    for one in tables_in(top, lambda name: name != "many.rows"):
        rows.table(*one)
    for part in (false_claims, heights, chains, digits_of_proofs, generated_cases, many_workers, scripts):
        part(rows)
    if HAS_BATCHES:
        run_batches(rows, top)
