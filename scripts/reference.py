#!/usr/bin/env python3
"""A second prover and verifier, by docs/formats.md and docs/language.md, for whoever writes a compatible one.

    scripts/reference.py eval      reads a case without outputs and proof from standard input, and writes its outputs
    scripts/reference.py circuit   writes the sizes of its circuit
    scripts/reference.py prove     reads a case without outputs and proof from standard input, and writes it with them
    scripts/reference.py prove --proof 2        the same with a proof of version 2
    scripts/reference.py prove --proof pair     the same with a proof by pairs
    scripts/reference.py verify    reads a case with outputs and a proof, and writes the verdict
    scripts/reference.py audit     reads one with a proof by lines, and writes what an audit finds
    scripts/reference.py convert --to 2     reads one with a proof by lines, and writes it with that proof in version 2, or 1
    scripts/reference.py vector    reads such a case, and writes its statement's bytes, sizes and first challenges
    scripts/reference.py eval-many      reads a batch without outputs and proof, and writes the outputs of each instance
    scripts/reference.py prove-many     writes it with them and a proof by lines; with --proof 2 or --proof pair another one
    scripts/reference.py verify-many    reads a batch with outputs and a proof, and writes the verdict

It is written for reading and not for speed, in Python's standard library alone, shares nothing with gkr but the documents, and is
proved by nobody. A program that gkr refuses it refuses too, or runs on: it knows no kinds and no places in one. Of a case it knows
no limits either; of a batch it writes each other refusal as it is due.
"""

import collections
import hashlib
import re
import sys

P = 2**31 - 1

# The field: an element a + b i is the pair (a, b), and i * i = -1.

ZERO, ONE = (0, 0), (1, 0)


def add(x, y):
    return ((x[0] + y[0]) % P, (x[1] + y[1]) % P)


def sub(x, y):
    return ((x[0] - y[0]) % P, (x[1] - y[1]) % P)


def mul(x, y):
    return ((x[0] * y[0] - x[1] * y[1]) % P, (x[0] * y[1] + x[1] * y[0]) % P)


def bytes_of(x):
    return x[0].to_bytes(4, "little") + x[1].to_bytes(4, "little")


def value_at(coefficients, x):
    value = ZERO
    for one in reversed(coefficients):
        value = add(mul(value, x), one)
    return value


# The language: text to tokens, tokens to a tree, a run over the tree to nodes.

TOKEN = re.compile(r"\s*(?:([A-Za-z_][A-Za-z_0-9]*)|([0-9]+)|(\.\.|[-+*=;,()\[\]{}]))")
RESERVED = "input let for in output scale sum dot matmul transpose def".split()


class Parser:
    """A parser that goes through the tokens from the left, in language 1 or 2; trees are tuples."""

    def __init__(self, lang, text):
        self.lang, self.tokens, self.at = lang, [], 0
        text = text.rstrip(" \t\r\n")
        at = 0
        while at < len(text):
            found = TOKEN.match(text, at)
            if not found:
                raise ValueError("no token")
            self.tokens.append(found[1] or found[2] or found[3])
            at = found.end()

    def see(self, *words):
        return self.at < len(self.tokens) and self.tokens[self.at] in words

    def take(self, *words):
        if self.at >= len(self.tokens) or (words and self.tokens[self.at] not in words):
            raise ValueError("syntax")
        self.at += 1
        return self.tokens[self.at - 1]

    def name(self):
        word = self.take()
        if word in RESERVED or not re.match(r"[A-Za-z_]", word):
            raise ValueError("syntax")
        return word

    def number(self):
        word = self.take()
        if not word.isdigit():
            raise ValueError("syntax")
        return int(word)

    def program(self):
        inputs, definitions, rest = [], [], []
        while self.see("input"):
            self.take()
            name, dims = self.name(), []
            while self.see("[") and len(dims) < 2:
                self.take()
                dims.append(self.number())
                self.take("]")
            self.take(";")
            inputs.append((name, dims))
        while self.lang == 2 and self.see("def"):
            definitions.append(self.definition())
        while self.at < len(self.tokens):
            if self.see("output"):
                self.take()
                rest.append(("output", self.expression()))
                self.take(";")
            else:
                rest.append(self.statement())
        return inputs, definitions, rest

    def definition(self):
        self.take("def")
        name = self.name()
        self.take("(")
        parameters = [self.name()]
        while self.see(",") and len(parameters) < 8:
            self.take()
            parameters.append(self.name())
        self.take(")")
        self.take("=")
        body = self.expression()
        self.take(";")
        return name, parameters, body

    def statement(self):
        if self.see("for"):
            self.take()
            name = self.name()
            self.take("in")
            low = self.index()
            self.take("..")
            high = self.index()
            self.take("{")
            body = []
            while not self.see("}"):
                body.append(self.statement())
            self.take("}")
            return "for", name, low, high, body
        is_new = self.see("let")
        if is_new:
            self.take()
        name, places = self.name(), [] if is_new else self.indices()
        self.take("=")
        value = self.expression()
        self.take(";")
        return ("let", name, value) if is_new else ("assign", name, places, value)

    def indices(self):
        places = []
        while self.see("[") and len(places) < 2:
            self.take()
            places.append(self.index())
            self.take("]")
        return places

    def chain(self, signs, part):
        left = part()
        while self.see(*signs):
            sign = self.take()
            left = (sign, left, part())
        return left

    def index(self):
        return self.chain("+-", lambda: self.chain("*", self.index_part))

    def index_part(self):
        if self.see("("):
            self.take()
            inside = self.index()
            self.take(")")
            return inside
        return self.leaf()

    def leaf(self):
        if self.at < len(self.tokens) and self.tokens[self.at].isdigit():
            return "number", self.number()
        return "name", self.name()

    def expression(self):
        return self.chain("+-", lambda: self.chain("*", self.factor))

    def factor(self):
        if self.see("-"):
            self.take()
            return "negate", self.factor()
        if self.see("("):
            self.take()
            inside = self.expression()
            self.take(")")
            return inside
        if self.see("scale", "sum", "dot", "matmul", "transpose"):
            word = self.take()
            self.take("(")
            parts = [self.expression()]
            if word in ("scale", "dot", "matmul"):
                self.take(",")
                parts.append(self.expression())
            self.take(")")
            return (word, *parts)
        kind, what = self.leaf()
        if kind == "number":
            return kind, what
        if self.lang == 2 and self.see("("):
            self.take()
            arguments = [self.expression()]
            while self.see(","):
                self.take()
                arguments.append(self.expression())
            self.take(")")
            return "call", what, arguments
        places = self.indices()
        return ("element", what, places) if places else (kind, what)


class Lowering:
    """The run that makes nodes: leaves ('input', j) and ('constant', c), and operations ('add', x, y) and ('mul', x, y) on earlier
    nodes. A value is a shape, as () or (n,) or (n, m), with its elements' nodes row by row."""

    def __init__(self):
        self.nodes, self.constants, self.outputs, self.inputs = [], {}, [], 0

    def node(self, *what):
        self.nodes.append(what)
        return len(self.nodes) - 1

    def constant(self, number):
        if number not in self.constants:
            self.constants[number] = self.node("constant", number)
        return self.constants[number]

    def sum(self, parts):
        if len(parts) == 1:
            return parts[0]
        half = (len(parts) + 1) // 2
        left = self.sum(parts[:half])
        return self.node("add", left, self.sum(parts[half:]))

    def products(self, left, right):
        return self.sum([self.node("mul", x, y) for x, y in zip(left, right)])

    def program(self, inputs, definitions, rest):
        names, earlier = {}, {}
        for name, dims in inputs:
            count = 1
            for one in dims:
                count *= one
            leaves = []
            for _ in range(count):
                leaves.append(self.node("input", self.inputs))
                self.inputs += 1
            names[name] = [tuple(dims), leaves]
        for name, parameters, body in definitions:
            if any(one in names for one in [name, *parameters]) or len({name, *parameters}) <= len(parameters):
                raise ValueError("taken")
            # a body sees the definitions before its own, and its parameters
            names[name] = (parameters, body, dict(earlier))
            earlier[name] = names[name]
        self.block(rest, names)
        return self

    def block(self, statements, names):
        """Runs statements; `names` has a list for a value, which may be assigned, a number for a loop variable, and a tuple for a
        definition."""
        for kind, *parts in statements:
            if kind == "output":
                self.outputs += self.value(parts[0], names)[1]
            elif kind == "let":
                shape, items = self.value(parts[1], names)
                names[parts[0]] = [shape, list(items)]
            elif kind == "assign":
                target, places = names[parts[0]], [self.whole(one, names) for one in parts[1]]
                at = self.place(target[0], places) if places else None
                shape, items = self.value(parts[2], names)
                if shape != (() if places else target[0]):
                    raise ValueError("shape")
                if places:
                    target[1][at] = items[0]
                else:
                    target[1] = list(items)
            else:
                name, low, high, body = parts
                for turn in range(self.whole(low, names), self.whole(high, names)):
                    # names of the block end with it; those from outside are the same lists
                    self.block(body, {**names, name: turn})

    def place(self, shape, places):
        if len(places) != len(shape) or not all(0 <= one < size for one, size in zip(places, shape)):
            raise ValueError("index")
        return places[0] if len(places) == 1 else places[0] * shape[1] + places[1]

    def whole(self, index, names):
        kind, *parts = index
        if kind == "number":
            return parts[0]
        if kind == "name":
            return int(names[parts[0]])
        left, right = (self.whole(one, names) for one in parts)
        return left + right if kind == "+" else left - right if kind == "-" else left * right

    def value(self, tree, names):
        kind, *parts = tree
        if kind == "number":
            return (), [self.constant(parts[0])]
        if kind == "name":
            found = names[parts[0]]
            if isinstance(found, tuple):
                raise ValueError("unknown")
            return ((), [self.constant(found)]) if isinstance(found, int) else found
        if kind == "call":
            if not isinstance(names[parts[0]], tuple):
                raise ValueError("unknown")
            parameters, body, earlier = names[parts[0]]
            if len(parameters) != len(parts[1]):
                raise ValueError("shape")
            arguments = [list(self.value(one, names)) for one in parts[1]]
            return self.value(body, {**earlier, **dict(zip(parameters, arguments))})
        if kind == "element":
            shape, items = names[parts[0]]
            return (), [items[self.place(shape, [self.whole(one, names) for one in parts[1]])]]
        values = [self.value(one, names) for one in parts]
        shape, items = values[0]
        other, more = values[-1]
        if kind in ("+", "*"):
            word = "add" if kind == "+" else "mul"
            made = shape, [self.node(word, x, y) for x, y in zip(items, more)]
        elif kind == "-":
            minus, made = self.constant(P - 1), (shape, [])
            for x, y in zip(items, more):
                made[1].append(self.node("add", x, self.node("mul", y, minus)))
        elif kind == "negate":
            minus = self.constant(P - 1)
            return shape, [self.node("mul", x, minus) for x in items]
        elif kind == "scale":
            return other, [self.node("mul", items[0], x) for x in more]
        elif kind == "sum":
            return (), [self.sum(items)]
        elif kind == "dot":
            return (), [self.products(items, more)]
        elif kind == "transpose":
            rows, columns = shape
            return (columns, rows), [items[row * columns + column] for column in range(columns) for row in range(rows)]
        else:
            (rows, middle), (_, columns) = shape, other
            line = lambda row: items[row * middle : (row + 1) * middle]
            return (rows, columns), [self.products(line(row), more[column::columns]) for row in range(rows) for column in range(columns)]
        if shape != other:
            raise ValueError("shape")
        return made


def heights_of(nodes, outputs):
    """Returns the level of each node, for each that is needed the greatest level of a node that uses it, and the height of the outputs,
    which are used from above."""
    levels = []
    for _, left, *right in nodes:
        levels.append(1 + max(levels[left], levels[right[0]]) if right else 0)
    height = 1 + max(levels[one] for one in outputs)
    used = dict.fromkeys(outputs, height)
    for at in range(len(nodes) - 1, -1, -1):
        if at in used and levels[at]:
            for one in nodes[at][1:]:
                used[one] = max(used.get(one, 0), levels[at])
    return levels, used, height


class Circuit:
    """Layers from the outputs (0) down: `gates[i]` are triples (word, left, right) over positions of layer i + 1; `leaves` are the
    nodes at the input layer's positions from 1 on; `widths` are the sizes of all layers, the input layer's last."""

    def __init__(self, lang, text):
        made = Lowering().program(*Parser(lang, text).program())
        nodes, outputs = made.nodes, made.outputs
        levels, used, height = heights_of(nodes, outputs)
        rows = [[None] + [at for at, level in enumerate(levels) if level == 0]]
        for h in range(1, height):
            rows.append([None] + [at for at in sorted(used) if levels[at] == h or (levels[at] < h and used[at] > h)])
        rows.append([None] + outputs)
        width = lambda row: max(2, 1 << (len(row) - 1).bit_length())
        self.inputs, self.outputs = made.inputs, len(outputs)
        self.positions = [len(row) for row in rows]
        self.leaves = [nodes[at] for at in rows[0][1:]]
        self.widths = [width(row) for row in reversed(rows)]
        self.gates = []
        for h in range(height, 0, -1):
            below = {at: place for place, at in enumerate(rows[h - 1]) if at is not None}
            gates = []
            for at in rows[h]:
                if at is None:
                    gates.append(("add", 0, 0))
                elif h < height and levels[at] == h:
                    gates.append((nodes[at][0], below[nodes[at][1]], below[nodes[at][2]]))
                else:
                    gates.append(("add", below[at], 0))
            self.gates.append(gates + [("add", 0, 0)] * (width(rows[h]) - len(gates)))
        self.exponents = [one.bit_length() - 1 for one in self.widths]

    def input_table(self, inputs):
        values = [inputs[what] if word == "input" else what for word, what in self.leaves]
        return padded([0] + values, self.widths[-1])

    def values(self, inputs):
        """Returns the outputs."""
        return [x for x, _ in tables_over(self.gates, self.input_table(inputs))[0][1 : self.outputs + 1]]

    def claim(self, inputs, outputs):
        return Claim(self.gates, self.exponents, self.input_table(inputs), padded([0] + outputs, self.widths[0]))


def tables_over(gates, input_table):
    """Returns the values of all layers, the output layer's first."""
    tables = [input_table]
    for layer in reversed(gates):
        below = tables[0]
        tables.insert(0, [(add if word == "add" else mul)(below[left], below[right]) for word, left, right in layer])
    return tables


class Claim:
    """That layers of gates over an input table have this output table."""

    def __init__(self, gates, exponents, input_table, output_table):
        self.gates, self.exponents, self.input_table, self.output_table = gates, exponents, input_table, output_table

    def outputs_at(self, place):
        return value_over(self.output_table, place)

    def inputs_at(self, place):
        return value_over(self.input_table, place)

    def wiring_at(self, layer, place, left, right):
        """Returns the layer's wiring polynomials, that of its add gates and that of its multiply gates."""
        sums = {"add": ZERO, "mul": ZERO}
        for at, (word, u, v) in enumerate(self.gates[layer]):
            sums[word] = add(sums[word], mul(eq_over(place, at), mul(eq(left, u), eq(right, v))))
        return sums["add"], sums["mul"]


def padded(numbers, width):
    return [(number, 0) for number in numbers] + [ZERO] * (width - len(numbers))


# Tables of 2^k values, and points of k coordinates: coordinate j belongs to bit j of an index, the lowest first. A claim is at
# a place: points with weights, of which there is one by lines, and by pairs two after the output layer.


def folded(table, x):
    return [add(low, mul(x, sub(high, low))) for low, high in zip(table[0::2], table[1::2])]


def extension_at(table, point):
    for x in point:
        table = folded(table, x)
    return table[0]


def value_over(table, place):
    total = ZERO
    for point, weight in place:
        total = add(total, mul(weight, extension_at(table, point)))
    return total


def eq_over(place, index):
    total = ZERO
    for point, weight in place:
        total = add(total, mul(weight, eq(point, index)))
    return total


def eq(point, index):
    product = ONE
    for j, x in enumerate(point):
        product = mul(product, x if index >> j & 1 else sub(ONE, x))
    return product


# The transcript.


class Transcript:
    def __init__(self, name, statement):
        self.state = hashlib.sha256(name + b"\n" + statement).digest()
        self.start, self.drawn = self.state, []

    def absorb(self, elements):
        self.state = hashlib.sha256(self.state + b"\1" + b"".join(bytes_of(one) for one in elements)).digest()

    def challenge(self):
        self.state = hashlib.sha256(self.state + b"\2").digest()
        self.drawn.append(tuple(int.from_bytes(self.state[at : at + 8], "little") % P for at in (0, 8)))
        return self.drawn[-1]


def words_of(numbers):
    return b"".join(one.to_bytes(4, "little") for one in numbers)


def listed(numbers):
    return words_of([len(numbers), *numbers])


def statement_of(program, inputs, outputs):
    return words_of([len(program)]) + program + listed(inputs) + listed(outputs)


def transcript_of(program, inputs, outputs, by_pairs):
    return Transcript(b"gkr-transcript-p" if by_pairs else b"gkr-transcript-1", statement_of(program, inputs, outputs))


# The prover.


def prove(lang, program, inputs, kind="1"):
    """Returns the outputs and the proof's bytes, by lines in version 1 or 2, or by pairs."""
    circuit = Circuit(lang, program.decode())
    if len(inputs) != circuit.inputs:
        raise ValueError("inputs")
    outputs = circuit.values(inputs)
    return outputs, honest_proof(circuit.claim(inputs, outputs), transcript_of(program, inputs, outputs, kind == "pair"), kind)


def honest_proof(claim, transcript, kind):
    """Returns the proof's bytes of a claim that is true."""
    by_pairs = kind == "pair"
    tables = tables_over(claim.gates, claim.input_table)
    place = [([transcript.challenge() for _ in range(claim.exponents[0])], ONE)]
    proof = b"GKRP" if by_pairs else b"GKR" + kind.encode()
    for gates, below, k in zip(claim.gates, tables[1:], claim.exponents[1:]):
        weights = [eq_over(place, at) for at in range(len(gates))]
        drawn = []
        for done in range(2 * k):
            message = round_message(gates, weights, below, k, drawn, done)
            proof += b"".join(bytes_of(one) for one in (shortened(message) if kind == "2" else message))
            transcript.absorb(message)
            drawn.append(transcript.challenge())
        left, right = drawn[:k], drawn[k:]
        message = [extension_at(below, left), extension_at(below, right)] if by_pairs else line_message(below, left, right)
        proof += b"".join(bytes_of(one) for one in message)
        transcript.absorb(message)
        place = place_below(left, right, transcript.challenge(), by_pairs)
    return proof


def round_message(gates, weights, below, k, drawn, done):
    """The coefficients of the round's polynomial, by its values at 0, 1 and 2."""
    values = []
    for number in range(3):
        point = drawn + [(number, 0)]
        left, right = below, below
        for x in point[:k]:
            left = folded(left, x)
        for x in point[k:]:
            right = folded(right, x)
        total = ZERO
        for (word, u, v), weight in zip(gates, weights):
            low = left[u >> min(len(point), k)]
            high = right[v >> max(len(point) - k, 0)]
            factor = mul(weight, mul(eq(point[:k], u), eq(point[k:], v)))
            total = add(total, mul(factor, (add if word == "add" else mul)(low, high)))
        values.append(total)
    half = ((P + 1) // 2, 0)
    second = mul(half, add(sub(values[0], add(values[1], values[1])), values[2]))
    return [values[0], sub(sub(values[1], values[0]), second), second]


def shortened(message):
    """What version 2 says of a round's coefficients."""
    return message[::2]


def filled(message, claim):
    """A round's coefficients by what version 2 says of them, whose values at 0 and 1 add up to the claim."""
    first, second = message
    return [first, sub(sub(claim, add(first, first)), second), second]


def line_message(below, left, right):
    """The coefficients of the table's extension at left + t (right - left), as a polynomial in t."""
    table = [[one] for one in below]
    for low, high in zip(left, right):
        slope, folds = sub(high, low), []
        for even, odd in zip(table[0::2], table[1::2]):
            step = [sub(y, x) for x, y in zip(even, odd)]
            one = [add(x, mul(low, y)) for x, y in zip(even, step)] + [ZERO]
            for j, y in enumerate(step):
                one[j + 1] = add(one[j + 1], mul(slope, y))
            folds.append(one)
        table = folds
    return table[0]


def place_below(left, right, t, by_pairs):
    """Where the claim on the layer below is: at both points, the second with the weight t, or at t of the line between them."""
    if by_pairs:
        return [(left, ONE), (right, t)]
    return [([add(x, mul(t, sub(y, x))) for x, y in zip(left, right)], ONE)]


# The verifier.


def printed(x):
    return f"{x[0]},{x[1]}"


def verify(lang, program, inputs, outputs, proof):
    """Returns the lines on the equations that fail, the circuit, the transcript and the messages, which version 2 has filled in."""
    circuit = Circuit(lang, program.decode())
    if len(inputs) != circuit.inputs or len(outputs) != circuit.outputs:
        raise ValueError("counts")
    transcript = transcript_of(program, inputs, outputs, proof[3:4] == b"P")
    failing, messages = judged(circuit.claim(inputs, outputs), transcript, proof)
    return failing, circuit, transcript, messages


def length_of(exponents, kind):
    """Returns the bytes of a proof in version 1 or 2, or by pairs."""
    each, last = {"1": (56, 8), "2": (40, 8), "pair": (48, 16)}[kind]
    return 4 + sum(each * k + last for k in exponents[1:])


def draws_of(exponents):
    return exponents[0] + sum(2 * k + 1 for k in exponents[1:])


def bound_of(exponents, kind):
    """Returns how many values of all challenges are exceptional at most."""
    return exponents[0] + sum(4 * k + 1 if kind == "pair" else 5 * k for k in exponents[1:])


def trouble_of(proof, exponents):
    """Returns why bytes are no proof, or None."""
    kind = {b"P": "pair", b"2": "2"}.get(proof[3:4], "1")
    magic = b"GKRP" if kind == "pair" else b"GKR" + kind.encode()
    length = length_of(exponents, kind)
    for at, (had, want) in enumerate(zip(proof, magic)):
        if had != want:
            return f"magic {at}"
    for at in range(4, length, 8):
        if len(proof) < at + 8:
            return f"short {len(proof)} {length}"
        if any(int.from_bytes(proof[half : half + 4], "little") >= P for half in (at, at + 4)):
            return f"range {at}"
    return f"long {len(proof) - length}" if len(proof) > length else None


def judged(claim, transcript, proof):
    """Returns the lines on the equations that fail, and the messages, which version 2 has filled in."""
    by_pairs, short = proof[3:4] == b"P", proof[3:4] == b"2"
    if trouble_of(proof, claim.exponents):
        raise Refused(6, "proof " + trouble_of(proof, claim.exponents))
    elements = [tuple(int.from_bytes(proof[half : half + 4], "little") for half in (at, at + 4)) for at in range(4, len(proof), 8)]
    each = 2 if short else 3
    place = [([transcript.challenge() for _ in range(claim.exponents[0])], ONE)]
    value = claim.outputs_at(place)
    failing, messages = [], []
    for layer, k in enumerate(claim.exponents[1:]):
        drawn = []
        for number in range(2 * k):
            message, elements = elements[:each], elements[each:]
            message = filled(message, value) if short else message
            had = add(value_at(message, ZERO), value_at(message, ONE))
            if had != value:
                failing.append(f"rejected sum {layer} {number + 1} {printed(had)} {printed(value)}")
            messages.append(message)
            transcript.absorb(message)
            drawn.append(transcript.challenge())
            value = value_at(message, drawn[-1])
        last = 2 if by_pairs else k + 1
        message, elements = elements[:last], elements[last:]
        left, right = drawn[:k], drawn[k:]
        low, high = message if by_pairs else (value_at(message, ZERO), value_at(message, ONE))
        adds, products = claim.wiring_at(layer, place, left, right)
        want = add(mul(adds, add(low, high)), mul(products, mul(low, high)))
        if want != value:
            failing.append(f"rejected end {layer} {printed(value)} {printed(want)}")
        messages.append(message)
        transcript.absorb(message)
        t = transcript.challenge()
        place, value = place_below(left, right, t, by_pairs), value_at(message, t)
    want = claim.inputs_at(place)
    if want != value:
        failing.append(f"rejected input {printed(value)} {printed(want)}")
    return failing, messages


def verdict_of(failing):
    return (failing + ["accepted"])[0]


def convert(lang, program, inputs, outputs, proof, version):
    """Returns the proof in a version, or the line on the first sum that keeps it from version 2."""
    failing, circuit, _, messages = verify(lang, program, inputs, outputs, proof)
    sums = [line for line in failing if line.startswith("rejected sum")]
    if proof[3:4] == b"P":
        raise ValueError("proof")
    if version == "2" and sums:
        return None, sums[0]
    written, rest = b"GKR" + version.encode(), iter(messages)
    for k in circuit.exponents[1:]:
        for done in range(2 * k + 1):
            message = next(rest)
            said = shortened(message) if version == "2" and done < 2 * k else message
            written += b"".join(bytes_of(one) for one in said)
    return written, None


# The auditor, who recomputes what the honest prover says at the same challenges.


def audit(lang, program, inputs, outputs, proof):
    """Returns the four lines."""
    failing, circuit, transcript, messages = verify(lang, program, inputs, outputs, proof)
    if proof[3:4] == b"P":
        raise ValueError("proof")
    differs, exceptional = findings(circuit.claim(inputs, outputs), transcript.drawn, messages)
    first = exceptional[0] if exceptional else None
    return "".join(
        line + "\n"
        for line in (
            verdict_of(failing),
            "meaning same" if outputs == circuit.values(inputs) else "meaning differs",
            "message " + (differs[0] if differs else "none"),
            f"challenge {first[0]} {printed(first[1])}" if first else "challenge none",
        )
    )


def findings(claim, challenges, messages):
    """Returns the places of the messages by lines that aren't the true ones, and the challenges that are exceptional with their numbers."""
    tables = tables_over(claim.gates, claim.input_table)
    k = claim.exponents[0]
    point, behind = challenges[:k], challenges[k:]
    differs, exceptional, messages = [], [], list(messages)
    difference = [sub(x, y) for x, y in zip(claim.output_table, tables[0])]
    for number, x in enumerate(point):
        before, difference = difference, folded(difference, x)
        if any(one != ZERO for one in before) and all(one == ZERO for one in difference):
            exceptional.append((number, x))
    place = [(point, ONE)]
    for layer, (gates, below, k) in enumerate(zip(claim.gates, tables[1:], claim.exponents[1:])):
        weights = [eq_over(place, at) for at in range(len(gates))]
        drawn, behind = behind[: 2 * k + 1], behind[2 * k + 1 :]
        left, right, t = drawn[:k], drawn[k : 2 * k], drawn[2 * k]
        for done in range(2 * k + 1):
            truth = line_message(below, left, right) if done == 2 * k else round_message(gates, weights, below, k, drawn[:done], done)
            message = messages.pop(0)
            if message != truth:
                differs.append(f"{layer} line" if done == 2 * k else f"{layer} {done + 1}")
                if value_at(message, drawn[done]) == value_at(truth, drawn[done]):
                    exceptional.append((len(challenges) - len(behind) - 2 * k - 1 + done, drawn[done]))
        place = place_below(left, right, t, False)
    return differs, exceptional


# Texts.


class Refused(ValueError):
    """A reply that begins with `refused`, and its exit status."""

    def __init__(self, status, words):
        super().__init__(words)
        self.status, self.reply = status, f"refused {words}\n"


class Reader:
    """Takes a text from the left part by part, and refuses it at the first byte that isn't due."""

    def __init__(self, text):
        self.text, self.at = text, 0

    def refuse(self, kind):
        raise Refused(3, f"case {kind if self.at < len(self.text) else 'end'} {self.at}")

    def next(self):
        """Returns the next byte, which isn't taken yet, or no byte at the end."""
        return self.text[self.at : self.at + 1]

    def fixed(self, *choices, kind="section"):
        """Takes one of some texts of one length, and returns its place among them."""
        for at in range(len(choices[0])):
            choices = [one for one in choices if one[at : at + 1] == self.next()] or self.refuse(kind)
            self.at += 1
        return choices[0]

    def number(self, limit, over, after, low=0):
        """Takes a decimal, and the byte that `after` gives for its value."""
        value, digits = 0, 0
        while not digits or self.next() != after(value):
            if not self.next().isdigit() or (digits and not value):
                self.refuse("number")
            value = 10 * value + int(self.next())
            if not low <= value <= limit:
                self.refuse(over)
            self.at, digits = self.at + 1, digits + 1
        self.at += 1
        return value

    def counted(self, count):
        """Takes so many bytes of any value."""
        taken = self.text[self.at : self.at + count]
        self.at += len(taken)
        return taken if len(taken) == count else self.refuse("end")

    def values(self, word, limit):
        """Takes a line of this word, a count and so many numbers."""
        self.fixed(word + b" ")
        count = self.number(limit, "length", lambda value: b" " if value else b"\n")
        # A line of many numbers that are right is taken at once; any other is read byte by byte, for the place.
        found = NUMBERS.match(self.text, self.at) if count else None
        numbers = [int(one) for one in found[1].split(b" ")] if found else []
        if found and len(numbers) == count and max(numbers) < P:
            self.at = found.end()
            return numbers
        return [self.number(P - 1, "range", lambda _: b" " if more else b"\n") for more in reversed(range(count))]

    def program(self):
        self.fixed(b"program ")
        program = self.counted(self.number(PROGRAM, "length", lambda _: b"\n"))
        self.fixed(b"\n")
        return program

    def proof(self):
        self.fixed(b"proof ")
        count, begun = 2 * self.number(PROOF, "length", lambda _: b"\n"), self.at
        while self.at < begun + count:
            if not re.match(rb"[0-9a-fA-F]", self.next()):
                self.refuse("hex")
            self.at += 1
        self.fixed(b"\n", kind="hex")
        return bytes.fromhex(self.text[begun : begun + count].decode())

    def end(self):
        self.fixed(b"end\n")
        if self.next():
            self.refuse("rest")


NUMBERS = re.compile(rb"((?:0|[1-9][0-9]{0,9})(?: (?:0|[1-9][0-9]{0,9}))*)\n")
# The most bytes of a program and of a proof, and the most values of a line.
PROGRAM, PROOF, LINE = 65_536, 2_000_000, 262_144


def line_of(word, numbers):
    return b" ".join([word, *(b"%d" % one for one in [len(numbers), *numbers])]) + b"\n"


def proof_line(proof):
    return b"proof %d\n%s\n" % (len(proof), proof.hex().encode())


# Cases.


def parts_of(case):
    """Returns a case's language, program, inputs, outputs and proof; None for what isn't there."""
    text = Reader(case)
    lang = int(text.fixed(b"gkr case 1\n", b"gkr case 2\n", kind="header")[9:])
    program, inputs = text.program(), text.values(b"input", LINE)
    outputs = text.values(b"output", LINE) if text.next() == b"o" else None
    proof = text.proof() if text.next() == b"p" else None
    text.end()
    return lang, program, inputs, outputs, proof


def case_of(lang, program, inputs, outputs=None, proof=None):
    text = b"gkr case %d\nprogram %d\n%s\n%s" % (lang, len(program), program, line_of(b"input", inputs))
    return text + (b"" if outputs is None else line_of(b"output", outputs) + proof_line(proof)) + b"end\n"


def converted(case, version):
    """Returns the status of `convert` and what it writes."""
    lang, program, inputs, outputs, proof = parts_of(case)
    written, line = convert(lang, program, inputs, outputs, proof, version)
    return (1, line.encode() + b"\n") if line else (0, case_of(lang, program, inputs, outputs, written))


def without_claim(case):
    return case_of(*parts_of(case)[:3])


def evaluated(case):
    """The line of its outputs."""
    lang, program, inputs = parts_of(case)[:3]
    circuit = Circuit(lang, program.decode())
    if len(inputs) != circuit.inputs:
        raise ValueError("inputs")
    return line_of(b"output", circuit.values(inputs)).decode()


def sizes(case):
    """The lines on its circuit, and on a proof of it in version 1."""
    lang, program, inputs = parts_of(case)[:3]
    circuit = Circuit(lang, program.decode())
    if len(inputs) != circuit.inputs:
        raise ValueError("inputs")
    products = [sum(word == "mul" for word, _, _ in gates) for gates in circuit.gates] + [0]
    lines = [f"circuit {len(circuit.gates)}"]
    lines += [f"layer {layer} {width} {count}" for layer, (width, count) in enumerate(zip(circuit.widths, products))]
    k = circuit.exponents
    lines += [f"proof {length_of(k, '1')}", f"challenges {draws_of(k)}", f"bound {bound_of(k, '1')}"]
    return "".join(line + "\n" for line in lines)


def vector(case):
    """The lines that examples/vectors/ has beside each case."""
    lang, program, inputs, outputs, proof = parts_of(case)
    failing, circuit, transcript, _ = verify(lang, program, inputs, outputs, proof)
    lines = [
        "statement " + statement_of(program, inputs, outputs).hex(),
        "start " + transcript.start.hex(),
        "widths " + " ".join(str(one) for one in circuit.widths),
        "multiply " + " ".join(str(sum(word == "mul" for word, _, _ in gates)) for gates in circuit.gates),
        f"challenges {len(transcript.drawn)}",
    ]
    lines += [f"challenge {number} {printed(one)}" for number, one in enumerate(transcript.drawn[:4])]
    lines += [f"last challenge {printed(transcript.drawn[-1])}", "verdict " + verdict_of(failing)]
    return "".join(line + "\n" for line in lines)


# Batches: one program on the inputs of many instances (Thaler 2013, "Time-Optimal Interactive Proofs for Circuit Evaluation"). The
# circuit of a batch is that of copies of the program's circuit side by side, laid out whole and proved and verified as any other.

Batch = collections.namedtuple("Batch", "lang program shared inputs outputs proof", defaults=(None, None))

# The most bytes and values of a batch, the most copies, and the greatest exponent of a layer.
BATCH, VALUES, COPIES, EXPONENT = 67_108_864, 4_194_304, 65_536, 24
# The most layers above the inputs, and positions of one, by language.
LIMITS = {1: (256, 65_536), 2: (1_024, 1_048_576)}


def batch_of(text, is_full):
    """Reads a batch with outputs and a proof, or without both."""
    if len(text) > BATCH:
        raise Refused(10, f"long {BATCH}")
    text, left = Reader(text), VALUES

    def values(word):
        nonlocal left
        found = text.values(word, min(LINE, left))
        left -= len(found)
        return found

    lang = int(text.fixed(b"gkr batch 1\n", b"gkr batch 2\n", kind="header")[10:])
    program, shared = text.program(), values(b"shared")
    text.fixed(b"batch ")
    copies = range(text.number(COPIES, "length", lambda _: b"\n", low=1))
    inputs = [values(b"input") for _ in copies]
    outputs = [values(b"output") for _ in copies] if is_full else None
    proof = text.proof() if is_full else None
    text.end()
    return Batch(lang, program, shared, inputs, outputs, proof)


def batch_text(batch):
    text = b"gkr batch %d\nprogram %d\n%s\n" % (batch.lang, len(batch.program), batch.program)
    text += line_of(b"shared", batch.shared) + b"batch %d\n" % len(batch.inputs)
    text += b"".join(line_of(b"input", one) for one in batch.inputs)
    if batch.outputs is not None:
        text += b"".join(line_of(b"output", one) for one in batch.outputs) + proof_line(batch.proof)
    return text + b"end\n"


def circuit_of(batch, is_laid_out):
    """Returns the circuit of one copy, where the program and all counts are right. Only what is proved or verified is laid out."""
    try:
        circuit = Circuit(batch.lang, batch.program.decode())
    except (ValueError, LookupError, TypeError, RecursionError):
        raise Refused(4, "program") from None
    layers, positions = LIMITS[batch.lang]
    if is_laid_out and len(circuit.gates) > layers:
        raise Refused(4, f"program deep {len(circuit.gates)}")
    for height, count in enumerate(circuit.positions if is_laid_out else []):
        if count > positions:
            raise Refused(4, f"program wide {height} {count}")
    shared, copies, most = len(batch.shared), len(batch.inputs), 1 << EXPONENT - min(EXPONENT, max(circuit.exponents))
    if shared > circuit.inputs:
        raise Refused(5, f"count shared {shared} {circuit.inputs}")
    if is_laid_out and copies > most:
        raise Refused(5, f"count copies {copies} {most}")
    own = circuit.inputs - shared
    for copy, values in enumerate(batch.inputs):
        if len(values) != own:
            raise Refused(5, f"count input {copy} {len(values)} {own}")
    if shared + copies * (own + circuit.outputs) > VALUES:
        raise Refused(5, f"count values {shared + copies * (own + circuit.outputs)} {VALUES}")
    for copy, values in enumerate(batch.outputs or []):
        if len(values) != circuit.outputs:
            raise Refused(5, f"count output {copy} {len(values)} {circuit.outputs}")
    return circuit


def batch_outputs(batch, circuit):
    return [circuit.values(batch.shared + own) for own in batch.inputs]


def batch_claim(batch, circuit):
    """Copy c of position g is at c * 2^k + g. The copies past the last instance are copies of the last."""
    last = len(batch.inputs) - 1
    n = last.bit_length()
    copies = range(1 << n)
    gates = []
    for layer, k in zip(circuit.gates, circuit.exponents[1:]):
        gates.append([(word, (copy << k) + u, (copy << k) + v) for copy in copies for word, u, v in layer])
    inputs, outputs = [], []
    for copy in copies:
        one = circuit.claim(batch.shared + batch.inputs[min(copy, last)], batch.outputs[min(copy, last)])
        inputs += one.input_table
        outputs += one.output_table
    return Claim(gates, [k + n for k in circuit.exponents], inputs, outputs)


def batch_statement(batch):
    statement = words_of([len(batch.program)]) + batch.program + listed(batch.shared)
    statement += words_of([len(batch.inputs), len(batch.inputs[0]), len(batch.outputs[0])])
    for own, outputs in zip(batch.inputs, batch.outputs):
        statement += hashlib.sha256(words_of(own + outputs)).digest()
    return statement


def batch_transcript(batch, by_pairs):
    return Transcript(b"gkr-transcript-q" if by_pairs else b"gkr-transcript-b", batch_statement(batch))


def eval_many(text):
    batch = batch_of(text, False)
    return b"".join(line_of(b"output", one) for one in batch_outputs(batch, circuit_of(batch, False)))


def prove_many(text, kind="1"):
    batch = batch_of(text, False)
    circuit = circuit_of(batch, True)
    batch = batch._replace(outputs=batch_outputs(batch, circuit))
    proof = honest_proof(batch_claim(batch, circuit), batch_transcript(batch, kind == "pair"), kind)
    return batch_text(batch._replace(proof=proof))


def verify_many(text):
    batch = batch_of(text, True)
    claim = batch_claim(batch, circuit_of(batch, True))
    return verdict_of(judged(claim, batch_transcript(batch, batch.proof[3:4] == b"P"), batch.proof)[0]).encode() + b"\n"


def run_many(words, text):
    """Returns the status and the reply of a command on batches."""
    try:
        if words[0] == "prove-many" and words[1:] in ([], ["--proof", "1"], ["--proof", "2"], ["--proof", "pair"]):
            reply = prove_many(text, (words[2:] or ["1"])[0])
        elif words == ["eval-many"]:
            reply = eval_many(text)
        elif words == ["verify-many"]:
            reply = verify_many(text)
        else:
            raise Refused(2, "usage")
    except Refused as refused:
        return refused.status, refused.reply.encode()
    return int(reply.startswith(b"rejected")), reply


def main(words):
    kind = words[2] if words[:2] == ["prove", "--proof"] and words[2:] in (["1"], ["2"], ["pair"]) else "1" if words == ["prove"] else None
    version = words[2] if words[:2] == ["convert", "--to"] and words[2:] in (["1"], ["2"]) else None
    shown = {"eval": evaluated, "circuit": sizes, "vector": vector}
    many = words and words[0].endswith("-many")
    if words not in (["verify"], ["audit"], *([word] for word in shown)) and not kind and not version and not many:
        print(__doc__.strip(), file=sys.stderr)
        return 2
    case = sys.stdin.buffer.read()
    if many:
        status, reply = run_many(words, case)
        sys.stdout.buffer.write(reply)
        return status
    if words[0] == "prove":
        asked = parts_of(case)[:3]
        sys.stdout.buffer.write(case_of(*asked, *prove(*asked, kind)))
    elif version:
        status, text = converted(case, version)
        sys.stdout.buffer.write(text)
        return status
    elif words == ["verify"]:
        verdict = verdict_of(verify(*parts_of(case))[0])
        print(verdict)
        return 0 if verdict == "accepted" else 1
    elif words == ["audit"]:
        sys.stdout.write(audit(*parts_of(case)))
    else:
        sys.stdout.write(shown[words[0]](case))
    return 0


if __name__ == "__main__":
    sys.exit(main(sys.argv[1:]))
