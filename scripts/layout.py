"""How the circuit of a program is laid out, with the operation of the program that each gate belongs to.

scripts/show-case draws what is here. Nodes and levels are those of scripts/reference.py, which shares nothing with gkr but the documents.
"""

import contextlib
import gc
import resource
import signal
import sys

import reference

# The categories of a layer's positions: gates that add and multiply, values that are carried up, and positions that hold 0 alone.
ADD, MULTIPLY, CARRIED, EMPTY = "add", "multiply", "carried", "empty"
LEAF = "leaf"
CATEGORIES = (MULTIPLY, ADD, CARRIED, LEAF, EMPTY)
# Blocks are told apart, and gates drawn one by one, in circuits of at most so many positions in all.
MOST_POSITIONS = 1 << 18
# What a layout may take: processor time, memory, and depth of its recursion.
SECONDS, BYTES, CALLS = 30, 3 << 30, 12_000


class Traced(reference.Lowering):
    """The run that makes nodes, which also keeps which operation made which: `made` has triples of the first node, the node after the
    last and the operation, which is its word and the shapes of its operands; `shown` the shape of each output statement."""

    def __init__(self):
        super().__init__()
        self.made, self.shown, self.begun, self.operands = [], [], None, []

    def value(self, tree, names):
        if self.begun is None:
            self.begun = len(self.nodes)
        outer, self.operands = self.operands, []
        shape, items = super().value(tree, names)
        # operands come before their operation, so its own nodes are those made since the last operand was done
        if len(self.nodes) > self.begun:
            self.made.append((self.begun, len(self.nodes), (tree[0], *self.operands)))
        self.begun, self.operands = len(self.nodes), outer
        outer.append(shape)
        return shape, items

    def block(self, statements, names):
        for one in statements:
            super().block([one], names)
            if one[0] == "output":
                self.shown.append(self.operands[-1])
            self.operands.clear()


class Layer:
    """A layer: how many positions of each category it has, how many of its gates each operation made, and its blocks: triples of a
    category, a count and an operation, one after another, or None where they weren't told apart."""

    def __init__(self, size):
        self.size, self.counts, self.operations, self.blocks = size, dict.fromkeys(CATEGORIES, 0), {}, None

    def count(self, category, operation, number=1):
        self.counts[category] += number
        if operation:
            key = operation, category
            self.operations[key] = self.operations.get(key, 0) + number


class Layout:
    """A program's circuit, the layer of the outputs first: `layers`; `inputs`, a name and its dimensions each; `shown`, the shape of each
    output statement; `times`, how often each operation is in the program's run."""

    def __init__(self, lang, text):
        parsed = reference.Parser(lang, text).program()
        made = Traced()
        made.program(*parsed)
        self.inputs, self.shown, self.nodes, self.outputs = parsed[0], made.shown, made.nodes, made.outputs
        self.levels, self.used, self.height = reference.heights_of(made.nodes, made.outputs)
        self.times, self.operation_of = {}, {}
        for first, after, operation in made.made:
            for at in range(first, after):
                if self.levels[at] and at in self.used:
                    self.operation_of[at] = operation
            if operation[0] not in ("number", "name"):
                self.times[operation] = self.times.get(operation, 0) + 1
        self.layers = self.counted()
        self.rows = None
        if sum(one.size for one in self.layers) <= MOST_POSITIONS:
            self.rows = self.placed()
            for layer in range(self.height):
                self.layers[layer].blocks = self.blocks_of(layer)

    def counted(self):
        """The layers with their counts, without going over the positions of values that are carried."""
        own, passing = [{} for _ in range(self.height + 1)], [0] * (self.height + 2)
        leaves = sum(level == 0 for level in self.levels)
        for at, user in self.used.items():
            level = self.levels[at]
            if level:
                key = self.nodes[at][0], self.operation_of.get(at)
                own[level][key] = own[level].get(key, 0) + 1
            passing[max(level + 1, 1)] += 1
            passing[user] -= 1
        layers, carried = [], 0
        for height in range(self.height + 1):
            carried += passing[height]
            filled = leaves if height == 0 else len(self.outputs) if height == self.height else carried + sum(own[height].values())
            layer = Layer(max(2, 1 << filled.bit_length()))
            for (word, operation), number in own[height].items():
                layer.count(ADD if word == "add" else MULTIPLY, operation, number)
            layer.count(LEAF if height == 0 else CARRIED, None, filled - sum(own[height].values()))
            layer.count(EMPTY, None, layer.size - filled)
            layers.insert(0, layer)
        return layers

    def placed(self):
        """The nodes of each layer from position 1 on, layer 0 first."""
        rows = [[] for _ in range(self.height + 1)]
        rows[0] = [at for at, level in enumerate(self.levels) if level == 0]
        for at in sorted(self.used):
            for height in range(max(1, self.levels[at]), self.used[at]):
                rows[height].append(at)
        rows[self.height] = list(self.outputs)
        return rows[::-1]

    def gates_of(self, layer):
        """The category, both operands' positions and the operation of each position from 1 on that isn't empty, but for the inputs."""
        below = {at: place for place, at in enumerate(self.rows[layer + 1], 1)}
        gates = []
        for at in self.rows[layer]:
            if 0 < layer and self.levels[at] == self.height - layer:
                word, left, right = self.nodes[at]
                gates.append((ADD if word == "add" else MULTIPLY, below[left], below[right], self.operation_of.get(at)))
            else:
                gates.append((CARRIED, below[at], 0, None))
        return gates

    def blocks_of(self, layer):
        """Runs of positions: of one category and one operation, with operands that move by one step, of 0 to 2, from each to the next."""
        blocks, before, step = [[EMPTY, 1, None]], None, None
        for gate in self.gates_of(layer):
            category, left, right, operation = gate
            moved = before and (left - before[1], right - before[2])
            follows = before and before[0] == category and before[3] == operation and all(0 <= one <= 2 for one in moved)
            if follows and (step is None or step == moved):
                blocks[-1][1] += 1
                step = moved
            else:
                blocks.append([category, 1, operation])
                step = None
            before = gate
        rest = self.layers[layer].counts[EMPTY] - 1
        return blocks + ([[EMPTY, rest, None]] if rest else [])

    def values(self, inputs):
        """The value of each node, by number."""
        found = []
        for word, *parts in self.nodes:
            if word in ("input", "constant"):
                found.append(inputs[parts[0]] if word == "input" else parts[0])
            else:
                left, right = (found[one] for one in parts)
                found.append((left + right if word == "add" else left * right) % reference.P)
        return found

    def leaf_names(self):
        """What is in each place of the inputs: a name and its indices, or the number of a constant and none."""
        names = []
        for name, dims in self.inputs:
            rows, columns = (*dims, 1, 1)[:2]
            names += [(name, (row, column)[: len(dims)]) for row in range(rows) for column in range(columns)]
        return [names[what] if word == "input" else (str(what), ()) for word, what in (self.nodes[at] for at in self.rows[self.height])]

    def matrix_products(self):
        """The shapes of both operands of each kind of matrix product, how often it comes, and the first and last layer that it is in."""
        found = []
        for operation, times in self.times.items():
            if operation[0] == "matmul":
                there = [at for at, layer in enumerate(self.layers) if any(key[0] == operation for key in layer.operations)]
                if there:
                    found.append((*operation[1:], times, there[0], there[-1]))
        return found


@contextlib.contextmanager
def bounded():
    """Ends what is in it with an error where it takes too long or too much memory."""

    def ring(*_):
        raise TimeoutError("the layout takes too long")

    soft, hard = resource.getrlimit(resource.RLIMIT_AS)
    most = BYTES if hard == resource.RLIM_INFINITY else min(BYTES, hard)
    old = signal.signal(signal.SIGPROF, ring)
    resource.setrlimit(resource.RLIMIT_AS, (most, hard))
    sys.setrecursionlimit(CALLS)
    gc.disable()
    signal.setitimer(signal.ITIMER_PROF, SECONDS)
    try:
        yield
    finally:
        gc.enable()
        signal.setitimer(signal.ITIMER_PROF, 0)
        resource.setrlimit(resource.RLIMIT_AS, (soft, hard))
        signal.signal(signal.SIGPROF, old)


def laid_out(lang, program):
    """The layout of a program that gkr accepts, or None where it takes too long, too much memory or too deep a recursion here."""
    try:
        with bounded():
            return Layout(lang, program.decode("ascii"))
    except (TimeoutError, MemoryError, RecursionError):
        return None
