"""The pictures of scripts/show-case: a circuit's layers, its matrix products, a proof's parts, and where an audit found what, each as one SVG.

A picture has its own style, no script and no reference to anything outside, so that it stands in a page and in a file alike.
"""

import html

import layout

WIDE = 760
# Lightness tells the categories apart in print, too.
STYLE = """
text{font:12px "DejaVu Sans",Verdana,sans-serif;fill:#222b36}
.s{font-size:9px}.g{font-size:20px}.n{font-size:10.5px;fill:#5a6675}.w{fill:#fff;font-weight:bold;font-size:14px}.light{fill:#fff}.b{font-size:7.5px}.e{text-anchor:end}.m{text-anchor:middle}
.multiply{fill:#d9772b}.add{fill:#2f6ea8}.carried{fill:#b9cbdc}.leaf{fill:#3f8f6b}.empty{fill:#eef1f4}
.edge{stroke:#fff;stroke-width:.6}.box{stroke:#c9d1da;stroke-width:.8}.wrong{stroke:#c62f3b;stroke-width:2.5}
.wire{fill:none;stroke-width:1.1;opacity:.75}.wire.multiply{stroke:#d9772b}.wire.add{stroke:#2f6ea8}.wire.carried{stroke:#b9cbdc}
.rounds{fill:#7b8fb5}.last{fill:#2d3f66}.first{fill:#c9d1da}.true{fill:#cfe3d8}.after{fill:#dfe4ea}.bad{fill:#c62f3b}.luck{fill:#8a3fa0}
.badline{stroke:#c62f3b;stroke-width:1.6}.luckline{stroke:#8a3fa0;stroke-width:1.6}.grid{fill:none;stroke:#9fb0c2;stroke-width:.6}
.badtext{fill:#c62f3b;font-weight:bold}.lucktext{fill:#8a3fa0;font-weight:bold}
"""
SIGNS = {layout.MULTIPLY: "×", layout.ADD: "+", layout.CARRIED: "↑", layout.EMPTY: ""}
WORDS = {
    layout.MULTIPLY: "multiplies",
    layout.ADD: "adds",
    layout.CARRIED: "carries a value up",
    layout.LEAF: "input or constant",
    layout.EMPTY: "holds 0",
}
# Positions are drawn one by one in circuits of at most so many layers, of at most so many positions.
MOST_LAYERS, MOST_WIDE = 18, 16
MOST_BLOCKS = 160
MOST_MESSAGES = 220


def number(count):
    return f"{count:,}"


def picture(height, title, parts, width=WIDE):
    head = f'<svg xmlns="http://www.w3.org/2000/svg" viewBox="0 0 {width} {height:.0f}" width="{width}" height="{height:.0f}" role="img">'
    return f"{head}<title>{html.escape(title)}</title><style>{STYLE}</style>" + "".join(parts) + "</svg>\n"


def rect(x, y, width, height, kind, more=""):
    return f'<rect x="{x:.1f}" y="{y:.1f}" width="{max(width, 0.4):.1f}" height="{max(height, 0.4):.1f}" class="{kind}"{more}/>'


def told(x, y, words, kind=""):
    return f'<text x="{x:.1f}" y="{y:.1f}" class="{kind}">{html.escape(words)}</text>'


def shape_of(dims):
    return "×".join(str(one) for one in dims) if dims else "number"


def operation_words(operation):
    """An operation as a reader of the program knows it."""
    word, *shapes = operation
    if word in ("matmul", "dot"):
        return f"{word} {' · '.join(shape_of(one) for one in shapes)}"
    if word == "scale":
        return f"scale of {shape_of(shapes[1])}"
    if word == "sum":
        return f"sum of {shape_of(shapes[0])}"
    if word == "negate":
        return f"- of {shape_of(shapes[0])}"
    return f"{word} of {shape_of(shapes[0])}" + ("" if shapes[0] else "s")


def layer_name(at, count):
    return f"layer {at}" + (" · outputs" if at == 0 else " · inputs" if at == count - 1 else "")


def legend(y, layers, wrong=()):
    """The categories that layers have, in words, and the mark of an output that is claimed as another value."""
    parts = []
    words = [(one + " box", f"{SIGNS.get(one, '')} {WORDS[one]}".strip()) for one in layout.CATEGORIES if any(it.counts[one] for it in layers)]
    words += [("carried wrong", "claimed as another value")] if wrong else []
    wide_of = lambda word: 32 + 6.2 * len(word)
    # Below the layers where it fits there, and else as far to the left as it has to.
    x = max(8, min(130, WIDE - sum(wide_of(word) for _, word in words)))
    for kind, word in words:
        parts += [rect(x, y - 9, 12, 11, kind), told(x + 17, y, word, "n")]
        x += wide_of(word)
    return parts


def layers(found, inputs, wrong=()):
    """A circuit's layers, the outputs at the top: position by position where it is small, with the outputs that are claimed wrongly, by
    number from 0, marked, and else a bar for each layer."""
    small = found.rows and len(found.layers) <= MOST_LAYERS and max(one.size for one in found.layers) <= MOST_WIDE
    return by_positions(found, inputs, wrong) if small else by_bars(found)


def by_positions(found, inputs, wrong):
    widest, count = max(one.size for one in found.layers), len(found.layers)
    step, high, gap, left = min(60, (WIDE - 130) / widest), 32, 38, 130
    values, names, parts, cells = found.values(inputs), found.leaf_names(), [], []
    x_of = lambda layer, place: left + ((widest - found.layers[layer].size) / 2 + place + 0.5) * step
    y_of = lambda layer: 8 + layer * (high + gap)
    for at, layer in enumerate(found.layers):
        y, is_last = y_of(at), at == count - 1
        cells.append(told(left - 8, y + high / 2 + 4, layer_name(at, count), "e n"))
        gates = [] if is_last else found.gates_of(at)
        for place in range(layer.size):
            x, node = x_of(at, place), found.rows[at][place - 1] if 1 <= place <= len(found.rows[at]) else None
            category = layout.EMPTY if node is None else layout.LEAF if is_last else gates[place - 1][0]
            frame = " wrong" if at == 0 and place - 1 in wrong else " box"
            cells.append(rect(x - step / 2 + 1.5, y, step - 3, high, category + frame, ' rx="4"'))
            if node is None:
                cells.append(told(x, y + high / 2 + 3, "0", "m s"))
                continue
            if not is_last:
                _, one, two, _ = gates[place - 1]
                ends = [(x_of(at + 1, one), -4 if two else 0)] + ([(x_of(at + 1, two), 4)] if two else [])
                for end, aside in ends:
                    bend = gap * 0.5
                    parts.append(
                        f'<path class="wire {category}" d="M{x + aside:.1f} {y + high}C{x + aside:.1f} {y + high + bend:.1f} '
                        f'{end:.1f} {y + high + gap - bend:.1f} {end:.1f} {y + high + gap}"/>'
                    )
            shade = "m s" if category == layout.CARRIED else "m s light"
            if is_last:
                cells.append(leaf(x, y + 13, *names[place - 1], step))
            else:
                cells.append(told(x, y + 14, SIGNS[category], "m n" if category == layout.CARRIED else "m w"))
            cells.append(told(x, y + 26, fitting(short(values[node]), step), shade))
    bottom = y_of(count - 1) + high
    return picture(bottom + 30, "The circuit, layer by layer", parts + cells + legend(bottom + 22, found.layers, wrong))


def fitting(word, room):
    """A word, or as much of its beginning as there is room for."""
    most = max(2, int(room / 5.6))
    return word if len(word) <= most else word[: most - 1] + "…"


def leaf(x, y, name, indices, room):
    """The name of an input with its indices below the line, or a constant."""
    below = ",".join(str(one) for one in indices)
    word = html.escape(fitting(name, room - 4 * len(below)))
    return f'<text x="{x:.1f}" y="{y:.1f}" class="m s light">{word}' + (f'<tspan dy="2.5" class="b light">{below}</tspan></text>' if below else "</text>")


def short(value):
    """A value in as few digits as it has a name for: those just below p as what they are less than 0."""
    return f"−{layout.reference.P - value}" if value > layout.reference.P - 1_000_000 else str(value)


def by_bars(found):
    count = len(found.layers)
    each = max(0.7, min(26, 700 / count))
    gap = 5 if each > 14 else 1 if each > 5 else 0
    exponents = [one.size.bit_length() - 1 for one in found.layers]
    low, high = min(exponents), max(exponents)
    width_of = lambda k: 300 if low == high else 60 + 240 * (k - low) / (high - low)
    parts, every = [], next(step for step in (1, 2, 5, 10, 20, 50, 100, 200, 500, 1000) if step * each >= 13)
    for at, layer in enumerate(found.layers):
        y, wide = 8 + at * each, width_of(exponents[at])
        begin = 130 + (300 - wide) / 2
        parts += bar(layer, begin, y, wide, each - gap)
        if at % every == 0 or at == count - 1:
            if at == 0 or at == count - 1 or count - 1 - at >= every:
                middle = y + (each - gap) / 2 + 4
                parts += [told(122, middle, layer_name(at, count), "e n"), told(440, middle, words_of(layer), "n")]
    bottom = 8 + count * each
    parts += legend(bottom + 20, found.layers)
    parts.append(told(130, bottom + 38, "A bar grows by a step where a layer has twice the positions; its blocks are as wide as their share of it.", "s"))
    return picture(bottom + 46, "The circuit, layer by layer", parts)


def bar(layer, begin, y, wide, high):
    """A layer's blocks in their order, or, where they are many or weren't told apart, the share of each category."""
    blocks = layer.blocks
    if not blocks or len(blocks) > MOST_BLOCKS:
        blocks = [(one, layer.counts[one], None) for one in layout.CATEGORIES if layer.counts[one]]
    parts, x = [], begin
    for category, count, operation in blocks:
        share = wide * count / layer.size
        edge = " edge" if share > 3 and high > 4 else ""
        parts.append(rect(x, y, share, high, category + edge))
        if operation and operation[0] == "matmul" and share > 46 and high > 11:
            parts.append(told(x + share / 2, y + high / 2 + 3, "matmul", "m s light"))
        x += share
    return parts


def words_of(layer):
    """A layer in a line: its positions, and what most of its gates are."""
    counts = [f"{number(layer.counts[one])} {sign}" for one, sign in SIGNS.items() if sign and layer.counts[one]]
    if layer.counts[layout.LEAF]:
        counts.append(f"{number(layer.counts[layout.LEAF])} inputs, constants")
    made = {}
    for (operation, _), count in layer.operations.items():
        made[operation] = made.get(operation, 0) + count
    most = sorted(made, key=made.get, reverse=True)
    names = ", ".join(operation_words(one) for one in most[:1]) + (f", {len(most) - 1} more" if len(most) > 1 else "")
    line = f"{number(layer.size)}: {', '.join(counts)}" + (f"  ({names})" if names else "")
    return line if len(line) <= 52 else line[:51] + "…"


def plain_layers(sizes):
    """The layers by the sizes and the numbers of multiply gates alone."""
    made = []
    for at, (size, muls) in enumerate(sizes):
        layer = layout.Layer(size)
        layer.count(layout.MULTIPLY, None, muls)
        layer.count(layout.LEAF if at == len(sizes) - 1 else layout.CARRIED, None, size - muls)
        made.append(layer)
    return made


def product(left, right):
    """A matrix product: a row of the first operand and a column of the second make an element."""
    (rows, middle), (_, columns) = left, right
    unit = min(22, 84 / max(rows, middle, columns))
    tall = max(5, unit * max(rows, middle))
    parts, x, base = [], 6, 6 + tall / 2
    for high, wide, down, across, kind, sign in (
        (rows, middle, 1, middle, "multiply", "·"),
        (middle, columns, middle, 1, "multiply", "="),
        (rows, columns, 1, 1, "add", ""),
    ):
        height, width = max(high * unit, 5), max(wide * unit, 5)
        y = base - height / 2
        parts += [rect(x, y, width, height, "empty box"), rect(x, y, max(width * across / wide, 1), max(height * down / high, 1), kind)]
        if max(high, wide) <= 24:
            lines = [f"M{x + i * width / wide:.1f} {y:.1f}v{height:.1f}" for i in range(1, wide)]
            lines += [f"M{x:.1f} {y + i * height / high:.1f}h{width:.1f}" for i in range(1, high)]
            parts.append(f'<path class="grid" d="{"".join(lines)}"/>' if lines else "")
        room = max(width, 5.5 * len(f"{high}×{wide}"))
        parts.append(told(x + width / 2, base + tall / 2 + 14, f"{high}×{wide}", "m s"))
        x += (width + room) / 2 + 12
        if sign:
            parts.append(told(x, base + 6, sign, "m g"))
            x += 16
    return picture(tall + 26, f"A matrix product of {rows} by {middle} and {middle} by {columns}", parts, max(int(x), 60))


def proof(parts_of_layers, first=4):
    """A proof's bytes: the leading four, and for each layer those of its rounds and of its last message."""
    whole = first + sum(rounds + last for rounds, last in parts_of_layers)
    scale, x, parts = (WIDE - 20) / whole, 10, []
    parts.append(rect(x, 20, first * scale, 26, "first"))
    x += first * scale
    few = len(parts_of_layers) <= 60
    for at, (rounds, last) in enumerate(parts_of_layers):
        wide = (rounds + last) * scale
        parts.append(rect(x, 20, rounds * scale, 26, "rounds" + (" edge" if few else "")))
        parts.append(rect(x + rounds * scale, 20, last * scale, 26, "last" + (" edge" if few else "")))
        if wide > 40 + 6 * len(str(at)):
            parts.append(told(x + wide / 2, 14, f"layer {at}", "m n"))
        x += wide
    for place, (kind, words) in enumerate((("first", "its kind, 4 bytes"), ("rounds", "rounds of sumcheck"), ("last", "a layer's last message"))):
        parts += [rect(10 + 190 * place, 58, 12, 11, kind), told(27 + 190 * place, 67, words, "n")]
    return picture(76, "The parts of the proof", parts)


def labels(marks):
    """Lines to the marked places with what is there, above, below or higher, wherever no other text is."""
    places, taken, parts = {}, [[], [], []], []
    for x, line, word, words in marks:
        places.setdefault(round(x), []).append((line, word, words))
    for x in sorted(places):
        line, word = places[x][0][:2]
        words = ", ".join(one[2] for one in places[x])
        left = x - 6 * len(words) if x > WIDE / 2 else x
        right = left + 6 * len(words)
        free = [at for at, row in enumerate(taken) if all(right < one or two < left for one, two in row)]
        level = (free + [2])[0]
        taken[level].append((left, right))
        top, bottom, text = ((24, 40, 30), (78, 102, 108), (8, 40, 14))[level]
        parts.append(f'<path class="{line}" d="M{x} {top}V{bottom}"/>')
        side = " e" if x > WIDE / 2 else ""
        parts.append(told(x + (-5 if side else 5), text, words, f"s {word}{side}"))
    return parts


def audit(rounds, false_at, lucky, fails_at):
    """The messages and challenges in their order. `rounds` has how many rounds each layer has; `false_at` is the number of the first false
    message, `lucky` of the message before the first exceptional challenge, or -1 - j for a coordinate of the output point; `fails_at` is
    the number of the message that the first failing equation is at, or of the end; each None where there is none."""
    total = sum(rounds) + len(rounds)
    each = (WIDE - 150) / (total + 1)
    x_of = lambda message: 80 + each * message
    parts, at = [], 0
    state = lambda message: "true" if false_at is None or message < false_at else "bad" if message == false_at else "after"
    parts.append(told(74, 62, "point", "e n"))
    parts.append(rect(76, 46, 3, 24, "first"))
    for layer, count in enumerate(rounds):
        wide = each * (count + 1)
        if total <= MOST_MESSAGES:
            for message in range(at, at + count + 1):
                last = message == at + count
                parts.append(rect(x_of(message), 42 if last else 48, each, 32 if last else 20, state(message) + " edge"))
        else:
            parts.append(rect(x_of(at), 48, wide, 20, ("true" if false_at is None or at + count < false_at else "after") + (" edge" if wide > 4 else "")))
        if wide > 44 or (wide > 12 and len(rounds) <= 30):
            parts.append(told(x_of(at) + wide / 2, 90, f"layer {layer}" if wide > 44 else str(layer), "m s"))
        at += count + 1
    parts.append(rect(x_of(total), 46, each if total < 60 else 6, 24, "leaf"))
    parts.append(told(min(x_of(total) + (each if total < 60 else 6) + 4, WIDE - 40), 62, "inputs", "n"))
    marks = []
    if false_at is not None:
        if total > MOST_MESSAGES:
            parts.append(rect(x_of(false_at), 42, max(each, 2.5), 32, "bad"))
        marks.append((x_of(false_at) + each / 2, "badline", "badtext", "first false message"))
    if lucky is not None:
        x = x_of(lucky + 1) if lucky >= 0 else 77.5
        parts.append(f'<path class="luck" d="M{x:.1f} 50l5 8l-5 8l-5 -8z"/>')
        marks.append((x, "luckline", "lucktext", "the challenge that let it pass"))
    if fails_at is not None:
        marks.append((x_of(fails_at) + each / 2, "badline", "badtext", "first equation that fails"))
    parts += labels(marks)
    kinds = [("true", "true messages")] if false_at != 0 else []
    kinds += [("bad", "the first false one")] if false_at is not None else []
    kinds += [("after", "messages after it")] if false_at is not None and false_at < total - 1 else []
    kinds += [("luck", "an exceptional challenge")] if lucky is not None else []
    x = 76
    for kind, words in [*kinds, ("leaf", "equation of the inputs")]:
        parts += [rect(x, 122, 12, 11, kind), told(x + 16, 131, words, "n")]
        x += 28 + 5.9 * len(words)
    return picture(140, "Where the audit found what", parts)
