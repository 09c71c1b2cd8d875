#!/usr/bin/env python3
"""Works out the numbers of docs/security.md. `scripts/check-program` compares them with the document.

    scripts/security.py     prints the rows of the document's tables

The sizes of exceptional sets are those of docs/soundness.md, the bytes that are hashed those of docs/formats.md. The challenges and the
bound of a case are what the program's `circuit` prints, and so are the exponents from which the bound by pairs is worked out.
Each number that stands in the document's prose must be one of those below.
"""

import math
import os
import re
import subprocess
import sys

P = 2**31 - 1
K = P * P
BLOCK = 64
# The cases whose challenges are counted, by the file or by the program and how many inputs it has.
CASES = ("examples/scalars.case", "examples/matrices.case", "examples/running_sums.case")
WIDE = ("a sum of 255 by 128 products", "input a[255][128]; input b[255][128]; output sum(a*b);", 2 * 255 * 128)
# Greatest exponents of the outputs' and of other layers, and the most layers, by language.
LIMITS = ((1, 16, 16, 256), (2, 16, 20, 1024))
RATES = (7, 9, 12, 14)


def power(number):
    """Returns a number as a power of two, to a tenth."""
    return "2^" + f"{math.log2(number):.1f}".removesuffix(".0")


def blocks(size):
    """Returns how many blocks SHA-256 takes for so many bytes, with the byte and the length that end them."""
    return -(-(size + 9) // BLOCK)


def last_blocks(size):
    """Returns how many are left where only the last byte changes."""
    return blocks(size) - (size - 1) // BLOCK


def places():
    """Returns for each kind of place its name, its greatest exceptional set, and the bytes that a trial absorbs, of which eight or more change."""
    found = [("a coordinate of the output point", 1, None), ("a pair", 1, 2), ("a round", 2, 3)]
    return found + [(f"the line to a layer of 2^{k} positions", k, k + 1) for k in (4, 8, 16, 20)]


def costs(roots, coefficients):
    """Returns the blocks of a trial that hashes the whole message, and the least that one takes: a draw is a block of its own."""
    if coefficients is None:
        return blocks(33), blocks(33)
    size = 32 + 1 + 8 * coefficients
    # all coefficients of a round lie in its first block
    least = blocks(size) if size <= BLOCK else last_blocks(size)
    return blocks(size) + blocks(33), least + blocks(33)


def place_rows():
    rows = []
    for name, roots, coefficients in places():
        whole, least = costs(roots, coefficients)
        rows.append(f"| {name} | {roots} | {power(K / roots)} | {whole} | {least} | {power(K / roots * least)} |")
    return rows


def bound_of(exponents, by_pairs):
    first, rest = exponents[0], exponents[1:]
    return first + (4 * sum(rest) + len(rest) if by_pairs else 5 * sum(rest))


def case_row(name, text, gkr):
    ran = subprocess.run([gkr, "circuit"], input=text, stdout=subprocess.PIPE, check=True)
    said = ran.stdout.decode().split("\n")
    sizes = [int(line.split()[2]) for line in said if line.startswith("layer ")]
    exponents = [size.bit_length() - 1 for size in sizes]
    challenges, bound = (int(re.search(rf"^{word} (\d+)$", ran.stdout.decode(), re.MULTILINE)[1]) for word in ("challenges", "bound"))
    if bound != bound_of(exponents, False) or challenges != exponents[0] + sum(2 * k + 1 for k in exponents[1:]):
        raise ValueError(f"{name}: circuit says {challenges} challenges and {bound}")
    by_pairs = bound_of(exponents, True)
    most = max(2, *exponents[1:])
    return f"| {name} | {challenges} | {bound} | {power(bound / K)} | {power(K / most)} | {by_pairs} |"


def case_rows(top, gkr):
    rows = []
    for path in CASES:
        with open(os.path.join(top, path), "rb") as it:
            rows.append(case_row(f"`{path}`", it.read(), gkr))
    name, program, inputs = WIDE
    text = f"gkr case 1\nprogram {len(program)}\n{program}\ninput {inputs}{' 1' * inputs}\nend\n".encode()
    rows.append(case_row(name, text, gkr))
    for lang, first, each, layers in LIMITS:
        exponents = [first] + [each] * layers
        bound, by_pairs = bound_of(exponents, False), bound_of(exponents, True)
        count = first + layers * (2 * each + 1)
        rows.append(f"| at most, in language {lang} | {count:,} | {bound:,} | {power(bound / K)} | {power(K / each)} | {by_pairs:,} |")
    return rows


def least_blocks(roots, coefficients):
    return K / roots * costs(roots, coefficients)[1]


def spelled(seconds):
    for name, length in (("years", 365.25 * 86400), ("days", 86400), ("hours", 3600), ("minutes", 60)):
        if seconds >= 1.5 * length:
            number = seconds / length
            return f"{number:,.0f} {name}" if number >= 10 else f"{number:.1f} {name}"
    return f"{seconds:.0f} seconds"


def rate_rows():
    ways = [least_blocks(20, 21), least_blocks(16, 17), min(least_blocks(1, None), least_blocks(2, 3))]
    return [f"| 10^{rate} | " + " | ".join(spelled(way / 10**rate) for way in ways) + " |" for rate in RATES]


def unevenness():
    """Returns how much likelier than evenly the likeliest challenge is, where all 16 bytes of a digest are even."""
    most = 2**64 // P + 1
    return (most * P / 2**64) ** 2 - 1


def figures():
    """Returns the numbers that the prose may have, each worked out."""
    lines = {k: costs(k, k + 1) for k in (16, 20)}
    found = {f"{K:,}", power(K), str(BLOCK), "1", "2", "16", "32"}
    found |= {power(K / k) for k in (2, 16, 20)} | {power(2**k) for k in (16, 20)} | {str(k) for k in lines}
    found |= {power(least_blocks(k, k + 1)) for k in lines} | {power(least_blocks(1, None))}
    found |= {str(cost) for pair in lines.values() for cost in pair} | {str(costs(2, 3)[0])}
    found |= {power(1 / (2 * unevenness())), power(1 / (2 * (1 - K / 2**62)))}
    return found


def check(top, gkr, tell):
    """Compares docs/security.md with what is worked out: each row of its tables, each number of its prose, and the README's."""
    with open(os.path.join(top, "docs", "security.md"), encoding="utf-8") as it:
        lines = it.read().split("\n")
    rows = [*place_rows(), *case_rows(top, gkr), *rate_rows()]
    heads = {number for number, line in enumerate(lines[1:]) if line.startswith("|---")}
    shown = [line for number, line in enumerate(lines) if line.startswith("|") and not line.startswith("|---") and number not in heads]
    for row in rows:
        tell(row in shown, f"docs/security.md: no row {row}")
    for row in shown:
        tell(row in rows, f"docs/security.md: nothing works out {row}")
    known = figures()
    with open(os.path.join(top, "README.md"), encoding="utf-8") as it:
        for one in re.findall(r"2\^[56]\d(?:\.\d)?", it.read()):
            tell(one in known, f"README.md: nothing works out {one}")
    for number, line in enumerate(lines, 1):
        if line.startswith(("|", "    ", "#")):
            continue
        prose = re.sub(r"`[^`]*`", "", line).replace("SHA-256", "").replace("FIPS 180-4", "")
        for one in re.findall(r"(?<![\w.])(?:2\^)?-?\d[\d,]*(?:\.\d+)?", prose):
            one = one.rstrip(",")
            tell(one in known, f"docs/security.md:{number}: nothing works out {one}")


def main(words):
    if words:
        print(__doc__.strip(), file=sys.stderr)
        return 2
    top = os.path.realpath(os.path.join(os.path.dirname(os.path.abspath(__file__)), ".."))
    gkr = os.path.realpath(os.environ.get("GKR") or os.path.join(top, "crates", "gkr", "out", "gkr"))
    for rows in (place_rows(), case_rows(top, gkr), rate_rows()):
        print("\n".join(rows) + "\n")
    print(" ".join(sorted(figures())))
    return 0


if __name__ == "__main__":
    sys.exit(main(sys.argv[1:]))
