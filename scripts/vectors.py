#!/usr/bin/env python3
"""The runs of examples/vectors/all.jsonl and batches.jsonl. `scripts/check-program` compares each with the program and with
scripts/reference.py, and `scripts/check-batches` those on batches with the reference alone.

    scripts/vectors.py COMMAND.. < INPUT     prints the line of a run, once program and reference agree on it

A line is an object with `args`, the words after the program's name; `input`, `reply`, what is read and what is written, where each
character is the byte of its number; and `status`. The reference knows no refusals but these by their words, and those of batches: of
another only the program is asked here, and what is in the file was worked out by hand from the documents. A line on batches is the
reference's until the program has their commands.
"""

import json
import os
import subprocess
import sys

sys.path.insert(0, os.path.dirname(os.path.abspath(__file__)))
sys.dont_write_bytecode = True

import reference
import rows

TOP = os.path.realpath(os.path.join(os.path.dirname(os.path.abspath(__file__)), ".."))
CASES, BATCHES = "examples/vectors/all.jsonl", "examples/vectors/batches.jsonl"


def computed(args, text):
    """Returns the status and the reply by the reference, of runs that it can do and that aren't refused, or are on batches."""
    command, *options = args
    if command.endswith("-many"):
        return reference.run_many(args, text)
    if command == "eval":
        return 0, reference.evaluated(text).encode()
    if command == "circuit":
        return 0, reference.sizes(text).encode()
    if command == "prove":
        kind = options[1] if options[:1] == ["--proof"] else "1"
        asked = reference.parts_of(text)[:3]
        return 0, reference.case_of(*asked, *reference.prove(*asked, kind))
    if command == "verify":
        verdict = reference.verdict_of(reference.verify(*reference.parts_of(text))[0])
        return int(verdict != "accepted"), verdict.encode() + b"\n"
    if command == "audit":
        return 0, reference.audit(*reference.parts_of(text)).encode()
    if command == "convert":
        return reference.converted(text, options[1])
    if command == "session":
        case = text[: text.rindex(b"words")]
        count, size = (int(line.split()[1]) for line in reference.sizes(case).split("\n")[-4:-2][::-1])
        return 0, f"session {count}\nto prover {8 * count + 1}\nto verifier {size - 4}\naccepted\n".encode()
    return None


def faults(gkr, args, text, status, reply):
    """Returns what is wrong with a run: what the program, and the reference where it can, do otherwise."""
    ran = subprocess.run([gkr, *args], input=text, stdout=subprocess.PIPE, stderr=subprocess.PIPE, check=False)
    found = []
    if (ran.returncode, ran.stdout, ran.stderr) != (status, reply, b""):
        found.append(f"gkr ends with {ran.returncode} and writes {ran.stdout[:200]!r} {ran.stderr[:200]!r}")
    if status in (0, 1) or args[0].endswith("-many"):
        own = computed(args, text)
        if own and own != (status, reply):
            found.append(f"the reference says {own[0]} and {own[1][:200]!r}")
    return found


def runs_of(top, file):
    """Returns the runs of a file: where each is, its words, what is read, and the status and the reply."""
    with open(os.path.join(top, file), encoding="ascii") as it:
        runs = [json.loads(line) for line in it.read().split("\n")[:-1]]
    bytes_of = lambda text: text.encode("latin-1")
    return [
        (f"{file}:{number}: {' '.join(run['args'])}", run["args"], bytes_of(run["input"]), run["status"], bytes_of(run["reply"]))
        for number, run in enumerate(runs, 1)
    ]


def check(top, gkr, tell):
    runs = runs_of(top, CASES)
    tell(len(runs) >= 100, f"{CASES} has fewer than a hundred runs")
    for at, *run in runs + (runs_of(top, BATCHES) if rows.HAS_BATCHES else []):
        wrong = faults(gkr, *run)
        tell(not wrong, f"{at}: {'; '.join(wrong)}")


def main(words):
    if not words or words[0].startswith("-"):
        print(__doc__.strip(), file=sys.stderr)
        return 2
    gkr = os.path.realpath(os.environ.get("GKR") or os.path.join(TOP, "crates", "gkr", "out", "gkr"))
    text = sys.stdin.buffer.read()
    if words[0].endswith("-many") and not rows.HAS_BATCHES:
        status, reply = computed(words, text)
    else:
        ran = subprocess.run([gkr, *words], input=text, stdout=subprocess.PIPE, check=False)
        status, reply = ran.returncode, ran.stdout
        wrong = faults(gkr, words, text, status, reply)
        if wrong:
            print("; ".join(wrong), file=sys.stderr)
            return 1
    run = {"args": words, "input": text.decode("latin-1"), "reply": reply.decode("latin-1"), "status": status}
    print(json.dumps(run))
    return 0


if __name__ == "__main__":
    sys.exit(main(sys.argv[1:]))
