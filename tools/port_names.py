#!/usr/bin/env python3
"""Brings the names of definitions, lemmas and variables in crates/ to today's spelling: words in snake case, types in camel case.

usage: tools/port_names.py [--list] [FOLDER]

It was run once, after the kit's port.py, on the repository as it stood before. Names of the libraries, names that the checker makes
for a function's proof, functions and types of src/ keep their spelling. --list prints the names and changes nothing. It stops where
two names of a file would fall together; OTHER has the names that were chosen for those.
"""

import collections
import os
import re
import sys

# Names that get another one than their own in snake case, since that one is taken where they stand.
OTHER = {
    "Some-number": "some_number",
    "after-in": "heap_after_in",
    "answers-in": "heap_answers_in",
    "bad-shape": "shape_refused",
    "bit-of": "bits_of_entry",
    "block-count": "block_count_is",
    "but-rescans": "alike_but_rescans",
    "bytes-in": "all_bytes_in",
    "entry_in": "entry_in_is",
    "filled_in": "heap_filled_in",
    "first_two": "first_two_is",
    "follow-to": "follows_to",
    "image-run": "image_run_answers",
    "in-planes": "held_in_planes",
    "init-run": "init_run_answers",
    "is-head": "is_head_of",
    "last-of": "last_of_entries",
    "left_over": "left_over_is",
    "log-image": "log_image_answers",
    "log-run": "log_run_answers",
    "longest-gap": "longest_gap_is",
    "on-log": "runs_on_log",
    "open-run": "open_run_answers",
    "open-tests": "open_tests_are",
    "opens-bytes": "opens_bytes_of",
    "parts-of": "parts_of_is",
    "plane-bytes": "all_bytes_plane",
    "pool-of": "pool_of_is",
    "root-count": "root_count_is",
    "root-to": "roots_to",
    "root-words": "root_words_are",
    "run-answers": "run_answers_are",
    "run-responses": "run_responses_are",
    "serve-call": "serve_call_is",
    "serve-program": "serve_program_is",
    "swept-entry": "swept_entry_is",
    "table-bytes": "table_bytes_are",
    "table-count": "table_count_is",
    "way-of": "way_of_is",
    "whole_words": "whole_words_are",
}

# Words of plain English: in a comment they stay.
PROSE = {"ill-formed"}

WORD = r"[A-Za-z_][\w'₀-₉′?]*(?:-[\w'₀-₉′?]+)*"
TOKEN = re.compile(r"(?<![\w'·-])" + WORD)
USE = re.compile(r"^\s*(?:ghost )?(?:pub )?use ([^{}\s]+?)(?:\.\{([^{}]*)\})?(?:\s+as\s+(\S+?))?;?\s*$")
SIGNATURE = re.compile(r"^\s*(?:(?:unfoldable|abbrev|pub|private|opaque|data|record|ghost)\s+)*(" + WORD + r")\s*(?:\([^()]*\)\s*|\{[^{}]*\}\s*)*:(?![:=])")
BINDER = re.compile(r"[({]((?:" + WORD + r"\s+)+):(?![:=])")
LET = re.compile(r"\blet\s+(" + WORD + r")\s*[:=]")


def snake(name):
    parts = name.split("-")
    if name[0].isupper():
        return "".join(p[:1].upper() + p[1:] for p in parts)
    name = "_".join(parts)
    return re.sub(r"(?<=[a-z0-9])([A-Z])", r"_\1", name).lower()


def files(top):
    for folder, dirs, names in os.walk(os.path.join(top, "crates")):
        dirs[:] = sorted(d for d in dirs if d != "out")
        for n in sorted(names):
            if n.endswith((".antt", ".rt")):
                yield os.path.join(folder, n)


def code(line):
    """The line without its comment."""
    return re.sub(r"(^|\s)(--|//).*$", r"\1", line)


def collect(top):
    """The names that the repository binds, and those that it takes from elsewhere."""
    bound, foreign = set(), set()
    for path in files(top):
        with open(path, encoding="utf-8") as f:
            lines = f.read().split("\n")
        for line in map(code, lines):
            use = USE.match(line)
            if use:
                own = re.match(r"Rattle\.(?!std\b|core\b)", use.group(1) + ".")
                made = re.search(r"\.(Statement|Tie)\b", use.group(1))
                for item in (use.group(2) or "").split(","):
                    first, _, other = item.strip().partition(" as ")
                    if first:
                        (bound if own and not made else foreign).add(first)
                    if other:
                        bound.add(other.strip())
                continue
            if path.endswith(".rt"):
                continue
            signature = SIGNATURE.match(line)
            if signature:
                bound.add(signature.group(1))
            for group in BINDER.findall(line):
                bound.update(group.split())
            bound.update(LET.findall(line))
    return bound, foreign


def renaming(top):
    bound, foreign = collect(top)
    result = {}
    for name in sorted(bound - foreign):
        new = OTHER.get(name, snake(name))
        if new != name:
            result[name] = new
    return result


def put(names, text):
    return TOKEN.sub(lambda m: names.get(m.group(0), m.group(0)), text)


def turned(text, names, path):
    lines = text.split("\n")
    rust = path.endswith(".rt")
    inside = 0
    for i, line in enumerate(lines):
        if rust:
            lines[i], inside = turn_clause(line, names, inside)
        else:
            body = code(line)
            lines[i] = put(names, body) + put({k: v for k, v in names.items() if k not in PROSE}, line[len(body):])
    return "\n".join(lines)


CLAUSE = re.compile(r"^\s*(?:requires|ensures|ghost|invariant|decreases)\b")


def turn_clause(line, names, inside):
    """A line of src/: contracts and ghost items are turned, code is not."""
    opens = inside > 0 or CLAUSE.match(line)
    if not opens:
        return line, 0
    body = code(line)
    rest = line[len(body):]
    depth = inside + body.count("{") - body.count("}") + body.count("(") - body.count(")")
    return put(names, body) + rest, max(depth, 0)


def clashes(top, names):
    found = collections.defaultdict(set)
    for path in files(top):
        with open(path, encoding="utf-8") as f:
            text = f.read()
        seen = collections.defaultdict(set)
        inside = 0
        for line in map(code, text.split("\n")):
            use = USE.match(line)
            if use:
                line = re.sub(r"\bas\b", "", use.group(2) or "") + " " + (use.group(3) or "")
            elif path.endswith(".rt"):
                if not (inside or CLAUSE.match(line)):
                    continue
                inside = max(inside + line.count("{") - line.count("}") + line.count("(") - line.count(")"), 0)
            for t in TOKEN.findall(line):
                seen[names.get(t, t)].add(t)
        for new, olds in seen.items():
            if len(olds) > 1:
                found[(new, tuple(sorted(olds)))].add(os.path.relpath(path, top))
    return found


def main(words):
    listing = "--list" in words
    words = [w for w in words if w != "--list"]
    top = words[0] if words else "."
    names = renaming(top)
    if listing:
        for old, new in names.items():
            print(old, new)
    together = clashes(top, names)
    for (new, olds), paths in sorted(together.items()):
        print(f"port_names: {' and '.join(olds)} would both be {new}, in {', '.join(sorted(paths)[:4])}", file=sys.stderr)
    if together or listing:
        return 1 if together else 0
    for path in list(files(top)):
        with open(path, encoding="utf-8") as f:
            text = f.read()
        new = turned(text, names, path)
        if new != text:
            with open(path, "w", encoding="utf-8") as f:
                f.write(new)
    print(f"port_names: {len(names)} names")
    return 0


if __name__ == "__main__":
    sys.exit(main(sys.argv[1:]))
