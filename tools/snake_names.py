#!/usr/bin/env python3
"""Respells the names of definitions and lemmas in .antt files, and in what .rt files and edits cite of them, from lower camel case to snake case:
recordCount is record_count. Run once, at the top of the repository, after the kit's port.py. A name that would fall together with another of the same
file is listed and ends the run, unless DASHED has a spelling for it.

    python3 tools/snake_names.py [--list]
"""
import glob
import os
import re
import sys

# Lemmas that port.py joined by an underscore and that would fall together with a definition: they keep their dash.
DASHED = {
    "crates/runs/specs/Laws/Admits.antt": ["keeps_here"],
    "crates/fill/specs/Laws/Fields.antt": ["node_opens"],
    "crates/fill/specs/Laws/Results.antt": ["node_opens"],
    "crates/evaluate/specs/Laws/Children.antt": ["none_yet"],
    "crates/evaluate/specs/Laws/Evaluator.antt": ["none_yet"],
    "crates/rules8and9/specs/Laws/Comparing.antt": ["same_bytes"],
    "crates/rules8and9/proofs/same_subtrees/Proof.antt": ["same_bytes"],
    "crates/simplifying/specs/Laws/Demand.antt": ["too_large"],
}

TOKEN = re.compile(r"(?<![\w'\-])[^\W\d_][\w']*(?:-[\w'*+≤<]+)*")
CAMEL = re.compile(r"^[a-z].*[a-z0-9][A-Z]")


def snake(word):
    return re.sub(r"(?<=[a-z0-9])[A-Z]", lambda m: "_" + m.group(0).lower(), word)


def files():
    """The files that are respelled: no Rust of tests or of the command, no inputs or outputs."""
    for end in ("*.antt", "src/*.rt", "src/**/*.rt", "must-fail/*.edit"):
        for path in sorted(glob.glob("crates/*/**/" + end, recursive=True)):
            if "/out/" not in path:
                yield path


def ghost(path, text):
    """Of a .rt file, its lines without strings; of any other, all of it."""
    return re.sub(r'"[^"\n]*"', lambda m: " " * len(m.group(0)), text) if path.endswith(".rt") else text


def main():
    paths = sorted(set(files()))
    texts = {}
    for path in paths:
        with open(path, encoding="utf-8") as file:
            texts[path] = file.read()
        for word in DASHED.get(path, []):
            texts[path] = re.sub(rf"(?<![\w'\-]){word}(?![\w'\-])", word.replace("_", "-"), texts[path])
    words = set()
    for path, text in texts.items():
        words |= {w for w in TOKEN.findall(ghost(path, text)) if CAMEL.match(w)}
    together = set()
    for path, text in texts.items():
        # A field after a dot and a module on a path are no names of the file's own.
        own = set(re.findall(r"(?<![\w'\-.])[^\W\d_][\w']*(?:-[\w'*+≤<]+)*(?!\.\w)", ghost(path, text)))
        for word in own & words:
            if path.endswith(".antt") and snake(word) in own and f".proofs.{snake(word)}." not in text:
                together.add((word, snake(word), path))
    seen = {}
    for word in sorted(words):
        if snake(word) in seen:
            together.add((word, seen[snake(word)], "-"))
        seen[snake(word)] = word
    if together or "--list" in sys.argv:
        for line in sorted(together):
            print(*line)
        if "--list" in sys.argv:
            print(len(words), "names")
        sys.exit(1 if together else 0)
    for path, text in texts.items():
        flat = ghost(path, text)
        with open(path, encoding="utf-8") as file:
            old = file.read()
        new, at = [], 0
        for m in TOKEN.finditer(flat):
            if m.group(0) in words:
                new += [text[at:m.start()], snake(m.group(0))]
                at = m.end()
        respelled = "".join(new) + text[at:]
        if respelled != old:
            with open(path, "w", encoding="utf-8") as out:
                out.write(respelled)


if __name__ == "__main__":
    os.chdir(os.path.join(os.path.dirname(os.path.abspath(__file__)), ".."))
    main()
