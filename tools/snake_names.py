#!/usr/bin/env python3
"""Turns the repository's own names to snake case, once, after port.py: sources, specs, proofs, must-fail edits and pages.

usage: python3 tools/snake_names.py      at the top of the repository

A name that begins with a small letter and has capitals inside is a function, a definition or a lemma of ours: `roomOf` becomes `room_of`. Where that
made two names one, the lemma gets an ending (LEMMAS). In must-fail edits and pages, which port.py leaves, the names that it respelled are respelled
too, and in the edits what is only spelling of a contract.
"""
import glob
import re

# Not ours, or no name.
KEEP = {"natAbs", "nFAILED"}

# Lemmas that would have the name of a definition, by file, before anything else is turned.
LEMMAS = {
    "crates/clampfern/proofs/Says.antt": [("all_read", "all_read-some")],
    "crates/clampfern/proofs/Codes.antt": [("idle_code", "idle_code-only")],
    "crates/clampfern/proofs/Ticks.antt": [("idle_code", "idle_code-only")],
    "crates/clampfern/proofs/TableCodes.antt": [("idle_code", "idle_code-only")],
    "crates/slices/proofs/Circle.antt": [("same_kind", "same_kind-self")],
}

# Lemmas that port.py respelled, which edits and pages still call by their old names.
DASHED = """
add-at add-done add-wide alike-next all-append all-map all-read all-same all-small asked-is asks-rest at-last at-local at-once at-second
at-tick bad-last bare-set below-none both-some bytes-back bytes-most chosen-at chosen-none clear-at closed-at closed-same code-is comes-back
count-none counted-same counts-up cut-all cut-fits each-after each-at each-back each-same each-set each-shared edges-most edges-none
ends-last ext-getD fails-both fill-one filled-none first-some fit-spec fits-sub fits-word flag-is found-at found-within frees-all front-at
given-by given-to gives-set goes-on home-fits home-here idle-code is-within job-good lends-shared lent-is less-one lies-more line-first
line-refused lines-fit listed-answer listed-in listed-small listed-then main-spec map-more mark-spec moved-back moved-ends moved-here
moved-sum moved-val named-back near-fits no-lines no-more no-room no-row none-before none-over none-yet nothing-said number-at of-four
of-meets of-row on-both one-place packed-all pair-is paired-is placed-row put-same read-back read-same read-spec room-most row-back row-of
row-seen row-within rows-append rows-back rows-before rows-cut rows-few rows-more rows-none run-at run-row runs-last same-kind same-number
same-row same-size says-none says-other second-at seen-done set-here set-there share-twice shared-back size-is size-none slice-at slice-back
slice-cut slice-inside slice-is slice-rows step-is step-other step-sum sub-read sum-same table-before table-filled table-runs tag-is to-make
too-long too-short turn-last turn-more upto-all upto-left upto-take waiting-none whole-is whole-length window-off without-at written-back
""".split()

CAMEL = re.compile(r"(?<![\w'·])[a-z][a-z0-9]*(?:[A-Z][a-z0-9]*)+(?![\w'])")
NAME = r"(?<![\w'-])%s(?![\w'-])"


def snake(name):
    return name if name in KEEP else re.sub(r"[A-Z]", lambda m: "_" + m.group(0).lower(), name)


def camels(text):
    return CAMEL.sub(lambda m: snake(m.group(0)), text)


def dashes(text):
    for name in DASHED:
        text = re.sub(NAME % re.escape(name), "ext_get_or" if name == "ext-getD" else name.replace("-", "_"), text)
    return text


def edit(text):
    """A must-fail edit: each line that is a text of the source is spelled as the source now is."""
    lines = []
    for line in text.split("\n"):
        if line.startswith("at: "):
            line = camels(dashes(line))
        elif line.startswith(("old: ", "new: ")):
            line = camels(re.sub(r"\bgetD\b", "get_or", line))
            line = re.sub(r"⌜ (.*) ⌝", r"\1", line)
            line = re.sub(r"(?<=[\w)']) \.(?=[a-z0-9])", ".", line)
            line = re.sub(r"\(([\w']+\.[a-z0-9]\w*)\)", r"\1", line)
            line = re.sub(r"\bRattle·(\w+)·specs\.specs\b", r"Rattle.\1.specs", line)
            line = re.sub(r"\bRattle·(\w+)\.specs\b", r"Rattle.\1.specs", line)
            line = re.sub(r"(?<![\w◌])_([+≡<≤*∷&|-]+)_(?!\w)", r"◌\1◌", line)
        else:
            line = camels(line)
        lines.append(line)
    return "\n".join(lines)


def page(text):
    """A page: names stand in backticks, or between them as a word with a capital inside."""
    return camels(re.sub(r"`[^`\n]+`", lambda m: dashes(m.group(0)), text))


def turn(paths, how):
    for path in sorted(paths):
        with open(path, encoding="utf-8") as f:
            old = f.read()
        new = how(old)
        if new != old:
            with open(path, "w", encoding="utf-8") as f:
                f.write(new)


def main():
    for path, names in LEMMAS.items():
        with open(path, encoding="utf-8") as f:
            text = f.read()
        for a, b in names:
            text = re.sub(NAME % re.escape(a), b, text)
        with open(path, "w", encoding="utf-8") as f:
            f.write(text)
    sources = [p for p in glob.glob("crates/**/*", recursive=True) if p.endswith((".rt", ".antt")) and "/out/" not in p]
    turn(sources, camels)
    turn(glob.glob("crates/*/must-fail/*.edit"), edit)
    pages = ["README.md"] + [p for p in glob.glob("docs/**/*.md", recursive=True) if not p.startswith("docs/PORT")]
    turn(pages, page)
    turn(["tests/gate.sh", "tests/header.sh"], camels)


if __name__ == "__main__":
    main()
