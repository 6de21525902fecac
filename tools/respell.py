#!/usr/bin/env python3
"""Brings the repository's own definitions, lemmas, fields and ghost members to snake case, and its types to camel case.

usage: python3 tools/respell.py [--list]      at the top of the repository, once, after the kit's port.py

What the language makes of the source (goals, branches, steps) keeps its name, and so do functions of src/, strings and files.
It stops, with nothing written, where two names would fall together.
"""

import os
import re
import sys

# where the plain spelling would fall together with another name
CHOSEN = {
    "proved-cases": "proved_cases_hold",
    "empty-list": "empty_list_body",
    "oneMore": "one_more_counted",
    "request-body": "request_body_is",
    "answer-body": "answer_body_is",
    "frame-read": "frame_read_is",
    "is-good": "is_good_holds",
    "bit-xor": "bit_xor_bits",
    "code-in": "code_in_byte",
    "reset-in": "reset_in_byte",
    "toggle-in": "toggle_in_byte",
    "confirm-word": "confirm_word_is",
    "list-in": "list_in_low",
    "list-after": "list_after_low",
    "step-on": "step_on_keeps",
    "inOrder": "named_in_order",
    "host-hear": "host_hear_keeps",
    "tnc-hear": "tnc_hear_keeps",
    "with-readers": "with_readers_keeps",
    "request-at": "request_at_fits",
    "answer_at": "answer_at_fits",
    "noise-of": "noise_of_is",
    "toggle-of": "toggle_of_code",
    "drop-first": "drop_first_step",
    "firstOn": "first_waiting",
    "body-of": "is_body",
    "codeByte": "code_byte_of",
    "oneReset": "one_reset_more",
    "outOfSequence": "out_of_sequence_rule",
    "resetAgain": "reset_again_rule",
    "toBlock": "to_block_rule",
    "toPoll": "to_poll_rule",
    "sendBlock": "send_block_of",
    "shownIn": "what_is_shown",
    "Short-wire": "WireIsShort",
}
# names of functions, by which definitions of theirs may go too
ALSO = ["copyFirst", "dropFirst"]
STOPS = " \t\n(){}[];,.«»\"⌜⌝"
HEAD = re.compile(r"^(?:(?:abbrev|unfoldable|pub|unfold) )*(?:(data|record) )?([^\s(){}\[\];,.:]+)((?: [({][^:]*:[^)}]*[)}])*) :")
FIELD = re.compile(r"^ +(?:pub )?([^\s(){}\[\];,.:=]+) :(?!:)")
MADE = re.compile(r" : (?:goal|given|Goals|Given)\.")
GHOST = re.compile(r"^\s*ghost (?!use\b)([^\s:]+): \{")


def texts(kinds):
    for folder, dirs, files in os.walk("crates"):
        dirs[:] = sorted(d for d in dirs if d not in ("out", ".git"))
        for f in sorted(files):
            if f.endswith(kinds):
                yield os.path.join(folder, f)


def snake(name):
    name = name.replace("-", "_")
    return re.sub(r"(?<=[a-z0-9'])([A-Z])", lambda m: "_" + m.group(1).lower(), name)


def camel(name):
    return "".join(w[:1].upper() + w[1:] for w in re.split(r"[-_]", name))


def spelled(name):
    if name in CHOSEN:
        return CHOSEN[name]
    if not re.search(r"[A-Za-z]", name) or "◌" in name:
        return name
    first = name[0]
    if first.isupper():
        return camel(name) if "-" in name else name
    return snake(name) if "-" in name or re.search(r"[a-z0-9'][A-Z]", name) else name


def words(text):
    """The text cut into words and what parts them."""
    at, n = 0, len(text)
    while at < n:
        end = at
        if text[at] in STOPS:
            while end < n and text[end] in STOPS:
                end += 1
            yield False, text[at:end]
        else:
            while end < n and text[end] not in STOPS:
                end += 1
            yield True, text[at:end]
        at = end


def names():
    own, made, old = {}, set(), set()
    for path in texts(".antt"):
        inside = False
        with open(path, encoding="utf-8") as f:
            for line in f:
                old.update(w for is_word, w in words(line.split("-- ")[0]) if is_word)
                m = HEAD.match(line)
                if m:
                    inside = bool(m.group(1))
                    (made.add(m.group(2)) if MADE.search(line) else own.setdefault(m.group(2), path))
                elif inside and FIELD.match(line):
                    own.setdefault(FIELD.match(line).group(1), path)
                elif line.strip() and not line.startswith((" ", "--")):
                    inside = False
    for path in texts(".rt"):
        with open(path, encoding="utf-8") as f:
            for line in f:
                m = GHOST.match(line)
                if m:
                    own.setdefault(m.group(1), path)
    turned = {n: spelled(n) for n in own if n not in made and spelled(n) != n}
    return turned, made, old


def foreign():
    """The names that some file takes from a library of the kit."""
    taken, ours = set(), set(os.listdir("crates"))
    for path in texts((".antt", ".rt")):
        with open(path, encoding="utf-8") as f:
            for m in re.finditer(r"use ([\w.]+)\.\{([^}]*)\}", f.read()):
                parts = m.group(1).split(".")
                if not (parts[0] == "Rattle" and parts[1] in ours):
                    taken.update(w.strip().split(" as ")[0] for w in m.group(2).split(","))
    return taken


def turn(text, turned, code):
    """One file's text. Comments keep words with a hyphen, code keeps its strings."""
    out = []
    for line in text.split("\n"):
        mark = "//" if code else "--"
        at = line.find(mark + " ") if not line.strip().startswith(mark) else 0
        body, said = (line, "") if at < 0 else (line[:at], line[at:])
        if code and '"' in body:
            parts = re.split(r'("(?:[^"\\]|\\.)*")', body)
            body = "".join(p if k % 2 else "".join(turned.get(w, w) if is_word else w for is_word, w in words(p)) for k, p in enumerate(parts))
        else:
            body = "".join(turned.get(w, w) if is_word else w for is_word, w in words(body))
        said = "".join(turned.get(w, w) if is_word and "-" not in w else w for is_word, w in words(said))
        out.append(body + said)
    return "\n".join(out)


def main(argv):
    turned, made, old = names()
    taken = foreign()
    for n in [n for n in turned if n in taken]:
        print(f"left: {n}: a library of the kit has it too ({turned[n]})")
        del turned[n]
    seen, bad = {}, []
    for n, s in turned.items():
        if s in seen:
            bad.append(f"{n} and {seen[s]} are both {s}")
        elif (s in old or s in taken) and n not in ALSO and s not in turned:
            bad.append(f"{n}: {s} is there already")
        seen[s] = n
    if "--list" in argv:
        print("\n".join(f"{n} -> {s}" for n, s in sorted(turned.items())))
    if bad:
        print("\n".join("falls together: " + b for b in bad))
        return 1
    if "--list" in argv:
        return 0
    for path in texts((".antt", ".rt")):
        with open(path, encoding="utf-8") as f:
            before = f.read()
        after = turn(before, turned, path.endswith(".rt"))
        if after != before:
            with open(path, "w", encoding="utf-8") as f:
                f.write(after)
    print(f"respelled {len(turned)} names")
    return 0


if __name__ == "__main__":
    raise SystemExit(main(sys.argv[1:]))
