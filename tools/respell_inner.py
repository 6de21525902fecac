#!/usr/bin/env python3
"""Brings to snake case what is declared inside a module or a `where` of a proof, crate by crate; respell.py does the rest.

usage: python3 tools/respell_inner.py      at the top of the repository, once, after respell.py
"""

import os
import re

from respell import spelled, turn, words

INNER = re.compile(r"^ +(?:pub )?([A-Za-z][\w'-]*)((?: [({][^:]*:[^)}]*[)}])*) :(?!:)")
# what the older spelling of other names had left
CHOSEN = {"asTried": "as_tried", "ruleW": "rule_w", "readsAnswer": "reads_answer", "readsRequest": "reads_request", "lA": "l_a", "lB": "l_b", "get_d_first": "get_or_first", "storable_get_d": "storable_at", "request-read": "request_read_fit", "answer-read": "answer_read_fit", "host-hears": "host_hears_fit", "tnc-hears": "tnc_hears_fit"}
# in-sequence is a lemma of two crates
IN_LAW = {"in-sequence": "in_sequence_keeps"}


def files(crate):
    for part in ("specs", "proofs"):
        for folder, _, names in os.walk(os.path.join("crates", crate, part)):
            for f in sorted(names):
                if f.endswith(".antt"):
                    yield os.path.join(folder, f)


def main():
    bad = []
    for crate in sorted(os.listdir("crates")):
        texts = {}
        for p in files(crate):
            with open(p, encoding="utf-8") as f:
                texts[p] = f.read()
        turned = {}
        for t in texts.values():
            for line in t.split("\n"):
                m = INNER.match(line)
                if m and spelled(m.group(1)) != m.group(1):
                    turned[m.group(1)] = spelled(m.group(1))
        turned |= CHOSEN | (IN_LAW if crate == "law" else {})
        for n, s in list(turned.items()):
            using = [p for p, t in texts.items() if any(k and w == n for k, w in words(t))]
            clash = [p for p in using if any(k and w == s for k, w in words(texts[p]))]
            if clash:
                bad.append(f"{crate}: {n}: {s} is in {clash[0]} already")
                del turned[n]
        for p, t in texts.items():
            after = turn(t, turned, False)
            if after != t:
                with open(p, "w", encoding="utf-8") as f:
                    f.write(after)
    print("\n".join("left: " + b for b in bad))


if __name__ == "__main__":
    main()
