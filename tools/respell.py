#!/usr/bin/env python3
"""Spells this repository's own definitions and lemmas as today's Rattle does: snake case, a fact or a type in upper camel case.

usage: python3 tools/respell.py [ROOT]     once, right after the kit's own port script, at the top of the repository

It turns names that specs/ and proofs/ declare, wherever .antt and .rt files name them: `cardFault` to `card_fault`, `upd-self` to `upd_self`.
As they are stay: names that Rattle makes (those whose statement is `goal. ..`), names of src/, constructors of rules that are published under a
name of their own (`wmm-LdMem`), and strings. It stops where two names of one crate would fall together.
"""

import os
import re
import sys

DECLARED = re.compile(r"^ *(?:abbrev |unfoldable |pub |record |data )*([^\s:(){}]+)(?: [^:\n=]*)? : (.*)", re.M)
# Lemmas whose name would meet a definition's: they take another word.
APART = {
    "newest-word": "newest_word_is",
    "of-kind": "of_kind_stands",
    "oldest-from": "oldest_from_is",
    "put-taken": "put_taken_is",
    "reconcile-outcome": "reconcile_outcome_is",
}
# The same for a lemma that the kit's script respelled already, in the files that name it.
RESPELLED = {
    "crates/machine/specs/ValuesLemmas.antt": ("has_room", "room_there"),
    "crates/machine/proofs/Moves.antt": ("has_room", "room_there"),
}


def snake(name):
    return re.sub(r"(?<=[a-z0-9])[A-Z]", lambda m: "_" + m[0].lower(), name).replace("-", "_")


def files(root):
    for folder, dirs, names in os.walk(os.path.join(root, "crates")):
        dirs[:] = sorted(d for d in dirs if d not in ("out", ".git"))
        for n in sorted(names):
            if n.endswith((".rt", ".antt")):
                yield os.path.relpath(os.path.join(folder, n), root)


def read(root, path):
    with open(os.path.join(root, path), encoding="utf-8") as f:
        return f.read()


def word(name):
    return r"(?<![\w'\-])" + re.escape(name) + r"(?![\w'\-])"


def declared(text):
    return [(m[1], m[2]) for m in DECLARED.finditer(text)]


def main(root):
    texts = {p: read(root, p) for p in files(root)}
    for path, (old, new) in RESPELLED.items():
        if path in texts:
            texts[path] = re.sub(word(old), new, texts[path])
    made, own = set(), set()
    for path, text in texts.items():
        if path.endswith(".antt"):
            for name, said in declared(text):
                (made if said.startswith("goal.") else own).add(name)
    turned = {}
    for name in sorted(own - made):
        published = re.search(r"-[A-Z]", name)
        if re.match(r"[a-z]", name) and not published and snake(name) != name:
            turned[name] = APART.get(name, snake(name))
    news = sorted(turned.values())
    twice = [n for n in set(news) if news.count(n) > 1 or n in own]
    if twice:
        print("these would fall together: " + ", ".join(sorted(twice)), file=sys.stderr)
        return 1
    names = re.compile(r'"(?:[^"\\\n]|\\.)*"|' + r"(?<![\w'\-])(?:" + "|".join(map(re.escape, sorted(turned, key=len, reverse=True))) + r")(?![\w'\-])")
    for path, text in texts.items():
        text = names.sub(lambda m: turned.get(m[0], m[0]), text)
        if text != read(root, path):
            with open(os.path.join(root, path), "w", encoding="utf-8") as f:
                f.write(text)
    for old, new in turned.items():
        print(f"{old} -> {new}")
    return 0


if __name__ == "__main__":
    raise SystemExit(main(sys.argv[1] if len(sys.argv) > 1 else "."))
