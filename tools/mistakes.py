#!/usr/bin/env python3
"""Tries wrong bodies in batches: each has to be refused at a goal of the function that it changes.

Usage: tools/mistakes.py [--definitions] [--gate | --all | --list] [CRATE | NAME ..]
       tools/mistakes.py --can-fail | --against-rattle

It tries those without a valid line in mistakes.lock, and writes their lines. A line is valid until something changes on which the refusal
rests. What is named is tried in any case. `--gate` also tries some of the others, chosen by the commit, and writes nothing. `--all` tries
all, and `--list` only prints which would be tried. `--definitions` tries wrong definitions in place of wrong bodies.

`--can-fail` shows that edits that are no wrong bodies make a run fail, and that a refusal is tried again after each change on which it
rests. `--against-rattle` makes changes at random, and shows that each function that the prover checks again has another digest."""

import argparse
import resource
import sys

from mistakes import bodies, definitions, planted
from mistakes.edits import every_edit
from mistakes.ledger import Ledger
from mistakes.tree import tree_at


def is_asked(name, words):
    return not words or any(name == it or name.startswith(f"{it}/") or name.endswith(f"/{it}") for it in words)


def chosen_of(ledger, asked, words):
    """Returns those of `asked` that a run tries: all, or those for which the ledger has no valid line and, at the gate, a sample."""
    if words.all or words.names:
        return asked
    said = {name: ledger.said[name] for name in asked if name in ledger.said}
    known = {name for name, it in said.items() if it.digest == ledger.digest(asked[name], it.where) != ""}
    again = ledger.sampled(known) if words.gate else set()
    print(f"mistakes: mistakes.lock answers for {len(known)} of {len(asked)}, and {len(again)} of these are tried again", flush=True)
    return {name: it for name, it in asked.items() if name not in known - again}


def run(words, ledger, things, tried):
    """Tries what is asked for, prints each verdict, and writes the ledger, but not at the gate. Returns whether one is not refused."""
    for word in words.names:
        if not any(is_asked(name, [word]) for name in things):
            sys.exit(f"mistakes: no crate and no wrong body is named {word}")
    asked = {name: it for name, it in things.items() if is_asked(name, words.names)}
    chosen, failed = chosen_of(ledger, asked, words), []
    if words.list:
        print("\n".join(chosen))
        return False
    for name, where, verdict in tried(ledger.tree, list(chosen.values())):
        said = f"refused at {where}: {verdict.words()}" if verdict.is_refused() else f"NOT REFUSED: {verdict.why}"
        print(f"{name}: {said.removesuffix(': ')}", flush=True)
        failed += [] if verdict.is_refused() else [name]
        if not words.gate:
            ledger.put(name, ledger.digest(things[name], where) if verdict.is_refused() else "", where, verdict.words())
    used = resource.getrusage(resource.RUSAGE_CHILDREN)
    print(f"mistakes: {(used.ru_utime + used.ru_stime) / 60:.1f} processor minutes{'; not refused: ' if failed else ''}{' '.join(failed)}")
    print(f"mistakes: {len(asked) - len(failed)} refused, {len(failed)} failed, {len(chosen)} of {len(asked)} tried")
    return bool(failed)


def main():
    parser = argparse.ArgumentParser(description="Tries wrong bodies in batches.")
    for flag in ("gate", "all", "list", "definitions", "can-fail", "against-rattle"):
        parser.add_argument(f"--{flag}", action="store_true")
    parser.add_argument("names", nargs="*", metavar="CRATE | NAME")
    words = parser.parse_args()
    tree = tree_at()
    edits, (variants, wrong) = every_edit(tree), definitions.variants(tree, definitions.rows())
    if words.can_fail or words.against_rattle:
        found = list((planted.can_fail if words.can_fail else planted.against_rattle)(tree, edits, variants))
        print(*found, f"mistakes: {len(found)} outcomes are not the wanted ones", sep="\n")
        sys.exit(bool(found))
    kind, things = (definitions, variants) if words.definitions else (bodies, edits)
    is_failed = run(words, Ledger(tree, {*edits, *variants}), things, kind.tried)
    sys.exit(words.definitions and "\n".join(wrong) or is_failed)


if __name__ == "__main__":
    main()
