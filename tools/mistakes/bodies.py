"""Tries wrong bodies: puts those that can stand together into few batches, and judges a batch by one check.

Alone, a wrong body takes 15 to 90 seconds of processor time; in a batch it takes 2."""

import contextlib
import functools
import os

from kit import COPYING, ROOT, copied, side_by_side
from mistakes.edits import BadEdit, apply, wrong_body
from mistakes.verdicts import Verdict, unread, verdict_of

# A check of 62 wrong bodies of the largest crate takes 3.7 GB of memory, and one of 110 more than 5 GB.
MOST = 64


def texts_of(edits, crate):
    """The texts of the files that these edits change, by their paths in the crate."""
    texts = {}
    for it in edits:
        apply(it, crate, texts)
    return texts


def batches_of(bodies, crate):
    """Puts wrong bodies into batches, those first whose functions are changed most often. A batch changes no function twice, and what
    `is_alone` has a batch of its own. Functions of a batch may call each other: a proof rests on the contracts of what is called."""
    def takes(batch, texts, body):
        if len(batch) == MOST or batch and body.is_alone() or any(it.is_alone() or it.paths() & body.paths() for it in batch):
            return False
        with contextlib.suppress(BadEdit):
            return bool(apply(body.edit, crate, texts))
        return False

    often, found = [path for body in bodies for path in body.paths()], [([], {}) for _ in bodies]
    for body in sorted(bodies, key=lambda it: -max(map(often.count, it.paths()))):
        next(batch for batch, texts in found if takes(batch, texts, body)).append(body)
    return [batch for batch, _ in found if batch]


def judged(room, batch, crate):
    """Returns the verdict on each wrong body of a batch. One that is not refused beside others is tried once more, alone. If a batch is not
    read, its halves are tried."""
    said = room.check(crate.name, sorted({path for body in batch for path in body.paths()}), texts_of([it.edit for it in batch], crate))
    found = [(it, verdict_of(said, crate.name, it.functions)) for it in batch]
    if len(batch) == 1:
        return found
    again = [batch[::2], batch[1::2]] if unread(said) else [[body] for body, verdict in found if not verdict.is_refused()]
    return [it for it in found if it[1].is_refused()] + [it for part in again for it in judged(room, part, crate)]


def judged_in_turn(base, crate, batches):
    """Yields the verdict on each wrong body of these batches of a crate, which are tried one after another in a copy of the base."""
    with copied([crate.name], base.folder) as room:
        for batch in batches:
            yield from judged(room, batch, crate)


def tasks_of(tree, base, of_crates):
    """Builds the libraries below each crate in the base, and yields tasks that try its wrong bodies. The highest crates come first.

    If the folder `out` of a crate keeps its proofs, each batch is a task with a copy of its own. In the copy of another batch it would
    have to prove again what that one changed. Without `out`, all batches are one task, whose first batch makes these proofs."""
    for name in [it for it in reversed(tree.crates) if it in of_crates]:
        with COPYING:
            said = base.check(name, [""]).rstrip()
        if not said.endswith("only=0 proved=0"):
            raise SystemExit(f"mistakes: the libraries below {name} are not built: {said.rpartition(chr(10))[2]}")
        batches = batches_of(of_crates[name], tree.crate(name))
        for some in [[it] for it in batches] if os.path.isdir(f"{ROOT}/crates/{name}/out") else [batches]:
            yield functools.partial(judged_in_turn, base, tree.crate(name), some)


def tried(tree, edits):
    """Yields the name of each edit, the functions that it changes and the verdict, as they are decided."""
    of_crates = {}
    for edit in edits:
        try:
            of_crates.setdefault(edit.crate, []).append(wrong_body(edit, tree.crate(edit.crate)))
        except BadEdit as why:
            yield edit.name(), "", Verdict((), str(why))
    with copied(of_crates) as base:
        for body, verdict in side_by_side(tasks_of(tree, base, of_crates)):
            yield body.edit.name(), ", ".join(it.path for it in body.functions), verdict
