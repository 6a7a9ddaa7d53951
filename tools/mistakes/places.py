"""Reads from what the prover printed which functions and lemmas refuse a wrong definition, or that it does not read the definition."""

import re

from mistakes.verdicts import ERROR, GONE, refusing_places, unread

UNREAD = re.compile(r"^(?:note: )?(?:\./)?((specs/\S+?\.antt):(\d+):\d+: error\b.*)", re.M)


def unread_at(said):
    """What the prover says of definitions that it does not read, by the file and the line."""
    return {(file, int(line)): f"unread: {why[:200]}" for why, file, line in UNREAD.findall(said)}


def why_unread(said):
    """Why the prover judges nothing, or "" if it does. A definition that it does not read is no wrong one, though proofs fail by it."""
    return next(iter(unread_at(said).values()), unread(said))


def places_of(said, crate):
    """The functions and lemmas of a crate that fail by themselves. An error of one that only misses a name says nothing of a definition."""
    telling = [it for it in said.split("\n") if not (ERROR.match(it) and GONE.search(it))]
    return [] if why_unread(said) else refusing_places("\n".join(telling), crate)
