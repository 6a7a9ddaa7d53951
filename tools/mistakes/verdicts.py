"""Reads from what the prover printed whether a wrong body is refused at a goal of the function that it changes."""

import re
from typing import NamedTuple

GOAL = re.compile(r"note: (?:\./)?(src/\S+?):(\d+):\d+: it is not proved that (.*?) \(`([^`]+)`\)")
ANSWER = re.compile(r"(?:note: )?(?:\./)?(proofs/\S+)/(?:Answers|Invariants|Proof)\.antt:\d+:\d+: error: `([^`]+)`: (.*)")
FUNCTION = re.compile(r"fn (\S+?): ((?:no proof|not proved|could not tell|proved).*)")
UNPROVED = re.compile(r"`search` did not prove ((?:`[^`]+`(?:, )?)+)")
# What a proof file says if it names what a wrong body took away. It says nothing of a contract.
GONE = re.compile(r"has no field|is not in scope|has no `|was not admitted|that can be named|: module `[^`]+`$")
ERROR = re.compile(r"^(?:note: )?(?:\./)?((?:proofs|specs)/\S+?\.antt):\d+:\d+: error: `([^`]+)`: ", re.M)
VERDICT = re.compile(r"^(?:only|logic)=", re.M)
PROVED = "the function that it changes is still proved"
RETURNS = "what the function ensures holds when it returns"


class Verdict(NamedTuple):
    """What refused a wrong body at its own function, or else why nothing did."""

    goals: tuple
    why: str = ""

    def is_refused(self):
        return bool(self.goals)

    def words(self):
        return ", ".join(self.goals)


def said_of(goal, what=""):
    """What a goal is in the words of the contract: the clause, or what the prover says that it is."""
    clause = re.search(r"clause-(\w+)$", goal)
    if clause:
        return f"`{clause[1]}`"
    if goal.startswith("returns") and what in ("", RETURNS):
        return "its contract"
    return what or f"`{goal}`"


def goals_of(said, crate, function):
    """The goals of a function that were refused, each once, as they were named first."""
    found, what_of = {}, {}
    for file, line, what, goal in GOAL.findall(said):
        if file == function.file and function.first < int(line) <= function.last + 1:
            what_of[goal] = what
            found[said_of(goal, what)] = None
    for path, goal, why in ANSWER.findall(said):
        if path == function.proofs() and not GONE.search(why):
            found.setdefault(f"{said_of(goal)} (at a written answer)")
    for path, rest in FUNCTION.findall(said):
        if path == f"{crate}::{function.path}" or path.startswith(f"{crate}::{function.path}::"):
            for names in UNPROVED.findall(rest):
                found.update({said_of(it, what_of.get(it, "")): None for it in re.findall(r"`([^`]+)`", names)})
    return list(found)


def unread(said):
    """Why the prover judges nothing, or "" if it does."""
    errors = [it for it in said.split("\n") if re.search(r"\berror\b", it)] or said.rstrip("\n").split("\n")[-1:]
    return "" if VERDICT.search(said) else f"the prover does not read it: {errors[0][:200]}"


def refusing_places(said, crate):
    """The functions and lemmas of a crate that fail by themselves, and not because another one did, functions first."""
    own = {it.proofs(): path for path, it in crate.functions.items()}
    functions, lemmas = [path.removeprefix(f"{crate.name}::") for path, rest in FUNCTION.findall(said) if UNPROVED.search(rest)], []
    for file, name in ERROR.findall(said):
        path = own.get(file.rpartition("/")[0])
        (functions if path else lemmas).append(path or f"{name} of {file}")
    modules = {file: crate.modules[at] for at, file in crate.files.items()}
    known = [*(it for it in functions if it in crate.functions), *(it for it in lemmas if it.partition(" of ")[0] in modules.get(it.partition(" of ")[2], ()))]
    return list(dict.fromkeys(known))


def verdict_of(said, crate, functions):
    """What the prover's words say of a wrong body that changes these functions."""
    if unread(said):
        return Verdict((), unread(said))
    goals = [goal for it in functions for goal in goals_of(said, crate, it)]
    told = [rest for it in functions for path, rest in FUNCTION.findall(said) if path == f"{crate}::{it.path}"]
    if goals:
        return Verdict(tuple(dict.fromkeys(goals)))
    if told and all(it.startswith("proved") for it in told):
        return Verdict((), PROVED)
    return Verdict((), f"no goal of the function that it changes refuses it: {'; '.join(told)[:300] or 'the prover says nothing of it'}")
