"""Shows that a run can fail: by edits of hart_values that are no wrong bodies, by a wrong body under a contract that was made weak, by a
line of the ledger from before a change, by definitions that are no wrong ones, and by a definition without a variant.

Against the prover it makes changes at random, chosen by the commit. Each function that the prover checks anew has to have another digest,
but for one that only calls what is not proved any more."""

import functools
import itertools
import os
import random
import re

from kit import commit, copied, side_by_side, text_of
from mistakes import definitions
from mistakes.bodies import batches_of, judged, texts_of
from mistakes.edits import BadEdit, Change, edit_of, replaced, stanzas, wrong_body
from mistakes.ledger import Entry, Ledger, sample
from mistakes.rests import Rests
from mistakes.verdicts import Verdict

CRATE = "hart_values"
CHECKED = re.compile(r"^checked \w+?::(\S+?)(?:::fn::\S+)?, \d+ of \d+", re.M)
TOLD = re.compile(r"^fn \w+?::(\S+?): (.*)$", re.M)
ONLY_CALLS = re.compile(r"^not proved|it calls .* which (?:is|are) not proved")
CLAUSE = re.compile(r"\bensures (\w+) \{")
LEMMA = re.compile(r"^pub [\w-]+ : ", re.M)
# How many changes of each kind: a wrong body, a wrong definition, a clause that has another name, a lemma that has one more premise.
EACH = 3


def planted_with(word, without=""):
    """The planted stanzas that have a line of this word, and none of another, by their names."""
    found = {dict(lines).get("name"): lines for lines in stanzas(text_of(f"{os.path.dirname(__file__)}/planted.edits"))}
    return {name: lines for name, lines in found.items() if word in dict(lines) and without not in dict(lines)}


def verdicts_on_edits(planted, tree):
    """Yields the verdict on each planted edit. One with a line `clause:` is tried under a contract in which that text is a weak one."""
    crates, bodies = {"": tree.crate(CRATE)}, {}
    for name, lines in planted.items():
        words = dict(lines)
        clause, path = words.get("clause", ""), f"crates/{CRATE}/{words['file']}"
        if clause not in crates:
            crates[clause] = tree.with_texts({path: tree.texts[path].replace(clause, words["weak"])}).crate(CRATE)
        try:
            bodies.setdefault(clause, []).append(wrong_body(edit_of(lines, CRATE), crates[clause]))
        except BadEdit as why:
            yield name, Verdict((), str(why))
    with copied([CRATE]) as room:
        for clause, some in bodies.items():
            for batch in batches_of(some, crates[clause]):
                yield from ((body.edit.own, verdict) for body, verdict in judged(room, batch, crates[clause]))


def verdicts_on_definitions(planted, tree):
    """Yields the verdict on each planted wrong definition."""
    names = {(CRATE, dict(lines)["definition"]): name for name, lines in planted.items()}
    table = {key: (dict(planted[name])["old"], dict(planted[name])["new"]) for key, name in names.items()}
    variants, _ = definitions.variants(tree, table)
    with copied([CRATE]) as base:
        for key, where, why in definitions.decided([definitions.Trial(tree, base, CRATE, variants)], {CRATE: ()}):
            yield names[CRATE, key.rpartition("/")[2]], Verdict(tuple(where), why)


def wrong_verdicts(tree):
    """Yields a complaint about each planted edit and each planted definition whose verdict is not the wanted one."""
    edits, wrong = planted_with("wanted", "definition"), planted_with("definition")
    left = {**edits, **wrong}
    for name, verdict in itertools.chain(verdicts_on_edits(edits, tree), verdicts_on_definitions(wrong, tree)):
        print(f"planted {name}: {'refused: ' + verdict.words() if verdict.is_refused() else verdict.why}", flush=True)
        wanted = dict(left.pop(name))["wanted"]
        if wanted not in verdict.why if wanted else not verdict.is_refused():
            yield f"planted {name}: this is not `{wanted or 'refused'}`"
    yield from (f"planted {name}: there is no verdict" for name in left)


def wrong_after_changes(tree, things):
    """Yields a complaint for each planted change: the digests in its lines `again:` have to differ, those in `known:` must not."""
    for what, lines in planted_with("old", "wanted").items():
        words, names = dict(lines), [rest for word, rest in lines if word in ("again", "known")]
        change, wanted = Change(words["file"], words["old"], words["new"]), {rest for word, rest in lines if word == "again"}
        ledgers = Ledger(tree), Ledger(tree.with_texts({change.file: replaced(tree.texts[change.file], change)[0]}))
        parts = [it.partition(" at ") for it in names]
        before, after = ([it.digest(things[name], place) for name, _, place in parts] for it in ledgers)
        again = {name for name, then, now in zip(names, before, after) if then != now}
        print(f"planted change of {what}: {len(again)} of {len(names)} are tried again", flush=True)
        if again != wanted or not all(before):
            yield f"planted change of {what}: {sorted(again)} are tried again, and not {sorted(wanted)}"


def wrong_answers(tree, edits):
    """Returns a complaint for each of these that fails: another wrong body, or another edit, has another digest; another kit changes the
    sample, but no digest; the sample has the right size, and reaches every name; a definition without a variant is reported."""
    ledger, names = Ledger(tree), [f"{number % 9}/{number}" for number in range(1000)]
    ledger.said = dict.fromkeys(names, Entry("", ledger.kit, "", ""))
    one, other = edits["hart_values/byte_list/clear_keeps_a_byte"], edits["hart_values/byte_list/len_is_halved"]
    edited = one._replace(changes=tuple(it._replace(new=f"{it.new} ") for it in one.changes))
    digest, sampled, seeds = ledger.digest(one), ledger.sampled(names), map(str, range(200))
    ledger.kit = "rattle-kit-0"
    table = {it: row for it, row in definitions.rows().items() if it[0] == CRATE}
    without, _ = table.popitem()
    told = {
        "another wrong body": digest != ledger.digest(other),
        "another edit": digest != ledger.digest(edited),
        "another kit": digest == ledger.digest(one) and len(ledger.sampled(names)) == 100,
        "the sample": len(sampled) == 50 and set().union(*(sample(names, 20, it) for it in seeds)) == {*names},
        "a definition without a variant": f"{'/'.join(without)}: it has no variant" in definitions.variants(tree, table)[1],
    }
    return [f"planted {what}: the answer is wrong" for what, is_right in told.items() if not is_right]


def changes(tree, edits, variants):
    """The changes, each in words, with its crate and the texts of the files that it changes."""
    some, found = random.Random(commit()), []
    for it in some.sample(list(edits.values()), EACH):
        found.append((f"body {it.name()}", it.crate, texts_of([it], tree.crate(it.crate))))
    for it in some.sample(sorted(variants.values()), EACH):
        found.append((f"definition {it.name}", it.crate, it.planted({it.file: tree.crate(it.crate).plain[it.file]})))
    for form, part, new in ((CLAUSE, "src/", r"ensures planted_\1 {"), (LEMMA, "proofs/lemmas/", r"\g<0>ℕ → ")):
        files = {(name, file): text for name in tree.crates for file, text in tree.crate(name).raw.items() if file.startswith(part)}
        for (name, file), it in some.sample([(at, it) for at, text in files.items() for it in form.finditer(text)], EACH):
            text = files[name, file]
            found.append((f"{name}/{file}: {it[0].strip()}", name, {file: text[: it.start()] + it.expand(new) + text[it.end() :]}))
    return found


def digests_in(tree, name):
    rests = Rests(tree, name)
    return {path: rests.digest("", rests.starts_of(it)) for path, it in rests.own.functions.items()}


def missed(tree, what, name, texts):
    """Prints what a change does, and returns complaints: a function that the prover checks anew with the same digest, or no verdict."""
    with copied([name]) as room:
        said = room.check(name, [], texts)
    after = tree.with_texts({f"crates/{name}/{file}": text for file, text in texts.items()})
    then, now = digests_in(tree, name), digests_in(after, name)
    again, told = {it for it in CHECKED.findall(said) if it in now}, dict(TOLD.findall(said))
    same = {it for it in again if then.get(it) == now[it]}
    only_call = {it for it in same if ONLY_CALLS.search(told.get(it, ""))}
    changed = sum(then.get(it) != now[it] for it in now)
    print(f"{what}: {len(again)} checked anew, {changed} of {len(now)} digests changed, {len(only_call)} only call what fails", flush=True)
    wrong = [f"{what}: {it} is checked anew, and its digest is the same" for it in sorted(same - only_call)]
    return wrong + ([] if "logic=" in said else [f"{what}: no verdict"])


def can_fail(tree, edits, variants):
    """Tries all that is planted, and yields what is said of each that has another outcome than the wanted one."""
    yield from wrong_after_changes(tree, {**edits, **variants})
    yield from wrong_answers(tree, edits)
    yield from wrong_verdicts(tree)


def against_rattle(tree, edits, variants):
    """Makes changes at random, and yields what is said of each function that the prover checks anew, and the ledger does not."""
    yield from side_by_side(functools.partial(missed, tree, *it) for it in changes(tree, edits, variants))
