#!/usr/bin/env python3
"""Prints which clause refuses each wrong body of must-fail/, as mistakes.lock says. The contracts were written to refuse these wrong
bodies, so it fails if one is missing, or if no clause refuses it.

A refusal at a written answer may only mean that the written proof no longer fits. So a wrong body that is refused only there is tried
without the written answers of its function. A clause has to refuse it then, and without these answers the right body has to be proved."""

import os
import sys

from kit import ROOT, copied
from mistakes.bodies import texts_of
from mistakes.edits import Edit, edits_of, wrong_body
from mistakes.ledger import entries
from mistakes.tree import tree_at
from mistakes.verdicts import PROVED, verdict_of

NAMED = {
    "hart_values": "unpacks_low_codes_unchanged",
    "hart_frame": "resumes_behind_false_message no_parity_without_payload accepts_one_byte_ack drops_rest_after_blocks gives_view_late "
    "ignores_fault_bits",
    "hart_commands": "date_before_protection writes_a_byte_too_many writes_one_byte_for_polling",
    "hart_device": "repeat_taken_as_done executes_then_refuses counter_stays_at_end reset_clears_both_bits follows_first_executions "
    "writes_tag_before_date_check takes_first_of_two_frames overlapping_ranges restart_clears_changed_bits answers_a_faulty_address",
    "hart_master": "accepts_other_masters_reply one_sending_short takes_first_of_two_frames",
    "hart_line": "reports_first_answer any_damage_undetected lets_another_frame_pass",
    "hart_c": "device_forgets",
    "hart_cli": "dump_gives_up dump_names_bad_hex_at_0 echoes_input answers_for_every_subcommand swaps_words_of_encode zero_for_a_fault "
    "another_fault_text",
}


def without_answers(edit, crate):
    """Tries a wrong body without the written answers of its function. Returns what refuses it, "" if nothing does, and why nothing does."""
    body = wrong_body(edit, crate)
    answers = {f"{it.proofs()}/Answers.antt": None for it in body.functions if f"{it.proofs()}/Answers.antt" in crate.raw}
    with copied([crate.name]) as room:
        said = [room.check(crate.name, sorted(body.paths()), {**texts, **answers}) for texts in (texts_of([edit], crate), {})]
    wrong, right = (verdict_of(it, crate.name, body.functions) for it in said)
    if right.why != PROVED:
        return "", f"without its answers the right body is not proved either: {right.words() or right.why}"
    return (f"{wrong.words()} (without its answers)" if wrong.is_refused() else ""), wrong.why


def main():
    tree, said, failed = tree_at(), entries(), 0
    for crate, names in NAMED.items():
        edits = {it.own: (path, it) for path, found in edits_of(crate).items() for it in found if "/must-fail/" in path}
        for own in names.split():
            path, edit = edits.get(own, ("", Edit(own, crate)))
            entry, why = said.get(edit.name()), "no line of mistakes.lock" if path else "no edit in must-fail/"
            goals = entry.refused_by.split(", ") if entry else []
            found = ", ".join(it for it in goals if not it.endswith("(at a written answer)"))
            if goals and not found:
                found, why = without_answers(edit, tree.crate(crate))
            place = os.path.relpath(path, ROOT) if path else f"crates/{crate}/must-fail/{own}.edit"
            print(f"{place}: {found or f'FAILED: {why}'}", flush=True)
            failed += not found
    print(f"named: {failed} of {sum(len(it.split()) for it in NAMED.values())} wrong bodies of must-fail/ are not refused at a clause")
    sys.exit(1 if failed else 0)


if __name__ == "__main__":
    main()
