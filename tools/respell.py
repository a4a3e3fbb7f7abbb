#!/usr/bin/env python3
"""Respells the repository's own definitions and lemmas as today's Rattle spells its library.

usage: python3 tools/respell.py [FOLDER]     over crates/ of FOLDER, or of the folder that it runs in

Run once, after the kit's port.py. A definition, a field and a plain word go to snake case, a type and a
statement to camel case; a dash stays only between the thing that a lemma is about and the rest of its name.
It goes by whole names, and turns .rt and .antt files alone: no function of src/ has a name in the table.
"""

import os
import re
import sys

NAMES = """
Change-balance=ChangeBalance Edit-balance=EditBalance Find-repeats=FindRepeats First-of=FirstOf For-space=ForSpace Full-at=FullAt Last-of=LastOf
Next-of=NextOf One-list=OneList Open-soundly=OpenSoundly Previous-of=PreviousOf Result-of=ResultOf Retain-repeats=RetainRepeats Told-by=ToldBy
Walks-exist=WalksExist able-change=able_change able-edit=able_edit able-open=able_open accept-edit=accept_edit all-at=all_at all-decimal=all_decimal
appended-first=appended_first appended-later=appended_later appended-more=appended_more appended-none=appended_none assured-fits=assured_fits
at-1001=at_1001 at-20=at_20 at-FF=at_ff at-most-is=at_most-is at-seven=at_seven batch-hits=batch_hits batch-refusal=batch_refusal
before-not-after=before-not_after bytes-order=bytes_order cap-keeps=cap_keeps causes-map=causes_map causes-never=causes_never
cells-meaning=cells_meaning chain-not=chain_not chain-on=chain_on change-puts=change_puts change-refusal=change_refusal changes-at=changes_at
clear-becomes=clear_becomes clear-counted=clear_counted clear-done=clear_done clear-idle=clear_idle clear-inside=clear_inside clear-is=clear_is
clear-items=clear_items clear-keys=clear_keys clear-rises=clear_rises clear-sorts=clear_sorts copied-to=copied_to counted-on=counted_on
cursor-at=cursor_at cut-from=cut_from dropped-none=dropped_none dropped-some=dropped_some edit-at=edit_at edit-close=edit_close edit-delete=edit_delete
edit-find=edit_find edit-insert=edit_insert edit-next=edit_next edit-opened=edit_opened edit-puts=edit_puts edit-refusal=edit_refusal
edit-retain=edit_retain edit-update=edit_update few-slots=few_slots first-in=first_in first-in-is=first_in-is first-that=first_that from-drop=from_drop
from-gap=from_gap from-only=from_only from-run=from_run from-stacked=from_stacked from-without=from_without front-cut-one=front_cut_one
front-lengths=front_lengths front-places=front_places front-put=front_put front-run=front_run front-set=front_set front-used=front_used
gap-clears=gap_clears gap-counts=gap_counts gap-does=gap_does gap-entries=gap_entries gap-keys=gap_keys gap-long=gap_long gap-sorted=gap_sorted
gap-values=gap_values gap-wrote=gap_wrote get-many=get_many get-mut=get_mut get-mut-or-insert=get_mut_or_insert grams-of=grams_of had-space=had_space
head-same=head_same here-is=here_is here-values=here_values hit-slots=hit_slots hits-of=hits_of hits-to=hits_to in-64-bits=in_64_bits in-front=in_front
in-keys=in_keys in-part=in_part in-room=in_room in-room-too=in_room_too in-same=in_same in-values=in_values insert-and-retain=insert_and_retain
inserted-end=inserted_end is-less=is_less is-refused=is_refused items-counted=items_counted key-at=key_at keyed-prop=keyed_prop
keys-counted=keys_counted keys-fit=keys_fit ks-=ks_less label-order=label_order label-keeps=label_keeps labels-lawful=labels_lawful place-keeps=place_keeps places-lawful=places_lawful last-in=last_in last-in-is=last_in-is
last-in-none=last_in-none last-that=last_that lasts-did=lasts_did lasts-edited=lasts_edited lasts-same=lasts_same later-part=later_part lead-at=lead_at
lead-none=lead_none lent-read=lent_read lift-void=lift_void listed-after=listed_after listed-before=listed_before listed-one=listed_one
listed-parts=listed_parts listed-reverse=listed_reverse listed-run=listed_run live-meaning=live_meaning live-or-void=live_or_void local-edit=local_edit
looked-at=looked_at loses-after=loses_after lower-digit=lower_digit many-answers=many_answers many-empty=many_empty many-not=many_not
many-path=many_path more-hit=more_hit more-items=more_items more-keys=more_keys moving-all=moving_all moving-more=moving_more moving-none=moving_none
moving-turn=moving_turn near-previous=near_previous needs-next=needs_next next-in=next_in next-in-is=next_in-is nil-cons=nil_cons no-first=no_first
no-later=no_later no-memory=no_memory no-slip=no_slip no-space=no_space no-space-only=no_space_only no-spill-more=no_spill_more
no-spill-side=no_spill_side no-spill-small=no_spill_small not-above-zero=not_above_zero not-after-nil=not_after_nil not-before-le=not_before_le
not-below=not_below not-beside=not_beside not-greater=not_greater not-less=not_less not-nil-some=not_nil_some not-past=not_past
nothing-active=nothing_active now-at=now_at ns-=ns_less numbers-lawful=numbers_lawful ok-by=ok_by open-soundly=open_soundly opens-bare=opens_bare
opens-ok=opens_ok opens-sorted=opens_sorted opens-soundly=opens_soundly opens-void=opens_void or-cond=or_cond or-cycled=or_cycled part-is=part_is
pile-meaning=pile_meaning pile-prop=pile_prop pile-sound=pile_sound place-order=place_order place-record=place_record placed-call=placed_call
placed-edit=placed_edit pocket-meaning=pocket_meaning pocket-prop=pocket_prop prev-no=prev_no prev-nth=prev_nth prev-part=prev_part
previous-in=previous_in previous-in-is=previous_in-is previous-in-none=previous_in-none put-at=put_at read-refusal=read_refusal rel-call=rel_call
rel-change=rel_change rel-edit=rel_edit rel-edits=rel_edits rel-empty=rel_empty rel-leave=rel_leave rel-steps=rel_steps removed-count=removed_count
removed-nil=removed_nil row-end=row_end run-count=run_count run-take-nil=run-take_nil same-assured=same_assured same-contents=same_contents
same-partitions=same_partitions same-space=same_space seek-end=seek_end seek-pass=seek_pass side-apart=side_apart side-meaning=side_meaning
sift-end=sift_end sifting-drop=sifting_drop sifting-end=sifting_end sifting-keep=sifting_keep sifting-start=sifting_start
sifts-then-appends=sifts_then_appends slip-refusal=slip_refusal some-full=some_full some-none=some_none some-not-nil=some_not_nil
something-in=something_in sorts-after=sorts_after sorts-prop=sorts_prop sound-refusal=sound_refusal space-fits=space_fits space-kept=space_kept
spill-fills=spill_fills spill-full=spill_full spills-side=spills_side splitOf=split_of step-told=step_told steps-append=steps_append
steps-more=steps_more table-meaning=table_meaning tail-same=tail_same tail-suc=tail_suc tail-zero=tail_zero take-suc-nth=take-suc_nth
tested-slots=tested_slots thin-all=thin_all thin-more=thin_more thin-none=thin_none this-one=this_one those-at=those_at those-here=those_here
those-there=those_there those-without=those_without those-without-other=those_without_other told-many=told_many up-drop=up_drop up-gap=up_gap
up-here=up_here up-only=up_only up-out=up_out up-sorted=up_sorted up-stacked=up_stacked up-within=up_within up-without=up_without values-fit=values_fit
values-in=values_in vs-=vs_less was-shut=was_shut was-sound=was_sound why-held=why_held why-put=why_put windows-apart=windows_apart
windows-meaning=windows_meaning with-digit=with_digit with-digit-at=with_digit-at with-here=with_here with-rising=with_rising with-run=with_run
with-store=with_store with-there=with_there with-window=with_window
"""


def turned(text, names, one):
    return one.sub(lambda m: names[m.group(0)], text)


def main(argv):
    names = dict(pair.split("=") for pair in NAMES.split())
    words = sorted(names, key=len, reverse=True)
    one = re.compile(r"(?<![\w'-])(?:" + "|".join(re.escape(w) for w in words) + r")(?![\w'-])")
    changed = 0
    for folder, dirs, files in os.walk(os.path.join(argv[0] if argv else ".", "crates")):
        dirs[:] = [d for d in dirs if d != "out"]
        for name in files:
            if not name.endswith((".rt", ".antt")):
                continue
            path = os.path.join(folder, name)
            with open(path, encoding="utf-8") as f:
                old = f.read()
            new = turned(old, names, one)
            if new != old:
                with open(path, "w", encoding="utf-8") as f:
                    f.write(new)
                changed += 1
    print(f"respell: {len(names)} names, {changed} files changed")


if __name__ == "__main__":
    main(sys.argv[1:])
