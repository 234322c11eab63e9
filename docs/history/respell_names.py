#!/usr/bin/env python3
"""Respells the definitions and lemmas of this repository: words in snake case, facts and records in upper camel case.
A fact keeps its capital in the name of a lemma about it, as in `Up-insert`.

usage: python3 tools/respell_names.py [FOLDER]

A dash stays where it joins the names of two functions, as in `gcd-zero`. Comments and strings keep their spelling, and so
does what `src/` calls its functions, since no name of the table can stand there.
"""

import os
import re
import sys

NAMES = """
All-in-range AllInRange
All-least AllLeast
Figures-last-given FiguresLastGiven
Has-figures HasFigures
In-order-of-adding InOrderOfAdding
In-range InRange
Judged-by-field JudgedByField
Just-enough JustEnough
Lawful-if-any LawfulIfAny
Least-at LeastAt
Least-common LeastCommon
Left-decides LeftDecides
Left-names LeftNames
Link-last-given LinkLastGiven
Links-stand LinksStand
None-from NoneFrom
Port-layers PortLayers
Refusal-changes-nothing RefusalChangesNothing
Single-names SingleNames
accepted-from accepted_from
add-one-flow add_one_flow
add-pair add_pair
admits-by-rules admits_by_rules
all-at all_at
all-behind all_behind
all-from-kept all_from_kept
all-in-range all_in_range
all-of-link all_of_link
all-to-kept all_to_kept
always-good always_good
amended-anew amended_anew
amended-at amended_at
amended-flow amended_flow
amended-keeps amended_keeps
amended-none amended_none
among-from-contains among_from_contains
among-getD among-get_or
among-more among_more
among-names among_names
bandwidth-exact bandwidth_exact
bandwidth-kept bandwidth_kept
below-too below_too
burst-adds burst_adds
burst-at-most burst_at_most
burst-bytes burst_bytes
by-accepted by_accepted
by-rules by_rules
bytes-per-ms bytes_per_ms
candidate-least candidate_least
candidate-at candidate_at
candidates-least candidates_least
common-divided common_divided
common-divides common_divides
common-least common_least
common-pos common_pos
cond-swap cond_swap
cond-twice cond_twice
cycle-answer cycle_answer
den-positive den_positive
divides-positive divides_positive
each-lawful each_lawful
eight-gaps eight_gaps
even-gap even_gap
every-passes every_passes
every-push every_push
facts-from-good facts_from_good
fails-at fails_at
fails-below fails_below
fails-nowhere fails_nowhere
few-flows few_flows
few-links few_links
few-rows few_rows
field-rules field_rules
figures-amended figures_amended
figures-change figures_change
figures-given figures_given
figures-in figures_in
figures-last figures_last
first-failing first_failing
first-four first_four
first-from first_from
first-is first_is
first-no first_no
first-none first_none
first-that first_that
first-without-flow first_without_flow
floor-last floor_last
flow-named flow_named
flow-named-amended flow_named-amended
flow-named-insert flow_named-insert
flow-named-is flow_named_is
flow-named-without flow_named-without
flow-with flow_with
flows-are flows_are
flows-of flows_of
found-flow found_flow
found-row found_row
frame-bytes frame_bytes
frame-most frame_most
frame-rises frame_rises
frames-enough frames_enough
frames-fall frames_fall
frames-fewest frames_fewest
frames-le-payload frames_le_payload
frames-rest frames_rest
frames-whole frames_whole
gap-lawful gap_lawful
gap-positive gap_positive
gcd-divides gcd_divides
gcd-greatest gcd_greatest
gcd-in gcd_in
gcd-ind gcd_ind
gcd-more gcd_more
gcd-pos gcd_pos
good-from-facts good_from_facts
has-flow has_flow
holds-from-unless holds_from_unless
if-accepted if_accepted
if-any if_any
in-fractions in_fractions
in-range in_range
insert-at-position insert_at_position
insert-first insert_first
is-named is_named
is-of is_of
isSome-flow-named is_some-flow_named
jitter-exact jitter_exact
jitter-kept jitter_kept
joined-past joined_past
judged-by-field judged_by_field
keep-amended keep_amended
keep-facts keep_facts
keep-flow keep_flow
keep-link keep_link
keep-without keep_without
keeps-all keeps_all
keeps-next keeps_next
kept-before kept_before
kept-if-not-struck kept_if_not_struck
lacks-flow lacks_flow
last-from-latest last_from_latest
last-given last_given
last-lawful last_lawful
last-that last_that
last-two last_two
latest-all latest_all
latest-more latest_more
lawful-gap lawful_gap
lawful-least lawful_least
lawful-mtu lawful_mtu
lawful-selection lawful_selection
layers-breach layers_breach
lcm-above lcm_above
lcm-assoc lcm_assoc
lcm-comm lcm_comm
lcm-least lcm_least
lcm-left lcm_left
lcm-one-left lcm-one_left
lcm-one-right lcm-one_right
lcm-pos lcm_pos
lcm-right lcm_right
lcm-swap lcm_swap
le-from-within le_from_within
least-mtu least_mtu
least-within least_within
length-without-found length-without_found
less-within less_within
limit-refused limit_refused
link-added link_added
link-change link_change
link-given link_given
link-if link_if
link-kept link_kept
link-last link_last
link-of-added link_of_added
link-of-flow link_of_flow
link-stands link_stands
links-added links_added
links-stand links_stand
loaded-all loaded_all
mapped-cond option_map-cond
max-breach max_breach
max-common-cycle max_common_cycle
max-cycle max_cycle
max-flows max_flows
max-frame max_frame
max-links max_links
max-pairs max_pairs
max-payload max_payload
max-rate max_rate
max-units max_units
meets-rises meets_rises
meets-whole meets_whole
message-refused message_refused
messages-served messages_served
mtu-lawful mtu_lawful
mtu-max mtu_max
mtu-min mtu_min
name-links name_links
named-behind named_behind
named-from-plainly named_from_plainly
names-all names_all
names-another names_another
names-it names_it
new-here new_here
new-there new_there
no-breach no_breach
no-flows no_flows
no-no no_no
no-pair no_pair
none-behind none_behind
none-fails none_fails
none-is-not-some none_is_not_some
none-mapped none_mapped
not-among-more not_among_more
not-as-many not_as_many
not-here not_here
not-named-above not_named_above
not-named-without not_named_without
of-link of_link
of-no-link of_no_link
of-other-link of_other_link
own-is own_is
pair-least pair_least
pair-serves pair_serves
pairs-answer pairs_answer
pairs-lawful pairs_lawful
pairs-written pairs_written
part-is part_is
passes-first passes_first
passes-from-none passes_from_none
port-answer port_answer
port-breach port_breach
port-limit port_limit
port-questions port_questions
position-of position_of
positive-common positive_common
refusal-changes-nothing refusal_changes_nothing
regular-of regular_of
reserve-adds reserve_adds
rest-pos rest_pos
rising-from-up rising_from_Up
room-for-flow room_for_flow
room-for-link room_for_link
rotate-left-removes rotate_left_removes
rotate-right-inserts rotate_right_inserts
row-questions row_questions
rows-stand rows_stand
same-failing same_failing
same-floor same_floor
same-rate same_rate
same-share same_share
same-standing same_standing
sent-by sent_by
sent-by-bound sent_by_bound
sent-falls sent_falls
setting-questions setting_questions
short-cycle short_cycle
short-of short_of
single-from-up single_from_Up
single-names single_names
single-push single_push
smaller-burst smaller_burst
some-breach some_breach
sound-after sound_after
still-selection still_selection
still-within still_within
take-set-within take_set_within
takes-next takes_next
to-fraction to_fraction
to-units to_units
told-by told_by
told-detail told_detail
told-or told_or
units-exact units_exact
units-most units_most
units-rise units_rise
unless-from-holds unless_from_holds
up-from-rising Up_from_rising
up-insert Up-insert
up-without Up-without
with-last with_last
within-from-le within_from_le
within-jitter within_jitter
within-share within_share
without-none without_none
without-same without_same
writes-next writes_next
zero-told zero_told
"""

TURNED = dict(line.split() for line in NAMES.strip().splitlines())
TOKEN = re.compile(r"(?<![\w'\-·«])[A-Za-z_][\w']*(?:-[\w']+)+(?![\w'\-])")
OURS = re.compile(r"Rattle\.(limits|plan|planner)\.")
COMMENT = {".antt": re.compile(r"(^|(?<=\s))--.*"), ".rt": re.compile(r"//.*")}
STRING = re.compile(r'"(?:[^"\\]|\\.)*"')


def turn(text):
    return TOKEN.sub(lambda m: TURNED.get(m.group(0), m.group(0)), text)


def turn_line(line, kind):
    found = COMMENT[kind].search(line)
    cut = found.start() if found else len(line)
    code, rest, out, at = line[:cut], line[cut:], "", 0
    for s in STRING.finditer(code):
        out += turn(code[at : s.start()]) + s.group(0)
        at = s.end()
    return out + turn(code[at:]) + rest


def files(root):
    for folder, dirs, names in os.walk(os.path.join(root, "crates")):
        dirs[:] = sorted(d for d in dirs if d != "out")
        for name in sorted(names):
            kind = os.path.splitext(name)[1]
            if kind in COMMENT:
                yield os.path.join(folder, name), kind


def main():
    root = sys.argv[1] if len(sys.argv) > 1 else "."
    texts = {}
    for path, kind in files(root):
        with open(path, encoding="utf-8") as f:
            texts[path] = (f.read(), kind)
    foreign = set()
    for text, kind in texts.values():
        for use in re.findall(r"use ([\w.·]+)\.\{([^}]*)\}", text):
            if not OURS.match(use[0] + "."):
                foreign.update(w for w in re.split(r"[,\s]+", use[1]) if w in TURNED)
    if foreign:
        raise SystemExit("imported from elsewhere: " + " ".join(sorted(foreign)))
    said = set()
    for text, kind in texts.values():
        for line in text.splitlines():
            found = COMMENT[kind].search(line)
            code = line[: found.start()] if found else line
            said.update(re.findall(r"(?<![\w'\-])[A-Za-z_][\w'\-]*", code))
    for old, new in TURNED.items():
        if new in said:
            print(f"look: {old} falls together with a {new} that stands already")
    if len(set(TURNED.values())) != len(TURNED):
        raise SystemExit("two names would fall together")
    for path, (text, kind) in texts.items():
        new = "\n".join(turn_line(line, kind) for line in text.split("\n"))
        if new != text:
            with open(path, "w", encoding="utf-8") as f:
                f.write(new)


main()
