#!/usr/bin/env python3
"""Brings the repository's own definitions and lemmas to one spelling: words in snake case, types in camel case.

    python3 tools/respell.py

Run it once (and no second time) at the top of a checkout, right after /opt/rattle/port/port.py. It changes whole words in the crates'
.antt, .rt and .edit files, outside of comments, and words between backquotes in README.md and docs/. In a lemma's name a dash
stays only behind the word that its left side begins with.
"""

import glob
import re

# Old and new, one pair a line.
WORDS = """
First-fit FirstFit
First-true FirstTrue
None-true none_true
Some-says some_says
Told-apart ToldApart
Word-left WordLeft
aA both_cases
accepted-below accepted_below
all-blank all_blank
all-within all_within
answers-none answers_none
answers-stuck answers_stuck
any-end any_end
any-hit any_hit
any-long any_long
any-more any_more
any-named any_named
any-spelled any_spelled
any-there any_there
anySize any_size
anyZone any_zone
apart-take apart_take
append-back append_back
argument-back argument_back
arguments-apart arguments_apart
arguments-only arguments_only
as-many-names as_many_names
as-quoted as_quoted
as-word as_word
assigned-more assigned_more
at-late at_late
at-unnamed at_unnamed
back-go back_go
back-of back_of
back-place back_place
bad-same bad_same
badPart bad_part
base-list base_list
base-other base_other
baseType base_type
begins-word begins_word
belongs-goes belongs_goes
belongs-moved belongs_moved
below-hit below_hit
below-vetted below_vetted
by-tree by_tree
calm-child calm_child
calm-key calm_key
calm-none calm_none
calm-second calm_second
calm-tree calm_tree
childOf child_of
clash-given clash_given
clash-leads clash_leads
clash-none clash_none
clash-of clash_of
clash-so clash_so
close-text close_text
comma-tail comma_tail
cons-back cons_back
contentOf content_of
count-below count_below
count-spelled count_spelled
counts-differ counts_differ
crowded-given crowded_given
crowded-leads crowded_leads
crowded-so crowded_so
decides-when decides_when
deepest-type deepest_type
either-inside either_inside
either-zero either_zero
empty-given empty_given
empty-in empty_in
empty-leads empty_leads
entries-count entries_count
entries-high entries_high
entries-newest entries_newest
entries-room entries_room
entriesOf entries_of
entry-added entry_added
entry-back entry_back
every-parts every_parts
exact-clash exact_clash
exact-crowded exact_crowded
exact-empty exact_empty
exact-formed exact_formed
exact-late exact_late
exact-named exact_named
expects-more expects_more
few-dimensions few_dimensions
finds-map finds_map
finds-tree finds_tree
first-hit first_hit
first-labels first_labels
first-match first_match
first-same first_same
first-zero first_zero
firstLabels initial_labels
fit-below fit_below
fit-calm fit_calm
fit-child fit_child
fit-flat fit_flat
fit-key fit_key
fit-kind fit_kind
fit-label fit_label
fit-second fit_second
fits-match fits_match
flagFits flag_fits
flat-at flat_at
for-function for_function
form-back form_back
free-room free_room
from-three from_three
from-within from_within
functionRows function_rows
functions-count functions_count
functions-high functions_high
functions-newest functions_newest
functions-over functions_over
functions-room functions_room
functionsOf functions_of
gathered-all gathered_all
gathered-more gathered_more
gathered-so gathered_so
giver-hit giver_hit
giver-in giver_in
giver-some giver_some
goes-to-is goes_to-is
goesOn goes_on
hasChild has_child
head-itself head_itself
headed-back headed_back
hex-back hex_back
hex-is hex_is
hex-small hex_small
hex-step hex_step
hexDigit hex_digit
hexValue hex_value
inArrow in_arrow
inEscape in_escape
inHigh in_high
inLow in_low
inNumber in_number
inQuote in_quote
int-itself int_itself
interned-new interned_new
interned-old interned_old
is-goes-to is_goes_to
is-named is_named
is-outside is_outside
is-place is_place
isBinary is_binary
isBlank is_blank
isDate is_date
isDictionary is_dictionary
isInteger is_integer
isList is_list
isNumeric is_numeric
isString is_string
isWord is_word
items-inside items_inside
items-only items_only
key-at key_at
key-integer key_integer
key-kind key_kind
kindCode kind_code
kindNumber kind_number
known-parts known_parts
label-free label_free
label-full label_full
label-reads label_reads
label-vetted label_vetted
label-why label_why
labelText label_text
labelToken label_token
labels-count labels_count
labels-first labels_first
labels-high labels_high
labels-room labels_room
labels-short labels_short
labelsOf labels_of
last-interval-unit last_interval_unit
last-timestamp-unit last_timestamp_unit
late-given late_given
late-leads late_leads
late-so late_so
late-spelled late_spelled
layerNumber layer_number
least-entries least_entries
least-functions least_functions
least-labels least_labels
least-types least_types
length-grow length_grow
length-meanings length_meanings
line-inside line_inside
list-none list_none
lists-only lists_only
long-at long_at
long-ns long_ns
long-ns' long_ns'
longest-label longest_label
longest-signature longest_signature
malformed-given malformed_given
malformed-leads malformed_leads
malformed-so malformed_so
map-more-set map_more_set
mapped-more mapped_more
mark-seen mark_seen
match-fits match_fits
most-arguments most_arguments
most-entries most_entries
most-functions most_functions
most-labels most_labels
most-parameters most_parameters
most-precision most_precision
most-types most_types
name-outside name_outside
nameIn name_in
named-spelled named_spelled
nativeOf native_of
newCounts new_counts
newState new_state
nil-back nil_back
no-argument no_argument
no-close no_close
no-keyword no_keyword
no-list no_list
no-open no_open
no-separator no_separator
no-squeeze no_squeeze
none-assigned none_assigned
none-late none_late
none-refused none_refused
not-both not_both
not-claimed not_claimed
not-crowded not_crowded
not-missing not_missing
not-outside not_outside
not-unknown not_unknown
notNegative not_negative
nth-map nth_map
nth-push nth_push
nth-set-other nth_set_other
nth-set-same nth_set_same
nth-some nth_some
nth-take nth_take
nth-unmap nth_unmap
nth-within nth_within
number-text number_text
numbers-tell numbers_tell
numbersFit numbers_fit
one-there one_there
or-none or_none
or-true or_true
padded-rest padded_rest
padded-size padded_size
padded-text padded_text
parameter-here parameter_here
parameter-later parameter_later
parameter-none parameter_none
part-is part_is
part-more part_more
parts-go parts_go
passed-all passed_all
passed-more passed_more
place-spelled place_spelled
placedText placed_text
positional-late positional_late
positional-many positional_many
precisionFits precision_fits
quote-began quote_began
quoted-A quoted_upper_a
quoted-reads quoted_reads
quotedText quoted_text
read-why read_why
reason-of reason_of
record-nth record_nth
record-tells record_tells
record-told record_told
recordsOf records_of
sameTrees same_trees
newestStamp newest_stamp
enoughPlaces enough_places
refusalOf refusal_of
refuses-more refuses_more
reordered-so reordered_so
rising-more rising_more
room-for-call room_for_call
same-gathered same_gathered
same-giver same_giver
same-named same_named
same-plain same_plain
same-reason same_reason
same-record same_record
same-refusal same_refusal
same-tree same_tree
sameHead same_head
sameInt same_int
says-moved says_moved
scaleFits scale_fits
short-of short_of
shows-when shows_when
sizeFits size_fits
skip-apart skip_apart
some-name some_name
spelled-below spelled_below
spelledArgument spelled_argument
spelledId spelled_id
spelledList spelled_list
spelledName spelled_name
spelledNamed spelled_named
spelledText spelled_text
stamp-set-other stamp-set_other
stamp-set-same stamp-set_same
stampAt stamp_at
still-named still_named
tail-back tail_back
tail-head tail_head
tail-inside tail_inside
tails-only tails_only
text-back text_back
text-of-lettered text_of-lettered
textBytes text_bytes
textToken text_token
texts-apart texts_apart
to-within to_within
tooDeep too_deep
type-fits type_fits
type-free type_free
type-full type_full
type-new type_new
type-old type_old
type-vetted type_vetted
type-why type_why
types-apart types_apart
types-calm types_calm
types-count types_count
types-flat types_flat
types-high types_high
types-mean types_mean
types-room types_room
unitFits unit_fits
unknownPart unknown_part
unnamed-so unnamed_so
unquoted-matches unquoted_matches
usesLabel uses_label
vouch-back vouch_back
vouch-types vouch_types
well-formed well_formed
whyBack why_back
whyEntry why_entry
whyFunction why_function
whyLabel why_label
whyNoCall why_no_call
whyRead why_read
whySmall why_small
whyStrange why_strange
whyType why_type
wildHead wild_head
with-names with_names
withEntries with_entries
withFunctions with_functions
withLabels with_labels
withTypes with_types
word-all word_all
wordByte word_byte
zoneWildcard zone_wildcard
"""

# Where a new spelling would fall together with another name: the names of one file.
IN_FILE = {
    "crates/arguments/specs/Worked.antt": {"A": "upper_a"},
    "crates/script/proofs/Reading.antt": {"goes_on": "goes_further"},
    "crates/script/proofs/lists/read_list/Answers.antt": {"goes_on": "goes_further"},
    "crates/printing/proofs/ReadBack.antt": {"goes_on": "goes_on_by_class"},
    "crates/types/proofs/*.antt": {"same_head": "same_head-tells", "same_int": "same_int-tells"},
}

EDGE = r"[\w'\u2019\u00b7-]"


def respeller(table):
    words = sorted(table, key=len, reverse=True)
    pattern = re.compile("(?<!%s)(?:%s)(?!%s)" % (EDGE, "|".join(map(re.escape, words)), EDGE))
    return lambda text: pattern.sub(lambda found: table[found[0]], text)


def respell_file(path, respell):
    with open(path, encoding="utf-8") as file:
        old = file.read()
    if path.endswith(".md"):
        new = re.sub(r"`[^`\n]+`", lambda found: respell(found[0]), old)
    else:
        comment = {"antt": r"(\s--\s.*)|^(--.*)", "rt": r"(//.*)", "edit": r"$^"}[path.rsplit(".", 1)[1]]
        lines = []
        for line in old.split("\n"):
            found = re.search(comment, line)
            at = found.start() if found else len(line)
            lines.append(respell(line[:at]) + line[at:])
        new = "\n".join(lines)
    if new != old:
        with open(path, "w", encoding="utf-8") as file:
            file.write(new)
    return new != old


def main():
    words = dict(line.split() for line in WORDS.split("\n") if line)
    in_file = {path: names for pattern, names in IN_FILE.items() for path in glob.glob(pattern)}
    count = 0
    for ending in ("antt", "rt", "edit"):
        for path in sorted(glob.glob("crates/**/*." + ending, recursive=True)):
            if "/out/" not in path:
                count += respell_file(path, respeller({**words, **in_file.get(path, {})}))
    for path in ["README.md"] + sorted(glob.glob("docs/*.md")):
        count += respell_file(path, respeller(words))
    print("respell: %d files" % count)


if __name__ == "__main__":
    main()
