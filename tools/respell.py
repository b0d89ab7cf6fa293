"""Respells this repository's own names of specs/ and proofs/ in snake case, in sources, proofs, edits and pages. Run once, at the top, after
the kit's port.py. A name whose new spelling another has, or a function of src/ in the same file, gets another one: APART.
"""
import glob
import re
import sys

# each to be written with `_` for `-`, and `_x` for a capital `X` behind a small letter
NAMES = """
P-at P-value a-gate a-printed accepted-at accepted-by accepted-marked acceptedFrom accepting-home accepting-test accepts-covered add-begins
add-ends add-next add-ordered after-below after-bit after-event after-it afterVerdict agree-first all-accepted all-gathered all-have-blocks
all-idempotent all-in-c all-miss all-packed all-passed all-profiles all-profiles-stored all-put all-sets all-sets-stored all-states
all-written an-event answer-few answerLines arrow-back arrow-is arrow-room arrowCount arrowMemory arrowSlice arrows-add arrows-are
arrows-are-lent arrows-are-paper arrows-at arrows-below arrows-counted arrows-fit arrows-inside arrows-kept arrows-lent arrows-read
arrows-room arrows-sorted arrows-stand arrows-there arrows-within arrows-writer arrowsBeyond arrowsIn arrowsOf as-asked assoc-leads
assoc-marks at-cases at-counted at-getD at-k at-links at-text back-marked base-came base-onward before-itself before-not before-not-after
before-or before-then begin-cut begun-empty begun-ends begun-events behind-events behind-front behind-in behind-one below-longer below-same
below-some beside-begun beside-enter beside-entries beside-events beside-false beside-true beyond-high beyond-row bit-beyond bit-cell
bit-inside bit-of-mask bit-suc bit-zero block-fits block-flag block-flags-long block-found block-is block-is-paper block-passed block-place
block-small blockArrows blockProfiles blockStates blocks-are-paper blocks-begin blocks-counted blocks-done blocks-idempotent blocks-left
blocks-next blocks-room blocksArrows blocksOf both-written by-beginning by-empty by-empty-set by-event by-from by-gate by-model by-none
by-own by-round by-to byte-formed c-answer c-answered c-answers c-answers-from c-arrow-slice c-arrows c-cut-printed c-cuts c-damaged c-ends
c-file c-flags c-in-memory c-in-room c-judged c-machine c-number c-opposed c-opposite c-opposite-accepts c-opposite-written c-opposites
c-printed c-profile-entries c-profile-table c-profiles-hold c-read-back c-refused c-rejects c-right c-rooms c-set-entries c-sets-hold
c-twice c-uncovered c-up-to c-verdict c-within c-written cell-grid cell-of-rows checks-agree checks-same closed-row closing-0 closing-4
closing-5 closing-exactly-4 closing-exactly-5 closing-listed closing-numbers closing-refused closing-whole closing-within closingAnswer
closingIn closingOf column-at column-below column-first column-length column-next column-same column-set count-arrows count-begins
count-ends count-few count-masks count-within countLine counted-part counted-room counts-on counts-within course-asked course-by-repeats
course-few course-first-k course-gives courseChecks courseNumber courseNumbers covered-accepts covered-is-none covered-text cut-enter
cut-homed cut-marked cut-same cut-via d-closing d-in-memory d-memory d-opposite d-opposites d-refused d-verdict d-words decimal-few
decimal-last decimal-two digits-few digits-one digitsWithin done-room drawing-blocks drawn-block drawn-onto drawn-set e-accepts e-at
e-closed e-covered e-file e-marks e-profiles e-right e-tables e-value each-further eachBelow eachFrom earlier-profile earlier-set
either-marked empty-before empty-first empty-found empty-length empty-next empty-set empty-turn empty-word end-past end-there endChecks
endField ends-inside enter-longer enter-still entering-begins entering-done entries-are entries-begin entries-cut entries-done entries-end
entries-keep entries-length entries-on entries-part entries-read entries-room entries-still entriesIn entry-room entry-small entryIn
equal-same event-arrows event-before event-beyond event-bytes-fit event-fits event-form event-found event-left event-means event-misformed
event-number event-read event-room event-same event-small event-there event-within eventChecks eventField eventProfile eventValue
events-agree events-begin events-cut events-done events-keep events-longer events-next events-read events-still events-there every-member
every-model everyOf fault-few fault-lines faultLine faultOf faultless-passed few-events few-pairs few-profiles few-seconds few-sets
few-states field-behind field-formed field-read field-value fieldChecks file-beginning fileChecks fileOf files-are-short files-are-valid
files-are-written files-read-back fills-a fills-full fills-i fills-new fills-there first-behind first-bytes first-decides first-gate
first-is-uncovered first-k-only first-none first-number first-numbers first-placed first-profile first-rejects first-room first-set
first-state first-stored first-tenth first-verdict firstDigits firstProfiles firstRejecting firstSets fits-image fits-join fitting-marked
flags-are-paper flags-put flags-read flags-room flagsIn form-first form-is form-read formed-same formed-whole found-fault found-is
found-model found-more found-next found-onward found-same found-stands from-below from-events from-lowered from-onto from-room from-stands
from-states from-the-end from-within fromBlock fromGate fromRows fromSet fromState front-before frontChecks full-after-4 full-after-5
gate-arrows gate-at gate-first gate-found gate-grows gate-next-fits gate-reached gate-room gate-round gate-small gathered-each given-few
gives-concluded gives-due grid-below grown-end grown-start grown-turn h-closed h-opposite h-pairs h-rejecting h-size h-tables has-begun
has-each has-idempotent has-next has-profile has-via hasBlock home-accepting home-accepts home-behind home-form home-inside home-is
home-is-lent home-mask home-then homed-marked i-below i-in idempotent-at idempotent-power idempotent-round image-below image-bit image-fits
image-from image-has image-join image-nothing in-profiles in-range in-sets inFile inNumbers inside-bits inside-ends inside-gate inside-lead
inside-way into-are-paper into-each into-gathered into-gathered-each is-0 is-6 is-empty isArrow isCovered isFitting isIdempotent isRead
isSaid isState j-from-1 j-in join-assoc join-leads join-marks join-means join-small joins-associate k-fits k-form k-in k-inside k-is k-least
k-most k-range keepBy keeps-length kept-arrows kept-counted kept-each keptFrom lacks-next laps-accept laps-of lasso-again lasso-on
lasso-turn lasso-words last-home last-marked last-state laterChecks leads-event leads-first leads-join leads-last leads-next leads-same
leads-via leadsFrom leadsTo least-words leaving-begins leaving-done led-by-arrows led-to length-block length-counted length-each
length-field length-fits length-gather length-is length-links length-one length-one-more length-onto length-rows length-set-events
length-state lent-profiles lent-sets lent-too less-room letter-below letter-high letter-low letters-few letters-first letters-join
letters-less letters-low letters-more letters-next letters-none letters-parts letters-power level-end level-enter level-entries lex-itself
lex-lower lex-or lex-same lex-says lex-then lineEnd linked-falls longer-i low-next lower-before lower-event lower-itself lower-more lower-or
lower-then lowered-below m-from-1 machine-same machine-within made-cut map-one-more mark-places marked-accepted marked-event marked-homed
marked-join marked-round markedPath marks-above marks-below marks-via marks-within mask-inside mask-kept mask-small maskBeyond maskChecks
masks-below masks-inside masks-same masks-there masks-within member-every member-some model-back model-numbers model-same modelChecks
modelRead modelTold models-are-asked more-before more-bits more-cells more-listed more-not-after more-not-empty more-profiles more-sets
n-form n-in n-is n-leads n-least n-marks n-most n-range neither-before never-4 never-6 next-block next-entry next-event next-gate
next-gate-fits next-i next-kept next-left next-passed next-room next-state next-there next-within nextProfile nextSet nextValue no-bit
no-entries no-fit no-mask no-pair no-pair-no-block no-path no-profile no-profiles no-refusal no-sets noEntry noEvent non-empty-rejects
none-before-empty none-counted none-gathered none-meets none-packed none-rejects not-1 not-above not-after-then not-before not-both
not-both-accept not-formed not-later not-longer not-nothing noted-length noted-room nothing-behind nothing-wrong number-0 number-back
number-below number-most numberChecks numbers-first numbers-printed numbers-writer of-block of-gate of-point of-profiles of-set of-sets
of-state of-states of-u of-v on-slices one-accepts one-closing one-event one-export one-exported-course one-exported-opposite
one-exported-reading one-file one-gathered one-image one-join one-judged one-judged-course one-judgement one-least one-model one-most
one-next one-opposite one-or-more one-packed one-pair one-part one-profile one-profile-means one-reading one-refusal one-rejecting
one-rejects one-round one-set-means one-union one-verdict only-empty only-marked-path only-path only-reached onto-gate onto-one onto-state
onto-two ontoAt onward-here opposite-0 opposite-7 opposite-answers opposite-arrows opposite-counts opposite-exactly-7 opposite-first-k
opposite-gives opposite-has-none-twice opposite-inside opposite-is-inside opposite-is-opposed opposite-is-sorted opposite-kept opposite-lent
opposite-refused opposite-rooms opposite-sorted opposite-states opposite-within oppositeAnswer oppositeFrom oppositeIn oppositeLimit
oppositeMemory oppositeNumbers oppositeSlices or-grid other-event other-next outcome-onward over-again over-at over-length over-next
over-past over-same over-set own-table ownRows p-below p-in p-starts packed-room packedRow pair-has-block pair-once pair-says pairCount
part-there parts-behind parts-end passed-both passed-check passed-each passed-event passed-field passed-shown past-enter path-below path-of
place-below place-column place-counted place-once place-row places-asked power-add power-profile power-swap power-times power-turn
printed-beginning printed-read printed-refused printed-short profile-append profile-codes profile-end profile-has profile-means
profile-of-two profile-of-v profile-on profile-placed profile-places profile-room profile-rooms profile-small profile-some profile-start
profile-steps profile-there profile-turn profile-within profile-words profileAt profileFrom profileIs profileLayout profileMemory
profileSlices profileTable profileValue profiles-are profiles-are-all profiles-back profiles-close profiles-closing profiles-fit
profiles-found profiles-full profiles-held profiles-hold profiles-join profiles-kept profiles-length profiles-linked profiles-made
profiles-mean profiles-part profiles-read profiles-stand profiles-stay profiles-text profiles-within profilesAt profilesIn put-length
put-new put-nothing put-old put-within puts-all puts-both puts-byte puts-lengths puts-next puts-nothing puts-same q-below q-in quotient-none
quotient-test r-below r-in r-starts reach-same reached-next read-are read-arrow read-exactly read-fault read-faultless read-lines read-model
read-on read-room read-t read-unrefused readWith reading-gives reading-same readingNumbers rebuilt-at rebuilt-below rebuilt-empty
rebuilt-more rebuilt-one rebuilt-past rebuilt-same rebuilt-short rebuilt-word refusalOf refused-7 refused-by refused-few refused-first
refused-fourth refused-front refused-is refused-second refused-text refused-third refuses-end refuses-event refuses-front regroup-left
regroup-right rejecting-fits rejecting-unmarked rejectingIn rejectingWith rejects-as rejects-idempotent rejects-other rejectsNonEmpty
repeat-led report-beginning report-is-short rest-a rest-i right-event room-arrows room-first room-lent room-s room-states room-t room-w
roots-onward round-homed round-marked round-profile rounds-mean row-bit row-of-rows rowBeyond rowFrom s-marked said-with-0 same-P same-cells
same-coming same-entry same-equal same-i same-j same-judgement same-least same-lengths same-model same-slices same-u same-v same-words
sameProfile says-covered says-uncovered search-for second-cut second-decides second-room seconds-add seconds-begin seconds-fit set-append
set-behind set-codes set-end set-enters set-image set-is-paper set-left set-means set-nothing set-of-two set-of-u set-only-reached set-place
set-placed set-places set-reached set-rooms set-start set-steps set-turn setFlag setFrom setLayout setMemory setOn setSlices setTable
setValue sets-all sets-are sets-are-all sets-are-paper sets-begin sets-close sets-closing sets-done sets-enough sets-fit sets-follow
sets-found sets-full sets-held sets-hold sets-kept sets-linked sets-made sets-mean sets-on sets-part sets-put sets-read sets-room sets-stand
sets-stay sets-text sets-uncut sets-within setsArrows setsFrom setsIn short-by shorter-before shown-are-blocks shown-begin shown-done
shown-few shownAs shows-both shows-check shows-each shows-event shows-field shuttle-profiles shuttle-sets size-begins size-grows size-passes
slices-inside slices-sorted small-equal small-on small-s small-t some-letter some-member some-of-part some-power some-repeat some-row
some-taken some-w someBelow someOf sorted-append sorted-block sorted-events sorted-gather sorted-once sorted-one sorted-onto sorted-set
sorted-states spelt-empty spelt-more spelt-none spelt-one spelt-short spent-behind spent-onward stand-same stand-there stands-below
stands-in stands-once start-below start-form start-found start-inside start-is-lent start-mask start-number start-stands state-at
state-first state-fits state-found state-small state-written stateCount states-add states-are states-are-paper states-begin states-counted
states-done states-fit states-next states-on states-within statesFrom statesLeft statesOf still-asked still-lent still-room stopped-before
stopped-behind stopped-check stopped-each stopped-form stopped-value stored-nowhere t-at t-value table-fills tables-closed tells-lead
tells-way test-accepting textPut the-set then-entries then-home then-marked then-others there-already there-at three-tests times-add
times-times to-0 to-gate to-left to-right to-stands told-once told-unrefused too-many-lines too-many-states total-both total-each total-more
total-most total-same total-swap total-times total-zero u-first u-letters u-word uAndV unchanged-by unchanged-later uncovered-course
uncovered-is-first uncovered-rejects uncovered-text uncut-too union-arrows union-grows union-has union-marks union-small unrefused-form
unrefused-read up-to-room v-has-t v-is v-letters v-some v-word valid-exactly value-at value-below value-column value-is values-close
values-long verdict-6 verdict-answers verdict-covered verdict-due verdict-exactly-6 verdict-first verdict-first-k verdict-given
verdict-gives verdict-is-right verdict-is-short verdict-listed verdict-most verdict-refused verdict-right verdict-uncovered verdict-within
verdictAnswer verdictFrom verdictIn verdictLines via-has which-words wholly-due with-a with-entry with-i with-low with-onward with-room
with-tried withArrows word-empty word-few word-least word-led word-letters word-longer word-means word-one word-rooms word-short
word-shorter wordChecks wordMemory words-below words-kept words-rebuilt words-short words-within write-arrow write-next written-again yes-if
yes-only-if yes-with-0
""".split()

APART = {
    "accepted-from": "accepted_from_is",
    "answer-lines": "lines_of_answer",
    "arrowRoom": "room_for_arrows",
    "arrows-of": "its_arrows",
    "bit-fromBits": "bit_number_of_bits",
    "bit-or": "bit_of_or",
    "block-arrows": "block_arrows_most",
    "block-states": "block_states_most",
    "blockFlags": "flags_of_block",
    "by-events": "by_each_event",
    "byEntries": "through_entries",
    "byEvents": "through_events",
    "course-numbers": "course_by_numbers",
    "event-value": "event_value_is",
    "eventOffset": "offset_of_event",
    "from-gate": "from_a_gate",
    "from-set": "from_a_set",
    "from-state": "from_a_state",
    "fromBits": "number_of_bits",
    "fromBits-below": "number_of_bits_below",
    "fromBits-same": "number_of_bits_same",
    "from_block": "from_a_block",
    "has_block": "has_block_is",
    "intoBlocks": "arrows_into_blocks",
    "is-arrow": "is_that_arrow",
    "isRejecting": "is_rejecting_pair",
    "leadsOn": "leads_onward",
    "lettersBelow": "letters_are_below",
    "marked-path": "path_is_marked",
    "marksRound": "marks_a_round",
    "next-profile": "next_profile_is",
    "next-set": "next_set_is",
    "next-value": "next_value_is",
    "no-entry": "no_entry_is",
    "opposite-numbers": "opposite_by_numbers",
    "opposite-slices": "opposite_slices_are",
    "profile-at": "profile_is_at",
    "profile-slices": "profile_slices_are",
    "profileOf": "word_profile",
    "profileRoom": "room_for_profiles",
    "read-with": "read_with_is",
    "same-profile": "same_as_profile",
    "set-flag": "set_flag_is",
    "set-slices": "set_slices_are",
    "setOf": "word_set",
    "setRoom": "room_for_sets",
    "set_on": "set_is_on",
    "set_room": "room_of_set",
    "some_below": "some_is_below",
    "some_of": "some_is",
    "standAt": "stand_from",
    "state-room": "room_of_state",
    "stateRoom": "room_for_states",
    "states-left": "states_are_left",
    "staysUnmarked": "remains_unmarked",
    "word-memory": "word_memory_is",
}

# names of one file alone: elsewhere they are the library's
OF_ONE_FILE = {
    "crates/laws/proofs/Counts.antt": {"length-set": "length_from_set", "length-sets": "length_from_sets"},
}

TOKEN = re.compile(r"(?<![\w'\u00b7-])[A-Za-z][\w'\u2080-\u2089\u00b7]*(?:-[\w'\u2080-\u2089\u00b7]+)*")


def snake(name):
    return re.sub(r"(?<=[a-z0-9])([A-Z])", lambda m: "_" + m.group(1).lower(), name.replace("-", "_"))


def kept(name):
    # a capital that stands alone is a variable's
    return name.replace("-", "_") if re.search(r"-[A-Z]$|^[A-Z]-", name) else snake(name)


NEW = {name: kept(name) for name in NAMES} | APART


def turn(text, names):
    return TOKEN.sub(lambda m: names.get(m.group(0), m.group(0)), text)


def outside_strings(text, names):
    parts = re.split(r'(b?"(?:\\.|[^"\\])*")', text)
    return "".join(part if i % 2 else turn(part, names) for i, part in enumerate(parts))


def in_backquotes(text, names):
    return re.sub(r"`[^`\n]*`", lambda m: turn(m.group(0), names), text)


def main():
    changed = 0
    for pattern, how in (
        ("crates/*/specs/**/*.antt", turn),
        ("crates/*/proofs/**/*.antt", turn),
        ("crates/*/src/**/*.rt", outside_strings),
        ("crates/*/must-fail/*.edit", turn),
        ("crates/*/more-edits/*.edit", turn),
        ("README.md", in_backquotes),
        ("docs/*.md", in_backquotes),
    ):
        for path in sorted(glob.glob(pattern, recursive=True)):
            with open(path, encoding="utf-8") as file:
                old = file.read()
            new = how(old, NEW | OF_ONE_FILE.get(path, {}))
            if new != old:
                changed += 1
                with open(path, "w", encoding="utf-8") as file:
                    file.write(new)
    print(f"respell: {changed} files", file=sys.stderr)


if __name__ == "__main__":
    main()
