#!/usr/bin/env python3
"""Respells this repository's own definitions and lemmas: words in snake case, types in camel case.

usage: python3 tools/snake_case.py      at the top, once, after the kit's port.py

It goes by the names below, outside comments and texts, in the ghost parts of the sources and in specs/ and proofs/; names
that Rattle makes, and those of Rust functions, stay.
"""
import glob
import re

# These would meet a Rust function of the same file, or a name of the library.
OTHERWISE = {
    "read-book": "book_of_words",
    "read-list": "list_of_words",
    "read-sheet": "sheet_of_words",
    "read-opening": "opening_of_words",
    "file-bytes": "most_file_bytes",
    "told-or-refused": "told_answer",
    "bit-and": "bit_of_and",
    "bit-or": "bit_of_or",
}

NAMES = """
All-pre-assumptions-are-an-assumption Broken-word-fits-no-form Broken-word-fits-no-sheet
Derives-is-least-closed-under-the-reduct Later-bytes-change-no-sheet Later-bytes-change-nothing Law-over-runs
Literal-added-exactly-if-within M-in-T Refused-where-no-book-goes-on Refused-where-no-list-goes-on
Refused-where-no-sheet-goes-on Rule-added-exactly-if-within T-all T-in T-in-U T-most Taken-exactly-if-encoded
Taken-exactly-if-rising U-all U-in-M U-least added-here added-kept added-sane after-hold after-name after-offer
after-quiet agree-beyond agrees-as all-assumed all-atoms all-book all-entered all-of-from all-of-in all-over-prop
all-pre-assumptions among-push and-true answer-founded answer-in-room answer-of answer-satisfies answer-set-opened
answer-text assumed-exact assumption-opened at-atoms at-number at-rule atom-high atom-line atom-lines atom-places
atoms-fit bare-sane before-limit begins-late behind-none behind-push between-kept between-length between-size
bit-less bit-lt bit-of bit-of-set bit-pow bit-pow-other bit-suc bit-zero blanks-over blanks-small blanks-taken
blocked-both blocked-end blocked-here blocked-next blocked-not blocked-start body-length body-size body-size-of
body-words book-words broken-word by-fours by-misfit by-rule by-test call-of calls-of cause-if chain-end clear-other
clear-same code-kind cond-and cond-or cons-at count-few count-in count-more count-out counts-in counts-outside
counts-within differs-as empty-keeps empty-last empty-ordered empty-over empty-program empty-weighed empty-within
encoded-taken entry-literal entry-rule entry-size err-not-ok exact-push exactly-opened false-exact false-in
falses-exact few-atoms few-either few-excluding few-heads few-inside few-jobs few-of-a-job few-on-a-head few-pairs
few-rules few-serving few-spread fires-derives fires-if first-all first-bytes-decide first-bytes-decide-sheets
first-left first-none first-rules fits-job fits-no-form fits-no-sheet fits-opening founded-derives fresh-rule
from-reduct getD-zeros gives-first glyph-ascii glyph-value grown-end grown-order grown-over has-difference has-high
has-is-atom has-less has-low has-marked has-not-atom has-place has-written has-zeros head-atom head-high head-low
head-most head-outside held-passes hex-digits hex-more hex-push hex-reads hold-after-hold hold-after-offer hold-back
hold-is hold-of hold-stands hold-stays if-settled in-U in-Y in-Y' in-among in-at in-front in-heads in-last in-meets
in-neg in-positive in-push in-range in-reduct in-rising in-set in-test ink-bits ink-of is-atom is-atom-from
is-atom-high is-atom-low is-atom-past is-atom-zero is-high is-hold is-l is-low is-next is-node is-plan job-again
job-at job-back job-fits job-in job-misfit job-missing job-outside job-over job-refused job-taken job-word
jobs-encoded jobs-end jobs-extra jobs-taken kept-all kept-front kind-code kind-misfit kind-opening kind-with
kind-word known-opened laid-length laid-program laid-rule last-at last-between-none last-between-some last-from-zero
last-grown last-high last-hold last-is last-offer last-over last-place last-rule last-size last-split last-words
leads-kept least-as least-closed least-not-pre left-all left-from left-least left-more left-none left-of length-cond
length-headline length-letter length-other length-refusal-text length-report-line length-rising-grows
length-rising-less length-rising-more length-rising-most length-rising-none length-rising-one length-same
length-sign length-written less-more light-rules limited-within line-counts line-meaning line-only list-room
list-taken literal-allowed literal-at literal-back literal-cases literal-exactly literal-falls literal-fits
literal-found literal-free literal-goes literal-grown literal-keeps literal-kind literal-laid literal-last
literal-misfit literal-misplaced literal-missing literal-ordered literal-outside literal-past literal-stays
literal-weighed literal-weight literal-within literal-word literal-words longer-entry longer-over longer-size
longer-words low-in-high low-in-next made-push map-in marked-at marked-over marked-with marked-without marked-zeros
max-atoms max-body max-heads max-jobs max-rules max-size max-words may-go meets-in member-misfit members-end
members-has members-road members-turn misfit-clash more-book more-negative more-positive neg-rises negative-all
negative-bounds negative-in negative-none negative-one negative-reduct negative-rises never-refused never-taken
next-high next-literal next-rises next-stage no-atom no-entry no-hold no-job no-offer no-propose no-rule
no-rule-before no-rule-past no-sheet no-status node-word none-all none-next none-of-from none-of-out not-allowed
not-here not-satisfied number-only numbered-rule numbers-inside numbers-light numbers-over o-below o-counts
offer-next on-heads one-head one-if one-if-grows one-if-most one-line-more ones-more only-hold only-offer
only-propose only-status open-exact opened-all opened-more opened-none opened-placed opened-rises opened-size
opening-book opening-fits opening-from opening-misfit opening-outside opening-read opening-refused opening-spare
opening-taken opening-then opening-word or-none or-one or-refuse other-head other-next other-rule pair-count
pair-rule pair-rules pair-short partly-all partly-last pass-both pass-end pass-next pass-not pass-start
passed-answers passed-with past-positive payload-below payload-small payload-word percent-most percent-short
place-low plan-back plan-is plan-law plan-next plan-of plan-report plan-stands plan-stays positive-first
positive-light positive-literal positive-one positive-or-none positive-over positive-rule positive-within pre-exact
program-within proposal-holds proposals-pass proposed-wrote put-in-no-room put-in-room put-or-refuse q-below
read-book-append read-book-first read-end read-extra read-from read-from-first read-jobs read-jobs-first
read-missing read-on read-on-append read-on-at read-on-end read-on-first read-on-next read-sheet-first reads-call
reads-skipped refusal-clash refusal-fits refusal-line refusal-room refusal-text refused-at refused-behind
refused-cases refused-from refused-opening refused-value refused-where-no-book-goes-on
refused-where-no-sheet-goes-on refused-where-stuck report-fits report-line report-line-short report-lines
report-lines-short report-room rises-between rises-higher rises-push rising-end rising-ext rising-front rising-in
rising-least rising-more rising-nothing rising-out rising-passes rising-place rising-prop rising-push rising-rises
rising-short rising-taken rising-wider rule-allowed rule-at rule-back rule-exactly rule-for rule-free rule-in
rule-inside rule-keeps rule-laid rule-last rule-misfit rule-of-job rule-of-pair rule-ordered rule-outside
rule-over-prop rule-past rule-weighed rule-weight rule-within rule-words rules-count rules-of rules-read run-bounds
same-ink same-job same-program same-refusal same-sheet satisfied-idle satisfied-in selected-within set-judged
set-stands settled-as-opened settled-false settled-if settled-true settled-words sheet-limited sheet-of
sheet-program sheet-rules sheet-within sheet-words shifted-out size-at size-grows size-marked size-more size-most
so-far-all so-far-none so-far-refused sofar-all sofar-more some-heads split-last split-longer staged-more
staged-start standing-hold standing-plan stands-hold stands-new stands-next stands-offer stands-quiet status-answer
step-done step-here taken-encoded taken-exactly taken-exactly-if-encoded taken-off taken-rises takes-book
takes-literals takes-rule takes-rules this-over told-passed told-refused trace-push true-exact trues-exact
upheld-opened upper-from value-at value-at-least verdict-exact verdict-on wait-old waiting-most waiting-rule
waiting-rules waiting-short weight-append weight-more weight-set whole-fits with-bit with-job with-jobs with-kind
with-literal with-more with-next with-rule with-word within-closed within-prop within-range without-bit
without-negative word-alone word-before word-if word-length word-misfit word-only word-refused word-taken word-text
word-with words-all words-behind words-broken words-few words-first words-fit words-for words-next words-none
words-only words-push words-read words-refused words-text written-in-room written-more
""".split()


def spelled(name):
    if name in OTHERWISE:
        return OTHERWISE[name]
    words = name.split("-")
    if len(words) > 2 and words[0][0].isupper() and len(words[0]) > 1:
        return "".join(w[0].upper() + w[1:] for w in words)
    return "_".join(words)


PAIRS = {name: spelled(name) for name in NAMES + list(OTHERWISE)}
LONGEST_FIRST = sorted(map(re.escape, PAIRS), key=len, reverse=True)
PATTERN = re.compile(r"(?<![\w'-])(c\.)?(%s)(?![\w'-])" % "|".join(LONGEST_FIRST))
# What is left alone: comments and texts.
QUIET = {".antt": r"--[^\n]*", ".rt": r'//[^\n]*|"(?:[^"\\]|\\.)*"'}


def replaced(match):
    # In a proof `c.f` is what is known of a call of the Rust function f.
    call, name = match.groups()
    return "c." + name.replace("-", "_") if call else PAIRS[name]


def respell(text, quiet):
    out, at = [], 0
    for part in list(re.finditer(quiet, text)) + [None]:
        end = part.start() if part else len(text)
        out.append(PATTERN.sub(replaced, text[at:end]))
        if part:
            out.append(part.group(0))
            at = part.end()
    return "".join(out)


for ending, quiet in QUIET.items():
    for path in sorted(glob.glob("crates/**/*" + ending, recursive=True)):
        if "/out/" in path:
            continue
        with open(path, encoding="utf-8") as f:
            old = f.read()
        new = respell(old, quiet)
        if new != old:
            with open(path, "w", encoding="utf-8") as f:
                f.write(new)
