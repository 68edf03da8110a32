#!/usr/bin/env python3
"""Respells the repository's own definitions, lemmas, fields and bound variables as the language spells names.

usage: python3 tools/respell.py      at the top of the repository, once, after the kit's own script for older repositories

A name with dashes becomes one in snake case, or in camel case where it begins with a capital (a fact or a type).
Names that the check makes from the code (goals, steps, after `c.`) and names of the library keep their dashes.
Comments, strings and text outside crates/ are left alone.
"""

import os
import re

NAMES = """
    All-are-the-string All-fitted All-free All-met Any-order-gives-the-string At-place At-stage Draws-stay-in-range
    Each-holds Each-once Enter-done Every-rotation-blocked Figures-hold Filled-are Filled-by-settled Filled-exactly
    First-broken-refuses First-child First-of First-step First-that-fits Fit-answer Fit-done Fit-is-first Fit-wrote
    Fitted-at Fitted-exactly Found-by-one-look Holds-the-string In-order In-turn Into-filled Is-run Level-fitted
    Level-given Level-held Level-next Level-ready Levels-left List-refused Lowest-broken-refuses Map-done Map-refused
    Map-worked Map-written Map-wrote Mapped-lists Names-were-entered No-order No-spelling-twice No-triple-twice
    None-stands Not-replayed Of-every-run One-more-stands One-order One-plate Order-done Order-of Order-refused
    Order-worked Order-written Order-wrote Ordered-graph Ordered-lists Others-have-zero Plate-of
    Refusal-changes-nothing Refused-by Reopen-done Rotation-gives-slots Seal-done Seal-refused Seal-written Sealed-so
    Seals-soundly So-far So-far-filled Spelled-by Step-taken Stride-rule String-after Tables-hold-the-draws Two-in-one
    Unfit-exactly Value-stays Values-were-fitted Was-fitted a-length accepted-answer accepted-names accepted-run
    after-accepted after-enter after-fit after-in-range after-level after-order after-suc alike-blocked all-ample
    all-are-the-string all-entered all-fitted all-met all-steps all-taken all-upto all-visible all-within all-written
    all-zeros among-append among-at among-place among-push among-push-not among-rows among-times ample-all and-or
    and-true answer-accepted answer-is answer-same answer-when answers-append answers-are answers-on answers-past
    answers-same answers-so apart-at apart-first apart-push arranged-more arranged-none as-answer as-calls as-was
    asked-below at-fitted at-mapped at-ordered at-q at-vertex back-agrees back-length back-same bad-seed bad-sizes
    before-is begun-on begun-reset best-found blocked-exactly blocked-unfit bounded-on by-acceptance by-accepted
    by-belongs by-gate by-lists by-long by-none by-other by-seed by-short by-sizes by-slot by-slot-all by-slot-finds
    by-slot-getD by-slot-length by-slot-own by-strange byte-outside carries-level cases-given cell-fault cell-judged
    cell-kept cell-of cell-read cell-spelling chain-fit chain-names chain-times clash-apart clash-at clash-done
    clash-none comes-before comes-to content-all content-more continued-append continued-on count-find count-some
    count-two cut-agrees cut-length cut-long degree-at degree-ends degree-first degree-le degree-push degree-second
    down-here down-skip draining-all draining-more draining-none drawn-more drawn-part drawn-suc drop-kept each-once
    earlier-is edge-at-first edge-at-second edge-cases edge-elsewhere edges-of edges-past edges-same edges-there
    else-late emptied-more empty-fits empty-rows ends-differ enter-gate enter-passed entered-slots eqb-sym err-ok
    es-more exact-sealed far-below far-end far-high far-is far-low far-of far-seen fault-number few-names few-vertices
    filled-all filled-by-settled filled-level filler-hit filler-miss fills-more find-held first-behind first-fit
    first-is first-left first-low first-none first-refuses first-right first-same first-same-back first-where
    fit-accepted fit-answer fit-answered fit-gate fit-is-first fit-no-length fits-are fits-go fitted-accepted
    fitted-held fitted-level fitted-on fitted-some fitted-step folded-high following-from following-none
    following-some follows-push found-answer found-best found-cond found-in-place found-is found-once found-step
    free-apart free-empty free-exactly free-from free-once free-parts free-same frees-from frees-same from-1 from-here
    from-name front-composes front-stands front-written gather-begins gather-ends gather-goes getD-agree getD-drawn
    getD-tables go-fit graph-agree graph-kept graph-of graph-weighs greatest-bounds greatest-low greatest-weight
    grown-all grown-front grown-is grown-lined grown-next halves-at has-at has-false has-none hashed-is hashed-tuple
    heap-long heap-past heap-rest held-agree held-graph held-open high-leads high-seen holds-only home-low in-j in-k
    in-level in-place-all in-place-at in-place-from in-place-slot in-range in-range-yes in-seed in-sizes in-slot
    in-turn into-later is-added is-answer is-cell is-drawn is-in is-not is-of is-of-other is-of-same is-order
    is-refusal is-seal is-triple is-unseen joined-degree joined-high joined-low joined-miss joined-none joined-push
    joined-skip joined-waits joins-miss keeps-accepted keeps-level kept-front kept-records kept-sealed kept-values
    kept-written known-answer l-long laid-here last-is last-times latest-le latest-passes latest-past latest-same
    leads-rest leads-top led-best led-to length-bytes length-drawn length-graph length-is length-offsets length-padded
    length-placed length-record length-records length-sealed length-string length-tables length-turned length-twos
    length-written lent-part level-adds level-fits level-goes level-is level-name level-names level-of level-offsets
    level-one level-slots level-stands level-there level-times level-times-to level-turned level-vertex levels-are
    levels-left lined-push lined-upto link1-more link1-new link2-more link2-new list-meaning list-permutes lists-fit
    lists-same long-edges long-from long-heap long-ordered long-slots long-tables long-vertices low-is low-leads
    low-seen lowest-refuses map-fits map-gate map-passed map-to map-worked marked-none met-again met-first met-high
    met-low met-new mod-divided mod-divides more-head more-header more-records more-values most-bounds most-of
    moved-there moved-unseen names-are names-on names-were-entered never-short new-edge new-linked new-times new-value
    next-from next-is next-left next-stage next-state next-waits no-apart no-clash no-earlier no-entry no-multiple
    no-order-push no-triple none-cond none-fills none-fits none-placed none-some none-stands none-waits not-among
    not-among-times not-both not-length now-is of-count of-hashing of-lengths of-name of-r of-rank of-seed of-string
    of-tuple offset-is offset-passed offset-taken old-at on-stage once-at once-eq once-second one-and one-coprime
    one-false one-fitted one-le one-look one-more-stands one-order one-plate one-reckoned one-seals one-step
    one-string one-true only-more onward-leads onward-of open-gate or-false or-none or-parted order-all order-by
    order-fits order-follows order-gate order-lined order-passed order-unique ordered-agree ordered-past other-common
    other-seen other-size own-slot part-long part-take passed-more past-both past-edge place-settled placed-fills
    placed-hit placed-miss placed-now placed-nowhere plate-of plate-string point-fault point-judged point-of
    popped-first popped-low popped-shuffled popped-sinking pressed-lawful pressing-same pushed-length pushed-rising
    pushed-shuffled put-queued put-replaced r-is rank-back rank-mapped reach-eq record-all record-field record-in
    record-more record-place records-answer records-apart records-past records-stand records-written refused-answer
    refused-by refused-run refused-with reopen-done reopen-gate reopen-split reopen-wrong repeats-false replaced-both
    replaced-none replaced-one resumed-greatest room-fault room-past room-same rotation-gives-slots row-agree
    row-entry row-past row-triple row-triples rows-there run-slot run-stands same-call same-clash same-es same-level
    same-levels same-long same-look same-mod same-n same-order same-pair same-part same-r same-r' same-seed same-slot
    same-sym same-triple same-triples same-value same-values same-vs seal-fits seal-gate seal-length seal-passed
    seal-room sealed-answer sealed-done sealed-plate sealed-so sealed-soundly sealed-string seals-soundly second-high
    second-low seed-fault seed-high seed-is seed-low seen-from seen-too set-written settings-low settled-all
    settled-apart settled-by settled-none settled-one settled-place settles-never settles-onward settles-same
    short-entry short-gate short-held short-spellings shut-low sinks-leaf sinks-rest six-entered six-fitted six-go
    six-graph six-mapped six-names six-order six-ordered six-triples sizes-fault slot-of-name slot-put slot-rows
    slot-taken slot-there slot-written slots-are slots-empty slots-long slots-low slots-of slots-past slots-there
    so-far-found some-cond some-name some-none some-vertex stage-after stage-passed stage-refused stages-apart
    stages-append stages-are stages-differ stages-so stands-push stands-seen stands-step stays-sealed step-found
    step-in-range step-low step-names step-seen step-taken still-linked strict-precedes stride-meaning stride-permutes
    string-is string-left string-length string-long string-same string-sealed string-so stuck-go sum-from summed-all
    summed-more summed-none tables-drawn tables-in-range tables-of tables-there take-agree take-kept taken-blocked
    tally-all tally-below tally-full tally-le tally-nil tally-past the-header the-values-head then-set times-among
    times-append times-in times-less times-map times-not-among times-past to-16 to-err to-ok to-q told-padded
    touches-first touches-high touches-low touches-second triple-edge triple-halves triple-refl triples-are
    triples-long true-fits turn-degrees turn-graph turn-halves turn-past turned-at twice-at twice-first twice-other
    twice-second unfit-at-three unfit-blocked unfit-exactly unfit-in-turn unless-refused unseen-at unseen-at-all
    unseen-here unseen-is upto-none upto-on upto-some value-at value-count value-more value-place values-apart
    values-are values-at values-head values-stand values-were-fitted values-written vertex-is vertex-low vertex-of
    vertex-order vertices-past vertices-same vertices-there visible-end visible-low visible-on visible-stop waiting-is
    waiting-le waits-at waits-joined walk-finds walk-goes walk-passes walk-takes was-accepted was-sealing whole-ample
    whole-left whole-string with-fit with-level with-map with-name with-order write-all written-if written-parts
    zeros-at
""".split()

# What a name was built on is called otherwise now.
PARTS = {"getD": "get_or"}

STOP = set(" \t\n(){}[];,.:=|\"`λ→×∷⌜⌝↦")


def respelled(name):
    for old, new in PARTS.items():
        name = name.replace(old, new)
    parts = name.split("-")
    if name[0].isupper():
        return "".join(p[:1].upper() + p[1:] for p in parts)
    return "_".join(parts)


TABLE = {name: respelled(name) for name in NAMES}
WORD = re.compile(r"[^\s(){}\[\];,.:=|\"`λ→×∷⌜⌝↦]+")
# what is not respelled: comments and strings
SKIP = {
    ".rt": re.compile(r'//[^\n]*|b?"(?:\\.|[^"\\])*"'),
    ".antt": re.compile(r"(?:(?<=\s)|^)--(?:\s[^\n]*|$)", re.M),
    ".edit": re.compile(r"^file:[^\n]*$", re.M),
}


def turned(text):
    def word(m):
        if text[max(0, m.start() - 2):m.start()] == "c." and text[max(0, m.start() - 3):m.start() - 2] in STOP:
            return m[0]
        return TABLE.get(m[0], m[0])

    return WORD.sub(word, text)


def respell(text, kind):
    out, at = [], 0
    for m in SKIP[kind].finditer(text):
        out += [turned(text[at:m.start()]), m[0]]
        at = m.end()
    return "".join(out + [turned(text[at:])])


def main():
    for folder, dirs, files in os.walk("crates"):
        dirs[:] = [d for d in dirs if d != "out"]
        for name in files:
            kind = os.path.splitext(name)[1]
            if kind in SKIP:
                path = os.path.join(folder, name)
                with open(path, encoding="utf-8") as f:
                    text = f.read()
                new = respell(text, kind)
                if new != text:
                    with open(path, "w", encoding="utf-8") as f:
                        f.write(new)


main()
