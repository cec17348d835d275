#!/usr/bin/env python3
"""Respells the names of this repository's own definitions and lemmas in today's style.

usage: python3 tools/respell.py      at the top of the repository, once, right after the toolchain's own port script

Words in snake case, facts in camel case; a dash stays only where a lemma's name joins the names of two definitions.
Functions of src/, strings, inputs and outputs keep their names.
"""

import os
import re

# a dash becomes an underscore
WORDS = """
    is-ordered meaning-of
    accepted-joined ahead-tree alike-itself all-below all-exist all-in-bounds all-one-piece all-pass-push all-trees
    and-bit answer-breaks answer-by answer-exact answer-meets answer-of answer-reads apart-cut apart-judged
    apart-narrow apart-short asked-more at-end at-found at-line await-covered await-due await-rooms bare-form
    begins-digit begins-letter begins-line begins-quote begins-space behind-it belongs-to bit-down bit-first bit-lt
    bit-ones bit-or-l bit-or-r bit-pow bit-shl bit-top bit-zero board-kept both-given built-bounded by-relation
    byte-count byte-memory byte-room bytes-at bytes-before bytes-more bytes-under called-so came-back came-nearer
    came-on capital-begun child-of class-for closes-from comes-out cond-first cond-next cons-row count-more counts-by
    cut-begin cut-bit cut-more cut-past cuts-all cuts-more cuts-none cuts-skip decide-alone decide-beside decided-as
    decided-both decided-cut decided-derives decided-items decided-lt decided-meets decided-near decided-part
    decided-row decided-rule decided-some decided-tree declined-same derives-column derives-rule digit-begins
    divide-cut divide-nil divide-numbers divide-one divide-same divide-some divided-covered divided-due divided-fewer
    divided-last divided-more divided-rooms divided-written each-nth entered-slots every-passes exact-other fault-line
    few-by few-wait find-alone find-beside first-begin first-derives first-of-four first-place first-reading
    first-shaped first-stands first-stays first-tells first-with firsts-one firsts-stand fits-at fits-met fixed-form
    forest-shaped formed-at found-new frame-slots front-reading goes-all goes-full goes-more head-is high-slots
    in-chart is-wrong item-at item-form item-view items-by items-from items-ordered joined-alone keeps-by kind-of
    lacks-by laid-apart laid-at lays-apart lays-met lays-out-long lays-out-one lays-places lays-turns lead-new lead-on
    lead-stops least-column least-of less-node less-piece let-go-fine letter-begins letter-or-digit line-with
    lines-apart lines-break lines-low listed-line loaded-more long-new long-on longest-records low-at lowest-of
    many-front many-rest many-room map-append means-all means-and means-as means-from means-near means-none means-only
    means-or met-fits met-node met-piece met-under minimal-exact minimal-obeys minimal-shallow name-begun name-stays
    named-all named-both named-long named-next names-among names-then near-above near-any near-at-least near-equal
    near-grows never-deep new-extends new-long nil-row no-blank no-early no-graft no-lay no-least no-lift no-nodes
    no-piece no-rule no-rules no-space node-memory node-room nodes-less nodes-mono nodes-of nonterminal-form
    nonterminal-name not-both not-both-kinds not-laid not-other not-past number-begun number-stays numbers-divide
    one-le one-means one-quote one-row one-sign one-tree one-tree-of ones-at opens-first opens-later out-of-bounds
    oversize-more part-begin part-row pass-at passes-counted passes-every passes-first past-blank past-place past-test
    path-more piece-at piece-memory piece-put piece-room piece-there piece-told pieces-apart pieces-before pieces-in
    place-apart place-lt placements-break position-behind pow-at pow-bit prefixed-err prefixed-more prefixed-ok
    puts-long quote-begun quote-rest quote-stays quoted-begun reach-hit reach-miss reach-start reading-derives
    reading-first reading-front records-of refused-at refused-by relation-form relation-named relation-of
    relation-view rest-slots row-column row-found row-grows row-nil row-view row-with rule-by rule-derives rule-hit
    rule-miss rule-past rules-left rules-more rules-of rules-rest rules-skip rules-with run-one run-passes run-stops
    same-fault same-name-itself same-on second-of-four settled-by seven-names seven-values shaped-closes shl-bit
    short-for sign-begins sign-stays slip-length slip-number slots-behind some-bit spaces-stop span-zero spelling-form
    spend-fault standing-more stays-behind still-on stretch-end stretch-more stretch-of symbol-by symbol-form
    symbol-view tail-is tail-part tells-one terminal-hit terminal-miss terminal-of terminals-among terminals-in
    terminals-left terminals-of terminals-rest terminals-then text-stops text-wide third-of-four token-with
    tokens-more tokens-of told-past too-deep too-high took-over took-read top-item total-records trailing-bit
    trailing-low tree-ahead tree-shallow tree-shaped tri-mono tri-square tri-suc try-below turns-break under-le
    under-met unfit-graft verdict-on waiting-slots walk-less walk-room well-formed wide-next with-fresh with-known
    with-new with-third word-form write-fault wrote-fits wrote-long
""".split()

# facts, named as types
FACTS = {
    "Answer-breaks": "AnswerBreaks",
    "Answer-exact": "AnswerExact",
    "Answer-reads": "AnswerReads",
    "First-exists": "FirstExists",
    "First-is-one": "FirstIsOne",
    "First-reads": "FirstReads",
    "Gives-item": "GivesItem",
    "Gives-items": "GivesItems",
    "Gives-symbol": "GivesSymbol",
    "Laid-fits": "LaidFits",
    "Laid-reads": "LayoutReads",
    "Lines-break": "LinesBreak",
    "Minimal-exact": "MinimalExact",
    "Numbers-one": "NumbersOne",
    "Numbers-tree": "NumbersTree",
    "Only-deep": "OnlyDeep",
    "Told-once": "ToldOnce",
    "Tree-numbers": "TreeNumbers",
}

# two definitions of the crate chart came to one name: where a number stands in the chart, and where a token begins
CELLS = ("place_of", "cell_place", "Rattle.chart.specs.Place", "crates/chart/specs/Place.antt")

NAMES = {w: w.replace("-", "_") for w in WORDS} | FACTS
TOKEN = re.compile(r"[A-Za-z_][A-Za-z0-9_']*(?:-[A-Za-z0-9_']+)*")
QUOTED = re.compile(r"«([^»]*)»")
GLOSS = re.compile(r"^(--   )(\S+)( +)")


def respelled(text):
    return TOKEN.sub(lambda m: NAMES.get(m.group(), m.group()), text)


def antt_line(line):
    gloss = GLOSS.match(line)
    if not gloss:
        return respelled(line)
    name = respelled(gloss.group(2))
    gap = " " * max(1, len(gloss.group(2) + gloss.group(3)) - len(name))
    return gloss.group(1) + name + gap + respelled(line[gloss.end():])


def unquoted(match):
    name = NAMES.get(match.group(1), match.group(1))
    return name if re.fullmatch(r"[A-Za-z_][A-Za-z0-9_]*", name) and name not in ("data", "open", "record", "ruleset") else f"«{name}»"


def main():
    for folder, dirs, files in os.walk("crates"):
        dirs[:] = [d for d in dirs if d != "out"]
        for name in files:
            path = os.path.join(folder, name)
            if not name.endswith((".antt", ".rt", ".edit")):
                continue
            with open(path, encoding="utf-8") as f:
                old = f.read()
            if name.endswith(".antt"):
                new = "\n".join(antt_line(line) for line in old.split("\n"))
            else:
                new = QUOTED.sub(unquoted, old)
            before, after, module, home = CELLS
            if path == home or f"{module}.{{" in new:
                new = re.sub(rf"\b{before}\b", after, new)
            if new != old:
                with open(path, "w", encoding="utf-8") as f:
                    f.write(new)


main()
