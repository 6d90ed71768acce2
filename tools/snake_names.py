#!/usr/bin/env python3
"""Spells this repository's own definitions, lemmas and fields in snake case, as today's Rattle does: eqAid to eq_aid, aid-held to aid_held.

usage: python3 tools/snake_names.py [--show]    at the top, once, after port.py of the kit

A name counts if specs/ or proofs/ declare it. Names of the kit, names that Rattle makes for a proof (those of a type `tie.X`, and the specs
of functions), and types, which keep their capitals, stay. Where two names fall together, the lemma, which had dashes, takes `_lem`; LEMMAS
lists those that port.py had given underscores. --show prints the table and writes nothing.
"""

import collections
import glob
import re
import sys

WORD = re.compile(r'[^\s(){}.;,@"«»⟨⟩]+')
DECLARED = re.compile(r'(?m)^[ \t]*(?:(?:pattern|unfoldable|abbrev|pub)\s+)*([^\s(){}.;,@"«»:][^(){}.;,@"«»:\n]*?)(?:\s*\{[^}\n]*\})?\s+:\s+(\S*)')
RULESET = re.compile(r"(?m)^[ \t]*(?:pub\s+)?ruleset\s+(\S+)\s*=")
IMPORT = re.compile(r"use ([^\s{;]+)\.\{([^}]*)\}")
# lemmas whose dashes port.py had turned, and which a definition's name in snake case would meet
LEMMAS = set("""in_order left_one left_over line_ok not_own of_other placed_one read_number room_after rows_fit same_set taken_in turn_by waits_in""".split())
# dashed names of fields alone, which meet no definition, since a field stands behind a dot
FIELDS = set("needs-called new-tok off-card unmet-fit unmet-fits waiting-fit".split())
# names of a field in some files and of a lemma in these, and in those that import it from these
BOTH = {
    "aid-blank": ["soundness/proofs/Checked"],
    "aid-in": ["geometry/proofs/Bounds", "soundness/proofs/Checked"],
    "calls-granted": ["policy/proofs/LawfulCard"],
    "in_order": ["packages/proofs/Loaded/Written"],
    "own-aid": ["services/proofs/Added/Plan"],
    "prov-used": ["soundness/proofs/Checked"],
    "rows_fit": ["changes/proofs/ListRoom", "soundness/proofs/Checked"],
    "tok-blank": ["policy/proofs/KindRemoveService", "soundness/proofs/Checked"],
    "waiting-fits": ["policy/proofs/ShortRemove"],
}
# functions into Type, which are types
TYPES = {"calls_of": "CallsOf", "grantsOf": "GrantsOf", "callsOn": "CallsOn", "grantsTo": "GrantsTo", "grantsBy": "GrantsBy", "okRow": "OkRow"}


def bare(text):
    return re.sub(r"--[^\n]*", "", text)


def snake(name):
    return re.sub(r"([a-z0-9])([A-Z])", lambda m: m[1] + "_" + m[2].lower(), name).replace("-", "_")


def is_type(name):
    return re.fullmatch(r"[A-Z][A-Za-z0-9]*", name) is not None


def main():
    crates = [l.split(":")[0] for l in open("crates.txt") if ":" in l and not l.startswith("#")]
    files = sorted(f for c in crates for kind in ("specs/**/*.antt", "proofs/**/*.antt", "src/**/*.rt") for f in glob.glob(f"crates/{c}/{kind}", recursive=True))
    texts = {f: open(f, encoding="utf-8").read() for f in files}
    own, theirs = collections.defaultdict(set), collections.defaultdict(set)
    for f, text in texts.items():
        text = bare(text) if f.endswith(".antt") else text
        for path, items in IMPORT.findall(text):
            mine = any(path.startswith(f"Rattle.{c}.") for c in crates)
            for item in items.split(","):
                words = item.split()
                if not words:
                    continue
                if mine:
                    own[words[0]].add(f)
                    own[words[-1]].add(f)
                else:
                    theirs[words[0]].add(f)
                    if len(words) == 1:
                        theirs[words[0]].add(f)
                    else:
                        own[words[-1]].add(f)
    declared = collections.defaultdict(set)
    for f, text in texts.items():
        if not f.endswith(".antt"):
            continue
        proof = f.endswith(("/Proof.antt", "/Answers.antt", "/Invariants.antt"))
        for names, kind in DECLARED.findall(bare(text)):
            if proof and kind.startswith(("tie.", "goal.")):
                continue
            for name in names.split():
                if proof and name.endswith(("-spec", "_spec")):
                    continue
                if WORD.fullmatch(name) and re.search(r"[A-Za-z]", name) and not re.search(r"[→=λ◌]", name.replace("→", "") if re.fullmatch(r"\w+→\w*|[\w-]+→[\w-]*", name) else name):
                    declared[name].add(f)
        for name in RULESET.findall(bare(text)):
            declared[name].add(f)
    table = {}
    for name in declared:
        if name in TYPES:
            table[name] = TYPES[name]
        elif name in LEMMAS:
            table[name] = name + "_lem"
        elif not is_type(name):
            table[name] = snake(name)
    targets = collections.defaultdict(set)
    for name, new in table.items():
        targets[new].add(name)
    for new, names in targets.items():
        if len(names) > 1:
            for name in names:
                if "-" in name and name not in FIELDS:
                    table[name] = new + "_lem"
    # the kit's own
    table["bit-or"], table["bit-and"] = "bit_or_lem", "bit_and_lem"
    targets = collections.defaultdict(set)
    for name, new in table.items():
        targets[new].add(name)
    for new, names in sorted(targets.items()):
        if len(names) > 1 and not names & FIELDS:
            print("together:", new, sorted(names))
    table = {a: b for a, b in table.items() if a != b}
    if "--show" in sys.argv:
        for a, b in sorted(table.items()):
            print(a, b, sep="\t")
        return
    words = 0
    for f, text in texts.items():
        # a name that this file takes from the kit is the kit's
        kept = {n for n in table if f in theirs.get(n, ()) and f not in declared.get(n, ())}
        # and a name of BOTH is the lemma's only where it stands for the lemma
        lemmas = {n for n, at in BOTH.items() if any(f == f"crates/{a}.antt" or re.search(rf"use Rattle\.{a.replace('/', '.')}\.{{[^}}]*(?<![^\s{{,]){re.escape(n)}(?![^\s,}}])", text) for a in at)}

        def turn(m):
            name = m[0]
            if name not in table or name in kept or (f.endswith(".rt") and not re.search("[-A-Z]", name)):
                return name
            if name in BOTH:
                before, after = m.string[: m.start()], m.string[m.end():]
                if name not in lemmas or before.endswith(".") or (re.search(r"[{;]\s*$", before if before.strip() else last) and re.match(r"\s*=", after)):
                    return snake(name)
            return table[name]

        lines = text.split("\n")
        last = ""
        for k, line in enumerate(lines):
            mark = "--" if f.endswith(".antt") else "//"
            at = re.search(rf"(?<!\S){mark}", line)
            code, comment = (line[: at.start()], line[at.start():]) if at else (line, "")
            theirs_here = re.match(r"\s*(?:pub |ghost )*use ([^\s{;]+)", code)
            if theirs_here and not any(theirs_here[1].startswith(f"Rattle.{c}.") for c in crates):
                # only the new name of an 'as' may turn
                code = re.sub(r" as ([^\s,}]+)", lambda m: " as " + (table.get(m[1], m[1]) if m[1] not in kept else m[1]), code)
            else:
                code = WORD.sub(turn, code)
            comment = re.sub(r"[A-Za-z0-9]+", lambda m: table[m[0]] if m[0] in table and re.search("[a-z][A-Z]", m[0]) else m[0], comment)
            comment = re.sub(r"`([^`\s]+)`", lambda m: "`" + table.get(m[1], m[1]) + "`", comment)
            lines[k] = code + comment
            last = code if code.strip() else last
        new = "\n".join(lines)
        if new != text:
            words += 1
            open(f, "w", encoding="utf-8").write(new)
    print(f"{len(table)} names, {words} files")


main()
