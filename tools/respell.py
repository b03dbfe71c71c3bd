#!/usr/bin/env python3
"""Spells the repository's own names in specs/, proofs/, clauses, must-fail edits and code spans of documents as today's Rattle does.

usage: tools/respell.py              at the top, once, on what the kit's port/port.py made
       tools/respell.py --check      shows which names fall together, and writes nothing

On files with answers to goals of today it writes nothing: the goals' names, which Rattle makes, have dashes.

Words are in snake case (hasMarks and insert-all become has_marks and insert_all), types in camel case (Given-one becomes GivenOne). A name
that a file imports from the library keeps its spelling there. Functions of src/, exported C names, strings, inputs and outputs keep theirs:
they have neither dashes nor capitals inside. Names that fall together are shown: `falls:` within one file's
declarations, `hides:` where a file had both spellings before.
"""

import collections
import os
import re
import sys

WORD = re.compile(r'[^\s(){}.;,@"«»`]+')
DECLARED = re.compile(
    r'^ *(?:(?:abbrev|unfoldable|private|pub|infix\w* \d+) )*(?:(?:record|data) )?([^\s(){};:@".,]+)(?: \{[^}\n]*\}| \([^)\n]*\))* *:(?= )', re.M
)
BINDER = re.compile(r"[({]([^(){}:;]+) :(?= )")
LET = re.compile(r"\blet ([^\s(){};:,]+) (?:=|:)")
FIELD = re.compile(r"(?<=[{;]) *([^\s(){};:,.]+) =(?= )")
USE = re.compile(r"^(?:ghost )?use ([^\s{;]+)(?:\.\{([^}]*)\})?(?: as ([^\s;]+))?", re.M)
CLAUSE = re.compile(r"(?:requires|ensures)\s*\*?\s*(?:\w+\s*)?\{|ghost\s+\w+\s*:\s*\{")
SPAN = re.compile(r"(`+)([^`\n]+)\1")
# a fact is spelled as a type
NAMED = {"parsing": {"below": "IsBelow"}}
# lemmas that would get their function's name, and local names that no binder with a type declares
SPECIAL = {
    "marks-line": "marks_line_lem",
    "record-in": "record_in_lem",
    "with-round": "with_round_lem",
    "index-added": "index_added",
    "keys-limit": "keys_limit",
    "values-limit": "values_limit",
    "q-is": "q_is",
    "v-is": "v_is",
    "toldOf": "told_of",
    "lendsOf": "lends_of",
    "separatorOf": "separator_of",
    "keys-len": "keys_len",
    "values-len": "values_len",
}


def spelled(word):
    if not re.search(r"[a-zA-Z0-9][-][a-zA-Z0-9']|[a-z0-9][A-Z]|′", word):
        return word
    if not re.match(r"[A-Za-z_]", word):
        return word
    word = word.replace("′", "'")
    if word[0].isupper():
        return re.sub(r"-([a-z0-9])", lambda m: m[1].upper(), word)
    word = re.sub(r"(?<=[a-zA-Z0-9'])-(?=[a-zA-Z0-9])", "_", word)
    return re.sub(r"(?<=[a-z0-9])([A-Z])", lambda m: "_" + m[1].lower(), word)


def files():
    for folder, dirs, names in os.walk("crates"):
        dirs[:] = sorted(d for d in dirs if d != "out")
        for name in sorted(names):
            if name.endswith((".antt", ".rt", ".edit")):
                yield os.path.join(folder, name)


def read(path):
    with open(path, encoding="utf-8") as f:
        return f.read()


def code(text):
    return re.sub(r"--[^\n]*|\{-.*?-\}", "", text, flags=re.S)


def is_own(module):
    return module.startswith("Rattle.") and os.path.isdir(os.path.join("crates", module.split(".")[1]))


def foreign(text):
    """The names that a file has from elsewhere than the repository."""
    names = set()
    for module, items, _ in USE.findall(text):
        if not is_own(module):
            for item in (items or "").split(","):
                names.update(item.split(" as "))
    return {n.strip() for n in names}


def own_names(texts):
    names = collections.defaultdict(set)
    for path, text in texts.items():
        if not path.endswith(".antt"):
            continue
        plain = code(text)
        for m in DECLARED.finditer(plain):
            names[m[1]].add(path)
        for pattern in (BINDER, LET, FIELD):
            for m in pattern.finditer(plain):
                for word in m[1].split():
                    names[word].add(path)
    return names


def turned(text, table, kept, crate):
    def one(m):
        word = m[0]
        if word in kept:
            return word
        return table.get(word, word)

    named = NAMED.get(crate, {})
    return WORD.sub(lambda m: named.get(m[0], one(m)), text) if named else WORD.sub(one, text)


def clauses(text):
    """The stretches of a source file that are antt: clauses and `ghost use` items."""
    for m in re.finditer(r"ghost\s+use\b[^;]*;", text):
        yield m.start(), m.end()
    for m in CLAUSE.finditer(text):
        depth, i = 1, m.end()
        while i < len(text) and depth:
            depth += {"{": 1, "}": -1}.get(text[i], 0)
            i += 1
        yield m.end(), i


def turn_antt(text, table, kept, crate):
    out, at = [], 0
    for m in re.finditer(r"--[^\n]*|\{-.*?-\}|\"(?:[^\"\\\n]|\\.)*\"", text, re.S):
        out.append(turned(text[at : m.start()], table, kept, crate))
        piece = m[0]
        out.append(piece if piece.startswith('"') else turn_prose(piece, table))
        at = m.end()
    out.append(turned(text[at:], table, kept, crate))
    return "".join(out)


def turn_prose(text, table):
    """Turns code spans, words in camel case, and what `theorem` or `lemma` names."""
    text = SPAN.sub(lambda m: m[1] + WORD.sub(lambda w: table.get(w[0], w[0]), m[2]) + m[1], text)
    text = re.sub(r"\b((?:theorem|lemma|law)s? )([a-z][\w-]*)", lambda m: m[1] + table.get(m[2], m[2]), text)
    return WORD.sub(lambda w: table.get(w[0], w[0]) if re.search("[a-z0-9][A-Z]", w[0]) and w[0][0].islower() else w[0], text)


def turn_source(text, table, kept, crate):
    out, at = [], 0
    for a, b in sorted(clauses(text)):
        out.append(text[at:a])
        out.append(turned(text[a:b], table, kept, crate))
        at = b
    out.append(text[at:])
    return re.sub(r"//[^\n]*", lambda m: turn_prose(m[0], table), "".join(out))


def main():
    if sys.argv[1:] not in ([], ["--check"]):
        sys.exit(__doc__)
    check = sys.argv[1:] == ["--check"]
    if not check and any(p.endswith("/Answers.antt") and p.count("/") > 3 for p in files()):
        sys.exit("respell: these files have answers to goals, and were respelled before: nothing is written")
    texts = {p: read(p) for p in files()}
    declared = own_names(texts)
    table = {n: spelled(n) for n in declared if spelled(n) != n} | SPECIAL
    # an own name that the library has too, and that some file takes from there, turns only where it is not imported
    for path, text in texts.items():
        crate = path.split("/")[1]
        kept = foreign(text)
        if path.endswith(".antt"):
            new = turn_antt(text, table, kept, crate)
            words = set(WORD.findall(code(text)))
            for old in sorted(words & table.keys()):
                if table[old] in words and old not in kept:
                    print(f"hides: {path}: {old} and {table[old]}")
        elif path.endswith(".edit"):
            new = turned(text, table, set(), crate)
        else:
            new = turn_source(text, table, kept, crate)
        if new != text and not check:
            with open(path, "w", encoding="utf-8") as f:
                f.write(new)
    for path, text in texts.items():
        if path.endswith(".antt") and "/proofs/" not in path:
            names = collections.defaultdict(set)
            for m in DECLARED.finditer(code(text)):
                names[table.get(m[1], m[1])].add(m[1])
            for new, olds in names.items():
                if len(olds) > 1:
                    print(f"falls: {path}: {sorted(olds)}")
    if not check:
        for folder, _, names in os.walk("docs"):
            for name in names:
                if name.endswith(".md"):
                    turn_page(os.path.join(folder, name), table)
        turn_page("README.md", table)


def turn_page(path, table):
    text = read(path)
    new = SPAN.sub(lambda m: m[1] + WORD.sub(lambda w: table.get(w[0], w[0]), m[2]) + m[1], text)
    if new != text:
        with open(path, "w", encoding="utf-8") as f:
            f.write(new)


if __name__ == "__main__":
    main()
