#!/usr/bin/env python3
"""Brings the repository's own antt names to the library's spelling; run once, after the kit's port.py.

usage: python3 tools/respell.py [--check]

Definitions, fields, constructors and lemmas are in snake case. A dash stays where it joins the names of two definitions, as in
length-put; a plain word is joined by an underscore, as in commands_end. Types, facts and Rust's names stay. Turned are the .antt files,
the clauses of the .rt files, the must-fail edits and the code spans of the pages. Names that fall together are printed, and then nothing
is written.
"""

import collections
import glob
import re
import sys

WORD = re.compile(r'[^\s(){}.;,@"«»`\[\]]+')
DECLARED = re.compile(r"(?m)^ *(?:(?:abbrev|unfoldable|pub) )*([^\s:(){}\[\]=λ→,;.]+)(?: \{[^{}\n]*\})* :(?= |$)")
INFIX = re.compile(r"^◌(.+)◌$")

# Names of the library that a lemma's name may cite beside the repository's own.
LIBRARY = set(
    "length take drop append set sets map replicate get_or sum suc add mul sub mod pow min xor and or shr shl lt le nat_le nat_lt cond".split()
)

# The library's older words inside a name.
OLDER = {"getD": "get_or", "leb": "nat_le", "ltb": "nat_lt", "eqb": "nat_eq"}

# Names that would meet another one: a constructor and the definition of the number 12, a definition and a local fact, two lemmas and
# the definitions beside them; and one that is the library's too.
CHOSEN = {
    "tape-spent": "spent_tape",
    "isOpen": "is_opened",
    "spread-in": "spread_in_lem",
    "table-size": "table_size_lem",
    "and-false": "and-false",
}

# The Prelude's names of the tests, which specs/ and the clauses take from there.
TESTS = {"eqb": "nat_eq", "leb": "nat_le", "ltb": "nat_lt"}

# What port.py turned of the repository's own names and of the library's, for the edits and the pages, which it leaves.
TURNED = {name: re.sub(r"(?<=[a-z])([A-Z])", lambda m: "_" + m[1].lower(), name) for name in (
    "andThen bitAt bitsAt bitXor bitAnd bitOr countOf endOf inWord isWhole lastOf linesFrom ofBits oneWord openLines runOf startOf stateOf"
    " sumOf textOf upTo valueOf withWords wordAt wordsOf"
).split()} | {name: name.replace("-", "_") for name in (
    "above-zero add-at add-done add-r after-first after-one all-done all-hold all-ones all-words and-assoc and-one and-then and-xor"
    " are-words at-code at-words back-to below-or below-put below-row bit-high bit-kept bit-up block-same body-below by-bit by-chain by-code"
    " by-le by-number by-place by-row by-tests choose-word code-of count-next differ-comm digit-lt digits-are drop-block eqb-same every-one"
    " every-true few-words field-fits first-part first-word from-next from-start goes-on half-lt has-room held-same is-open is-word"
    " joined-words kept-by kinds-kept leaves-at leaves-by left-after lengths-differ lent-nothing lent-one lines-end lines-other list-full"
    " listed-same mul-words named-start near-same new-word no-code no-header no-kind no-lines no-more no-run no-words none-before none-more"
    " not-beyond not-opened nothing-left of-pair one-kept one-more one-or-zero one-value one-way one-word or-above own-same passed-is"
    " perform-agree product-is product-lt put-one put-rest put-then run-by run-end run-sound same-at same-left same-length same-number"
    " same-place same-size second-word sets-behind sets-end shifted-row shifted-sum shown-by shr-split source-clear source-first source-is"
    " start-left step-by step-left stored-same sub-read sum-is sum-lt sum-r sum-row sums-next sums-none take-next take-part take-past"
    " then-spent to-back too-short turned-down up-lt value-same with-value word-lt words-append words-left words-same words-take wrong-start"
    " xor-assoc xor-masked xor-same"
).split()} | {"getD": "get_or", "leb": "nat_le", "ltb": "nat_lt", "eqb": "nat_eq", "getD-take": "get_or-take"}


def texts(pattern):
    for path in sorted(glob.glob(pattern, recursive=True)):
        if "/out/" not in path:
            with open(path, encoding="utf-8") as f:
                yield path, f.read()


def is_walk(path):
    return path.endswith("/Proof.antt")


def snake(name):
    for old, new in OLDER.items():
        name = re.sub(rf"(?<![A-Za-z]){old}(?![A-Za-z])", new, name)
    name = re.sub(r"(?<=[a-z0-9₀-₉])([A-Z])", lambda m: "_" + m[1].lower(), name)
    return re.sub(r"(?<=_[a-z])([A-Z])(?=[a-z])", lambda m: "_" + m[1].lower(), name)


def whole(name):
    return snake(name).replace("-", "_")


def lemma(name, known):
    """A dash stays between two names of definitions, the longest that fit."""
    parts = [snake(p) for p in name.split("-")]
    names, k = [], 0
    while k < len(parts):
        for n in range(len(parts) - k, 0, -1):
            word = "_".join(parts[k : k + n])
            if n == 1 or word in known:
                names.append(word)
                k += n
                break
    text = names[0]
    for left, right in zip(names, names[1:]):
        text += ("-" if left in known and right in known else "_") + right
    return text


def table():
    in_specs, in_proofs = set(), set()
    for path, text in texts("crates/*/**/*.antt"):
        code = re.sub(r"--[^\n]*", "", text)
        names = set(DECLARED.findall(code))
        if "/specs/" in path:
            in_specs |= names
        elif not is_walk(path):
            in_proofs |= names
    known = {whole(n) for n in in_specs if not n[0].isupper()} | LIBRARY
    rows = {}
    for name in sorted(in_specs | in_proofs):
        infix = INFIX.match(name)
        if infix:
            rows[name] = f"◌{whole(infix[1])}◌"
            rows[infix[1]] = whole(infix[1])
        elif name[0].isupper() and "-" not in name:
            continue
        elif name[0].isupper():
            rows[name] = name.replace("-", "_")
        elif name in in_specs:
            rows[name] = whole(name)
        else:
            rows[name] = lemma(name, known)
    rows.update(CHOSEN)
    definitions = {rows.get(n, n) for n in in_specs}
    for name in in_proofs - in_specs:
        if rows.get(name) in definitions:
            rows[name] += "_lem"
    return {old: new for old, new in rows.items() if old != new}


def turned(text, rows, path, spans=False):
    if "/must-fail/" in path:
        rows = rows | TURNED
    if "/specs/" in path or "/src/" in path:
        rows = rows | TESTS

    def word(m):
        return rows.get(m[0], m[0])

    if spans:
        more = rows | TURNED
        return re.sub(r"`[^`\n]+`", lambda s: WORD.sub(lambda m: more.get(m[0], m[0]), s[0]), text)
    return WORD.sub(word, text)


def meetings(rows):
    """Names that fall together: two old ones, or an old one with a word of a file that has it."""
    back = collections.defaultdict(set)
    for old, new in rows.items():
        back[new].add(old)
    for new, olds in back.items():
        if len(olds) > 1:
            yield f"{new}: {', '.join(sorted(olds))}"
    for path, text in texts("crates/*/**/*.antt"):
        code = re.sub(r"--[^\n]*", "", text)
        for module, items in re.findall(r"(?m)^ *(?:pub )?use ([^\s;{]+)\{([^}]*)\}", code):
            if not re.match(r"Rattle\.(?!std\.)", module):
                for old in set(WORD.findall(items)) & set(rows):
                    yield f"{path}: {old} is the library's"
        words = set(WORD.findall(code))
        for old in words & set(rows):
            if rows[old] in words and not is_walk(path):
                yield f"{path}: {old} and {rows[old]}"


def main():
    rows = table()
    met = list(meetings(rows))
    for line in met:
        print(line)
    if "--check" in sys.argv[1:]:
        for old, new in sorted(rows.items()):
            print(old, new, sep="\t")
    if met or "--check" in sys.argv[1:]:
        raise SystemExit(bool(met))
    count = 0
    for pattern, spans in [
        ("crates/*/**/*.antt", False),
        ("crates/*/src/*.rt", False),
        ("crates/*/must-fail/*.edit", False),
        ("docs/**/*.md", True),
        ("*.md", True),
    ]:
        for path, text in texts(pattern):
            new = turned(text, rows, path, spans)
            if new != text:
                count += 1
                with open(path, "w", encoding="utf-8") as f:
                    f.write(new)
    print(f"{len(rows)} names, {count} files")


main()
