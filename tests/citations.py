#!/usr/bin/env python3
"""Checks that the repository depends on nothing outside it: no tracked file, in its text or its name, cites a document
by number, an item of an outside list, or a folder of a machine. And that its own citations hold: each rule that is
cited is a heading of docs/SPECIFICATION.md; docs/CLAIMS.md cites each rule there; each relative link of a page, and
each path that a page or a comment names, leads to a file, and to a heading if it names one; only CHANGELOG.md and
docs/history/ link into docs/history/. Prints what is wrong, with file and line, and fails, or prints how many files,
citations and links it read. It first tries itself on wrong texts of each kind; `--try` does only that."""
import io
import pathlib
import re
import subprocess
import sys
import tokenize

TOP = pathlib.Path(__file__).resolve().parent.parent
RULES, CLAIMS, HISTORY, CHANGELOG = 'docs/SPECIFICATION.md', 'docs/CLAIMS.md', 'docs/history/', 'CHANGELOG.md'
UNREAD = 'crates/sessions/data/'
DATA = re.compile(r'(?:^|/)(?:stdin|stdout|args|pooled\.txt|.*\.sums|.*\.session)$')
WORKED_CASES = 12

# In the whole file, and in its name. No pattern matches itself.
ANYWHERE = {
    'a document outside': r'(?i)\bdocuments? 0\d|\b0(?:0[0-4]|[12])-[a-z]|\bp[a]pers?\b|\bb[u]yers?\b|\bm[i]ssion\b',
    'a promise by number': r'(?i)(?<![a-z])[e]ntr(?:y|ies)[\s_*-]{0,3}[123]\b(?! of (?:a|the|each) (?:table|list)\b)',
    'a folder of a machine': r'(?<![\w.*)}$])/(?:h[o]me|w[o]rk|r[o]ot|U[s]ers)/\w',
}
# In comments, strings and pages: numbers, but for decimals, dates, bytes and landings; and a letter with a number.
NUMBER = re.compile(
    r'(?<![\w/#%:+-])(?<!\d[.,])(?<!\blanding )(?<!\b\d[0-9a-f] )0(?:0[0-4]|[12])'
    r'(?![\w%/+]|[.,:]\d|-\d|\.\w| (?:\d[0-9a-f]|[0-9a-f]\d)\b)'
)
ITEM = re.compile(r'(?<![\w.+%&])(?<!\s-)[EWCSPRXFAM]\d{1,2}[a-d]?(?![A-Za-z0-9(\[]|\.\w|-[a-z0-9])')
# In the name of a file: such a number at its start, or such an item that is no word of the rules Store and Bit.
NAME = re.compile(r'(?:(?:^|/)0(?:0[0-4]|[12])|(?:^|[/_-])(?!s[123]|m1[23])(?i:[ewcspxfam]\d{1,2}[a-d]?))(?=[_.-]|$)')
# In data, where many numbers stand alone: a number behind a word that leads to a document, or in brackets.
DATA_NUMBER = re.compile(r'(?i)\b(?:in|by|of|as|from|see|to|after) 0(?:0[0-4]|[12])\b|\(0(?:0[0-4]|[12])\b')
# A citation names a rule, or more: `Bits; Carry rounds; Below`.
CITES = 'Specificatio[n]: '
END = r'[^.,;)\n]*(?=[.,;)]|$)'
CITED = re.compile(rf'{CITES}(?=\S)({END})((?:; (?!{CITES})[A-Z]{END})*)', re.M)
CITED_AS = CITES.replace('[n]', 'n')
LOOSE = re.compile(r'(?i)\bspecificatio[n]\s*:')
CASE = re.compile(r'(?i)\bworked (?:case (\d+)|cases (\d+) (?:to|and) (\d+))')
LINK = re.compile(
    r'(?<!\\)\]\(\s*<?([^)\s>]+)>?(?:\s+"[^"]*")?\s*\)|<(?:img|a)\b[^>]*?(?:src|href)="([^"]+)"|^\[[^\]]+\]:\s*(\S+)',
    re.M,
)
PATH = re.compile(r'`((?:bench|crates|docs|examples|include|tests|tools|\.ci)/[\w./-]+)`')
PATH_IN_CODE = re.compile(r'(?<![\w/.])((?:bench|docs|examples|include|tests|tools)/[\w./-]*\.(?:md|svg|py|sh|rs|c|h))\b')
NOTES = (CHANGELOG, 'docs/landings/')  # they name files of their own time
FENCED = re.compile(r'^(```|~~~).*?^\1', re.M | re.S)
# Comments and strings. Characters too, so that a quotation mark in one opens no string.
C_LIKE = re.compile(r'"(?:\\.|[^"\\])*"|//[^\n]*|/\*.*?\*/|\'(?:\\.|[^\'\\\n])\'', re.S)
ANTT = re.compile(r'"(?:\\.|[^"\\\n])*"|--[^\n]*')
EDIT = re.compile(r'"(?:\\.|[^"\\\n])*"|(?://|--)[^\n]*')
SHELL = re.compile(r'(?:^|(?<=\s))#[^\n]*|"(?:\\.|[^"\\])*"', re.M)
PROSE = {'.rt': C_LIKE, '.rs': C_LIKE, '.c': C_LIKE, '.h': C_LIKE, '.antt': ANTT, '.edit': EDIT, '.sh': SHELL}
CODE = (*PROSE, '.py')


def line_of(text, at):
    return text.count('\n', 0, at) + 1


def blank(text):
    """Spaces in place of all but the line ends, so that what stands behind keeps its position."""
    return re.sub(r'[^\n]', ' ', text)


def without(pattern, text):
    return re.sub(pattern, lambda found: blank(found.group()), text)


def only(text, spans):
    out, at = [], 0
    for start, end in (*spans, (len(text), len(text))):
        out += [blank(text[at:start]), text[start:end]]
        at = end
    return ''.join(out)


def spans_of_python(text):
    starts = [0]
    for line in text.split('\n'):
        starts.append(starts[-1] + len(line) + 1)
    for token in tokenize.generate_tokens(io.StringIO(text).readline):
        if token.type in (tokenize.COMMENT, tokenize.STRING):
            yield tuple(starts[line - 1] + column for line, column in (token.start, token.end))


def prose_of(path, text):
    """Comments and strings of code, words of pages and pictures, all of data; the rest is blank."""
    suffix = pathlib.Path(path).suffix
    if suffix == '.py':
        return only(text, spans_of_python(text))
    if suffix in PROSE or path == 'crates.txt' or text.startswith('#!'):
        return only(text, (found.span() for found in PROSE.get(suffix, SHELL).finditer(text)))
    if suffix == '.md':
        return without(r'`[^`\n]*`|\]\([^)\n]*\)', without(FENCED, text))
    if suffix == '.svg':
        return without(re.compile(r'<style>.*?</style>|<[^!][^>]*>', re.S), text)
    return text


def is_own(text, at, word):
    """Whether a letter with a number is a constant parameter, a mask of the rule Bits, or a standard of C."""
    near = '\n'.join(text.split('\n')[max(0, line_of(text, at) - 3) : line_of(text, at) + 2])
    if word in ('R2', 'R3') and re.search(r'\br2\b|\bxor\b|⊕|\bv and\b|\bbar', near):
        return True
    if word in ('C89', 'C90', 'C99', 'C17', 'C23') or word == 'C11' and re.search(r'C99|C17|C23|C\+\+', near):
        return True
    return re.search(rf'\bconst {word}: usize', text) is not None


def outside(path, text):
    """What the file cites from outside, with lines."""
    for what, pattern in ANYWHERE.items():
        for found in re.finditer(pattern, text):
            yield line_of(text, found.start()), f'{what}: {found.group()!r}'
    prose = prose_of(path, text)
    is_shell = path.endswith('.sh') or text.startswith('#!/bin/sh')
    for found in DATA_NUMBER.finditer(text) if DATA.search(path) else NUMBER.finditer(text if is_shell else prose):
        if text[found.start() - 1 : found.end() + 1] != f'"{found.group()}"':
            yield line_of(text, found.start()), f'a document by number: {found.group()!r}'
    # Names in code too, and in the code of pages.
    for found in ITEM.finditer(text if path.endswith((*CODE, '.md')) else prose):
        if not is_own(text, found.start(), found.group()):
            yield line_of(text, found.start()), f'an item of an outside list: {found.group()!r}'


def outside_in_name(path):
    """What the name of a file cites from outside."""
    for what, pattern in ANYWHERE.items():
        if found := re.search(pattern, re.sub(r'[_./]', ' ', path)):
            yield 0, f'{what}, in the name of the file: {found.group()!r}'
    if found := NAME.search(path):
        yield 0, f'a document or an item by number, in the name of the file: {found.group()!r}'


def citations(text, rules):
    """The rules and worked cases that a text cites, with lines, and whether they exist."""
    for found in re.finditer(CITES, text):
        cited = CITED.match(text, found.start())
        names = [cited[1], *cited[2].split('; ')[1:]] if cited else [text[found.end() :].split('\n')[0]]
        for name in names:
            yield line_of(text, found.start()), name, name in rules
    for found in LOOSE.finditer(text):
        if not text.startswith(CITED_AS, found.start()):
            yield line_of(text, found.start()), found.group(), False
    for found in CASE.finditer(text):
        there = all(1 <= int(number) <= WORKED_CASES for number in found.groups() if number)
        yield line_of(text, found.start()), found.group(), there


def headings(text):
    """The level and the words of each heading."""
    found = re.findall(r'^(#+) +(.+?) *#*$', without(FENCED, text), re.M)
    return [(len(marks), words) for marks, words in found]


def anchors(text):
    """The names by which links call the headings."""
    names = set(re.findall(r'<a (?:id|name)="([^"]+)"', text))
    for _, words in headings(text):
        words = re.sub(r'\[([^\]]*)\]\([^)]*\)', r'\1', words).lower()
        name = once = re.sub(r'[^\w\- ]', '', words).replace(' ', '-')
        number = 0
        while name in names:
            number += 1
            name = f'{once}-{number}'
        names.add(name)
    return names


def wrong_link(target, path, text, read):
    """What is wrong with a relative link, or None."""
    name, _, anchor = target.partition('#')
    file = ((TOP / path).parent / name).resolve() if name else None
    relative = file.relative_to(TOP).as_posix() if file and file.is_relative_to(TOP) else path
    if f'{relative}/'.startswith(HISTORY) and path != CHANGELOG and not path.startswith(HISTORY):
        return f'a link into {HISTORY}: {target}'
    if file and not (file.is_relative_to(TOP) and file.exists()):
        return f'a link to no file: {target}'
    if anchor and relative.endswith('.md') and anchor not in anchors(read(relative) if file else text):
        return f'a link to no heading: {target}'
    return None


def links(path, text, read):
    """The links and paths of a page, with lines, and what is wrong with each; of other files, files of
    docs/history/."""
    if not path.endswith('.md'):
        for found in re.finditer(rf'{HISTORY}\w', text):
            yield line_of(text, found.start()), f'a file of {HISTORY}'
        for found in PATH_IN_CODE.finditer(prose_of(path, text)):
            wrong = None if (TOP / found[1]).exists() else f'a path to no file: {found[1]}'
            yield line_of(text, found.start()), wrong
        return
    for found in LINK.finditer(without(r'`[^`\n]*`(?!\])', without(FENCED, text))):
        target = next(filter(None, found.groups()))
        if not re.match(r'[a-z][a-z0-9+.-]*:', target):
            yield line_of(text, found.start()), wrong_link(target, path, text, read)
    for found in () if path.startswith(NOTES) else PATH.finditer(without(FENCED, text)):
        wrong = None if (TOP / found[1]).exists() else f'a path to no file: {found[1]}'
        yield line_of(text, found.start()), wrong


def uncited(rules, claims):
    """The rules that the page of claims does not cite."""
    named = {name for _, name, _ in citations(claims, rules)}
    linked = set(re.findall(r'\]\(SPECIFICATION\.md#([\w-]+)\)', claims))
    return [rule for rule in rules if rule not in named and not anchors(f'### {rule}') & linked]


def check(path, text, rules, read):
    """What is wrong in a file, with lines; how many citations and links it has."""
    cited, linked = list(citations(text, rules)), list(links(path, text, read))
    wrong = [*outside_in_name(path), *outside(path, text), *(link for link in linked if link[1])]
    wrong += [(line, f'a citation of no rule: {name!r}') for line, name, there in cited if not there]
    return sorted(wrong), len(cited), len(linked)


# Of each kind wrong texts, with the kind of file; and right ones. `~` is taken out, so that this file has none of them.
WRONG = {
    'a document by number': [
        *(('md', f'it is {cited}') for cited in ('(0~1)', 'in 0~1', "0~1's", "'0~1'", '0~2,', 'from 0~1 on', '0~1.')),
        ('md', "it is (0~1: 'a')"),
        *(('stdout', 'case 3, by 0~1, store'), ('stdout', '(0~0~1) ok'), ('sh', 'echo as 0~1 says')),
        *(('md', f'it is {cited}') for cited in ('(0~0~0, line 2)', '(0~0~1)', '0~0~1, 0~0~2 and', '0~0~3;')),
        *(('rt', '// (0~0~1)'), ('antt', '-- 0~1, "Steps"'), ('sh', "# by 0~1's steps"), ('c', '/* 0~0~2 has it */')),
        *(('py', 'x = "in 0~1"'), ('py', '"""As 0~1 says."""'), ('rs', 'panic!("not as 0~1 says")')),
        *(('svg', '<text x="1">see 0~1</text>'), ('edit', 'old: // as in 0~1'), ('h', '// in 0~1')),
    ],
    'a document outside': [
        *(('md', 'the D~ocument 0~1'), ('md', 'the pap~er says'), ('rs', 'fn pap~ers() {}'), ('antt', 'for the buy~er')),
        *(('py', 'miss~ion = 1'), ('md', 'in `0~1-scope.md`')),
    ],
    'a promise by number': [
        *(('md', 'the en~try 3'), ('antt', 'pub record Ent~ry3'), ('rt', 'fn en~try1() {}'), ('rs', 'fn en~try_1() {}')),
        *(('md', 'the en~try\n2'), ('md', 'by en~try-1'), ('md', 'by en~tries 1 and 3')),
    ],
    'an item of an outside list': [
        *(('md', f'as {item} asks') for item in ('E~1a', 'W~5', 'C~13', 'S~4', 'P~7', 'R~4', 'M~12', 'X~1', 'F~10')),
        *(('md', 'R~2, A~3'), ('md', 'M~1-M~4'), ('md', '| M~7 |'), ('md', '`E~1a`'), ('antt', '-- (M~7)')),
        ('stdout', 'M~1 store'),
        *(('antt', 'pub M~7 : a -- M~7'), ('rt', 'fn f() {} // by fn M~7')),
        *(('rs', 'assert!(true, "M~7: sum");'), ('rt', 'let M~7_sum = 0;'), ('antt', '  pub M~11_less : 1')),
    ],
    'a folder of a machine': [('sh', 'cd /ho~me/someone'), ('md', 'in /wo~rk/main')],
    'a citation of no rule': [
        *(('rt', f'// Specification~: {name}') for name in ('Multiplying.', 'multiply', 'Multiply rule', 'Multiply: so')),
        *(('rt', f'// Specification~: {name}') for name in ('Table of', 'Multiply; Nothing.', 'Bits; Specification~: None.')),
        ('rt', '// specification~: Bits.'), ('rt', '// Specification~:Bits.'), ('rt', '// Specification~:\n// Bits.'),
        *(('md', 'worked c~ase 13'), ('md', 'worked c~ases 1 to 14')),
    ],
    'a link to no file': [
        *(('md', '[a](NO.md)'), ('md', '<img src="docs/~no.svg">'), ('md', '[a]: docs/~no.svg'), ('md', '[a](../x)')),
    ],
    'a path to no file': [('md', 'see `tests/~none.py`'), ('rt', '// See docs/~NONE.md.')],
    'a link to no heading': [('md', '[a](README.md#none)'), ('md', '# A\n[a](#b)')],
    'a link into': [('md', '[a](docs/history/)'), ('md', '[a](docs/history)')],
    'a file of': [('sh', '# see docs/history/~README.md')],
}
RIGHT = [
    ('md', '0.01, 1,001, 4,000, 2026-01-02, 12:01, `0~1`, both_01_02, 90 bytes, 0, -1, 07 0~1 00'),
    ('md', 'transmission, permission, wallpaper, report T-4-10, entries 10, UTF-8, x86-64, 32-bit, in C99 and C11'),
    ('c', 'printf("%02x", 1); // 02_words, 10 and 0'),
    ('rs', 'fn f<const R~4: usize>() {} // R~4 words; 0..4'),
    ('antt', '-- draws r, r2, R2; R3 = r xor R2'),
    ('py', 'x = "0~1"'),
    ('stdout', '1 2 0~1 0~0~2'),
    ('svg', '<path d="M~12 3"/>'),
    ('sh', 'target/bin/pool < /dev/full; ls target/shared/x'),
    *(('rt', f'// (Specification~: {names}') for names in ('Multiply)', 'Shared and.', 'Multiply, which', 'Words and shares')),
    *(('rt', f'// (Specification~: {names}') for names in ('Bits; Carry rounds.', 'Bit; Specification~: Bits.', 'Bit; report')),
    ('rt', '// worked c~ase 12, worked c~ases 1 to 4, worked c~ases 331'),
    ('md', '[a](README.md), [b](https://a.org/x.md), [c](docs/), `tests/claims.py`, `crates/*/src`, `target/x`'),
    ('md', '```\n[a](NO.md) 0~1\n```'),
    ('md', '# A\n[a](#a)'),
]


def try_itself(rules, read):
    """Each wrong text is refused for what is wrong with it, and no right text is refused."""
    tried = [(due, *case) for due, cases in WRONG.items() for case in cases] + [('', *case) for case in RIGHT]
    for due, kind, text in tried:
        path, text = kind if kind == 'stdout' else f'scratch.{kind}', text.replace('~', '')
        said = [what for _, what in check(path, text, rules, read)[0]]
        if not any(what.startswith(due) for what in said) if due else said:
            sys.exit(f'citations: a try, {text!r} in {path}: {said}')
    for name in ('W~5_gone.edit', 'docs/0~1-scope.md', 'E~1a.py', 'data/m~10_65536', 'test_e~1a.py', 'pap~er.md'):
        if not any(outside_in_name(name.replace('~', ''))):
            sys.exit(f'citations: a try, the name {name!r}')
    claims = 'Specification~: Below. [x](SPECIFICATION.md#carry-rounds)'.replace('~', '')
    if uncited(['Below', 'Bits', 'Carry rounds'], claims) != ['Bits']:
        sys.exit('citations: a try, rules that the claims do not cite')
    return f'{len(tried) - len(RIGHT)} wrong texts refused, {len(RIGHT)} right ones not'


def tracked():
    listed = subprocess.run(['git', 'ls-files', '-z'], cwd=TOP, capture_output=True, check=True).stdout.decode()
    for path in filter(None, listed.split('\0')):
        if (TOP / path).is_file() and (path == f'{HISTORY}README.md' or not path.startswith(HISTORY)):
            yield path


def main():
    texts = {}

    def read(path):
        if path not in texts:
            texts[path] = (TOP / path).read_text(encoding='utf8', errors='replace')
        return texts[path]

    levels = headings(read(RULES))
    rules = {words for level, words in levels if level in (2, 3)}
    tried = try_itself(rules, read)
    if sys.argv[1:] == ['--try']:
        return print(tried)
    files = cited = linked = failed = 0
    for path in tracked():
        text = read(path)
        if path.startswith(UNREAD) or '\0' in text:
            for _, what in outside_in_name(path):
                print(f'{path}: {what}')
                failed += 1
            continue
        wrong, more_cited, more_linked = check(path, text, rules, read)
        files, cited, linked, failed = files + 1, cited + more_cited, linked + more_linked, failed + len(wrong)
        for line, what in wrong:
            print(f'{path}:{line}: {what}')
    for rule in uncited([words for level, words in levels if level == 3], read(CLAIMS)):
        print(f'{CLAIMS}: the rule {rule!r} is not cited')
        failed += 1
    if failed:
        sys.exit(f'citations: {failed} wrong')
    print(f'{files} files, {cited} citations of {len(rules)} rules, {linked} links; {tried}')


if __name__ == '__main__':
    main()
