#!/usr/bin/env python3
"""Checks that each claim of specs/ is the contract of a function of src/promises.rt, and that each of these functions
promises a claim, so that none is lost. And that the claims say what was agreed: tests/claims.sums has a checksum of
each file that states a claim, or one of the definitions that claims are made of, so that a new premise is seen. Prints
what is missing and fails, or prints how many claims there are. `--agree` writes the checksums anew: only for someone
who has read what the changed files claim."""
import hashlib
import pathlib
import re
import sys

CRATES = ['protocols', 'machine', 'session']
TOP = pathlib.Path(__file__).resolve().parent.parent / 'crates'
SUMS = pathlib.Path(__file__).resolve().parent / 'claims.sums'
# The definitions that claims are made of, besides those of the engine, which contracts equate with the code.
PARTS = [
    'protocols/specs/Shares.antt', 'protocols/specs/Blind.antt', 'protocols/specs/Contents.antt',
    'protocols/specs/Counts.antt', 'protocols/specs/Parties.antt', 'protocols/specs/Own.antt',
    'protocols/specs/Alone.antt', 'machine/specs/Lent.antt', 'machine/specs/Pairing.antt',
    'machine/specs/Records.antt', 'machine/specs/Refusals.antt', 'session/specs/Refusals.antt',
    'pool/specs/Arguments.antt',
]
MARKER = re.compile(r'\s*-- promised by `(\w+)`: \S')
STATEMENT = re.compile(r'\s*(?:pub record|pub data|(?:abbrev|unfoldable) pub) (\S+)')


def without_comments(text, sign):
    return re.sub(re.escape(sign) + r'.*', '', text)


def claims_of(path, say):
    """The claims of a file of specs/: the function that has to promise each, and the name of its statement."""
    lines, claims = path.read_text(encoding='utf8').split('\n'), []
    for at, line in enumerate(lines):
        marker = MARKER.match(line)
        if not marker:
            if 'promised by `' in line:
                form = '``-- promised by `NAME`: `` and words, at the line\'s start'
                say(f'{path.name}, line {at + 1}: a marker is written {form}')
            continue
        below = at + 1
        while lines[below].lstrip().startswith('--') and not MARKER.match(lines[below]):
            below += 1
        statement = STATEMENT.match(lines[below])
        if statement and statement.group(1)[0].isupper():
            claims.append((marker.group(1), statement.group(1)))
        else:
            say(f'{path.name}, line {at + 1}: no statement stands directly below the marker of `{marker.group(1)}`')
    return claims


def braced(text, at):
    """Where the brace that opens here is closed."""
    depth = 0
    for i in range(at, len(text)):
        depth += (text[i] == '{') - (text[i] == '}')
        if depth == 0:
            return i
    return len(text)


def promises_of(text):
    """The public functions: parameters, clauses (each with its keyword) and body."""
    found = {}
    for head in re.finditer(r'\bpub fn (\w+)[^(]*\(([^)]*)\)', text):
        at, clauses = head.end(), []
        while clause := re.compile(r'\s*(\w+\*?)(?: \w+)?(?=\s*\{)').match(text, at):
            opens = text.index('{', clause.end())
            at = braced(text, opens) + 1
            clauses.append((clause.group(1), text[opens + 1:at - 1]))
        opens = text.find('{', at)
        parameters, body = text[head.start(2):head.end(2)].strip(), text[opens + 1:braced(text, opens)].strip()
        found[head.group(1)] = parameters, clauses, body, text[at:opens].strip()
    return found


def names(text, name):
    return re.search(r"(?<![\w'-])" + re.escape(name) + r"(?![\w'-])", text) is not None


def check_promise(name, statement, promise, say):
    parameters, clauses, body, between = promise
    if parameters:
        say(f'`{name}` takes a parameter')
    if body or between:
        say(f'`{name}` has a result or a body that is not empty')
    if any(word != 'ensures' for word, _ in clauses):
        say(f'`{name}` has a clause that is no `ensures`')
    if not any(names(text, statement) for word, text in clauses if word == 'ensures'):
        say(f'no `ensures` of `{name}` names `{statement}`, the statement below its marker')


def check_cited(path, marked, say):
    """Each statement without a marker has to be part of another one."""
    text = without_comments(path.read_text(encoding='utf8'), '--')
    starts = [m for m in re.finditer(r'^' + STATEMENT.pattern, text, re.M)]
    ends = [m.start() for m in starts[1:]] + [len(text)]
    parts = [(m.group(1), text[m.start():end]) for m, end in zip(starts, ends) if m.group(1)[0].isupper()]
    for name, own in parts:
        cited = any(names(other, name) for _, other in parts if other is not own)
        if name not in marked and 'Type' in own and not cited:
            say(f'{path.name}: nothing promises `{name}`, and no statement there is made of it')


def check(crate):
    """What is missing in a crate, and how many claims it has."""
    missing, claims = [], []
    say = missing.append
    for path in sorted((TOP / crate / 'specs').rglob('*.antt')):
        claims += claims_of(path, say)
    source = TOP / crate / 'src' / 'promises.rt'
    promises = promises_of(without_comments(source.read_text(encoding='utf8'), '//')) if source.exists() else {}
    if not re.search(r'^pub mod promises;', (TOP / crate / 'src' / 'lib.rt').read_text(encoding='utf8'), re.M):
        say('src/lib.rt has no `pub mod promises;`')
    for name, statement in claims:
        if name in promises:
            check_promise(name, statement, promises[name], say)
        else:
            say(f'src/promises.rt has no function `{name}`, which is to promise `{statement}`')
    promising = [name for name, _ in claims]
    for name in sorted(set(promising)):
        if promising.count(name) > 1:
            say(f'two claims are to be promised by `{name}`')
    for name in promises:
        if name not in promising:
            say(f'`{name}` of src/promises.rt promises no claim of specs/')
    for path in ('Claims.antt', 'Apart.antt'):
        check_cited(TOP / crate / 'specs' / path, [statement for _, statement in claims], say)
    return missing, len(claims)


def checksums():
    """Of the files that state claims or parts of them, without comments and layout."""
    specs = [path for crate in CRATES for path in (TOP / crate / 'specs').rglob('*.antt')]
    stating = [path for path in specs if MARKER.search(path.read_text(encoding='utf8'))]
    promising = [TOP / crate / 'src' / 'promises.rt' for crate in CRATES]
    lines = []
    for path in sorted({*stating, *promising, *(TOP / part for part in PARTS)}):
        words = without_comments(path.read_text(encoding='utf8'), '//' if path.suffix == '.rt' else '--').split()
        lines.append(f'{hashlib.sha256(" ".join(words).encode()).hexdigest()}  crates/{path.relative_to(TOP)}')
    return lines


def check_agreed():
    agreed = SUMS.read_text(encoding='utf8').splitlines() if SUMS.exists() else []
    now = checksums()
    return [f'{line.split()[1]}: what it states is not what was agreed in tests/claims.sums; read it, then use --agree'
            for line in sorted(set(now) ^ set(agreed), key=lambda line: line.split()[1])]


if sys.argv[1:] == ['--agree']:
    SUMS.write_text('\n'.join(checksums()) + '\n', encoding='utf8')
    sys.exit()
results = {crate: check(crate) for crate in CRATES}
for crate, (missing, _) in results.items():
    for words in missing:
        print(f'{crate}: {words}')
changed = sorted(set(check_agreed()))
for words in changed:
    print(words)
if changed or any(missing for missing, _ in results.values()):
    sys.exit(1)
print(f'{sum(count for _, count in results.values())} claims, each promised by its function')
