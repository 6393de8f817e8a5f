#!/usr/bin/env python3
"""Respells this repository's own definitions and lemmas as today's Rattle spells names: words in snake case.

Run once at the top of the repository, after /opt/rattle/port/port.py. A name is the repository's own where a
definition or lemma file (specs/, and the files right in proofs/) writes it and no file imports it from outside
the repository. What the proof files of one function name after its code is left: port.py mends that.
A dash that joins two names stays: a lemma is named after its left side, the outer call first.
"""
import glob
import re
import sys

CRATES = 'algebra|geometry|grading|mesh|survey|words|report|mubdrax|mubdrax_c|listing|soil_survey|cases'
OWN_PATH = re.compile(r'(?:Rattle\.)(?:' + CRATES + r')\.')
USE = re.compile(r'(?:ghost )?use\s+([^\s;{]+?)\.?\{([^}]*)\}')
TOKEN = re.compile(r"[^\s(){},;\[\]|\"`.:]+")
# Lemmas named after a call around another: both parts are names.
JOINED = {
    'sumZ-append': 'sum_z-append',
    'sumZ-map': 'sum_z-map',
    'sumBy-map': 'sum_by-map',
    'some-append': 'some-append',
    'some-map': 'some-map',
    'length-passing': 'length-passing',
    'length-facets': 'length-facets',
    'length-records-after': 'length-records_after',
    'length-kept': 'length-kept',
    'map-passing': 'map-passing',
    'rank-passing': 'rank-passing',
}


def snake(name):
    """The name in snake case; a fact or type keeps its capital, and the dash after it."""
    if name in JOINED:
        return JOINED[name]
    if re.match(r'[A-Z]', name):
        head, _, tail = name.partition('-')
        return head + '-' + tail.replace('-', '_')
    name = re.sub(r'(?<=[a-z0-9])([A-Z])', lambda m: '_' + m.group(1).lower(), name)
    return name.replace('-', '_').replace('′', "'")


def wants(name):
    """Is this a name that is not in snake case?"""
    return bool(
        ('-' in name and re.match(r"[A-Za-z][A-Za-z0-9_'-]*$", name))
        or re.match(r"[a-z][a-z_0-9']*[A-Z][A-Za-z0-9_']*$", name)
    )


def code_of(text, comment):
    """The text without comments and strings."""
    lines = []
    for line in text.split('\n'):
        line = re.sub(comment + r'.*$', '', line)
        lines.append(re.sub(r'"[^"]*"', '""', line))
    return '\n'.join(lines)


antt = sorted(glob.glob('crates/*/specs/**/*.antt', recursive=True) + glob.glob('crates/*/proofs/**/*.antt', recursive=True))
rust = sorted(glob.glob('crates/*/src/**/*.rt', recursive=True))
edits = sorted(glob.glob('crates/*/must-fail/*.edit') + glob.glob('.ci/refused/*.edit'))
pages = sorted(glob.glob('docs/*.md') + ['README.md'])


def is_own_file(path):
    parts = path.split('/')
    return parts[2] == 'specs' or (parts[2] == 'proofs' and len(parts) == 4)


foreign, local = set(), set()
for path in antt + rust:
    for where, names in USE.findall(open(path).read()):
        for name in names.split(','):
            first, _, alias = name.strip().partition(' as ')
            if first and not OWN_PATH.match(where):
                foreign.add(first.strip())
            if alias:
                local.add(alias.strip())
foreign -= local

own = set()
for path in antt:
    if is_own_file(path):
        for name in TOKEN.findall(USE.sub('', code_of(open(path).read(), '--'))):
            if wants(name) and name not in foreign:
                own.add(name)
own |= {name for name in local if wants(name)}
respelled = {name: snake(name) for name in own if snake(name) != name}

# Names that would fall together.
targets = {}
for name, new in respelled.items():
    targets.setdefault(new, []).append(name)
for new, names in sorted(targets.items()):
    if len(names) > 1:
        print('look: fall together:', names, '->', new)
for path in antt:
    text = open(path).read()
    tokens = set(TOKEN.findall(code_of(text, '--')))
    for name in sorted(tokens & set(respelled)):
        if respelled[name] in tokens:
            print('look:', path, 'has both', name, 'and', respelled[name])


def respell(text, comment):
    """The text with the own names respelled, but in strings and comments."""
    out = []
    for line in text.split('\n'):
        at = line.find(comment) if comment else -1
        code, rest = (line, '') if at < 0 else (line[:at], line[at:])
        pieces = re.split(r'("[^"]*")', code)
        for i in range(0, len(pieces), 2):
            pieces[i] = TOKEN.sub(lambda m: respelled.get(m.group(0), m.group(0)), pieces[i])
        out.append(''.join(pieces) + rest)
    return '\n'.join(out)


def write(path, text, new):
    if new != text:
        open(path, 'w').write(new)


for path in antt:
    text = open(path).read()
    write(path, text, respell(text, '--'))
for path in rust:
    text = open(path).read()
    write(path, text, respell(text, '//'))
for path in edits:
    text = open(path).read()
    new = '\n'.join(respell(line, None) if line.startswith(('old:', 'new:')) else line for line in text.split('\n'))
    write(path, text, new)
for path in pages:
    text = open(path).read()
    new = re.sub(r'`[^`\n]+`', lambda m: respell(m.group(0), None), text)
    new = re.sub(r'Rattle·(\w+)·(specs|proofs)', r'Rattle.\1.\2', new)
    write(path, text, new)
print(len(respelled), 'names respelled', file=sys.stderr)
