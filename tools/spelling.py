#!/usr/bin/env python3
"""Brings the names of the repository's own definitions and lemmas to the spelling of today's Rattle: words in snake case, no `?` in a name.

    tools/spelling.py            rewrites the files of crates/ and docs/ in place
    tools/spelling.py --list     prints 'OLD NEW' for each name and, after 'clash:', the names that would fall together; writes nothing

It ran once, after the kit's port.py, on what that had made. Renamed are the names that a file of specs/, or one that stands directly in proofs/,
declares: functions, lemmas, fields and constructors. Types, modules, and the names of src/ keep their spelling. A file of a function's proof keeps the names
that it declares itself, since those are of goals, and each file those that it takes from a library. In comments and pages only what stands between back-quotes is renamed.
"""
import collections
import os
import re
import sys

TOP = os.path.join(os.path.dirname(os.path.realpath(__file__)), '..')
CRATES = sorted(os.listdir(os.path.join(TOP, 'crates')))
TOKEN = re.compile(r"[^\s(){}\[\].,;:\"`]+")
SIGNATURE = re.compile(r"^\s*(?:(?:pub|abbrev|unfoldable)\s+)*((?:[^\s(){}:,.;\"]+\s+)+):\s")
WORDS = {'getD': 'get_or', 'isEmpty': 'is_empty', 'isUniversal': 'is_universal', 'isIdentity': 'is_identity'}

# Two names whose words in snake case are another name in the same file.
APART = {'is-empty': 'empty_is', 'slice-val': 'slice_vals'}

# A name with `?` says what it asks; these read as such without it.
ASKED = {
    'member?': 'is_member', 'before?': 'is_before', 'predicate?': 'is_predicate', 'negates-predicates?': 'only_negates_predicates',
    'fields-below?': 'has_fields_below', 'through?': 'passes_through', 'known?': 'is_known_refusal', 'waits?': 'is_waiting', 'room?': 'has_room',
    'even?': 'is_even', 'child?': 'is_child', 'node?': 'is_node', 'nodes?': 'are_nodes', 'store?': 'is_store', 'heads?': 'are_heads', 'short?': 'is_short',
    'test?': 'is_test', 'clean-inside?': 'is_clean_inside', 'clean?': 'is_clean', 'offends?': 'does_offend', 'begins?': 'does_begin', 'whole?': 'is_whole',
    'starts?': 'does_start', 'outside?': 'is_outside', 'mixes?': 'does_mix', 'digit?': 'is_digit_byte', 'tens?': 'has_tens', 'x-begins?': 'does_x_begin',
    'x-whole?': 'is_x_whole', 'no-field?': 'is_no_field', 'enough?': 'is_enough', 'job-call?': 'is_job_call', 'entry?': 'is_entry', 'asks?': 'does_ask',
    'accepted?': 'is_accepted', 'reads?': 'does_read', 'adding?': 'is_adding', 'last-fits?': 'does_last_fit', 'to-come?': 'is_to_come',
}


def files(ending):
    for folder, folders, names in os.walk(os.path.join(TOP, 'crates')):
        folders[:] = sorted(f for f in folders if f != 'out')
        for name in sorted(names):
            if name.endswith(ending):
                yield os.path.relpath(os.path.join(folder, name), TOP)


def read(path):
    with open(os.path.join(TOP, path), encoding='utf-8') as file:
        return file.read()


def of_lemmas(path):
    """whether a file declares definitions or lemmas, and no goals of a function's proof"""
    parts = path.split(os.sep)
    return parts[2] == 'specs' or (parts[2] == 'proofs' and len(parts) == 4)


def declared(text):
    """the names before a `:` at the head of a line"""
    names = set()
    for line in text.split('\n'):
        if line.lstrip().startswith('--') or line.lstrip().startswith('let '):
            continue
        found = SIGNATURE.match(line)
        if found and '=' not in found[1].split() and '↦' not in found[1].split():
            names.update(n for n in found[1].split() if n not in ('pub', 'abbrev', 'unfoldable', 'record', 'data', 'module', 'where', 'infixl', 'infixr', 'infix'))
    return names


def imported(text):
    """the names that a file takes from a library"""
    names = set()
    for line in text.split('\n'):
        found = re.match(r'\s*(?:ghost )?use (?!Rattle\.(?:%s)\.)\S*\.\{(.*)\}' % '|'.join(CRATES), line)
        if found:
            names.update(n.strip().split(' as ')[-1] for n in found[1].split(','))
            names.update(n.strip().split(' as ')[0] for n in found[1].split(','))
    return frozenset(names)


def kept(path, text):
    """the names that stay as they are in a file"""
    return imported(text) | (frozenset() if of_lemmas(path) or path.endswith('.rt') else declared(text))


def spelled(name):
    """the new spelling of a name"""
    if name in ASKED:
        return ASKED[name]
    if name in APART:
        return APART[name]
    if not re.fullmatch(r"[A-Za-z0-9_'→≢≡≤<-]+", name):
        return name
    words = [WORDS.get(word, word) for word in name.split('-')]
    words = [re.sub(r'(?<=[a-z0-9])([A-Z])', lambda m: '_' + m[1].lower(), w) if w[:1].islower() else w for w in words]
    return '_'.join(words)


def names():
    """old name -> new name"""
    renamed = {}
    for path in files('.antt'):
        if of_lemmas(path):
            for name in declared(read(path)):
                if name[:1].islower() or '-' in name or '?' in name:
                    new = spelled(name)
                    if new != name:
                        renamed[name] = new
    return renamed


def turned(text, renamed, keep=frozenset()):
    def word(found):
        token = found[0]
        return token if token in keep else renamed.get(token, token)
    return TOKEN.sub(word, text)


def quoted(text, renamed):
    return re.sub(r'`[^`\n]*`', lambda found: turned(found[0], renamed), text)


def antt(text, renamed, keep):
    lines = []
    for line in text.split('\n'):
        code, dashes, comment = line.partition('-- ') if not line.startswith('--') else ('', '', line)
        lines.append(turned(code, renamed, keep) + dashes + quoted(comment, renamed))
    return '\n'.join(lines)


def source(text, renamed, keep):
    lines = []
    for line in text.split('\n'):
        head = line.lstrip()
        if head.startswith('//'):
            lines.append(quoted(line, renamed))
            continue
        parts = re.split(r'(b?"(?:[^"\\]|\\.)*")', line)
        lines.append(''.join(part if at % 2 else turned(part, renamed, keep) for at, part in enumerate(parts)))
    return '\n'.join(lines)


def clashes(renamed):
    """(file, new name, the names that fall together there)"""
    for path in list(files('.antt')) + list(files('.rt')):
        text = re.sub(r'(?m)^\s*(--|//).*$', '', read(path))
        keep = kept(path, text)
        met = collections.defaultdict(set)
        for token in set(TOKEN.findall(text)):
            met[token if token in keep else renamed.get(token, token)].add(token)
        for new, old in sorted(met.items()):
            if len(old) > 1:
                yield path, new, sorted(old)


def main(words):
    renamed = names()
    if words == ['--list']:
        for old, new in sorted(renamed.items()):
            print(old, new)
        for path, new, old in clashes(renamed):
            print('clash:', path, new, *old)
        return
    pages = [os.path.relpath(os.path.join(folder, page), TOP) for folder, _, found in os.walk(os.path.join(TOP, 'docs')) for page in sorted(found)]
    turns = [(list(files('.antt')), lambda path, text: antt(text, renamed, kept(path, text))),
             (list(files('.rt')), lambda path, text: source(text, renamed, kept(path, text))),
             ([page for page in pages if page.endswith('.md') and not page.endswith('PORT.md')], lambda path, text: quoted(text, renamed))]
    for paths, turn in turns:
        for path in paths:
            text = read(path)
            new = turn(path, text)
            if new != text:
                with open(os.path.join(TOP, path), 'w', encoding='utf-8') as file:
                    file.write(new)


if __name__ == '__main__':
    main(sys.argv[1:])
