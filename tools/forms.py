#!/usr/bin/env python3
"""Lists places in crates/*/src that look like an older style of Rattle, by kind; `forms.py [FOLDER] [KIND]`.

It goes by text, so a line is a place to look at and no verdict. Tests and comments are left out.
"""
import collections
import glob
import os
import re
import sys

FN = re.compile(r'^\s*(?:pub(?:\([a-z]+\))? )?(?:extern "C" )?fn (\w+)')


def files(top):
    for path in sorted(glob.glob(os.path.join(top, 'crates/*/src/*.rt'))):
        crate = path.split('/')[-3]
        lines = []
        for number, line in enumerate(open(path, encoding='utf-8').read().split('\n'), 1):
            if line.startswith('#[cfg(test)]'):
                break
            if not line.strip().startswith('//'):
                lines.append((number, line))
        yield crate, crate + '/src/' + os.path.basename(path), lines


def functions(lines):
    """(first line's number, name, head, clauses, body) of each function; a trait's has no body."""
    i = 0
    while i < len(lines):
        found = FN.match(lines[i][1])
        if not found:
            i += 1
            continue
        indent = len(lines[i][1]) - len(lines[i][1].lstrip())
        head, clauses, body, start = [], [], [], lines[i][0]
        while i < len(lines):
            line = lines[i][1]
            text = line.strip()
            if re.match(r'(requires|ensures)\b', text):
                clauses.append(text)
            elif not clauses and text != '{':
                head.append(text)
            if text == '{' or (text.endswith('{') and not re.match(r'(requires|ensures)\b', text)):
                i += 1
                while i < len(lines) and not (lines[i][1].startswith(' ' * indent + '}')):
                    body.append(lines[i])
                    i += 1
                break
            if text.endswith(';') or text.endswith('{}') or (clauses and text.endswith('};')):
                break
            i += 1
        yield start, found.group(1), ' '.join(head), clauses, body
        i += 1


def grep(top, pattern, skip=None):
    for _, name, lines in files(top):
        for number, line in lines:
            if re.search(pattern, line) and not (skip and re.search(skip, line)):
                yield f'{name}:{number}: {line.strip()}'


def params(head):
    """(name, type) of each parameter but the receiver."""
    inside = head[head.find('(', head.find('fn ')) + 1:]
    depth, parts, part = 1, [], ''
    for k, c in enumerate(inside):
        if c in '(<[':
            depth += 1
        elif c in ')]' or (c == '>' and inside[k - 1] != '-'):
            depth -= 1
        if depth == 0:
            break
        if c == ',' and depth == 1:
            parts.append(part)
            part = ''
        else:
            part += c
    pairs = [p.strip().split(': ', 1) for p in parts + [part] if ': ' in p]
    return [(a.replace('mut ', ''), b) for a, b in pairs]


def silent_numbers(top):
    for _, name, lines in files(top):
        for number, fn, head, clauses, _ in functions(lines):
            if re.search(r'-> (u|i)\d+\b', head) and any(c.startswith('ensures') for c in clauses) and not any('result' in c for c in clauses):
                yield f'{name}:{number}: {fn} answers a number that no clause speaks of'


def flags(top):
    for _, name, lines in files(top):
        for number, fn, head, _, _ in functions(lines):
            names = [a for a, b in params(head) if b == 'bool']
            if names:
                yield f'{name}:{number}: {fn} takes the flag {", ".join(names)}'
    for _, name, lines in files(top):
        inside = False
        for number, line in lines:
            inside = bool(re.match(r'\s*(pub(\([a-z]+\))? )?struct \w+', line)) or (inside and not line.startswith('}'))
            if inside and re.search(r'^\s+(pub(\([a-z]+\))? )?\w+: (bool|\[bool; \d+\]),$', line):
                yield f'{name}:{number}: {line.strip()}'


def numbers_for_kinds(top):
    yield from grep(top, r'Ok\((\(\)|_)\) => 0|_ => 0,|\b99\b|NOWHERE|-> \(u8, usize\)')


def passed_on(top):
    yield from grep(top, r'Err\((\w+)\) => (return )?Err\((\w+)')


def twins(top):
    """Functions of one crate, or of two, whose text is the same but for names, numbers and types."""
    seen = collections.defaultdict(list)
    for _, name, lines in files(top):
        for number, fn, head, clauses, body in functions(lines):
            text = ' '.join(line.strip() for _, line in body)
            if len(text) < 30 or not head:
                continue
            shape = re.sub(r'"[^"]*"|b?\'[^\']*\'|\b\w+\b', 'x', text)
            if len(re.findall('x', shape)) > 6:
                seen[shape].append(f'{name}:{number}: {fn}')
    for places in seen.values():
        if len(places) > 1:
            yield from ('; '.join(places[:1]) + ' ~ ' + p for p in places[1:])


def counted_loops(top):
    for _, name, lines in files(top):
        for k, (number, line) in enumerate(lines):
            if re.search(r'^\s*for \w+ in .*\.\.|^\s*while ', line):
                yield f'{name}:{number}: {line.strip()}'
    yield from grep(top, r'\bcount\w* (\+=|= count\w*\.saturating_add)')


def by_hand(top):
    yield from grep(top, r'impl (fmt::)?Display for')
    yield from grep(top, r'fn (from_\w+|\w+_named|name_of|letter|is_spelt|is_found|is_count_first|refused)\(', skip=r'fn (from_str|from)\(')
    yield from grep(top, r'if [^{]* \{ 1 \} else \{ 0 \}')
    yield from grep(top, r'\w\.0 < \w\.0|\w\[k\] (!=|<) \w+\[k\]')


def facts(top):
    for crate in sorted({c for c, _, _ in files(top)}):
        where = collections.defaultdict(set)
        for c, name, lines in files(top):
            if c == crate:
                for _, fn, _, clauses, _ in functions(lines):
                    for clause in clauses:
                        found = re.match(r'requires(?: \w+)? \{ (.*) \};?$', clause)
                        if found:
                            fact = re.sub(r'\b\w+\.(now|old)\b', lambda m: m.group(0), found.group(1))
                            where[fact].add(name.split('/')[-1] + ' ' + fn)
        for fact, there in sorted(where.items(), key=lambda kv: (-len(kv[1]), kv[0])):
            if len(there) >= 3:
                yield f'{crate}: in {len(there)} contracts: {fact[:150]}'


def together(top):
    """Groups of two or more parameters, one of them no receiver, that three or more functions of a crate take together."""
    for crate in sorted({c for c, _, _ in files(top)}):
        heads = []
        for c, name, lines in files(top):
            if c == crate:
                for _, fn, head, _, _ in functions(lines):
                    heads.append((fn, frozenset(params(head))))
        groups = collections.defaultdict(set)
        for a, (fa, pa) in enumerate(heads):
            for fb, pb in heads[a + 1:]:
                common = pa & pb
                if len(common) >= 2:
                    groups[common] |= {f for f, p in heads if common <= p}
        for group, fns in sorted(groups.items(), key=lambda kv: -len(kv[1])):
            if len(fns) >= 3 and not any(group < g and fns == f for g, f in groups.items()):
                yield f'{crate}: {len(fns)} functions take {", ".join(sorted(a for a, _ in group))}'


def many(top):
    for _, name, lines in files(top):
        for number, fn, head, _, _ in functions(lines):
            count = len(params(head))
            if count > 6:
                yield f'{name}:{number}: {fn} takes {count} parameters'


def buffers(top):
    yield from grep(top, r'^\s+(pub )?\w+: \[[^;\]]+; \d+\],$|let mut \w+ = \[[^;\]]+; \d+\];|words\[\d\]')


def switches(top):
    yield from grep(top, r'^\s*(\} else )?if (closed|odd|options\.by_count|set) |dyn |: fn\(|\.by_count')


KINDS = [
    ('1 numbers that say nothing', silent_numbers),
    ('1 flags', flags),
    ('1 numbers for kinds and refusals', numbers_for_kinds),
    ('1 errors passed on by hand', passed_on),
    ('2 functions of one shape', twins),
    ('3 loops that count', counted_loops),
    ('4 conversion, comparison and printing by hand', by_hand),
    ('5 facts in three or more contracts', facts),
    ('5 parameters that travel together', together),
    ('5 more than six parameters', many),
    ('6 arrays beside a length, words by index', buffers),
    ('7 switches', switches),
]


def main():
    top = sys.argv[1] if len(sys.argv) > 1 else '.'
    wanted = sys.argv[2] if len(sys.argv) > 2 else ''
    for kind, find in KINDS:
        if wanted in kind:
            places = list(find(top))
            print(f'== {kind}: {len(places)}')
            for place in places:
                print('   ' + place)


main()
