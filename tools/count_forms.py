#!/usr/bin/env python3
"""Counts, over crates/*/src/*.rt, the places that docs/DESIGN-PASS.md speaks of. `tools/count_forms.py` prints the counts, `-v` each place too.

1  answers told by hand: `Answer::Refused`, `accepted(..)`, and functions whose comment says that 0, or a place plus one, stands for none
2  functions that differ only in numbers, widths and the names of row types; constants of one name and value in several files
3  loops that count an index by one: `while` with `i += 1` or `i -= 1` of a variable of its condition
4  functions that are tests in a ladder: two or more `return true/false` and no loop; numbers compared or cut by hand
5  parameters: functions that take three or more of a mesh's tables, each for itself
6  an array and how many of it count, side by side among the parameters or the fields
7  functions that choose by a number or an enum which of several functions runs: a `match` whose arms are calls
"""
import re, sys, glob, collections

VERBOSE = '-v' in sys.argv
ROOTS = [a for a in sys.argv[1:] if not a.startswith('-')] or ['crates/*/src/*.rt']
files = sorted(f for r in ROOTS for f in glob.glob(r, recursive=True))
found = collections.defaultdict(list)


def functions(text):
    """Comment, head with clauses, body of each function of a file."""
    out = []
    for m in re.finditer(r'^( *)(pub |pub\(crate\) )?(extern "C" )?fn (\w+)', text, re.M):
        ind = m.group(1)
        end = re.search(r'^%s(\}|\{\})' % ind, text[m.start():], re.M)
        if not end:
            continue
        whole = text[m.start():m.start() + end.end()]
        before = text[:m.start()].rstrip('\n').split('\n')
        comment = []
        while before and before[-1].strip().startswith(('//', '#[')):
            comment.append(before.pop().strip())
        cut = re.search(r'^%s\{' % ind, whole, re.M)
        head = whole[:cut.start()] if cut else whole.split('{')[0]
        body = whole[cut.start():] if cut else whole[len(head):]
        out.append((m.group(4), ' '.join(reversed(comment)), head, body, text[:m.start()].count('\n') + 1))
    return out


TABLES = ['VertexRow', 'PositionRow', 'ArcRow', 'EdgeRow', 'FaceRow']
twins = collections.defaultdict(list)
consts = collections.defaultdict(list)
for f in files:
    text = open(f).read()
    for n, l in enumerate(text.split('\n'), 1):
        if re.search(r'Answer::Refused\(|\baccepted\(', l) and not l.strip().startswith(('//', 'pub fn', 'ensures', 'requires')):
            found['1 answers'].append((f, n, l.strip()))
        m = re.match(r'(?:pub )?const (\w+): (.*);', l.strip())
        if m:
            consts[m.groups()].append((f, n, l.strip()))
    for name, comment, head, body, n in functions(text):
        if re.search(r'\bor 0\b|\b0 for none\b|plus one|\belse 0\b|0 where|0 is none', comment) and re.search(r'-> (u32|usize|u16)', head):
            found['1 none as 0'].append((f, n, name))
        key = re.sub(r'\s+', ' ', body)
        key = re.sub(r'\b(VertexRow|PositionRow|ArcRow|EdgeRow|FaceRow)\b', 'Row', key)
        key = re.sub(r'\d+', '#', key)
        if len(key) > 12:
            twins[key].append((f, n, name))
        for w in re.finditer(r'while ([^{]*)\{', body):
            vs = set(re.findall(r'\b[a-z_]\w*\b', w.group(1)))
            depth, i = 1, w.end()
            while depth and i < len(body):
                depth += {'{': 1, '}': -1}.get(body[i], 0)
                i += 1
            inner = body[w.end():i]
            if any(re.search(r'\b%s [+-]= 1;' % v, inner) for v in vs):
                found['3 index loops'].append((f, n, name))
        if 'while ' not in body and 'for ' not in body and len(re.findall(r'return (?:true|false);', body)) >= 2:
            found['4 ladders'].append((f, n, name))
        if re.fullmatch(r'lesser|lower|left_of|apart|in_use|or_else|or_last|narrow|one_up|key_in|plus|row_of', name):
            found['4 numbers by hand'].append((f, n, name))
        if 'extern "C"' not in head:
            kinds = sum(bool(re.search(r':\s*&(?:mut )?\[%s\]' % t, head)) for t in TABLES)
            if kinds >= 3:
                found['5 tables'].append((f, n, name))
        params = head[head.find('('):]
        if re.search(r': (?:&(?:mut )?)?\[\w+; \w+\]', params) and re.search(r'\b(n|len|used|made): usize', params):
            found['6 array and length'].append((f, n, name))
        for mm in re.finditer(r'match \w+ \{(.*)\n\s*\}', body, re.S):
            arms = re.findall(r'=> (?:\{\s*)?(?:let [^;]*;\s*)*([\w:.]+)\(', mm.group(1))
            if len(set(arms)) >= 3:
                found['7 switches'].append((f, n, name))
    for m in re.finditer(r'struct (\w+)[^{;]*\{([^}]*)\}', text):
        if re.search(r'\[\w+; \w+\]', m.group(2)) and re.search(r'\b(len|n): usize', m.group(2)):
            found['6 array and length'].append((f, text[:m.start()].count('\n') + 1, m.group(1)))
for k, places in twins.items():
    if len(places) > 1:
        found['2 twins'] += places
for (name, value), places in consts.items():
    if len(places) > 1:
        found['2 constants'] += places
for k in ['1 answers', '1 none as 0', '2 twins', '2 constants', '3 index loops', '4 ladders', '4 numbers by hand', '5 tables', '6 array and length', '7 switches']:
    print('%-20s %d' % (k, len(found[k])))
    if VERBOSE:
        for p in found[k]:
            print('    %s:%s %s' % p)
print('%-20s %d' % ('kept, with a reason', sum(len(re.findall(r'// Kept: ', open(f).read())) for f in files)))
