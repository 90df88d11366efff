#!/usr/bin/env python3
"""Sets what a reader of two trees of the repository relies on side by side, as docs/DESIGN-PASS.md has it: python3 tools/sides.py OLD NEW
Public types with their fields and facts, public functions with their clauses, and the definitions of specs/. `-` is the old text, `+` the new one; what is the same is
left out. A function or definition that has moved is found by its name, and then the old crate stands behind it in brackets."""
import collections, glob, os, re, sys

OF = {'decisions': 'board', 'near': 'reach', 'fourth': 'pairs', 'inconsistency': 'reasons', 'call': 'calls', 'host_find': 'calls', 'host_finished': 'calls', 'host_shades': 'calls', 'host_certain': 'calls'}
squeeze = lambda s: re.sub(r',? ?\)', ')', re.sub(r'([(\[]) ', r'\1', re.sub(r'\s+', ' ', re.sub(r'//[^\n]*', '', s)))).strip()


def closing(t, i, pair):
    d = 1
    while d:
        d += {pair[0]: 1, pair[1]: -1}.get(t[i], 0); i += 1
    return i


def clauses(t, i):
    """The clauses from i on, and where the body begins."""
    found = []
    while True:
        m = re.compile(r'\s*(requires|ensures)\b([^{]*)\{').match(t, i)
        if not m: return found, i
        j = closing(t, m.end(), '{}')
        found.append(squeeze(t[m.start():j])); i = j


def functions(root):
    """Public functions by (crate, name), and public types by (crate, name)."""
    fns, types = {}, {}
    for f in sorted(glob.glob(root + '/crates/*/src/**/*.rt', recursive=True)):
        t = open(f).read(); crate = f.split('/crates/')[1].split('/')[0]; crate = OF.get(crate, crate); was = f.split('/crates/')[1].split('/')[0]
        owners = []
        for m in re.finditer(r'^(pub (?:\(crate\) )?)?(impl|trait)\b([^{]*)\{', t, re.M):
            name = re.sub(r"^\s*<[^>]*(?:<[^>]*>)?[^>]*>", '', m.group(3)); tr = ' for ' in name
            name = re.split(r' for ', name)[-1]; name = re.match(r'\s*(\w+)', name)
            owners.append((m.start(), closing(t, m.end(), '{}'), name.group(1) if name else '?', m.group(2), bool(m.group(1)), tr))
        for m in re.finditer(r'^( *)(pub )?(?:extern "C" )?fn (\w+)(<[^(]*>)?\(', t, re.M):
            own = [o for o in owners if o[0] < m.start() < o[1]]
            if own and own[-1][5]: continue
            public = bool(m.group(2)) or bool(own and own[-1][3] == 'trait' and own[-1][4])
            if not public: continue
            i = closing(t, m.end(), '()'); ret = re.compile(r'\s*->\s*((?:\[[^\]]*\]|[^{;\[])*?)(?=\s*(?:where|requires|ensures|\{|;))', re.S).match(t, i)
            if ret: i = ret.end()
            cl, _ = clauses(t, i)
            name = (own[-1][2] + '::' if own else '') + m.group(3)
            head = squeeze(f"fn {name}{m.group(4) or ''}({t[m.end():closing(t, m.end(), '()')-1]})" + (f" -> {ret.group(1)}" if ret else ''))
            fns[(crate, name)] = dict(head=head, clauses=cl, was=was)
        for m in re.finditer(r'^pub (struct|enum) (\w+)([^{;(]*)([{(])', t, re.M):
            pair = '{}' if m.group(4) == '{' else '()'
            body = re.sub(r'//[^\n]*', '', t[m.end():closing(t, m.end(), pair) - 1]); ghosts = [squeeze(g) for g in re.findall(r'(?:pub )?ghost \w+: \{.*?\}(?=,\n)', body, re.S)]
            body = re.sub(r'(?:pub )?ghost \w+: \{.*?\},\n', '', body, flags=re.S); fields = squeeze(body.replace('pub ', '')).rstrip(', ')
            types[(crate, m.group(2))] = dict(head=f"{m.group(1)} {crate}::{m.group(2)}{m.group(3).strip()} {{ {fields} }}", ghosts=[g.replace('pub ', '') for g in ghosts])
    return fns, types


def definitions(root):
    found = {}
    for f in sorted(glob.glob(root + '/crates/*/specs/**/*.antt', recursive=True)):
        was = f.split('/crates/')[1].split('/')[0]; crate = OF.get(was, was)
        text = re.sub(r'^--[^\n]*\n', '', open(f).read(), flags=re.M); text = re.sub(r' +--[^\n]*', '', text)
        for block in re.split(r'\n(?=(?:pub|abbrev|unfoldable|data|record|lemma|mutual)\b)|\n\s*\n', text):
            m = re.match(r'((?:(?:pub|abbrev|unfoldable|data|record|lemma) )+)(\S+)', block)
            if not m or 'pub' not in m.group(1) or m.group(2) in ('mod', 'use'): continue
            found[(crate, m.group(2))] = (re.sub(r'\s+', ' ', block).strip(), was)
    return found


def theorems(root, named):
    found = {}
    for f in sorted(glob.glob(root + '/crates/*/proofs/**/*.antt', recursive=True)):
        was = f.split('/crates/')[1].split('/')[0]; text, file = open(f).read(), os.path.basename(f)[:-5]
        for m in re.finditer(r'^(?:abstract )?pub ([\w-]+) : (.*?)(?=\n\1\b)', text, re.M | re.S):
            if (file, m.group(1)) in named and not m.group(2).startswith('goal.'): found[(OF.get(was, was), m.group(1))] = re.sub(r' unfolding .*', '', re.sub(r'\s+', ' ', m.group(2)).strip())
    return found


old, new = sys.argv[1:3]
(fo, to), (fn, tn) = functions(old), functions(new)
print('### Types\n\nPublic structs and enums that are new (`+`) or have other fields (`~`), with the facts that they state.\n\n```')
for k in tn:
    if k in to and squeeze(to[k]['head']) == squeeze(tn[k]['head']) and to[k]['ghosts'] == tn[k]['ghosts']: continue
    print('~' if k in to else '+', tn[k]['head'])
    for g in tn[k]['ghosts']: print('+    ', g)
print('```\n\n### Public functions\n')
bare = collections.defaultdict(list)
for k in fn: bare[k[1].split('::')[-1]].append(k)
pairs, left = {}, set(fn)
for k in fo:
    if k in fn: pairs[k] = k; left.discard(k)
for k in fo:
    if k in pairs: continue
    c = [x for x in bare[k[1].split('::')[-1]] if x in left]; c = [x for x in c if x[0] == k[0]] or (c if len(c) == 1 else [])
    if len(c) == 1: pairs[k] = c[0]; left.discard(c[0])
same = 0; gone = [k for k in fo if k not in pairs]; text = collections.defaultdict(list)
for k, n in pairs.items():
    a, b = fo[k], fn[n]
    if a['head'] == b['head'] and a['clauses'] == b['clauses']: same += 1; continue
    lines = text[n[0]]; moved = '' if a['was'] == n[0] else f" ({a['was']})"
    lines += [f"  fn {n[1]}{moved}"] if a['head'] == b['head'] else [f"- {a['head']}{moved}", f"+ {b['head']}"]
    lines += [f"-     {c}" for c in a['clauses'] if c not in b['clauses']] + [f"+     {c}" for c in b['clauses'] if c not in a['clauses']]
for c in sorted(text): print(f'`{c}`\n\n```\n' + '\n'.join(text[c]) + '\n```\n')
print('### Public functions that are new\n\n```')
for k in sorted(left): print(f"+ {k[0]}: {fn[k]['head']}")
print('```\n\n### Definitions that have another text\n\n```')
do, dn = definitions(old), definitions(new); byname = collections.defaultdict(list)
for k in dn:
    if k not in do: byname[k[1]].append(k)
other = newer = went = alike = 0; matched = set()
for k, (t, was) in sorted(do.items()):
    n = k if k in dn else (byname[k[1]][0] if len(byname[k[1]]) == 1 else None)
    if n is None: went += 1; continue
    matched.add(n)
    if dn[n][0] == t: alike += 1; continue
    other += 1; print(f"  {n[0]} {n[1]}{'' if was == n[0] else f' ({was})'}\n- {t}\n+ {dn[n][0]}")
print('```')
fresh = len(dn) - len(matched)
named = set()
for root in (old, new):
    for f in (root + '/README.md', root + '/docs/SENTENCES.md'):
        for file, names in re.findall(r'\w+/(\w+) ((?:`[\w-]+`(?:, | and )?)+)', open(f).read()): named |= {(file, n) for n in re.findall(r'`([\w-]+)`', names)}
pt, nt = theorems(old, named), theorems(new, named)
print('\n### Theorems that have another text\n\nOf those that README.md or docs/SENTENCES.md name.\n\n```')
told = 0
for k, t in sorted(pt.items()):
    n = k if k in nt else next((x for x in nt if x[1] == k[1] and x not in pt), None)
    if n and nt[n] == t: told += 1
    else: print(f"  {k[0]} {k[1]}\n- {t}\n+ {nt[n] if n else 'gone'}")
print('```')
print(f"theorems: {told} of {len(pt)} with the same text", file=sys.stderr)
print(f"functions: {same} the same, {len(pairs)-same} others, {len(gone)} gone, {len(left)} new; definitions: {alike} the same, {other} others, {went} gone, {fresh} new", file=sys.stderr)
print('gone:', ', '.join(f'{c} {n}' for c, n in gone), file=sys.stderr)
