#!/usr/bin/env python3
"""Counts the places of docs/DESIGN-PASS.md in a tree of the repository: python3 tools/places.py ROOT [SECTION]   (SECTION: params p1 .. p8)"""
import re, sys, glob, os, itertools, collections, difflib
root = sys.argv[1]; want = sys.argv[2] if len(sys.argv) > 2 else 'all'
files = sorted(glob.glob(root + '/crates/*/src/*.rt'))
FN = re.compile(r'^( *)(pub )?(?:extern "C" )?fn (\w+)(?=[<(])', re.M)
def behind_generics(t, i):  # type parameters may have brackets of their own, and `->`
    d = t[i] == '<'
    while d: i += 1; d += {'<': 1, '>': -1}.get(t[i], 0) if t[i-1:i+1] != '->' else 0
    return i + 1 if t[i] == '>' else i
fns = []  # crate, file, line, name, pub, params, head, body
for f in files:
    t = open(f).read(); crate = f.split('/crates/')[1].split('/')[0]
    for m in FN.finditer(t):
        p = i = behind_generics(t, m.end()) + 1; d = 1
        while d: d += {'(': 1, ')': -1}.get(t[i], 0); i += 1
        ps = t[p:i-1].replace('->', '→'); parts = []; d = 0; cur = ''
        for ch in ps:
            if ch in '([<{': d += 1
            if ch in ')]>}': d -= 1
            if ch == ',' and d == 0: parts.append(cur.strip()); cur = ''
            else: cur += ch
        if cur.strip(): parts.append(cur.strip())
        ind = m.group(1); b = re.compile(r'\n' + ind + r'\{', re.M).search(t, i); one = re.compile(r'[^\n]*\{').match(t, i)
        start = one.end() if one and '\n' not in t[i:one.end()] and 'ensures' not in t[i:one.end()] else (b.end() if b else i)
        j = start; d = 1
        while d and j < len(t): d += {'{': 1, '}': -1}.get(t[j], 0); j += 1
        fns.append(dict(crate=crate, file=os.path.relpath(f, root), line=t[:m.start()].count('\n') + 1, name=m.group(3), pub=bool(m.group(2)), params=parts, head=t[i:start], body=t[start:j]))
loc = lambda x: f"{x['crate']}:{x['line']} {x['name']}"
pn = lambda x: [p.split(':')[0].strip().replace('mut ', '') for p in x['params']]
def sec(n): return want in ('all', n)
if sec('params'):
    c = [len(x['params']) for x in fns]; inner = [x for x in fns if not x['crate'].endswith('replay') and x['crate'] not in ('finds', 'replay', 'reason', 'answer', 'text')]
    ci = [len(x['params']) for x in inner]
    print(f"functions {len(fns)}, mean parameters {sum(c)/len(c):.2f}, most {max(c)}; above 9: {sum(k > 9 for k in c)}; above 6: {sum(k > 6 for k in c)}")
    print(f"without replay and program crates: {len(inner)}, mean {sum(ci)/len(ci):.2f}; above 9: {sum(k>9 for k in ci)}; above 6: {sum(k>6 for k in ci)}")
    for x in sorted(fns, key=lambda x: -len(x['params']))[:26]: print('  ', len(x['params']), loc(x))
if sec('p1'):
    print('P1 enums and answer structs')
    for f in files:
        t = open(f).read(); crate = f.split('/crates/')[1].split('/')[0]
        for m in re.finditer(r'^(?:pub )?(enum|struct) (\w+)[^{;]*\{(.*?)\n\}', t, re.M | re.S):
            body = re.sub(r'//[^\n]*', '', m.group(3)); v = [re.sub(r'\s+', ' ', s).strip().replace('pub ', '') for s in re.split(r',\n', body) if s.strip()]
            print('  ', m.group(1), f"{crate}:{t[:m.start()].count(chr(10))+1} {m.group(2)}:", '; '.join(v)[:110])
    tot = 0
    for f in files:
        t = re.sub(r'//[^\n]*', '', open(f).read())
        n = len(re.findall(r'(?:Refused|Fault|Bad|Lost)\(\d+\)|negated\(\d+\)|(?:refusal|not_opened|no_player|no_setter)\(\d+\)|return (?:2[3-9]|30);|return -\d+;', t)); tot += n
        if n: print('   refusal written as a number', n, os.path.relpath(f, root))
    print('   refusals written as numbers, in all', tot)
    r = sum(len(re.findall(r'Finding::Refused\((?:_|k|number)\) =>', open(f).read())) for f in files)
    print('   arms of Finding::Refused that pass on or ignore', r)
    k = [x for x in fns if re.search(r'(?:kinds|cells|codes|marks|state|code|near|kind|mark|known)(?:\[[^\]]*\](?:\[[^\]]*\])?)? [!=<>]=? ?[0-4]\b', x['body'])]
    print('   functions that test a state, code, kind or mark by number', len(k)); print('     ', ', '.join(loc(x) for x in k))
if sec('p2'):
    print('P2 pairs of functions of one shape (tokens alike by 0.86 or more; types, numbers and names of values made equal)')
    def norm(x):
        b = re.sub(r'//[^\n]*', '', x['body']); tok = re.findall(r"[A-Za-z_]\w*|\d+|[^\s\w]", b)
        kw = {'if','else','while','for','in','return','match','let','mut','as','loop','true','false'}
        return [t if t in kw or not (t[0].isalpha() or t[0] == '_' or t[0].isdigit()) else ('N' if t[0].isdigit() else 'v') for t in tok]
    big = [(x, norm(x)) for x in fns]; big = [(x, n) for x, n in big if len(n) >= 24]
    seen = collections.defaultdict(list)
    for (x, a), (y, b) in itertools.combinations(big, 2):
        if abs(len(a) - len(b)) > 0.15 * max(len(a), len(b)): continue
        s = difflib.SequenceMatcher(None, a, b, autojunk=False)
        if s.quick_ratio() < .9: continue
        r = s.ratio()
        if r >= 0.86: seen[loc(x)].append((round(r, 2), loc(y)))
    n = 0
    for k, v in seen.items(): print('  ', k, '~', ', '.join(f"{b} {a}" for a, b in v)); n += len(v)
    print('   pairs', n)
    bools = [(x, p) for x in fns for p in x['params'] if re.search(r': bool$', p) and re.match(r'is_|whole|quarter|first', p)]
    print('   a bool that chooses what a function is:', ', '.join(loc(x) + ' ' + p for x, p in bools))
if sec('p3'):
    print('P3 while loops'); tot = collections.Counter()
    for x in fns:
        for m in re.finditer(r'while ([^{\n]*) \{', x['body']):
            i = m.end(); d = 1
            while d: d += {'{': 1, '}': -1}.get(x['body'][i], 0); i += 1
            b = x['body'][m.end():i]
            if 'let' in m.group(1): kind = 'let'
            elif re.search(r'\bi -= 1|j -= 1', b): kind = 'down'
            elif re.fullmatch(r'(\w+) < ([\w.()* +]+)', m.group(1)) and re.search(re.escape(m.group(1).split(' ')[0]) + r' \+= 1;\s*\}?\s*$', b.rstrip('}').rstrip()) : kind = 'search' if 'return' in b else 'count'
            else: kind = 'other'
            tot[kind] += 1; print('  ', kind, loc(x), '|', m.group(1))
    print('  ', dict(tot), 'in all', sum(tot.values()))
    fo = [x for x in fns if re.search(r'for k in 0\.\.4', x['body'])]
    print('   loops over the four directions', len(fo), ', '.join(loc(x) for x in fo))
    # Of what a loop is over, brackets of an index are left out: a range in them takes a part of a slice.
    over = [(x, re.sub(r'\[[^\]]*\]', '', o)) for x in fns for o in re.findall(r'\bfor [^{\n]+? in ([^{\n]*\.\.[^{\n]*) \{', re.sub(r'//[^\n]*', '', x['body']))]
    other = [loc(x) for x, o in over if '..' in o and o != '0..4']; print('   other for over a range', len(other), ', '.join(other))
if sec('p4'):
    print('P4 equality, conversion, printing by hand')
    g = dict(equality=r'differ|same|boards_differ', convert=r'^(wide|byte|kind_code|kind_owner|number|negated|counted|answer_number|finding_number|verdict_number|finished_number|edition_of|is_edition|read_code|refused|expected_number|literal|word|cell_code|direction|verdict_number|right|number_at|record_length|one_if)$', printing=r'^(write_|put|last_digit|print|hand_over|respond|write)')
    for k, r in g.items():
        l = [x for x in fns if re.search(r, x['name']) and (k != 'printing' or x['crate'] in ('text', 'replay', 'answer'))]; print('  ', k, len(l), ', '.join(loc(x) for x in l))
    c = collections.Counter(); 
    for f in files:
        t = open(f).read(); n = len(re.findall(r'grid::(?:wide|byte)\(', t)); c[f.split('/crates/')[1].split('/')[0]] += n
    print('   calls of grid::wide and grid::byte', sum(c.values()), dict((k, v) for k, v in c.items() if v))
if sec('p5'):
    print('P5 facts that stand in the clauses of three or more functions')
    facts = ['InGrid', 'InPlace', 'Limits', r'≤ 32\) × \((?:w|width) ≤ 32', r'length \w+(?:\.\w+)* ≡ 1024', r'length buffer\.(?:old|new)', 'Fit h w', 'Grouped', 'Work ', 'Held \\(view', 'Holds l', 'Drawn', 'CellArray', 'Valid p', 'problem ≡ problemOf', 'SizesOn', 'Names ', 'Room ', 'Counts at', 'Kept l', 'puzzleWith', 'viewOn', 'DiffersUnless', r'edition ≡ 0 → ⊥', r'at ≤ length list', 'Chains', 'Wrote', 'FoundAs']
    for k in facts:
        l = [x for x in fns if re.search(k, x['head'])]
        if len(l) >= 3: print(f"   {k:36} {len(l):3} functions of {len(set(x['crate'] for x in l))} crates")
    print('   parameters that travel together')
    groups = [('h', 'w'), ('height', 'width'), ('arrows', 'ends', 'number'), ('arrows', 'ends', 'count'), ('line', 'ends', 'count'), ('kinds', 'owners'), ('head', 'next'), ('sizes', 'squares'), ('near', 'groups'), ('rows', 'columns'), ('lowest', 'highest'), ('edition', 'lowest', 'highest'), ('cells', 'arrows', 'ends', 'number', 'h', 'w'), ('squares', 'arrowed'), ('names', 'number'), ('firsts', 'squares', 'arrowed'), ('out', 'at'), ('list', 'at'), ('h', 'w', 'y', 'x'), ('cells', 'kinds', 'owners'), ('part', 'count'), ('buffer', 'count'), ('line', 'used'), ('labels', 'stack', 'count'), ('from', 'order'), ('cells', 'order')]
    for gset in groups:
        l = [x for x in fns if all(any(q == n for q in pn(x)) for n in gset)]
        print('  ', gset, len(l), 'functions of', len(set(x['crate'] for x in l)), 'crates')
if sec('p6'):
    a = [p for x in fns for p in x['params'] if re.search(r'\[u(8|16); ?(1024|1025|2048|Board::CELLS)\]', p)]
    print('P6 parameters that are arrays with a place for each cell:', len(a), 'in', len([x for x in fns if any('; 1024]' in p for p in x['params'])]), 'functions; of them &mut', sum('&mut' in p for p in a))
    b = [x for x in fns if any(re.search(r'&mut \[u(8|16)[];]', p) for p in x['params']) and any(n in ('count', 'at', 'number') for n in pn(x))]
    print('   a lent buffer with a count or place beside it:', len(b)); print('     ', ', '.join(loc(x) for x in b))
    m = [x for x in fns if re.search(r'^(?:no_(?!player|setter)|undecided|nothing_known|fresh_|room|zeros|text_room|input_room|unname|clear)', x['name']) and len(x['params']) <= 1 and len(x['body']) < 120]
    print('   functions that only make or clear an array:', len(m), ', '.join(loc(x) for x in m))
if sec('p7'):
    l = [x for x in fns if any(re.match(r'(stage|is_potential|whole|quarter|way): (u8|bool|Way)$', p) for p in x['params']) and x['crate'] != 'replay' or x['name'].startswith('damaged') or x['name'] == 'make_call']
    print('P7 a switch on which step to run', len(l), ', '.join(loc(x) for x in l))
if sec('p8'):
    print('P8 proof files'); tot = collections.Counter()
    n = lambda fs: sum(open(p).read().count('\n') for p in fs)
    for c in sorted(os.listdir(root + '/crates')):
        A = glob.glob(f"{root}/crates/{c}/proofs/**/Answers.antt", recursive=True); I = glob.glob(f"{root}/crates/{c}/proofs/**/Invariants.antt", recursive=True)
        L = [p for p in glob.glob(f"{root}/crates/{c}/proofs/*.antt") if not p.endswith('Lib.antt')]
        goals = sum(len(re.findall(r'^pub \S+ : goal\.', open(p).read(), re.M)) for p in A)
        tot.update({'functions with answers': len(A), 'answers': goals, 'lines of answers': n(A), 'functions with invariants': len(I), 'lines of invariants': n(I), 'law files': len(L), 'law lines': n(L)})
        print(f"   {c:16} answers {len(A):3} functions, {goals:3} goals, {n(A):4} lines; invariants {len(I):3} ({n(I)} lines); laws {len(L)} files ({n(L)} lines)")
    print('  ', dict(tot))
