#!/usr/bin/env python3
"""Lists places in src/ that may be written in an older form: places.py POINT [FOLDER]. A person reads the list."""
import re, sys, os, glob, difflib, collections

def files(top):
    return sorted(glob.glob(os.path.join(top, 'crates/*/src/*.rt')))

def strip(line):
    return re.sub(r'//.*', '', line)

FN = re.compile(r'^\s*(?:pub(?:\(crate\))? )?fn ([a-z_0-9]+)')

def functions(path):
    """(name, first line, signature text, clauses text, body text) of each function."""
    lines = open(path, encoding='utf-8').read().split('\n')
    i = 0
    while i < len(lines):
        m = FN.match(lines[i])
        if not m:
            i += 1
            continue
        start, indent = i, len(lines[i]) - len(lines[i].lstrip())
        # the end: a line '}' at the same indent, or ';' for a trait's method
        j = i
        sig_end = None
        while j < len(lines):
            s = lines[j]
            if s == ' ' * indent + '}' or (s.rstrip().endswith(';') and j >= i and '{' not in ''.join(x for x in lines[i:j+1] if not x.strip().startswith(('ensures', 'requires')))):
                break
            j += 1
        block = lines[start:j + 1]
        body_at = next((k for k, s in enumerate(block) if s == ' ' * indent + '{' or (k == 0 and s.endswith('{')) or s.strip() == ') {' or re.match(r'^\s*\) -> .* \{$', s)), len(block))
        head = block[:body_at + 1]
        sig, clauses, in_clause = [], [], False
        for s in head:
            if s.strip().startswith(('requires', 'ensures')):
                in_clause = True
            (clauses if in_clause else sig).append(s)
        yield m.group(1), start + 1, ' '.join(sig), '\n'.join(clauses), '\n'.join(block[body_at:])
        i = j + 1

def short(top, path):
    return os.path.relpath(path, os.path.join(top, 'crates')).replace('/src/', '/')

def grep(top, pattern, what):
    n = 0
    for p in files(top):
        for k, line in enumerate(open(p, encoding='utf-8').read().split('\n'), 1):
            if re.search(pattern, strip(line)):
                print(f'{short(top, p)}:{k}: {line.strip()[:110]}')
                n += 1
    print(f'== {what}: {n}\n')

def point1(top):
    grep(top, r'^\s*(pub )?enum ', 'enums')
    grep(top, r'\b(kind|number|place|by_kind): u8\b', 'numbers for kinds, boxes or steps, as parameters and fields')
    grep(top, r'^\s*(None => (None|false|true|0|Ok|Err)|Some\(_\) => true|Err\(_\) => |Ok\(x\) => Ok|Some\(\w+\) => (Some|Ok)\(|Err\((what|refusal)\) => )', 'arms of an Option or Result by hand')
    grep(top, r'if .*\{ (Some|Ok)\(.*\} else \{ (None|Err)|^\s*(Ok|Some)\(.*\)$(?=)', 'if .. Some/Ok .. else None/Err (one line), and values to be looked at')
    grep(top, r'\b(yes|given|begun|whole|any|shown): bool', 'flags with a value beside')

def point3(top):
    n = 0
    for p in files(top):
        for name, at, sig, clauses, body in functions(p):
            loops = re.findall(r'^\s*((?:for|while|loop)\b.*)$', body, re.M)
            for l in loops:
                n += 1
                by_hand = bool(re.search(r'in 0\.\.|in \w+\.\.|while', l)) or bool(re.search(r'^\s*(left|k|at|i|number|n) (\+|-)= |\.saturating_add\(1\)', body, re.M))
                print(f'{short(top, p)}:{at} {name}: {l.strip()[:80]}{"   INDEX" if by_hand else ""}')
    print(f'== loops: {n}\n')

KEEP = set('if else match for in while let mut return Some None Ok Err true false self Self fn pub as u8 u32 u64 usize bool'.split())
def tokens(text):
    out = []
    for t in re.findall(r'[A-Za-z_][A-Za-z_0-9]*|\d[\w]*|[^\s\w]', text):
        if re.match(r'\d', t): out.append('N')
        elif re.match(r'[A-Za-z_]', t): out.append(t if t in KEEP else 'I')
        else: out.append(t)
    return out

def point2(top):
    fs = []
    for p in files(top):
        for name, at, sig, clauses, body in functions(p):
            t = tokens(sig + ' ' + body)
            if len(t) >= 24:
                fs.append((short(top, p), at, name, t))
    groups, used = [], set()
    for a in range(len(fs)):
        if a in used: continue
        g = [a]
        for b in range(a + 1, len(fs)):
            if b in used: continue
            x, y = fs[a][3], fs[b][3]
            if min(len(x), len(y)) / max(len(x), len(y)) < 0.8: continue
            s = difflib.SequenceMatcher(None, x, y, autojunk=False)
            if s.quick_ratio() > 0.9 and s.ratio() > 0.92:
                g.append(b)
        if len(g) > 1:
            used.update(g); groups.append(g)
    for g in groups:
        print(' = '.join(f'{fs[i][0]}:{fs[i][2]}' for i in g))
    print(f'== groups of like functions: {len(groups)}, functions in them: {sum(map(len, groups))}\n')

def point4(top):
    grep(top, r'^\s*impl.*(Display|Debug|From|PartialEq|Ord|Clone|Copy)\b', 'impls of printing, conversion, equality, order')
    n = 0
    for p in files(top):
        for name, at, sig, clauses, body in functions(p):
            if re.match(r'(print_|write_to|from_|to_|as_|number$|digit|is_one|box_of|kind_of|group_of|gate_name_of|bits_of|read_bits|name$|xor$|root_from|quad|.*_number$|low_half|blank|twice|is_word|equals)', name):
                print(f'{short(top, p)}:{at} {name}')
                n += 1
    print(f'== functions that print, convert or compare, by name: {n}\n')

def params(sig):
    m = re.search(r'\((.*)\)', sig, re.S)
    if not m: return []
    return re.findall(r'(\w+): ((?:[^,<>()\[\]]|<[^>]*>|\[[^\]]*\]|\([^)]*\))+)', m.group(1))

def point5(top):
    pairs, facts = collections.defaultdict(set), collections.defaultdict(set)
    for p in files(top):
        for name, at, sig, clauses, body in functions(p):
            here = f'{short(top, p)}:{name}'
            ps = [f'{a}: {re.sub(chr(39)+"a ", "", b.strip())}' for a, b in params(sig) if a not in ('rt',)]
            for i in range(len(ps)):
                for j in range(i + 1, len(ps)):
                    pairs[(ps[i], ps[j])].add(here)
            for c in re.findall(r'(?:requires|ensures)[^{]*\{(.*?)\}\s*(?=requires|ensures|$)', clauses.replace('\n', ' ')):
                for f in re.split(r' × ', c):
                    f = re.sub(r'\s+', ' ', f.strip(' ()'))
                    if 'result' not in f and f: facts[f].add(here)
    n = 0
    for k, v in sorted(pairs.items(), key=lambda x: -len(x[1])):
        if len(v) >= 3:
            print(len(v), ' and '.join(k), '|', ' '.join(sorted(v))[:150]); n += 1
    print(f'== pairs of parameters in three or more signatures: {n}\n')
    n = 0
    for k, v in sorted(facts.items(), key=lambda x: -len(x[1])):
        if len(v) >= 3:
            print(len(v), k[:110], '|', ' '.join(sorted(v))[:150]); n += 1
    print(f'== facts without the result in three or more contracts: {n}\n')

def point6(top):
    n = 0
    for p in files(top):
        for name, at, sig, clauses, body in functions(p):
            ps = dict(params(sig))
            buf = [a for a, b in ps.items() if '[' in b or 'Rows' in b]
            pos = [a for a, b in ps.items() if b.strip() == 'usize' and a in ('at', 'used', 'start', 'count', 'end', 'low', 'high', 'rows', 'n', 'place')]
            if buf and pos:
                print(f'{short(top, p)}:{at} {name}: {", ".join(buf)} with {", ".join(pos)}'); n += 1
    print(f'== a buffer and a length or place in one signature: {n}\n')
    grep(top, r': \[[^\]]*; ?\d+\]|= \[0; ?\w+\]|\[blank\(\); \d+\]', 'arrays of fixed length')

def point7(top):
    n = 0
    for p in files(top):
        for name, at, sig, clauses, body in functions(p):
            arms = re.findall(r'^\s*[\w:| {}(),.]+ => (?:return )?(?:[\w.]+\.)?([a-z_0-9]+)\(', body, re.M)
            chains = len(re.findall(r'else if is_word', body))
            if len(set(arms)) >= 3 or len(arms) >= 3 and len(set(arms)) == 1 or chains:
                print(f'{short(top, p)}:{at} {name}: {", ".join(arms)[:90] if arms else "if-chain of " + str(chains)}'); n += 1
    print(f'== functions that choose a step: {n}\n')

def point8(top):
    rows, total = [], 0
    for c in sorted(glob.glob(os.path.join(top, 'crates/*/proofs'))):
        fs = [f for f in glob.glob(c + '/**/*.antt', recursive=True)]
        lines = sum(len(open(f, encoding='utf-8').read().splitlines()) for f in fs)
        total += lines
        rows.append((lines, len(fs), c.split('/')[-2]))
    for r in sorted(rows, reverse=True): print(*r)
    print(f'== lines in proofs/: {total}, files: {sum(r[1] for r in rows)}\n')

if __name__ == '__main__':
    top = sys.argv[2] if len(sys.argv) > 2 else '.'
    {'1': point1, '2': point2, '3': point3, '4': point4, '5': point5, '6': point6, '7': point7, '8': point8}[sys.argv[1]](top)
