#!/usr/bin/env python3
"""Lists places in crates/*/src that may be written in an older form than they need be, by eight points.

    python3 tools/places.py [POINT ..]        the places of these points (1 to 8), or of all
    python3 tools/places.py --count           the numbers alone

A place is a line (of points 2 and 5 a group of functions, of point 8 a file of answers) that fits a pattern. Whether it is really one is for
a reader to say: docs/DESIGN-PASS.md has what became of each.
"""
import collections
import glob
import re
import sys

def files(pattern='crates/*/src/**/*.rt'):
    return sorted(f for f in glob.glob(pattern, recursive=True) if '/out/' not in f)

def lines():
    for f in files():
        for n, line in enumerate(open(f, encoding='utf-8'), 1):
            text = line.strip()
            if text and not text.startswith('//') and not text.startswith('ghost use'):
                yield f, n, text

def grep(pattern, skip=None):
    wanted = re.compile(pattern)
    unwanted = re.compile(skip) if skip else None
    return [f'{f}:{n}: {t}' for f, n, t in lines() if wanted.search(t) and not (unwanted and unwanted.search(t))]

def functions():
    """Each function: file, line, name, parameters as text, clauses, body lines."""
    head = re.compile(r'\s*(?:pub(?:\(crate\))? )?fn (\w+)(?:<[^(]*>)?\(')
    for f in files():
        text = open(f, encoding='utf-8').read()
        for m in re.finditer(head, text):
            depth, i = 1, m.end()
            while depth:
                depth += {'(': 1, ')': -1}.get(text[i], 0)
                i += 1
            parameters = text[m.end():i - 1]
            j = text.find('\n{', i)
            brace = re.compile(r'^\s*\{$|\) (?:-> [^{;]+)?\{$|;$', re.M)
            k = brace.search(text, i)
            clauses = re.findall(r'^\s*(?:requires|ensures)(?: \w+)? \{ (.*) \}[;]?$', text[i:k.end() if k else i], re.M)
            end = k.end() if k else i
            body = text[end:]
            depth, e = 1, 0
            if k and text[k.start():k.end()].rstrip().endswith('{'):
                while depth and e < len(body):
                    depth += {'{': 1, '}': -1}.get(body[e], 0)
                    e += 1
            yield f, text.count('\n', 0, m.end()) + 1, m.group(1), parameters, clauses, body[:e]

def split_parameters(text):
    depth, part, out = 0, '', []
    for c in text:
        depth += {'<': 1, '(': 1, '[': 1, '>': -1, ')': -1, ']': -1}.get(c, 0)
        if c == ',' and depth == 0:
            out.append(part)
            part = ''
        else:
            part += c
    out.append(part)
    return [p.strip() for p in out if p.strip()]

def point1():
    """Enums with two variants; bare numbers for refusals, kinds and 'none'; flags that say whether it went well; a result in a
    result; errors and options taken apart by hand."""
    out = []
    for f in files():
        text = open(f, encoding='utf-8').read()
        for m in re.finditer(r'^(?:pub(?:\(crate\))? )?enum (\w+) \{\n(.*?)^\}', text, re.M | re.S):
            variants = re.findall(r'^    (\w+)', m.group(2), re.M)
            if len(variants) == 2:
                out.append(f'{f}:{text.count(chr(10), 0, m.start()) + 1}: enum {m.group(1)}: {", ".join(variants)}')
    out += grep(r'Some\(7[0-5]\)|-> (Result<)?Option<u8>(, AllocError>)?($| \{)')
    out += grep(r'\b(right|kind|code|fault|number): u8\b|^(pub )?const (READ|WRITE|NONE)\b|, right: u8')
    out += [f'{f}:{n}: fn {name}' for f, n, name, p, c, b in functions() if '&mut' in p and re.search(r'fn ' + name + r'\b[^{]*-> bool', open(f, encoding='utf-8').read(), re.S) and 'result ≡ false' in ''.join(c)]
    out += grep(r'Result<(Result|Option)<')
    out += grep(r'^_ => 0,$|\bindex == 0|\.rows != 0')
    out += grep(r'^let (Some|Ok)\(.*\) = .* else \{$|^None => |^(pub )?const (PLACES|READ|WRITE)\b')
    return list(dict.fromkeys(out))

def shape(body):
    body = re.sub(r'//.*', '', body)
    body = re.sub(r'"[^"]*"', '"', body)
    body = re.sub(r'\b(?:0x[0-9A-Fa-f]+|\d[\d_]*)\b', '0', body)
    words = {'if', 'else', 'for', 'in', 'return', 'match', 'let', 'mut', 'self', 'Some', 'None', 'Ok', 'Err', 'true', 'false', 'as', 'while'}
    return re.sub(r'\b[A-Za-z_]\w*\b', lambda m: m.group(0) if m.group(0) in words else 'x', re.sub(r'\s+', ' ', body))

def point2():
    """Functions whose bodies have the same shape: alike but for names, types and constants."""
    groups = collections.defaultdict(list)
    for f, n, name, p, c, b in functions():
        s = shape(b)
        if len(s) >= 60:
            groups[s].append(f'{f}:{n} {name}')
    return [' ~ '.join(g) for g in groups.values() if len(g) > 1]

def point3():
    """Loops over numbers, loops that call next by hand, counters and flags that a loop keeps."""
    return grep(r'\bfor \w+ in [^{]*\.\.|^while |\+= 1;|let mut any\b|any = true|\bloop \{') + grep(r'for \(\w+, &?\w+\) in .*enumerate\(\)')

def point4():
    """Conversions by arithmetic, casts to a byte, impls that a derive could write, printing piece by piece. (A cast to a wider number is
    the language's own conversion, and one that lost a bit would be refused: no place.)"""
    return list(dict.fromkeys(
        grep(r'(\* 256|/ 256|% 256|256 \*|65536 \*)', r'ensures|requires')
        + grep(r'\bas (u8|i16)\b', r'ensures|requires|^use |ghost')
        + grep(r'^impl.*\b(PartialEq|Eq|PartialOrd|Ord|Clone|Copy|Debug|Default|From<)')
        + grep(r'\bprint(ln)?!')))

def point5():
    """Facts that stand in the contracts of three or more functions, and runs of three or more parameters that three or more functions take."""
    facts = collections.defaultdict(set)
    for f, n, name, p, clauses, b in functions():
        for c in clauses:
            for part in re.split(r' × (?=\()', c):
                if 'result' not in part or 'MatchOption' in part:
                    facts[part].add(f'{f.split("/")[1]}::{name}')
    out = [f'fact {k}: {len(v)} functions: {", ".join(sorted(v))}' for k, v in facts.items() if len(v) >= 3]
    runs = collections.defaultdict(set)
    for f, n, name, p, c, b in functions():
        names = [re.sub(r'^mut ', '', q.split(':')[0].strip()) for q in split_parameters(p)]
        names = [q for q in names if not q.endswith('self')]
        for i in range(len(names) - 1):
            for j in range(i + 2, len(names) + 1):
                runs[tuple(names[i:j])].add(f'{f.split("/")[1]}::{name}')
    best = {}
    for k, v in runs.items():
        if len(v) >= 3:
            best[k] = v
    for k, v in best.items():
        if not any(len(q) > len(k) and best[q] >= v and set(k) <= set(q) for q in best):
            out.append(f'parameters {", ".join(k)}: {len(v)} functions: {", ".join(sorted(v))}')
    return out

def point6():
    """Fields that are arrays, lengths or cursors; vectors side by side."""
    return grep(r'^(pub )?\w+: (\[[\w<>]+; \w+\]|Vec<\w+>),$|^(pub )?(count|depth|next|taken|left|len|steps): (usize|u8|u16|u32),$')

def point7():
    """Matches that choose what to run, macros in place of closures, function pointers."""
    out = []
    for f, n, name, p, c, b in functions():
        arms = re.findall(r'=> (?:\{\s*)?(?:return |Ok\()?(?:self\.)?\w+(?:::\w+)?!?\(', b)
        if len(arms) >= 5:
            out.append(f'{f}:{n}: fn {name}: {len(arms)} arms that call')
    return out + grep(r'macro_rules!|: fn\(|-> fn\(')

def point8():
    """Files of answers and invariants, with their lines; lemma files."""
    out = []
    for f in files('crates/*/proofs/**/*.antt'):
        n = sum(1 for _ in open(f, encoding='utf-8'))
        out.append(f'{f}: {n}')
    return out

def main():
    count = '--count' in sys.argv
    points = [int(a) for a in sys.argv[1:] if a.isdigit()] or range(1, 9)
    for p in points:
        found = globals()[f'point{p}']()
        print(f'point {p}: {len(found)}')
        if p == 8:
            print('  lines: ' + str(sum(int(x.rsplit(' ', 1)[1]) for x in found)))
        if not count:
            for place in found:
                print('  ' + place)

main()
