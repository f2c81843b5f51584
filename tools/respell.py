#!/usr/bin/env python3
"""Brings the repository's own definitions and lemmas to the kit's spelling, after port.py.

    python3 respell.py [--dry] [--also DIR]..      at the top of the repository

A name that crates/*/specs or crates/*/proofs declare with a dash, or in capitals with a dash, is respelled wherever it
stands as a whole word in specs/, proofs/, src/ clauses and must-fail/, audit/ edits: a definition whose result is a
Type in camel case (Always-taken, AlwaysTaken), all else in snake case (is-bay-to, is_bay_to). Names that Rattle
generates (Answers.antt, Invariants.antt and Proof.antt have them) stay. Prints names that fall together, and stops there without writing.
Strings and comments of code are left alone but for the edits' old: and new: lines. Then names that one proof or spec
file gives for itself (a `let`, a binder, an `as`, a lemma among answers) are respelled in that file.
"""
import os, re, sys

WORD = r"[A-Za-z_ℕ][\w'’\-]*"
TOKEN = re.compile(r"(?<![\w'\-.«])(" + WORD + r")")
TOKEN_DOT = re.compile(r"(?<![\w'\-«])(" + WORD + r")")

def files(tops, ends):
    for top in tops:
        for d, ds, fs in os.walk(top):
            ds[:] = [x for x in ds if x not in ('.git', 'out', 'target')]
            for f in fs:
                if f.endswith(ends):
                    yield os.path.join(d, f)

def signatures(text):
    """(name, type text, kind) of each declaration, `where` helpers included."""
    lines = text.split('\n')
    i = 0
    while i < len(lines):
        l = lines[i]
        m = re.match(r"^(\s*)((?:abbrev |unfoldable |opaque )*(?:pub )?)(?:(data|record) (?:pub )?)?(" + WORD + r"(?:, " + WORD + r")*)\s*(?=[:({ ])", l)
        if m and not l.strip().startswith('--') and ' use ' not in l[:12] and not l.startswith('use '):
            kind, names = m.group(3), m.group(4)
            rest = l[m.end():]
            j = i + 1
            ind = len(m.group(1))
            while j < len(lines) and lines[j].strip() and len(lines[j]) - len(lines[j].lstrip()) > ind and not re.match(r"^\s*" + WORD + r" [^:]*=", lines[j]):
                rest += ' ' + lines[j].strip(); j += 1
            if kind or re.match(r"\s*:(?!=)", rest):
                for n in names.split(', '):
                    yield n, rest, kind
        i += 1

def result_is_type(rest):
    """Whether the last arrow's end is a Type."""
    depth, last, k = 0, 0, 0
    body = rest.split(' where')[0]
    for k, c in enumerate(body):
        if c in '([{⟨': depth += 1
        elif c in ')]}⟩': depth -= 1
        elif c == '→' and depth == 0: last = k + 1
    end = body[last:].strip().lstrip(':').strip()
    return bool(re.match(r"Type\b", end))

def camel(n):
    return ''.join(p[:1].upper() + p[1:] for p in re.split(r'[-_]', n))

def snake(n):
    parts = n.split('-')
    return '_'.join(p[:1].lower() + p[1:] if len(p) > 1 and p[1:2].islower() else p for p in parts)

LOCAL = [r"\blet (\w[\w'\-]*) :", r"\bas (\w[\w'\-]*)", r"^\s*(\w[\w'\-]*) : (?!goal\b)", r"[({]([\w'\- ₀-₉]+) : "]

def local(text):
    """The text of one .antt file with its own names in snake case, and the names that were turned."""
    own = set()
    for pattern in LOCAL:
        for m in re.finditer(pattern, text, re.M):
            own |= {w for w in m.group(1).split() if '-' in w.strip('-')}
    turned = {}
    for n in sorted(own):
        m = snake(n)
        if re.search(r"(?<![\w'\-])" + re.escape(m) + r"(?![\w'\-])", text):
            print('left, since', m, 'stands there too:', n)
        else:
            turned[n] = m
    return TOKEN.sub(lambda t: turned.get(t.group(1), t.group(1)), text), turned

def main():
    dry = '--dry' in sys.argv
    tops = ['crates', 'audit'] + [sys.argv[i + 1] for i, a in enumerate(sys.argv) if a == '--also']
    declared = {}
    every = set()
    for f in files(tops, ('.antt',)):
        if os.path.basename(f) in ('Answers.antt', 'Invariants.antt', 'Proof.antt'):
            continue
        for n, rest, kind in signatures(open(f, encoding='utf-8').read()):
            every.add(n)
            if '-' in n:
                is_type = kind in ('data', 'record') or result_is_type(rest)
                declared.setdefault(n, set()).add(is_type)
    new = {}
    for n, kinds in declared.items():
        new[n] = camel(n) if True in kinds else snake(n)
    clash = {}
    for n, m in new.items():
        clash.setdefault(m, set()).add(n)
        if m in every and m != n:
            clash[m].add(m)
    bad = {m: ns for m, ns in clash.items() if len(ns) > 1}
    both = [n for n, k in declared.items() if len(k) > 1]
    for m, ns in sorted(bad.items()):
        print('fall together:', m, '<-', ', '.join(sorted(ns)))
    for n in both:
        print('declared as a type and as no type:', n)
    if bad and '--force' not in sys.argv:
        sys.exit(1)
    def turn(text, code):
        if code:
            out, pos = [], 0
            for m in re.finditer(r'"(?:[^"\\\n]|\\.)*"|//[^\n]*', text):
                out.append(TOKEN_DOT.sub(lambda t: new.get(t.group(1), t.group(1)), text[pos:m.start()]))
                out.append(m.group(0)); pos = m.end()
            out.append(TOKEN_DOT.sub(lambda t: new.get(t.group(1), t.group(1)), text[pos:]))
            return ''.join(out)
        return TOKEN_DOT.sub(lambda t: new.get(t.group(1), t.group(1)), text)
    changed = 0
    for f in files(tops, ('.antt', '.rt', '.edit')):
        t = open(f, encoding='utf-8').read()
        u = turn(t, f.endswith('.rt'))
        if u != t:
            changed += 1
            if not dry:
                open(f, 'w', encoding='utf-8').write(u)
    for f in files(tops, ('.antt',)):
        t = open(f, encoding='utf-8').read()
        u, turned = local(t)
        if turned:
            print(f + ':', ', '.join('%s -> %s' % x for x in sorted(turned.items())))
            if not dry:
                open(f, 'w', encoding='utf-8').write(u)
    print(len(new), 'names,', changed, 'files')
    if dry:
        for n in sorted(new):
            print('  ', n, '->', new[n])

main()
