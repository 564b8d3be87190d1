#!/usr/bin/env python3
"""breaker.py FILE..: breaks lines of over 160 characters in .antt files at a space of the least depth, where no layout block stands open."""
import re, sys
from pathlib import Path
LIMIT = 160
WANT = 150
OPEN, CLOSE = '([{⦃⟦⌜', ')]}⦄⟧⌝'

def spots(line):
    """(position, depth, rank) of each space where the line may be broken."""
    depth, out, lets, i = 0, [], [], 0
    text = False
    n = len(line)
    start = len(line) - len(line.lstrip())
    while i < n:
        ch = line[i]
        if text:
            if ch == '\\': i += 1
            elif ch == '"': text = False
        elif ch == '"': text = True
        elif line.startswith('--', i) and (i == 0 or line[i-1] == ' '):
            break
        elif ch in OPEN: depth += 1
        elif ch in CLOSE: depth -= 1
        elif ch == ' ' and i > start:
            rest = line[i+1:]
            before = line[:i]
            word = re.match(r'\S+', rest)
            w = word.group(0) if word else ''
            if re.search(r'(^|[\s(])let$', before) and before.strip() != 'let': lets.append(depth)
            if w == 'in' and lets: lets.pop()
            if not lets and w not in ('in', '=') and not w.startswith('--'):
                prev = before.split(' ')[-1]
                rank = 2
                if prev in ('=', 'in', '∷') or prev.endswith(';') or prev.endswith(','): rank = 0
                elif w in ('→', '×', '++', '⊎', '∙', '≡'): rank = 0
                elif prev in ('→', '×', '++', '⊎', '∙', '|'): rank = 9
                elif w.startswith('('): rank = 1
                if prev.startswith('λ') or (re.search(r'λ [^.()]*$', before) and not re.search(r'λ [^.]*\.', before[before.rfind('λ'):])): rank = 9
                if prev in ('let', 'in', 'λ', 'of', 'do', 'with', 'rw', 'rw⁻¹', 'simp', 'unfolding', 'abbrev', 'pub', 'unfoldable', '≡', '∙', '+', '*', '-', '<', '≤', '%', '/', '·', '∘', '&&', '||', '.', ':'): rank = 9
                if w in ('+', '*', '-', '<', '≤', '%', '/', '∷', '&&', '||', ':', '.'): rank = 9
                if w.startswith('.') and not (w == '.before' and prev == '.before'): rank = 9
                if prev == 'let': rank = 9
                if rank < 9: out.append((i, depth, rank))
        i += 1
    return out

def broken(line):
    if len(line) <= LIMIT: return [line]
    indent = len(line) - len(line.lstrip())
    stripped = line.strip()
    if stripped.startswith('--'):
        words, rows, row = stripped[2:].split(), [], ' ' * indent + '--'
        for w in words:
            if len(row) + 1 + len(w) > WANT: rows.append(row); row = ' ' * indent + '--'
            row += ' ' + w
        return rows + [row]
    return cut(line, indent, True)

def cut(line, indent, first):
    if len(line) > LIMIT and line.count(' ∷ ') > 20 and '(' not in line:
        parts = line.strip().split(' ∷ '); h = (len(parts) + 1) // 2; pad = ' ' * indent
        return [pad + ' ∷ '.join(parts[:h]) + ' ∷', pad + ' ∷ '.join(parts[h:])]
    if len(line) <= LIMIT: return [line]
    cont = ' ' * (indent + (8 if line.lstrip().startswith('let ') and first else 4))
    if not first: cont = ' ' * (len(line) - len(line.lstrip()))
    limit = WANT
    good = [s for s in spots(line) if s[0] <= limit and s[0] > indent + 24]
    # the rest must get shorter
    if not good: return [line]
    best = min(good, key=lambda s: (s[1], s[2] if s[0] > 60 else s[2] + 1, -s[0]))
    # a break much too early is worse than one a level deeper
    low = [s for s in good if s[1] <= best[1] + 1 and s[0] > 90]
    if best[0] < 60 and low: best = min(low, key=lambda s: (s[1], s[2], -s[0]))
    head, rest = line[:best[0]], cont + line[best[0]+1:].lstrip()
    if len(rest) >= len(line): return [line]
    return [head] + cut(rest, indent, False)


def uses(line, semi):
    """A long `use` line as several of the same module."""
    m = re.match(r'^((?:ghost |pub )*use [^{]*\{)([^{}]*)\}(;?)$', line)
    if not m: return None
    names = [n.strip() for n in m.group(2).split(',') if n.strip()]
    rows, row = [], []
    for n in names:
        if len(m.group(1)) + len(', '.join(row + [n])) + 2 > WANT: rows.append(row); row = []
        row.append(n)
    rows.append(row)
    return [m.group(1) + ', '.join(r) + '}' + m.group(3) for r in rows]

def comment(line, mark):
    indent = len(line) - len(line.lstrip()); rows = []; row = ' ' * indent + mark
    for w in line.strip()[len(mark):].split():
        if len(row) + 1 + len(w) > 158: rows.append(row); row = ' ' * indent + mark
        row += ' ' + w
    return rows + [row]

def paragraphs(lines):
    out, i = [], 0
    lines = list(lines)
    while i < len(lines):
        l = lines[i]; st = l.strip()
        mark = '//' if st.startswith('// ') else '--' if st.startswith('-- ') else None
        if mark and len(l) > LIMIT:
            rows = comment(l, mark)
            nxt = lines[i+1] if i + 1 < len(lines) else ''
            if len(rows) > 1 and nxt.strip().startswith(mark + ' ') and not nxt.strip().startswith(mark + ' --') and not l.rstrip().endswith(('.', ':')):
                lines[i+1] = rows[-1] + ' ' + nxt.strip()[len(mark):].strip()
                out += rows[:-1]
            else: out += rows
        else: out.append(l)
        i += 1
    return out

def laid(line, rt):
    if len(line) <= LIMIT: return [line]
    st = line.strip()
    for mark in ('//', '--'):
        if st.startswith(mark): return comment(line, mark)
    u = uses(line, rt)
    if u: return u
    indent = len(line) - len(line.lstrip())
    if rt:
        if '⌜' not in line and '⌝' not in line and not st.startswith(('×', '≡', '(', '→')): return [line]
        return cut(line, indent if st.startswith(('ensures', 'requires', 'invariant')) else indent - 4, True)
    one = re.match(r'^(\s*\S[^=]* =) let ([^λ]*?) in (.*)$', line)
    if one and ' let ' not in one.group(3):
        pad = ' ' * (indent + 4); rows = [one.group(1), pad + 'let ' + one.group(2) + ' in', pad + one.group(3)]
        return [r for x in rows for r in (cut(x, indent + 4, True) if len(x) > LIMIT else [x])]
    return cut(line, indent, True)

def main():
    left, kept = [], 0
    for name in sys.argv[1:]:
        p = Path(name); lines = p.read_text().split('\n'); out = []
        crate = p
        while crate.parent.name != 'crates': crate = crate.parent
        olds = []
        for e in crate.glob('must-fail/*.edit'):
            olds += re.findall(r'^old: ?(.*)$', e.read_text(), re.M)
        given = lines; lines = paragraphs(lines)
        for l in lines:
            b = laid(l, p.suffix == '.rt')
            if len(l) > LIMIT and any(o.strip() and o.strip() in l and not any(o.strip() in x for x in b) for o in olds):
                kept += 1; b = [l]
            out += b
            left += [(str(p), x[:100]) for x in b if len(x) > LIMIT]
        if out != given: p.write_text('\n'.join(out))
    for f, x in left: print('LEFT', f, x)
    print('left', len(left), 'kept for edits', kept)
main()
