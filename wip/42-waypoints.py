#!/usr/bin/env python3
"""waypoints.py FILE..: names the points of a proof that stand behind chains of `.before`."""
import re, sys
from pathlib import Path
# omega reads at most 128 records, and a name counts as one more: these clauses stay as they are
SKIP = set('''
px/proofs/gather/Proof.antt:gather-byte-requires
px/proofs/pass/Proof.antt:exchange-byte-requires
queries/proofs/finder_px/find_px/Proof.antt:content-requires
queries/proofs/finder_px/find_px/Proof.antt:returns-6
'''.split())
ID = r"[A-Za-zα-ωκμ₀-₉ᵢ0-9'′_·-]+"
CHAIN = re.compile(r"(?<![\w.·'′-])([a-zκ][\w'′-]*)((?: \.before)+)(?: \.([a-z0-9][\w-]*))?(?![\w-])")

def clauses(lines):
    """Spans (first, last+1) of equations `name args = ..` at column 0."""
    i, n = 0, len(lines)
    while i < n:
        l = lines[i]
        if re.match(r"^[a-z«][^:=]*\S* .*=( |$)", l) and not re.match(r'^(use|abbrev|unfolding|unfoldable|pub|open|module|data|record|mutual|infix|ruleset|mod)\b', l) and not l.startswith('--') and ' : ' not in l.split('=')[0]:
            j = i + 1
            while j < n and (lines[j].startswith('  ')): j += 1
            yield i, j
            i = j
        else: i += 1

def transform(text, params):
    """The body with its chains named, or None."""
    wh = re.search(r'^\s+where\b', text, re.M)
    tail = ''
    if wh: text, tail = text[:wh.start()], text[wh.start():]
    for r in params:
        if re.search(r'λ [^.]*\b' + re.escape(r) + r'\b[^.]*\.', text): return None
    depth = {}   # name -> (root, k) for names that are pure chains
    order = []
    # existing pure chains
    def lets(t):
        return list(re.finditer(r"let (" + ID + r") = (" + ID + r")((?: \.before)+) in ?\n?[ ]*", t))
    changed = True
    removed = {}
    while True:
        found = None
        for m in lets(text):
            x, r, ch = m.group(1), m.group(2), m.group(3)
            if r in params or r in removed: found = m; break
        if not found: break
        x, r, k = found.group(1), found.group(2), found.group(3).count('.before')
        if x in removed or x in params: return None
        root, k0 = (r, 0) if r in params else removed[r]
        removed[x] = (root, k0 + k)
        text = text[:found.start()] + text[found.end():]
    # every use of a removed name becomes a chain
    def back(m):
        x = m.group(0)
        root, k = removed[x]
        return f'⟪{root} {k} {x}⟫'
    if removed:
        names = sorted(removed, key=len, reverse=True)
        text = re.sub(r"(?<![\w.'′·-])(?:" + '|'.join(map(re.escape, names)) + r")(?![\w'′·-])", back, text)
        # chains that begin at a removed name
        text = re.sub(r"⟪(\S+) (\d+) (\S+)⟫((?: \.before)+)", lambda m: f"⟪{m.group(1)} {int(m.group(2)) + m.group(4).count('.before')} ?⟫", text)
    # other chains
    def mark(m):
        root, k, f = m.group(1), m.group(2).count('.before'), m.group(3)
        if root not in params: return m.group(0)
        return f"⟪{root} {k} ?⟫" + (f' .{f}' if f else '')
    text = CHAIN.sub(mark, text)
    points = {}
    for m in re.finditer(r"⟪(\S+) (\d+) (\S+)⟫(?: \.([a-z0-9][\w-]*))?", text):
        root, k, x, f = m.group(1), int(m.group(2)), m.group(3), m.group(4)
        e = points.setdefault((root, k), {'names': [], 'fields': [], 'uses': 0})
        e['uses'] += 1
        if x != '?' and x not in e['names']: e['names'].append(x)
        if f and f not in e['fields']: e['fields'].append(f)
    roots = {r for r, k in points}
    used = set()
    name = {}
    for root in sorted(roots):
        ks = sorted(k for r, k in points if r == root)
        for k in ks:
            e = points[(root, k)]
            if k == 1 and not any(not re.fullmatch(r'[a-z]\d', n) for n in e['names']):
                name[(root, k)] = None; continue
            own = [n for n in e['names'] if not re.fullmatch(r'[a-z]\d', n)]
            if own: pick = own[0]
            elif 'args' in e['fields'] or 'pre' in e['fields'] or 'good' in e['fields']: pick = 'at-start'
            elif e['fields']: pick = 'at-' + e['fields'][0]
            else: pick = 'earlier'
            base, i = pick, 2
            while pick in used or (pick not in own and re.search(r"(?<![\w.-])" + re.escape(pick) + r"(?![\w-])", re.sub(r'⟪[^⟫]*⟫', '', text))):
                pick = f'{base}-{i}'; i += 1
            used.add(pick); name[(root, k)] = pick
    rows = []
    for root in sorted(roots):
        last, at = root, 0
        for k in sorted(k for r, k in points if r == root):
            n = name[(root, k)]
            if n is None: continue
            rows.append(f"    let {n} = {last}{' .before' * (k - at)} in")
            last, at = n, k
    def out(m):
        root, k = m.group(1), int(m.group(2)); follows = m.group(4)
        n = name[(root, k)]
        if n is None:
            s = root + ' .before' * k
            if follows: return s + follows
            # in parentheses where it is an argument by itself
            return f'({s})' if not m.group(0).startswith('(') else s
        return n + (follows or '')
    text = re.sub(r"⟪(\S+) (\d+) (\S+)⟫( \.[a-z0-9][\w-]*)?", out, text)
    text = re.sub(r"\((at-[\w-]+|earlier[\w-]*)\)", r"\1", text)
    text = text.replace('((c .before))', '(c .before)')
    return rows, text, tail

def main():
    done = 0
    for nm in sys.argv[1:]:
        p = Path(nm); lines = p.read_text().split('\n'); out = []; last = 0
        for a, b in list(clauses(lines)):
            block = '\n'.join(lines[a:b])
            m = re.match(r"^(\S+)((?: [^=]*?)?) =(?: |\n)", block + '\n')
            key = f"{p}:{m.group(1) if m else '?'}"
            keys = {key, re.sub(r'.*crates/', '', key)}
            chains = re.findall(r"(?: \.before)+", block)
            deep = max([c.count('.before') for c in chains] + [0])
            c9 = re.search(r"let [a-z]\d = " + ID + r"( \.before)+ in", block)
            if not m or keys & SKIP or not (deep >= 4 or c9 or (deep >= 2 and any(len(l) > 160 for l in lines[a:b]))): continue
            params = [w for w in m.group(2).split() if re.fullmatch(r"[a-zκ][\w'′]*", w)]
            body = block[m.end():] if m.end() <= len(block) else ''
            got = transform(body, params)
            if got is None: continue
            rows, text, tail = got
            if not rows: continue
            out += lines[last:a]
            out.append(block[:m.end()].rstrip('\n').rstrip())
            out += rows
            text = text.strip('\n')
            first = text.lstrip(' ')
            out += ('    ' + first).rstrip().split('\n')
            if tail.strip(): out += tail.strip('\n').split('\n')
            last = b; done += 1
        out += lines[last:]
        if last: p.write_text('\n'.join(out))
    print('clauses', done)
main()
