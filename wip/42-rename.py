#!/usr/bin/env python3
"""rename.py: renames crates by the table of NAMES, in code, definitions, proofs, edits, lists, scripts and documents. Run from the root of a clean tree."""
import re, subprocess, sys
from pathlib import Path
NAMES = dict(line.split() for line in Path(sys.argv[1]).read_text().splitlines() if line.strip() and not line.startswith('#'))
root = Path('.')
lists = {}
for line in (root / 'crates.txt').read_text().splitlines():
    if ':' in line:
        a, b = line.split(':', 1); lists[a] = b.split()
old = sorted(NAMES, key=len, reverse=True)
ALT = '|'.join(map(re.escape, old))
LOGIC = re.compile(r'Rattle·(' + ALT + r')(?=[·.]|\b)')

def modules(crate):
    """Names of the crate's own modules: a path that begins with one is not another crate's."""
    own = set()
    for p in (root / 'crates' / crate / 'src').rglob('*.rt'):
        own |= set(re.findall(r'^\s*(?:pub )?mod (\w+);', p.read_text(), re.M))
    return own

def code(text, crate, own):
    text = LOGIC.sub(lambda m: 'Rattle·' + NAMES[m.group(1)], text)
    def path(m):
        n = m.group(1)
        return NAMES[n] + '::' if n in lists.get(crate, []) and n not in own else m.group(0)
    text = re.sub(r'(?<![\w:.])(' + ALT + r')::', path, text)
    # in comments: a crate in backquotes
    return re.sub(r'`(' + ALT + r')(::\w+)?`', lambda m: '`' + NAMES[m.group(1)] + (m.group(2) or '') + '`' if (m.group(2) or 'crate `' + m.group(1) + '`' in text) else m.group(0), text)

for crate in lists:
    folder = root / 'crates' / crate
    if not folder.exists(): continue
    own = modules(crate)
    for p in folder.rglob('*'):
        if p.suffix in ('.rt', '.antt', '.edit') and p.is_file():
            t = p.read_text(); n = code(t, crate, own)
            if n != t: p.write_text(n)
for a, b in NAMES.items():
    if (root / 'crates' / a).exists(): subprocess.run(['git', 'mv', f'crates/{a}', f'crates/{b}'], check=True)
out = []
for line in (root / 'crates.txt').read_text().splitlines():
    if ':' in line:
        a, b = line.split(':', 1)
        line = NAMES.get(a, a) + ':' + ''.join(' ' + NAMES.get(x, x) for x in b.split())
    out.append(line)
(root / 'crates.txt').write_text('\n'.join(out) + '\n')
def bare(line):
    """A crate by itself in backquotes, but for a name that stands beside its file."""
    out, at, base = [], 0, False
    for m in re.finditer(r'`([^`]*)`', line):
        between = line[at:m.start()]
        if not re.fullmatch(r'[ ,;:]*(and )?', between): base = False
        token = m.group(1)
        if re.search(r'\.(antt|rt|rs)$', token.split(' ')[0]): base = True
        if token in NAMES and not base: token = NAMES[token]
        out += [between, '`' + token + '`']; at = m.end()
    return ''.join(out) + line[at:]

docs = [p for p in subprocess.run(['git', 'ls-files', '*.md', '.ci', 'Makefile', 'front', 'wrapper', 'bench', 'second', 'include', 'layer1'], capture_output=True, text=True).stdout.split() if Path(p).is_file()]
for name in docs:
    p = Path(name)
    try: t = p.read_text()
    except UnicodeDecodeError: continue
    n = LOGIC.sub(lambda m: 'Rattle·' + NAMES[m.group(1)], t)
    n = re.sub(r'(?<![\w/.])(crates/)?(' + ALT + r')/(?=(specs|proofs|src|must-fail)\b)', lambda m: (m.group(1) or '') + NAMES[m.group(2)] + '/', n)
    n = re.sub(r'(?<=crates/)(' + ALT + r')(?=[/\s"\'])', lambda m: NAMES[m.group(1)], n)
    n = re.sub(r'`(' + ALT + r')::', lambda m: '`' + NAMES[m.group(1)] + '::', n)
    if p.suffix == '.md':
        # `crate/label`: a must-fail edit
        def edit(m):
            return '`' + NAMES[m.group(1)] + '/' + m.group(2) if (root / 'crates' / NAMES[m.group(1)] / 'must-fail' / (m.group(2) + '.edit')).exists() else m.group(0)
        n = re.sub(r'`(' + ALT + r')/(\w+)', edit, n)
    if p.suffix == '.md' and p.name != 'MANUAL.md':
        n = '\n'.join(bare(l) for l in n.split('\n'))
    if n != t: p.write_text(n)
p = root / 'include' / 'library'
p.write_text(re.sub(r'^(crates=")([^"]*)"', lambda m: m.group(1) + ' '.join(NAMES.get(x, x) for x in m.group(2).split()) + '"', p.read_text(), flags=re.M))
subprocess.run(['rt', 'fmt'], check=True)
