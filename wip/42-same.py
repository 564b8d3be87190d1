#!/usr/bin/env python3
"""same.py NAMES OLD [NEW]: the definitions of specs/ and the contracts of src/ at the commit OLD, with crates renamed by NAMES, beside those of NEW (the work tree
if left out). Layout, comments, imports, line breaks and the crate in which a text stands do not count; prints what one side alone has, and ends with 1 if that is anything."""
import re, subprocess, sys
from collections import Counter
from pathlib import Path

NAMES = dict(line.split() for line in Path(sys.argv[1]).read_text().splitlines() if line.strip() and not line.startswith('#'))
CRATE = re.compile(r'Rattle·(' + '|'.join(map(re.escape, sorted(NAMES, key=len, reverse=True))) + r')(?=[·.]|\b)')


def files(commit):
    """The .antt files of specs/ and the .rt files of src/, as text."""
    if commit is None:
        for p in sorted(Path('crates').rglob('*')):
            if p.is_file() and re.search(r'/(specs/.*\.antt|src/.*\.rt)$', str(p)):
                yield str(p), p.read_text()
        return
    listed = subprocess.run(['git', 'ls-tree', '-r', '--name-only', commit, 'crates'], capture_output=True, text=True, check=True).stdout.split()
    for name in listed:
        if re.search(r'/(specs/.*\.antt|src/.*\.rt)$', name):
            yield name, subprocess.run(['git', 'show', f'{commit}:{name}'], capture_output=True, text=True, check=True).stdout


def flat(text):
    return re.sub(r'\s+', ' ', re.sub(r'([([{]) | ([)\]}])', r'\1\2', re.sub(r'\s+', ' ', text))).strip()


def definitions(text):
    """Top-level declarations: a line that begins in column 0 and what is indented below it; clauses of one name together."""
    text = re.sub(r'--.*', '', text)
    parts = []
    for line in text.split('\n'):
        if not line.strip() or line.startswith(('use ', 'pub mod ', 'mod ')):
            continue
        if line[0] != ' ':
            parts.append(line)
        elif parts:
            parts[-1] += ' ' + line
    return [flat(p) for p in parts]


def contracts(text):
    """Heads of functions, from `fn` to the body, and declared types."""
    text = re.sub(r'//.*', '', text)
    heads = re.findall(r'((?:pub )?(?:extern "C" )?fn \w+.*?)\n\{', text, re.S)
    types = re.findall(r'(pub (?:struct|enum) \w+ \{.*?\n\})', text, re.S)
    return [flat(t) for t in heads + types]


def texts(commit, renamed):
    count = Counter()
    for name, text in files(commit):
        if renamed:
            text = CRATE.sub(lambda m: 'Rattle·' + NAMES[m.group(1)], text)
            text = re.sub(r'(?<![\w:.])(' + '|'.join(map(re.escape, NAMES)) + r')::', lambda m: NAMES[m.group(1)] + '::', text)
        for part in definitions(text) if name.endswith('.antt') else contracts(text):
            count[part] += 1
    return count


old = texts(sys.argv[2], True)
new = texts(sys.argv[3] if len(sys.argv) > 3 else None, False)
for part in sorted((old - new).keys()):
    print('-', part)
for part in sorted((new - old).keys()):
    print('+', part)
print(f'{sum((old & new).values())} definitions and contracts are the same, {sum((old - new).values())} stand before alone, {sum((new - old).values())} after alone')
sys.exit(old != new)
