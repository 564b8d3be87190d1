#!/usr/bin/env python3
"""forms.py [--list POINT] [COMMIT]: counts, in crates/*/src, the places of the eight points of docs/DESIGN-PASS.md, of a commit or else of the work tree; --list
prints the places of one point. A place of points 1, 3, 4, 6 and 7 is a line (of 1 a last case or a flag of a type, and a test of an answer by its number); of 2 a name or a body that stands twice; of 5 a fact or a list of parameters; of 8
an answer of one of the forms that the search tries by itself."""
import re
import subprocess
import sys
from collections import defaultdict
from pathlib import Path

ROOT = Path(__file__).resolve().parent.parent
FUNCTION = re.compile(r"^ *(?:pub )?(?:extern \"C\" )?fn (\w+)(.*?)^ *\{\n(.*?)^ *\}\n", re.S | re.M)
REFUSALS = re.compile(r"^    (?:Refused|Wrong|Other|NotDecimal|NotExact|NotABlock|Faulty \{ block)\b[^\n=]*", re.M)
FLAG = re.compile(r"^\s+(?:pub )?(?:begun|cut|more|good|go_on|came|done): bool,$|^    pub answer: Answer,$", re.M)
CODES = re.compile(r"\bnumber\((?:answer|head)\) != 0")
LOOPS = re.compile(r"^\s*(?:while|loop)\b", re.M)
TESTS = re.compile(r"^    if \w+ == \d+ \{\n        return (?:true|false|\d+);\n    \}\n", re.M)
MINIMUM = re.compile(r"\n    if (\w+) <=? (\w+) \{\n        return \1;\n    \}\n    \2\n")
CAST = re.compile(r"^\{\n    \w+ as \w+\n\}", re.M)
EQUAL = re.compile(r"bits::(?:same|copy|fill)\(|[( !]same\(")
CURSOR = re.compile(r"\bout: &mut \[u8\],\s+at: usize")
SWITCH = re.compile(r"\bfn \w+\([^)]*\b(?:inverse|valid|without|is_valid): bool|\bdyn\b|: fn\(|\bextern \"C\" fn\(")
PLAIN = re.compile(r"^(\S+) c = (?:omega arith|search rules|c\.requires(?:\.\d)*|refl)$", re.M)


def texts(commit: str, folder: str, ending: str) -> "dict[str, str]":
    """The files of a kind, by their paths from crates/ on."""
    if not commit:
        found = sorted(ROOT.glob(f"crates/*/{folder}/**/*{ending}"))
        return {str(path.relative_to(ROOT / "crates")): path.read_text() for path in found}
    names = subprocess.run(["git", "ls-tree", "-r", "--name-only", commit, "crates"], cwd=ROOT, capture_output=True, text=True, check=True).stdout.split()
    names = [name for name in names if re.fullmatch(rf"crates/[^/]+/{folder}/.*{re.escape(ending)}", name)]
    wanted = "".join(f"{commit}:{name}\n" for name in names).encode()
    stream = subprocess.run(["git", "cat-file", "--batch"], cwd=ROOT, input=wanted, capture_output=True, check=True).stdout
    given, at = {}, 0
    for name in names:
        end = stream.index(b"\n", at)
        size = int(stream[at:end].split()[2])
        given[name[7:]] = stream[end + 1:end + 1 + size].decode()
        at = end + size + 2
    return given


def lines(code: "dict[str, str]", *patterns: "re.Pattern[str]") -> "list[str]":
    """Where the patterns are found."""
    return [f"{path}:{text.count(chr(10), 0, match.start(0)) + 1}: {' '.join(match.group(0).split())[:100]}"
            for path, text in code.items() for pattern in patterns for match in pattern.finditer(text)]


def bodies(code: "dict[str, str]") -> "list[str]":
    """Functions that another one repeats but for a type, a size or a constant: the body the same with names and numbers left out, four lines at least, or one name
    in several libraries with a body of one line the same. Functions for C are not looked at."""
    by_shape: "defaultdict[str, list[str]]" = defaultdict(list)
    for path, text in code.items():
        if path.startswith(("layer1_c/", "exported", "sending_mistakes/", "reading_mistakes/", "mistakes/")):
            continue
        for name, head, body in FUNCTION.findall(text):
            plain = re.sub(r"//[^\n]*", "", body)
            if plain.count("\n") >= 3:
                by_shape[re.sub(r"\d[\w]*|[A-Z]\w*", "#", re.sub(r"\s+", " ", plain))].append(f"{path}: {name}")
            elif plain.strip():
                by_shape[name + re.sub(r"\s+|u8|u16|u32", "", plain)].append(f"{path}: {name}")
    return [" ~ ".join(places) for places in by_shape.values() if len(places) > 1]


def conjuncts(clause: str) -> "list[str]":
    """The facts of a clause that `×` joins."""
    parts, depth, part = [], 0, ""
    for letter in clause:
        depth += (letter in "([{") - (letter in ")]}")
        if letter == "×" and depth == 0:
            parts.append(part)
            part = ""
        else:
            part += letter
    return [" ".join(each.split()).strip("() ") for each in [*parts, part]]


def together(code: "dict[str, str]") -> "list[str]":
    """Facts that stand in the `requires` of three functions or more of a crate, and lists of four parameters or more that three functions or more have in a row."""
    found = []
    facts: "defaultdict[tuple[str, str], set[str]]" = defaultdict(set)
    lists: "defaultdict[tuple[str, ...], set[str]]" = defaultdict(set)
    for path, text in code.items():
        if path.startswith(("layer1_c/", "exported")):
            continue
        for name, head, _ in FUNCTION.findall(text):
            for clause in re.findall(r"requires(?: \w+)? \{(.*?)\}\n", head, re.S):
                for fact in conjuncts(clause):
                    facts[path.split("/")[0], fact].add(name)
            given = re.findall(r"(\w+): (&(?:mut )?\[u8\])", head.split("requires")[0].split("ensures")[0])
            for size in range(4, len(given) + 1):
                for start in range(len(given) - size + 1):
                    lists[tuple(word for word, _ in given[start:start + size])].add(f"{path}:{name}")
    found += [f"{crate}: {fact}: {', '.join(sorted(names))}" for (crate, fact), names in sorted(facts.items()) if len(names) >= 3]
    whole = {words: names for words, names in lists.items() if len(names) >= 3}
    found += [f"parameters {', '.join(words)}: {len(names)} functions" for words, names in sorted(whole.items())
              if not any(words != other and names <= whole[other] and " ".join(words) in " ".join(other) for other in whole)]
    return found


def main() -> None:
    words = sys.argv[1:]
    listed = int(words[1]) if words[:1] == ["--list"] else 0
    words = words[2:] if listed else words
    code = texts(words[0] if words else "", "src", ".rt")
    answers = texts(words[0] if words else "", "proofs", "Answers.antt")
    points = {
        1: lines(code, REFUSALS, FLAG, CODES),
        2: bodies(code),
        3: lines(code, LOOPS),
        4: lines(code, TESTS, MINIMUM, CAST, EQUAL),
        5: together(code),
        6: lines(code, CURSOR),
        7: lines(code, SWITCH),
        8: lines(answers, PLAIN),
    }
    for point, places in points.items():
        if listed in (0, point):
            print(f"point {point}: {len(places)}")
        if listed == point:
            print("\n".join(places))


main()
