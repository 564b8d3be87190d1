#!/usr/bin/env python3
"""Brings the documents' names and quoted definitions to the spelling of the tree, once, after port.py and respell.py.

usage: tools/redoc.py OLD [FILE..]   OLD is the last commit of the old spelling; without files the documents of DOCUMENTS

A name of the old tree and one of today's are the same where they differ in humps, dashes and primes alone, first in the file that a document names beside it,
then anywhere. An indented block is the whole definition, statement or contract of that file: today's text of it takes its place. What is left is said."""
import glob
import os
import re
import subprocess
import sys

DOCUMENTS = ["README.md", "CONTRIBUTING.md", "docs/*.md"]
LEFT_OUT = ["docs/MUST-FAIL.md", "docs/PORT.md"]
KINDS = (".antt", ".rt")
NAME = re.compile(r"[^\W\d][\w'′]*(?:-[\w'′]+)*")
OTHER = {"getD": "get_or"}
PATH = re.compile(r"/|\.(antt|rt|md|txt)$")
BESIDE = re.compile(r"[ ,;:]*(and )?")
MARK = ("--", "//", "#[")
CONTRACT = re.compile(r"(requires|ensures)( \w+)? \{")


def git(*words):
    return subprocess.run(["git", *words], stdout=subprocess.PIPE, check=True).stdout.decode()


def key(name):
    """What two spellings of a name share."""
    return name[0] + re.sub(r"[-_]", "", name[1:]).replace("′", "'").lower()


class Trees:
    """The files of the crates as they were and as they are."""

    def __init__(self, old):
        self.old, self.new, self.pairs = {}, {}, {}
        for path in git("ls-tree", "-r", "--name-only", old, "crates").splitlines():
            if path.endswith(KINDS):
                self.old[path] = ""
        batch = subprocess.run(["git", "cat-file", "--batch"], input="".join(f"{old}:{path}\n" for path in self.old).encode(), stdout=subprocess.PIPE, check=True).stdout
        at = 0
        for path in self.old:
            end = batch.index(b"\n", at)
            size = int(batch[at:end].split()[-1])
            self.old[path] = batch[end + 1:end + 1 + size].decode()
            at = end + 2 + size
        for path in git("ls-files", "crates").splitlines():
            if path.endswith(KINDS) and os.path.exists(path):
                with open(path, encoding="utf-8") as file:
                    self.new[path] = file.read()
        self.words_old = {path: set(NAME.findall(text)) for path, text in self.old.items()}
        self.words_new = {path: set(NAME.findall(text)) for path, text in self.new.items()}
        self.all_new = set().union(*self.words_new.values())
        for path, words in self.words_old.items():
            self.pairs[path] = self.paired(words, self.words_new.get(path, set()))
        self.anywhere = self.paired(set().union(*self.words_old.values()), self.all_new)

    def paired(self, olds, news):
        keys = {}
        for name in news:
            keys.setdefault(key(name), set()).add(name)
        found = {}
        for name in olds - news:
            named = keys.get(key(name), set()) - olds or keys.get(key(name), set())
            if name in OTHER:
                found[name] = OTHER[name]
            elif len(named) == 1:
                found[name] = next(iter(named))
            elif named:
                # as tools/respell.py spells it
                spelled = re.sub(r"(?<=[a-z0-9'])([A-Z])", r"_\1", name.replace("′", "'")).lower()
                found.update({name: spelled} if spelled in named else {})
        return found

    def of_folder(self, path):
        """The pairs of a file, or of all files of a folder."""
        if path in self.pairs:
            return self.pairs[path]
        found = {}
        for other, pairs in self.pairs.items():
            if other.startswith(path + "/"):
                found.update(pairs)
        return found

    def name(self, name, base):
        """Today's spelling of a name that stands beside this file, or beside none."""
        pairs = self.of_folder(base) if base else {}
        if name in pairs:
            return pairs[name]
        news = self.words_new.get(base, self.all_new)
        if name in news or name in self.all_new and not base:
            return name
        return self.anywhere.get(name, name)

    def find(self, token, base, there):
        """The path that a token of a document stands for."""
        paths = [token, f"crates/{token}"]
        if base:
            paths += [f"{os.path.dirname(base) or base}/{token}"]
        for path in paths:
            if path in there or any(other.startswith(path + "/") for other in there):
                return path
        return ""


def declared(line):
    """The name that a line of a specification or a proof declares."""
    match = re.match(r" *(?:pub |abbrev |unfoldable |opaque )*(?:record |data )?([^\s(){}:]+)(?: [({].*)? ?:", line) or re.match(r" *(?:pub |abbrev |unfoldable |opaque )*(?:record|data) ([^\s(){}:]+)", line)
    return match.group(1) if match else ""


def function(lines, at):
    """The function whose contract stands at this line."""
    for line in reversed(lines[:at + 1]):
        match = re.search(r"\bfn (\w+)", line)
        if match:
            return match.group(1)
    return ""


def place(lines, block):
    """Where the lines of a block stand in a file."""
    for at in range(len(lines) - len(block) + 1):
        if lines[at:at + len(block)] == block:
            return at
    return -1


def contract(lines, name, comments):
    """The contract of a function, as the lines stand."""
    for at, line in enumerate(lines):
        if re.search(rf"\bfn {name}\b", line):
            first = next(n for n in range(at, len(lines)) if CONTRACT.match(lines[n].strip()) or lines[n].strip() == "{" or lines[n].endswith(";"))
            while comments and lines[first - 1].strip().startswith("//"):
                first -= 1
            last = next((n for n in range(first, len(lines)) if lines[n].strip().startswith("{") or not lines[n].strip()), len(lines))
            return lines[first:last]
    return []


def definition(path, lines, name, comments, indent):
    """A definition, or the statement of a law, with the comments above it or without them."""
    for at, line in enumerate(lines):
        if declared(line) == name and len(line) - len(line.lstrip()) == indent:
            first = at
            while comments and first > 0 and lines[first - 1].strip().startswith("--"):
                first -= 1
            last = at
            while last < len(lines) and lines[last].strip():
                text = lines[last].strip()
                if last > at and "/proofs/" in path and text.startswith(("unfolding ", name + " ")):
                    break
                last += 1
            return lines[first:last]
    return []


def requoted(trees, path_old, path, block):
    """Today's text of a quoted block, or nothing."""
    old = trees.old.get(path_old, "").split("\n")
    at = place(old, block)
    if at < 0 or path not in trees.new:
        return []
    new = trees.new[path].split("\n")
    comments = block[0].strip().startswith(("--", "//"))
    first = next((line for line in block if not line.strip().startswith(MARK)), block[0])
    if path.endswith(".rt"):
        found = contract(new, function(old, at), comments)
    else:
        name = declared(first)
        found = definition(path, new, trees.name(name, path_old) if name else "", comments, len(first) - len(first.lstrip()))
    return found


def turned(trees, text, state):
    """A line of text with the names in backquotes as they are today."""
    parts = text.split("`")
    base_old = base = ""
    for n in range(1, len(parts) - 1, 2):
        if not BESIDE.fullmatch(parts[n - 1]):
            base_old = base = ""
        token = parts[n].split(" ")[0]
        if PATH.search(token):
            base_old = trees.find(token, base_old, trees.old)
            base = trees.find(token, base, trees.new)
            state["old"], state["new"] = base_old, base or base_old
            continue
        if "::" in token:
            continue
        parts[n] = NAME.sub(lambda match: trees.name(match.group(0), base_old), parts[n])
    return "`".join(parts)


def main():
    trees = Trees(sys.argv[1])
    documents = sys.argv[2:] or [path for pattern in DOCUMENTS for path in sorted(glob.glob(pattern)) if path not in LEFT_OUT]
    for document in documents:
        with open(document, encoding="utf-8") as file:
            lines = file.read().split("\n")
        written, block, state = [], [], {"old": "", "new": ""}
        for number, line in enumerate(lines + [""], 1):
            if line.startswith("    "):
                block.append(line[4:])
                continue
            if block:
                same = state["new"] in trees.new and place(trees.new[state["new"]].split("\n"), block) >= 0
                found = block if same else requoted(trees, state["old"], state["new"], block)
                if not found and state["old"]:
                    print(f"{document}:{number - 1}: the block of {state['old']} is as it was: {block[0]}")
                written += ["    " + text for text in found or block]
                block = []
            written.append(turned(trees, line, state) if "`" in line else line)
        text = "\n".join(written[:-1])
        with open(document, "w", encoding="utf-8") as file:
            file.write(text)


if __name__ == "__main__":
    main()
