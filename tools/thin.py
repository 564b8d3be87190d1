#!/usr/bin/env python3
"""thin.py: writes crates/layer1_c/src, the functions of the C library: for each `extern "C"` function of the crates below one of the same name, parameters and
contract that calls it. A crate is a library or a static library and not both, so the libraries keep their functions and layer1_c alone is made into an archive.
thin.py --check: says where layer1_c's functions are not the libraries', and writes nothing."""
import re
import subprocess
import sys
from pathlib import Path

ROOT = Path(__file__).resolve().parent.parent
CRATES = ["exported", "exported_places", "exported_runs", "exported_sheets", "version"]
THIN = ROOT / "crates" / "layer1_c" / "src"
# A module has not the name of a crate that layer1_c uses.
NAMES = {("exported_sheets", "lib"): "sheet", ("version", "lib"): "number"}
FUNCTION = re.compile(r'((?:^//[^\n]*\n)*)^#\[unsafe\(no_mangle\)\]\n(pub extern "C" fn (\w+)[^{]*?\(.*?\) -> \w+)\n(.*?)^\{\n', re.S | re.M)
USE = re.compile(r"^ghost use ([^\s{;]+)\.\{([^}]*)\};\n", re.M)


def functions(text: str) -> "list[tuple[str, str, str, str]]":
    """Of each exported function its comment, its signature, its name and its contract."""
    return [match.groups() for match in FUNCTION.finditer(text)]


def called(crate: str, signature: str, name: str) -> str:
    """The call of the library's function, with the parameters as they are."""
    given = re.findall(r"(\w+): [^,)]*", signature[signature.index("(", signature.index(name)):])
    return f"    {crate}::{name}({', '.join(given)})\n"


def imports(text: str, contracts: str) -> str:
    """The lines that import what the contracts cite."""
    lines = ""
    for path, names in USE.findall(text):
        kept = []
        for name in (word.strip() for word in names.split(",")):
            parts = [part for part in re.split(r"[\s◌]+", name.split(" as ")[-1]) if part]
            if all(re.search(rf"(?<![\w.'])({re.escape(part)})(?![\w'])", contracts) if re.match(r"\w", part) else part in contracts for part in parts):
                kept.append(name)
        lines += f"ghost use {path}.{{{', '.join(kept)}}};\n" if kept else ""
    return lines


def modules() -> "dict[str, tuple[str, str, list[str]]]":
    """For each module of layer1_c its text, the head of the library's file, and the functions."""
    made = {}
    for crate in CRATES:
        for file in sorted((ROOT / "crates" / crate / "src").glob("*.rt")):
            text = file.read_text()
            found = functions(text)
            if not found:
                continue
            head = text.split("\n", 1)[0] + "\n"
            body = "".join(
                f'\n{comment}#[unsafe(no_mangle)]\n{signature}\n{contract}{{\n{called(crate, signature, name)}}}\n' for comment, signature, name, contract in found
            )
            use = imports(text, "".join(contract for _, _, _, contract in found))
            made[NAMES.get((crate, file.stem), file.stem)] = (head + use + body, crate, [name for _, _, name, _ in found])
    return made


def lib(made: "dict[str, tuple[str, str, list[str]]]") -> str:
    """The root file."""
    head = (
        "// The C library: the functions of `include/layer1.h`, each with the contract of the library's function that it calls, of the crates `exported`, "
        "`exported_places`, `exported_runs`, `exported_sheets` and `version`. What `rt lib` makes of this crate is the archive liblayer1.a. "
        "`tools/thin.py` writes these files.\n#![tactic(auto)]\n\n"
    )
    uses = "".join(f"pub use {module}::{{{', '.join(sorted(names))}}};\n" if len(names) > 1 else f"pub use {module}::{names[0]};\n" for module, (_, _, names) in sorted(made.items()))
    return head + "".join(f"mod {module};\n" for module in sorted(made)) + "\n" + uses


def main() -> int:
    made = modules()
    files = {f"{module}.rt": text for module, (text, _, _) in made.items()}
    files["lib.rt"] = lib(made)
    wrong = []
    if "--check" in sys.argv[1:]:
        flat = lambda text: re.sub(r",(?=[)}])", "", re.sub(r"\s+", "", text))
        there = {path.name: path.read_text() for path in THIN.glob("*.rt")} if THIN.exists() else {}
        for name in sorted(files.keys() | there.keys()):
            if flat(files.get(name, "")) != flat(there.get(name, "")):
                wrong.append(f"crates/layer1_c/src/{name} is not what the libraries' functions give (tools/thin.py)")
    else:
        THIN.mkdir(parents=True, exist_ok=True)
        for path in THIN.glob("*.rt"):
            path.unlink()
        for name, text in files.items():
            (THIN / name).write_text(text)
        subprocess.run(["rt", "fmt"], cwd=THIN.parent, check=True)
    for said in wrong:
        print(f"thin: {said}")
    return 1 if wrong else 0


if __name__ == "__main__":
    sys.exit(main())
