"""Writes docs/DEFINITIONS.md from the comments of the definitions in crates/*/specs/. Its first part, the core, has the
definitions that docs/core.txt lists, in that order.
Usage: python3 docs/definitions.py"""

import pathlib
import re

TOP = pathlib.Path(__file__).resolve().parent.parent
PAGE = TOP / "docs/DEFINITIONS.md"
CORE = TOP / "docs/core.txt"
# Crates whose definitions say how documents are read and lines are printed.
FORMATS = {"rw_doc", "rw_docspan", "rw_docpattern", "rw_docrule", "rw_doccondition", "rw_docschedule", "rw_docwatch", "rw_document", "rw_print"}

HEAD = re.compile(r"^(?:abbrev |unfoldable )?pub (?:record |data )?([^\s:(]+)")
USE = re.compile(r"^\s*(?:ghost )?use Rattle\.([\w.]+?)(?:\.\{([^}]*)\}|(?: as (\w+)))?;?\s*$", re.M)
FUNCTION = re.compile(r"^(\s*)(pub(?:\(crate\))? )?fn (\w+)")


class Imports:
    """What the `use` lines of a file bring in: names, and modules under other names."""

    def __init__(self, text):
        self.names, self.modules = {}, {}
        for module, items, alias in USE.findall(text):
            for item in filter(None, (each.strip() for each in items.split(","))):
                name = item.split(" as ")
                self.names[name[-1]] = (module, name[0])
            if alias:
                self.modules[alias] = module

    def cited(self, text, definitions, here=""):
        """The definitions that a text names."""
        found = set()
        for word in set(re.findall(r"[A-Za-z_][\w'-]*", text)):
            for key in ((here, word), self.names.get(word)):
                if key in definitions:
                    found.add(key)
        for alias, module in self.modules.items():
            for word in re.findall(rf"\b{re.escape(alias)}\.([A-Za-z_][\w'-]*)", text):
                if (module, word) in definitions:
                    found.add((module, word))
        return found


class Definition:
    """A definition: where it stands, its sentence and its text."""

    def __init__(self, file, module, name, block, imports):
        lines = block.split("\n")
        self.file, self.module, self.name, self.imports = file, module, name, imports
        self.crate = module.split(".")[0]
        self.says = " ".join(line[2:].strip() for line in lines if line.startswith("--"))
        self.text = "\n".join(line for line in lines if not line.startswith("--")).strip("\n")


def read_definitions():
    """All definitions of the crates by module and name, in the order of the crates, and the headings of their files."""
    found, headings = {}, {}
    crates = [line.split(":")[0] for line in (TOP / "crates.txt").read_text().splitlines() if ":" in line and line[0] != "#"]
    for crate in crates:
        for file in sorted((TOP / "crates" / crate / "specs").glob("**/*.antt")):
            inner = file.relative_to(TOP / "crates" / crate / "specs").with_suffix("").parts
            module = ".".join((crate, "specs") + inner)
            text = file.read_text()
            imports = Imports(text)
            headings[module] = re.match(r"(?:-- .*\n)*", text)[0].replace("-- ", "").replace("\n", " ").strip().rstrip(".")
            for block in re.split(r"\n\n+", text):
                for line in block.split("\n"):
                    if (name := HEAD.match(line)) and name[1] not in ("mod", "use"):
                        found[module, name[1]] = Definition(file, module, name[1], block, imports)
                        break
    return found, headings


def exported_names(crate):
    """What the crate's root brings out, or none where it is a program."""
    root = crate / "src/lib.rt"
    if not root.exists():
        return None
    names = set()
    for items in re.findall(r"^pub use [\w:]+?::(?:\{([^}]*)\}|(\w+));", root.read_text(), re.M):
        names.update(each.strip() for each in ",".join(items).split(",") if each.strip())
    return names


def clauses(crate):
    """The exported contracts of the crate: texts with the imports of their files."""
    names = exported_names(crate)
    for file in sorted(crate.glob("src/**/*.rt")):
        text = file.read_text()
        imports, lines, at, owner = Imports(text), text.split("\n"), 0, ""
        while at < len(lines):
            line = lines[at]
            if block := re.match(r"(?:pub )?(?:impl|trait)\b.*?(\w+)(?:<[^>]*>)? (?:for (\w+).*)?\{", line):
                owner = block[2] or block[1]
            head = FUNCTION.match(line)
            ghost = re.match(r"\s*ghost (?!use)", line)
            if not head and not ghost:
                at += 1
                continue
            start = at
            last = (lambda each: each.rstrip().endswith((";", "{}")) or re.match(r"\s*\{$|.*[^=]\{$", each)) if head else (lambda each: each.rstrip().endswith((";", ",")))
            while at < len(lines) - 1 and not last(lines[at]):
                at += 1
            at += 1
            inside = line.startswith("    ")
            shown = ghost or inside or (head[2] or "").strip() == "pub"
            if names is not None:
                shown = shown and (owner if inside else head[3]) in names
            if shown:
                yield imports, "\n".join(each for each in lines[start:at] if not each.strip().startswith("//"))


def reached(definitions):
    """The definitions that exported contracts name, and those that these name, and so on."""
    todo = set()
    for crate in sorted((TOP / "crates").iterdir()):
        for imports, text in clauses(crate):
            todo |= imports.cited(text, definitions)
    found = set()
    while todo:
        key = todo.pop()
        if key not in found:
            found.add(key)
            each = definitions[key]
            todo |= each.imports.cited(each.text, definitions, each.module) - found
    return found


def core_parts(definitions):
    """The headings of the core, each with its definitions."""
    parts = []
    for line in CORE.read_text().splitlines():
        if line.startswith("# "):
            parts.append((line[2:], []))
        elif line.strip():
            module, *names = line.split()
            crate, inner = module.split(".", 1)
            for name in names:
                parts[-1][1].append(definitions[f"{crate}.specs.{inner}", name])
    return parts


def sentence(text):
    return text[:1].upper() + text[1:] if text else ""


def tables(definitions, headings, keys):
    """A table for each file, of the definitions among the keys."""
    written, module = [], None
    for key, each in definitions.items():
        if key not in keys:
            continue
        if each.module != module:
            module = each.module
            written.append(f"\n### `{each.crate}`: {headings[module]}\n\nFile `{each.file.relative_to(TOP)}`\n\n| Name | Says |\n|---|---|")
        written.append(f"| `{each.name}` | {sentence(each.says).replace('|', chr(92) + '|')} |")
    return "\n".join(written)


def page():
    """The text of docs/DEFINITIONS.md."""
    definitions, headings = read_definitions()
    seen = reached(definitions)
    parts = core_parts(definitions)
    core = {(each.module, each.name) for _, some in parts for each in some}
    formats = {key for key in seen - core if definitions[key].crate in FORMATS}
    helpers = set(definitions) - seen - core
    text = [
        "# Definitions",
        "",
        f"What the {len(definitions)} definitions of the crates say. `docs/definitions.py` writes this page from their comments.",
        "",
        "1. [The core](#the-core): what a reader of the theorems has to believe, in reading order, with its text.",
        "2. [Formats](#formats): how documents are read and lines are printed.",
        "3. [What else contracts reach](#what-else-contracts-reach): cited by the contracts of exported functions, at once or through others.",
        "4. [Helpers](#helpers): cited by no exported contract, but by proofs and by functions inside a crate.",
        "",
        "## The core",
    ]
    for heading, some in parts:
        text += ["", f"### {heading}"]
        for each in some:
            text += ["", f"`{each.name}` of `{each.file.relative_to(TOP)}`. {sentence(each.says)}.", "", "```", each.text, "```"]
    text += ["", "## Formats", tables(definitions, headings, formats)]
    text += ["", "## What else contracts reach", tables(definitions, headings, seen - core - formats)]
    text += ["", "## Helpers", ""]
    for crate in dict.fromkeys(definitions[key].crate for key in definitions if key in helpers):
        names = [f"`{each.name}`" for key, each in definitions.items() if key in helpers and each.crate == crate]
        text.append(f"- `{crate}`: {', '.join(names)}")
    return "\n".join(text) + "\n"


if __name__ == "__main__":
    PAGE.write_text(page())
