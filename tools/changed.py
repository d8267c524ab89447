#!/usr/bin/env python3
"""Writes, in Markdown, each public signature, type, definition and theorem that differs from those of a commit.

tools/changed.py COMMIT     a block for each, the old lines with - and the new ones with +
tools/changed.py COMMIT -g  only the names that are gone

Layout and imports don't count. Of proofs/ it lists what stands in a file ..Theorems.antt, and what README or docs/ link.
"""
import pathlib
import re
import subprocess
import sys

root = pathlib.Path(__file__).resolve().parent.parent
commit = sys.argv[1]
gone_only = "-g" in sys.argv


def git(*words):
    return subprocess.run(["git", "-C", str(root), *words], capture_output=True, text=True, check=True).stdout


def old_files():
    for path in git("ls-tree", "-r", "--name-only", commit).split("\n"):
        if wanted(path):
            yield path, git("show", f"{commit}:{path}")


def new_files():
    for path in sorted(root.glob("crates/*/*/**/*")):
        name = str(path.relative_to(root))
        if path.is_file() and wanted(name):
            yield name, path.read_text()


def wanted(path):
    return bool(re.match(r"crates/\w+/(src/[^/]*\.rt|specs/[^/]*\.antt|proofs/[^/]*\.antt)$", path))


def linked():
    names = set()
    for path in git("ls-tree", "-r", "--name-only", commit).split("\n"):
        if path == "README.md" or re.match(r"docs/[^/]*\.md$", path):
            for name, to in re.findall(r"\[([^\]\s]+)\]\(([^)\s]+\.antt)\)", git("show", f"{commit}:{path}")):
                names.add((to.split("crates/")[-1].split("/")[0], name))
    return names


def flat(text):
    text = re.sub(r"--[^\n]*|//[^\n]*", "", text)
    return " ".join(text.split()).replace(",)", ")").replace("( ", "(").replace(" )", ")").replace(", )", ")")


def of_source(text):
    """Public functions with their clauses, and public types."""
    for m in re.finditer(r"(?m)^( *)pub (?:const )?fn (\w+)", text):
        end = re.compile(r"(?m)^%s\{|;$" % m.group(1)).search(text, m.start())
        inside = re.findall(r"(?m)^impl(?:<[^>]*>)? (?:(?:\w+) for )?(\w+)", text[:m.start()]) if m.group(1) else []
        yield "fn", (inside[-1] + "::" if inside else "") + m.group(2), flat(text[m.start():end.start() if end else len(text)])
    for m in re.finditer(r"(?ms)^pub (struct|enum|trait|type|const) (\w+).*?(?:^\}|;$)", text):
        yield m.group(1), m.group(2), flat(m.group(0))
    for m in re.finditer(r"(?ms)^    pub fn (\w+).*?(?=^    \{)", ""):
        yield m


def of_logic(text, statements):
    """Public definitions, or the statements of public lemmas."""
    lines = text.split("\n")
    module = ""
    for n, line in enumerate(lines):
        m = re.match(r"^ *module _ (.*) where$", line)
        if m:
            module = m.group(1)
        m = re.match(r"^( *)(?:abbrev |unfoldable )?pub (?:(data|record|ruleset) )?([^\s:{(]+)", line)
        if not m or m.group(3) in ("mod", "use"):
            continue
        block = [line]
        for later in lines[n + 1:]:
            if not later.strip() or re.match(r"^ *(abbrev |unfoldable )?pub ", later) and len(later) - len(later.lstrip()) <= len(m.group(1)) and not m.group(2):
                break
            block.append(later)
        if statements and not m.group(2):
            kept = []
            for b in block:
                if kept and re.match(r"^ *(unfolding|where)\b|^ *%s\b[^:]*=" % re.escape(m.group(3)), b):
                    break
                kept.append(b)
            block = kept
        yield "law" if statements else "definition", m.group(3), flat("\n".join(block)), module


def read(files, links):
    found = {}
    for path, text in files:
        crate = path.split("/")[1]
        if path.endswith(".rt"):
            items = [(k, n, t) for k, n, t in of_source(text)]
        else:
            laws = "/proofs/" in path
            items = []
            for k, n, t, module in of_logic(text, laws):
                if laws and not path.endswith("Theorems.antt") and (crate, n) not in links:
                    continue
                items.append((k, n, t if not laws or not module else f"({module}) {t}"))
        for kind, name, t in items:
            found.setdefault((crate, kind, name), []).append((path, t))
    return found


links = linked()
old, new = read(old_files(), links), read(new_files(), links)
crates = []
for line in (root / "crates.txt").read_text().split("\n"):
    if line and not line.startswith("#"):
        crates.append(re.split(r"[: ]", line)[0])
words = {"fn": "functions", "struct": "types", "enum": "types", "trait": "types", "type": "types", "const": "types",
         "definition": "definitions", "law": "theorems and laws"}
for crate in crates:
    out = {}
    for key in sorted(set(old) | set(new), key=lambda k: (k[1], k[2])):
        if key[0] != crate:
            continue
        was, now = [t for _, t in old.get(key, [])], [t for _, t in new.get(key, [])]
        if sorted(was) == sorted(now) or not was or (gone_only and now):
            continue
        lines = [f"- {t}" for t in was if t not in now] + [f"+ {t}" for t in now if t not in was]
        if not now:
            lines.append("+ (gone)")
        out.setdefault(words[key[1]], []).extend(lines)
    if not out:
        continue
    print(f"### {crate}\n")
    for title in ("functions", "types", "definitions", "theorems and laws"):
        if title in out:
            print(f"{title[0].upper() + title[1:]}:\n\n```diff")
            print("\n".join(out[title]))
            print("```\n")
