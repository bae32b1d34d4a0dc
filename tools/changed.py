#!/usr/bin/env python3
"""Lists what changed since a commit, old and new side by side: public functions with their clauses and what is passed on by `pub use`,
ghost items of types, public types with their derives, public constants, definitions of specs/ and statements of the laws in proofs/.

changed.py COMMIT   in the form that docs/DESIGN-PASS.md ends with
"""
import glob
import re
import subprocess
import sys

commit = sys.argv[1]


def git(*words):
    return subprocess.run(["git", *words], capture_output=True, text=True, check=True).stdout


def old_files():
    names = git("ls-tree", "-r", "--name-only", commit, "crates").split("\n")
    return {n: git("show", f"{commit}:{n}") for n in names if wanted(n)}


def wanted(name):
    return bool(re.match(r"crates/\w+/(src/\w+\.rt|specs/[\w/]+\.antt|proofs/\w+\.antt)$", name))


def new_files():
    return {n: open(n).read() for n in glob.glob("crates/*/**", recursive=True) if wanted(n)}


def crate(name):
    return name.split("/")[1]


def one_line(text):
    return " ".join(text.split())


def closing(text, at, pair):
    depth, i = 1, at
    while depth:
        depth += {pair[0]: 1, pair[1]: -1}.get(text[i], 0)
        i += 1
    return i


def clauses(text):
    """The clauses between a signature and its body, and where the body or the semicolon starts."""
    found, i = [], 0
    while True:
        m = re.match(r"\s*((?:requires|ensures)\s*\w*|ghost\s+\w+\s*:)\s*\{", text[i:])
        if not m:
            return found, i
        end = closing(text, i + m.end(), "{}")
        found.append(one_line(text[i:end]))
        i = end


def items(files):
    """Public functions and methods, and the ghost items of types and traits."""
    found = {}
    for name, raw in files.items():
        if not name.endswith(".rt"):
            continue
        text = re.sub(r"//.*", "", raw)
        for m in re.finditer(r"^pub use ([\w:]+)::(\{[^}]*\}|\w+);", text, re.M):
            for word in re.findall(r"\w+", m.group(2)):
                found.setdefault(f"{crate(name)}::{word}", []).append(f"pub use {m.group(1)}::{word}")
        owner = {}
        for m in re.finditer(r"^(?:pub )?(impl(?:<[^>]*>)? [^{]*|(?:pub )?(?:struct|enum|trait) [^{;(]*)\{", text, re.M):
            what = one_line(m.group(1))
            word = re.sub(r"^impl(?:<[^>]*>)? ", "", what).split(" for ")[-1]
            word = re.sub(r"<.*|\bwhere\b.*", "", re.sub(r"^(?:pub )?(?:struct|enum|trait) ", "", word)).strip()
            end = closing(text, m.end(), "{}")
            for i in range(m.end(), end):
                owner[i] = (word, what)
            for g in re.finditer(r"ghost \w+\s*[:=]\s*\{", text[m.end() : end]):
                start = m.end() + g.start()
                stop = closing(text, m.end() + g.end(), "{}")
                found.setdefault(f"{crate(name)}::{word}", []).append(one_line(text[start:stop]))
        for m in re.finditer(r"^ *((?:pub )?(?:extern \"C\" )?)fn (\w+)(<[^\n(]*>)?\(", text, re.M):
            inside = owner.get(m.start())
            if "pub" not in m.group(1) and not (inside and ("trait" in inside[1] or " for " in inside[1])):
                continue
            end = closing(text, m.end(), "()")
            rest = text[end:]
            arrow = re.match(r"\s*->\s*([^{;]*?)(?=\s*(?:requires|ensures|ghost|\{|;))", rest)
            told = one_line(arrow.group(0)) if arrow else ""
            listed, _ = clauses(rest[arrow.end() if arrow else 0 :])
            key = f"{crate(name)}::{inside[0] + '::' if inside else ''}{m.group(2)}"
            signature = one_line((m.group(3) or "") + "(" + text[m.end() : end]) + (" " + told if told else "")
            found[key] = [signature.replace(", )", ")").replace("( ", "(")] + listed
    return found


def kinds(files):
    """Public types with their derives and fields, and public constants."""
    found = {}
    for name, raw in files.items():
        if not name.endswith(".rt"):
            continue
        text = re.sub(r"//.*", "", raw)
        for m in re.finditer(r"^( *)pub (?:const|type) (\w+)[^;]*;", text, re.M):
            found.setdefault(f"{crate(name)}::{m.group(2)}", []).append(one_line(m.group(0)))
        for m in re.finditer(r"^((?:#\[derive\([^)]*\)\]\n)?)pub (?:struct|enum|trait) (\w+)[^{;(]*([{;(])", text, re.M):
            end = m.end() if m.group(3) == ";" else closing(text, m.end(), {"{": "{}", "(": "()"}[m.group(3)])
            found.setdefault(f"{crate(name)}::{m.group(2)}", []).append(one_line(text[m.start() : end]))
    return found


def head_of(lines, last):
    """The line that a declaration begins with whose head ends with such a line, the last of these."""
    at = max(i for i, l in enumerate(lines) if l is last or l == last)
    indent = len(lines[at]) - len(lines[at].lstrip())
    while not re.match(r"\s*(?:abbrev |unfoldable )?(?:pub )?(?:record|data|module)\b", lines[at]) and at > 0:
        at -= 1
        while at > 0 and (not lines[at].strip() or len(lines[at]) - len(lines[at].lstrip()) > indent):
            at -= 1
    return lines[at]


def blocks(files, folder):
    """Declarations of .antt files, by crate and name."""
    found = {}
    for name, raw in files.items():
        if f"/{folder}/" not in name or name.endswith("/Lib.antt"):
            continue
        text = re.sub(r"(?m)^\s*--.*\n", "", raw)
        for m in re.finditer(r"(?m)^( *)((?:abbrev |unfoldable )?pub (?:record |data |abbrev |unfoldable )?)([^\s:({]+)(?=[\s:({])", text):
            if m.group(3) in ("use", "mod", "open", "module"):
                continue
            indent = len(m.group(1))
            # a field of a record belongs to its record
            before = text[: m.start()].rstrip("\n").split("\n")
            around = [b for b in before if b.strip() and len(b) - len(b.lstrip()) < indent][-1:]
            if indent and any(l.rstrip().endswith("where") and not re.match(r"\s*(?:pub )?module\b", head_of(before, l)) for l in around):
                continue
            lines = text[m.start() :].split("\n")
            kept = [lines[0]]
            for l in lines[1:]:
                if not l.strip():
                    break
                if folder == "proofs" and (len(l) - len(l.lstrip()) <= indent):
                    break
                if folder == "proofs" and re.match(r"\s*unfolding ", l):
                    break
                kept.append(l)
            shown = one_line(" ".join(kept))
            if folder == "proofs":
                shown = re.sub(r"^(?:abbrev |unfoldable )?pub \S+ :? ?", "", shown)
            found.setdefault(f"{crate(name)} {m.group(3)}", []).append(shown)
    return found


def compare(title, old, new, gone, more):
    print(f"### {title}\n\n```")
    for key in sorted(set(old) | set(new)):
        a, b = old.get(key), new.get(key)
        if a and b and sorted(a) != sorted(b):
            print(key)
            for line in [x for x in a if x not in b]:
                print("  - " + line)
            for line in [x for x in b if x not in a]:
                print("  + " + line)
    print("```\n")
    lost = sorted(k for k in old if k not in new)
    made = sorted(k for k in new if k not in old)
    print(f"{gone}: " + (", ".join(f"`{k}`" for k in lost) or "none") + ".\n")
    print(f"{more}: " + (", ".join(f"`{k}`" for k in made) or "none") + ".\n")


was, now = old_files(), new_files()
compare("Public functions: signatures and clauses, and ghost items of types", items(was), items(now), "Public functions that are gone", "New ones")
compare("Public types and constants", kinds(was), kinds(now), "Types and constants that are gone", "New ones")
compare("Definitions of specs/", blocks(was, "specs"), blocks(now, "specs"), "Definitions that are gone", "New ones")
compare("Laws of proofs/", blocks(was, "proofs"), blocks(now, "proofs"), "Laws that are gone", "New ones")
