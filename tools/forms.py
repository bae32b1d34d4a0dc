#!/usr/bin/env python3
"""Counts the places in crates/*/src that docs/DESIGN-PASS.md speaks of, point by point.

forms.py [COMMIT] [--list]   at a commit, or in the working tree; --list names each place.
"""
import collections
import glob
import re
import subprocess
import sys

args = [a for a in sys.argv[1:] if a != "--list"]
listed = "--list" in sys.argv
commit = args[0] if args else None


def git(*words):
    return subprocess.run(["git", *words], capture_output=True, text=True, check=True).stdout


if commit:
    names = [n for n in git("ls-tree", "-r", "--name-only", commit, "crates").split("\n") if re.match(r"crates/\w+/src/\w+\.rt$", n)]
    files = {n: git("show", f"{commit}:{n}") for n in names}
else:
    files = {n: open(n).read() for n in sorted(glob.glob("crates/*/src/*.rt"))}

# comments are no code
code = {n: re.sub(r"//.*", "", t) for n, t in files.items()}


def crate(name):
    return name.split("/")[1]


def places(pattern, of=code):
    found = []
    for name, text in of.items():
        for m in re.finditer(pattern, text, re.M):
            line = text.count("\n", 0, m.start()) + 1
            found.append(f"{crate(name)}:{line}: {m.group(0).strip()[:90]}")
    return found


def show(title, found):
    print(f"{title}: {len(found)}")
    if listed:
        for f in found:
            print("    " + f)


def functions():
    for name, text in code.items():
        for m in re.finditer(r"^( *)(?:pub )?(?:extern \"C\" )?fn (\w+)(<[^\n(]*>)?\(", text, re.M):
            depth, i = 1, m.end()
            while depth:
                depth += {"(": 1, ")": -1}.get(text[i], 0)
                i += 1
            params = text[m.end() : i - 1]
            end = re.search(r"^" + m.group(1) + r"\}", text[i:], re.M)
            whole = text[i : i + end.start()] if end else text[i:]
            body = re.search(r"^" + m.group(1) + r"\{\n", whole, re.M) or re.search(r"\{\n", whole)
            head = whole[: body.start()] if body else whole
            yield crate(name) + "::" + m.group(2), params, head, whole[body.end() :] if body else ""


funs = list(functions())
print(f"functions: {len(funs)}")

print("\n1. Option, Result, enums")
show("enums", places(r"^pub enum \w+|^enum \w+"))
show("flags in structs", places(r"^ +pub \w+: bool"))
show("number codes of refusals and kinds", [p for p in places(r"^pub const [A-Z_]+: u16 = \d+;|^const POSTING: u16 = \d+;|^pub const UNREADABLE: u16 = \d+;") if re.search(r"POSTING|UNREADABLE", p)] + [p for n, t in code.items() if n.endswith("/refusal.rt") for p in places(r"^pub const [A-Z_]+: u16 = \d+;", {n: t})])
show("refusals taken apart and made again", places(r"Refused\((?:number|refusal), place\)"))

print("\n2. Twins: bodies that are the same but for names and numbers, of two lines or more")
groups = collections.defaultdict(list)
for name, params, head, body in funs:
    tokens = re.findall(r"[A-Za-z_]\w*|\d\w*|b'[^']*'|b\"[^\"]*\"|\S", body)
    seen, shape = {}, []
    for t in tokens:
        if re.match(r"\d|b'|b\"", t):
            shape.append("N")
        elif re.match(r"[A-Za-z_]", t) and t not in ("if", "else", "return", "let", "mut", "while", "for", "in", "match", "as", "true", "false"):
            shape.append(seen.setdefault(t, f"v{len(seen)}"))
        else:
            shape.append(t)
    if len(tokens) >= 8:
        groups[" ".join(shape)].append(name)
twins = [" = ".join(v) for v in groups.values() if len(v) > 1]
show("groups", twins)

print("\n3. Loops")
show("while and loop", places(r"^ *(?:while|loop)\b.*"))
show("for", places(r"^ *for\b.*"))
show("iterator chains and library methods over slices", places(r"\.(?:iter|chunks_exact|copied|fill|copy_from_slice|copy_within|starts_with|position|contains)\("))

print("\n4. By hand")
show("the lesser or the greater of two", places(r"if (\w+(?:::\w+)?) < (\w+(?:::\w+)?) \{\s*(?:return )?(?:\1|\2);?\s*\}(?: else \{\s*(?:\1|\2)\s*\}|\s*(?:\1|\2)\s*\})"))
show("a slice copied or compared number by number", places(r"\w+\[[^\]]*\b[a-z]\b\] (?:=|!=|==) \w+\[[^\]]*\b[a-z]\b\]"))
show("division and remainder by 256", places(r"[%/] 256"))
show("digits tested by hand", places(r"< b'0'|b'9' <|<= b'9'"))

print("\n5. What travels together")
for group in (("file", "stops"), ("file", "stops", "n"), ("file", "graph"), ("notices", "graph"), ("notices", "graph", "work", "journey"), ("work", "journey"), ("number", "connection", "delay"), ("from", "to", "time")):
    have = []
    for name, params, head, body in funs:
        own = [p.split(":")[0].strip() for p in params.split(",")]
        if all(g in own for g in group):
            have.append(name)
    show("parameters " + ", ".join(group), have)
facts = collections.defaultdict(list)
for name, params, head, body in funs:
    asked = " ".join(re.findall(r"requires[^{]*\{(.*?)\}\n", head + "\n", re.S))
    for word in set(re.findall(r"\b[A-Z]\w+", asked)):
        facts[word].append(name)
for word, have in sorted(facts.items(), key=lambda x: -len(x[1])):
    if len(have) >= 3:
        show("required " + word, have)

print("\n6. Buffers and areas")
show("arrays of a fixed length", places(r"\[(?:0u8|0u16|0u32|0|model::NONE); [\w:]+\]"))
show("parts lent of them", places(r"&mut \w+\[(?:0)?\.\.\w+\]"))

print("\n7. Switches on which step to run")
show("match on a call, an update or a command; kinds tested", places(r"match (?:call|update|command)\b|if kind == "))
