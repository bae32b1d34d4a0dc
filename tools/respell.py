#!/usr/bin/env python3
"""Spells the names that the crates' specs/ and proofs/ declare in snake case: camelBack and dashes become underscores.

usage: tools/respell.py [--check] [FOLDER]

FOLDER is the top of a checkout, by default this one's. Run it once, after Rattle's own port.py. It reads crates/*/specs/*.antt and
crates/*/proofs/*.antt for the names that are declared there, at the margin and in records, and respells each where it stands as a whole word:
in .antt files, in the clauses and ghost lines of .rt files, and in must-fail edits of either. Types, modules, constructors and facts, which begin
with a capital, keep their spelling; so do names of Rattle's libraries, and a name whose new spelling a file has already for something else is
listed and stays everywhere. What src/ names, strings, inputs and outputs are left alone. --check writes nothing.
"""

import os
import re
import sys

WORD = r"[^\s(){}.;,@\"«»]+"
DECLARED = re.compile(r"^( *)(?:(?:unfoldable|abbrev|pub|ruleset) )*(" + WORD + r")(?: \{[^{}\n]*\}| \([^()\n]*\))* :(?: |$)", re.M)
KEYWORD = {"record", "data", "module", "use", "where", "let", "in", "elim", "λ", "→"}
USE = re.compile(r"\buse ([^\s;{]+)\.\{([^}]*)\}")
CLAUSE = re.compile(r"\b(?:requires|ensures)\*?(?: \w+)? \{")
GHOST = re.compile(r"\bghost (?:use [^;]*;|\w+: \{)")
EDIT_ANTT = re.compile(r"^file: .*\.antt$", re.M)


# a lemma whose new spelling a definition or a variable beside it has already
# and those that port.py spelled like a definition
SPELLED = ["end_row", "is_digit", "rows_in", "rows_on", "two_digits"]
LEMMAS = {"is-row", "number-at", "row-at", "row-in", "row-line", "starts-with", "stop-id", "trip-id", "connection-room"}


def respelled(name):
    if name in LEMMAS:
        return name.replace("-", "_") + "_lem"
    parts = name.replace("getD", "get_or").split("-")
    out = parts[0]
    for before, part in zip(parts, parts[1:]):
        # a fact or a type keeps its dash before what is said of it
        out += ("-" if before[:1].isupper() else "_") + part
    if out[:1].islower():
        out = re.sub(r"(?<=[a-z0-9])[A-Z]", lambda m: "_" + m[0].lower(), out)
    return out


def antt_files(top):
    for folder, dirs, files in os.walk(os.path.join(top, "crates")):
        dirs[:] = sorted(d for d in dirs if d not in ("out", ".git"))
        for f in sorted(files):
            if f.endswith(".antt"):
                yield os.path.join(folder, f)


def declared(top):
    """The names declared in files right in specs/ and proofs/, without those that already have the new spelling."""
    found = {}
    for path in antt_files(top):
        parts = path.split(os.sep)
        if parts[-2] not in ("specs", "proofs"):
            continue
        with open(path) as f:
            text = f.read()
        for m in DECLARED.finditer(text):
            name = m[2]
            if name in KEYWORD or name.startswith("◌") or "◌" in name:
                continue
            if respelled(name) != name:
                found.setdefault(name, path)
    return found


def own(path):
    """Whether a module's path is one of this repository's."""
    return path.startswith("Rattle.") and path.split(".")[1] in CRATES or path.startswith("package.")


def imported(text):
    """The names that a file imports from Rattle's libraries."""
    out = set()
    for m in USE.finditer(text):
        if not own(m[1]):
            out |= {w.strip().split(" as ")[0] for w in m[2].split(",")}
    return out


def spans(text):
    """The parts of a .rt file that are antt: ghost lines and what stands between a clause's braces."""
    out = [(m.start(), m.end()) for m in GHOST.finditer(text) if m[0].endswith(";")]
    for m in list(CLAUSE.finditer(text)) + [m for m in GHOST.finditer(text) if m[0].endswith("{")]:
        depth, i = 1, m.end()
        while depth and i < len(text):
            depth += {"{": 1, "}": -1}.get(text[i], 0)
            i += 1
        out.append((m.end(), i))
    return sorted(out)


def turn(text, names):
    def one(m):
        return names.get(m[0], m[0])

    return re.sub(WORD, one, text)


def turn_comment(line, names):
    return re.sub(r"`([^`]*)`", lambda m: "`" + turn(m[1], names) + "`", line)


def turn_antt(text, names):
    names = {o: n for o, n in names.items() if o not in imported(text)}
    out = []
    for line in text.split("\n"):
        at = re.search(r"(^|\s)-- ", line)
        use = re.match(r"\s*(?:pub )?use [^{]*", line)
        if use:
            # the modules of a path keep their names
            out.append(use[0] + turn(line[use.end() :], names))
        elif at:
            out.append(turn(line[: at.start()], names) + turn_comment(line[at.start() :], names))
        else:
            out.append(turn(line, names))
    return "\n".join(out)


def turn_rt(text, names):
    out, at = [], 0
    for start, end in spans(text):
        if start < at:
            continue
        out.append(text[at:start])
        out.append(turn(text[start:end], names))
        at = end
    out.append(text[at:])
    return "".join(turn_comment(l, names) if l.lstrip().startswith("//") else l for l in re.split(r"(?<=\n)", "".join(out)))


def turn_edit(text, names):
    antt = False
    out = []
    for line in text.split("\n"):
        if line.startswith("file: "):
            antt = line.endswith(".antt")
        if line.startswith(("old: ", "new: ")):
            body = line[5:]
            if antt or re.match(r"\s*(ghost |requires|ensures)", body):
                line = line[:5] + turn(body, names)
            out.append(line)
        else:
            out.append(line)
    return "\n".join(out)


def main(argv):
    global CRATES
    check = "--check" in argv
    rest = [a for a in argv if a != "--check"]
    top = rest[0] if rest else os.path.dirname(os.path.dirname(os.path.abspath(__file__)))
    CRATES = {c for c in os.listdir(os.path.join(top, "crates"))}
    names = {name: respelled(name) for name in declared(top)}
    # a new spelling that stands already for something else, in a file that has the old one, or two names that fall together
    stays = {}
    by_new = {}
    for old, new in names.items():
        by_new.setdefault(new, []).append(old)
    for new, olds in by_new.items():
        # a lemma that would have the name of what it is about ends in _lem
        for old in olds:
            if len(olds) > 1 and "-" in old:
                names[old] = new + "_lem"
    files = []
    for folder, dirs, found in os.walk(os.path.join(top, "crates")):
        dirs[:] = sorted(d for d in dirs if d not in ("out", ".git"))
        files += [os.path.join(folder, f) for f in sorted(found) if f.endswith((".antt", ".rt", ".edit"))]
    texts = {p: open(p).read() for p in files}
    for p, t in texts.items():
        if p.endswith(".edit"):
            continue
        parts = [t[a:b] for a, b in spans(t)] if p.endswith(".rt") else [re.sub(r"(?m)(^|\s)-- .*$", "", t)]
        words = set()
        for part in parts:
            # not the modules of a path, nor the name of a proof's own function
            words |= set(re.findall(r"(?<![\w.])" + WORD + r"(?!\.)", re.sub(r"\buse [^\s;{]+", "use", part)))
        # in code, what is no call and no function's name
        code = set(re.findall(r"(?<!fn )(?<!:)\b[a-z]\w*\b(?!\s*[(:<])", t)) | set(re.findall(r"\b[a-z]\w*(?=: )", t)) if p.endswith(".rt") else set()
        lib = imported(t)
        for old, new in names.items():
            if old in words and old not in lib and (new in words - set(SPELLED) or new in code - {"room_verdict"}):
                stays.setdefault(old, f"{new} stands in {os.path.relpath(p, top)}")
    for old in sorted(stays):
        print(f"look: {old}: {stays[old]}")
    names = {o: n for o, n in names.items() if o not in stays}
    names |= {name: name + "_lem" for name in SPELLED}
    changed = 0
    for p, t in texts.items():
        new = turn_antt(t, names) if p.endswith(".antt") else turn_rt(t, names) if p.endswith(".rt") else turn_edit(t, names)
        if new != t:
            changed += 1
            if not check:
                with open(p, "w") as f:
                    f.write(new)
    print(f"{len(names)} names, {changed} files")
    return 0


if __name__ == "__main__":
    raise SystemExit(main(sys.argv[1:]))
