#!/usr/bin/env python3
"""Brings the repository's own definitions and lemmas to one spelling: words in snake case, types in camel case.

usage: python3 tools/respell.py          at the top, once, after the kit's port.py: rewrites crates/*/specs, proofs, src and must-fail
       python3 tools/respell.py --list   prints each name with its new spelling, and changes nothing

It goes by whole words. A name that a file takes from a library, and a word behind a dot that is no field or definition of the
repository's own, stays as it is. What Rattle makes (Need-.., tie, goals) stays too. It stops where two names of one file would fall together.
"""

import collections
import difflib
import os
import re
import subprocess
import sys

WORD = re.compile(r"(?<![^\s(){}\[\].,;:\"|`!⟨⟩⟦⟧])(?:[A-Za-z][\w'-]*)(?=$|[\s(){}\[\].,;:\"|`!⟨⟩⟦⟧])")
SIGNATURE = re.compile(r"^(\s*)((?:(?:abbrev|unfoldable|pub|data|record)\s+)*)([A-Za-z][\w'-]*(?:\s+[A-Za-z][\w'-]*)*)\s+:(?=\s|$)")
DECLARED = re.compile(r"^(\s*)(?:(?:abbrev|pub)\s+)*(?:data|record)\s+([A-Za-z][\w'-]*)")
# the files that Rattle makes of a function or a type
MADE_FILE = re.compile(r"\.proofs\..*\.(Tie|Goals|Given|Statement|Symbol|Met|Code|Key|Reads|Laws)$|\.declared\.")
MADE = re.compile(r"^(Need|After|Start|invariant|decreases)-")
# lemmas that would have the name of a definition or of a word of the library, or that port.py has given such a name
LEMMAS = set("laid_out front_bytes kept_frame head_in held-at bit-and bit-or row-at".split())
# a field that would have a definition's name
FIELDS = {"no_start": "says_none"}
# facts that had a small first letter
TYPES = {"timers": {"reached": "LastBy", "upright": "IsUpright", "all_from": "AllFrom"}}


def snake(name):
    """`onNotFull`, `not-full-in` -> `on_not_full`, `not_full_in`; a number keeps its underscore."""
    if name[0].isupper() and "-" not in name:
        return name
    s = re.sub(r"(?<=[a-z0-9])([A-Z])(?=[a-z])", lambda m: "_" + m[1].lower(), name)
    s = re.sub(r"(?<=[a-z])([A-Z0-9]*[A-Z])(?=$|[-_'0-9])", lambda m: "_" + m[1], s)
    s = s.replace("-", "_")
    return s.lower() if name[0].islower() else s


def texts(root, ending=".antt"):
    for folder, dirs, files in os.walk(os.path.join(root, "crates")):
        dirs[:] = sorted(d for d in dirs if d not in ("out", "must-fail"))
        for f in sorted(files):
            if f.endswith(ending):
                yield os.path.join(folder, f)


def uncommented(line):
    return re.sub(r"(^|\s)--.*$", "", line)


def of_function(path):
    """Whether a file is a function's proof, whose definitions Rattle names."""
    return path.endswith("/Proof.antt")


def names(root):
    """The names that the repository's own files define: name -> whether some file has it as a record's field."""
    own, fields = set(), set()
    for p in texts(root):
        record = None
        for line in open(p, encoding="utf-8"):
            code = uncommented(line)
            if not code.strip():
                continue
            indent = len(code) - len(code.lstrip())
            if record is not None and indent <= record:
                record = None
            m = SIGNATURE.match(code)
            if m and not re.match(r"\s*tie\.", code[m.end():]):
                for n in m[3].split():
                    own.add(n)
                    if record is not None:
                        fields.add(n)
            m = DECLARED.match(code)
            if m:
                record = len(m[1])
    return own, fields


def turns(own, fields):
    """The new spelling of each name that gets one. A lemma that would have a definition's name ends in _lem."""
    definitions = {snake(n) for n in own if re.search(r"[a-z][A-Z]", n) and n[0].islower() and "-" not in n}
    table = {}
    for n in own:
        new = FIELDS.get(n) or snake(n)
        if n in LEMMAS or ("-" in n and new in definitions):
            new += "_lem"
        if new != n and not MADE.match(n):
            table[n] = new
    return table


def crates(root):
    return [c for c in os.listdir(os.path.join(root, "crates"))]


USE = re.compile(r"^\s*(?:ghost\s+)?(?:pub\s+)?use\s+([^\s;{]+?)(?:\.\{([^}]*)\}|\s+as\s+([^\s;]+))?\s*;?\s*$", re.M)


# the files below a file
BELOW = re.compile(r"^(?:pub\s+)?mod\s+(\w+)\s*$", re.M)


def is_ours(path, mine, below):
    """Whether a path of a use line leads to a file that is written by hand here."""
    at = re.match(r"Rattle\.(\w+)\.(specs|proofs)\b", path)
    return path.split(".")[0] in below or bool(at and at[1] in mine) and not MADE_FILE.search(path)


def taken(text, mine):
    """What a file takes: names from elsewhere, names of ours, and modules of ours by the name they have here."""
    foreign, ours, modules = set(), set(), {}
    below = set(BELOW.findall(text))
    for path, items, alias in USE.findall(text):
        here = is_ours(path, mine, below)
        if items:
            for it in items.split(","):
                parts = it.split(" as ")
                (ours if here else foreign).add(parts[0].strip())
                if len(parts) > 1:
                    (foreign if not here else ours).add(parts[1].strip())
        else:
            modules[alias or path.split(".")[-1]] = here
    return foreign, ours, modules


def turned(text, here, foreign, modules, fields, table, rust):
    """The text with the names of the table in their new spelling."""
    said = collections.defaultdict(set)
    below = set(BELOW.findall(text))
    out = []
    for line in text.split("\n"):
        cut = len(line)
        mark = re.search(r"(^|\s)//" if rust else r"(^|\s)--", line)
        if mark:
            cut = mark.start()
        code, comment = line[:cut], line[cut:]
        use = re.match(r"\s*(?:ghost\s+)?(?:pub\s+)?use\s+([^\s;{]+)", code)
        ours = True
        if use:
            ours = is_ours(use[1].rstrip("."), here, below)

        def one(m):
            w = m[0]
            bare = not code[: m.start()].endswith(".") and not (use and "{" not in code[: m.start()])
            if bare:
                said[w].add(w)
            new = table.get(w)
            if not new or not ours or (rust and not re.search(r"[A-Z-]", w)):
                return w
            before = code[: m.start()]
            if use and "{" not in before:
                return w
            if before.endswith("."):
                head = re.search(r"([\w'-]+)\.$", before)
                if head and head[1] in modules and not re.search(r"[.)]" + re.escape(head[1]) + r"\.$", before):
                    if not modules[head[1]]:
                        return w
                elif w not in fields:
                    return w
            elif w in foreign and not use:
                return w
            if bare:
                said[w].add(new)
            return new

        code = WORD.sub(one, code)
        comment = re.sub(r"`([^`]*)`", lambda m: "`" + WORD.sub(lambda k: table.get(k[0], k[0]) if k[0] not in foreign else k[0], m[1]) + "`", comment)
        out.append(code + comment)
    return "\n".join(out), said


def flat(line):
    """A line without what a respelling changes, to find a line again."""
    line = re.sub(r"\b(requires|ensures) \w+ \{", r"\1 {", line)
    line = re.sub(r"λ r\. |\bresult\b|\br\b|\bnow |\bentry |\bexit |\.now|\.old|\.new|⌜|⌝", "", line)
    return re.sub(r"[\s_'′.·◌()-]", "", line).lower().replace("getd", "getor")


def words(line):
    return re.findall(r"[A-Za-z0-9][\w'′·-]*|\s+|.", line)


def edits(root, table):
    """Brings each must-fail edit to its file's new spelling, by the line of the last commit that it edits."""
    left = 0
    for folder, _, files in os.walk(os.path.join(root, "crates")):
        if os.path.basename(folder) != "must-fail":
            continue
        crate = os.path.dirname(folder)
        for f in sorted(files):
            path, out, file = os.path.join(folder, f), [], None
            lines = open(path, encoding="utf-8").read().split("\n")
            i = 0
            while i < len(lines):
                line = lines[i]
                if line.startswith("file: "):
                    file = line[6:].strip()
                if not line.startswith("old: ") or i + 1 == len(lines) or not lines[i + 1].startswith("new: "):
                    out.append(line)
                    i += 1
                    continue
                old, new = line[5:], lines[i + 1][5:]
                was = subprocess.run(["git", "show", "HEAD:" + os.path.relpath(os.path.join(crate, file), root)], capture_output=True, text=True, cwd=root).stdout.split("\n")
                target = os.path.join(crate, file)
                now = open(target, encoding="utf-8").read().split("\n") if os.path.exists(target) else []
                if sum(old.strip() in l for l in now) == 1 and not any(w in table for w in words(new)):
                    out += [line, lines[i + 1]]
                    i += 2
                    continue
                at = [k for k, l in enumerate(was) if old.strip() in l]
                found = [k for k, l in enumerate(now) if at and flat(l) == flat(was[at[0]])]
                if at and not found:
                    like = [(difflib.SequenceMatcher(None, flat(was[at[0]]), flat(l)).ratio(), k) for k, l in enumerate(now)]
                    found = [k for r, k in like if r == max(like)[0] and r > 0.7]
                if len(found) > 1:
                    near = [k for k in found if flat(now[k - 1]) == flat(was[at[0] - 1])]
                    found = near or found
                if len(at) != 1 or len(found) != 1:
                    print(f"left: {os.path.relpath(path, root)}: {len(at)} lines of old, {len(found)} of now: {old.strip()[:120]}")
                    left += 1
                    out += [line, lines[i + 1]]
                    i += 2
                    continue
                before, after = was[at[0]], now[found[0]]
                spelled = dict(table)
                a, b = words(before), words(after)
                if len(a) == len(b):
                    spelled |= {x: y for x, y in zip(a, b) if x != y and re.match(r"[A-Za-z]", x)}
                edited = before.replace(old.strip(), new.strip())
                turned_new = "".join(spelled.get(w, w) for w in words(edited))
                out += ["old: " + after.strip(), "new: " + turned_new.strip()]
                i += 2
            text = "\n".join(out)
            if text != "\n".join(lines):
                open(path, "w", encoding="utf-8").write(text)
    print(f"respell: {left} edits left by hand")


def main(argv):
    root = subprocess.run(["git", "rev-parse", "--show-toplevel"], capture_output=True, text=True, check=True).stdout.strip()
    own, fields = names(root)
    mine = set(crates(root))
    table = turns(own, fields)
    if argv == ["--list"]:
        for n in sorted(table):
            print(n, table[n])
        return 0
    together, changed = [], {}
    for p in list(texts(root)) + list(texts(root, ".rt")):
        text = open(p, encoding="utf-8").read()
        foreign, ours, modules = taken(text, mine)
        crate = os.path.relpath(p, root).split("/")[1]
        new, said = turned(text, mine, foreign - ours, modules, fields, table | TYPES.get(crate, {}), p.endswith(".rt"))
        met = collections.defaultdict(set)
        for w, ws in said.items():
            for x in ws if len(ws) == 1 else ws - {w}:
                met[x].add(w)
        for x, ws in met.items():
            # in a .rt file a function may have the name of the definition that its contract cites, but a parameter hides it
            if len(ws) > 1 and (not p.endswith(".rt") or re.search(r"[(,]\s*(?:mut )?" + re.escape(x) + r"\s*:", text)):
                together.append(f"{os.path.relpath(p, root)}: {' and '.join(sorted(ws))} -> {x}")
        if new != text:
            changed[p] = new
    if together and "--anyway" not in argv:
        print("\n".join(together))
        print(f"respell: {len(together)} places where names fall together; nothing was written")
        return 1
    for p, new in changed.items():
        open(p, "w", encoding="utf-8").write(new)
    print(f"respell: {len(table)} names, {len(changed)} files")
    edits(root, table)
    return 0


if __name__ == "__main__":
    raise SystemExit(main(sys.argv[1:]))
