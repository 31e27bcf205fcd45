#!/usr/bin/env python3
"""Brings the repository's own definitions and lemmas to the spelling that Rattle has for names.

usage: python3 tools/respell.py        at the top of the repository, once, after the kit's own port script

A name of a definition, a lemma or a field that is made of words joined by dashes gets underscores, and a type's words are run together: `name-at` becomes
`name_at`, `Few-words` becomes `FewWords`. Names of the library, names that the check makes (goals, steps, what stands under `Goals` and `Given`), functions of src/,
strings, comments of src/, inputs and outputs are left. It prints names that fall together, and changes nothing where there are any.
"""

import glob
import os
import re
import subprocess
import sys

TOKEN = re.compile(r"""[^\s(){}\[\],;."`]+""")
DEFINED = re.compile(r"^\s*(?:abbrev |unfoldable |pub )*([^\s(){}\[\],;.:\"]+) +:(?:\s|$)(.*)")
DECLARED = re.compile(r"^\s*(?:abbrev |unfoldable |pub )*(?:record|data) ([^\s(){}\[\],;.:\"]+)")
USE = re.compile(r"^\s*(?:pub )?(?:ghost )?use ([^{;]+?)(?:\.\{|;|$)")
MADE = {"Answers.antt", "Invariants.antt", "Choices.antt", "Proof.antt"}
# What stands under another name in one file: a module and a word of the library.
MORE = {"half-list": "HalfList", "if-any": "if_any"}
PLAIN = {"let", "in", "where", "use", "--", "|"}


def crates():
    return sorted(c for c in os.listdir("crates") if os.path.isdir(os.path.join("crates", c, "src")))


def files(*ends):
    out = subprocess.run(["git", "ls-files", "--cached", "--others", "--exclude-standard", "--", "crates"], capture_output=True, text=True, check=True).stdout
    return [p for p in sorted(set(out.split("\n"))) if p.endswith(ends) and os.path.exists(p)]


def respelled(name):
    if name[0].isupper():
        first, *more = name.split("-")
        return first + "".join(w[:1].upper() + w[1:] for w in more)
    return name.replace("-", "_")


def is_dashed(name):
    return "-" in name.strip("-") and re.match(r"^[^\W\d]", name) and "->" not in name


def uses(text):
    """The items of each use of the text, as (start, end, path)."""
    for m in re.finditer(r"(?m)^[ \t]*(?:pub )?(?:ghost )?use ([^{;\n]+?)\.\{([^}]*)\}", text):
        yield m.start(2), m.end(2), m.group(1)


def is_own(path, own):
    parts = path.split(".")
    return len(parts) > 1 and parts[0] == "Rattle" and parts[1] in own and parts[-1] not in ("Goals", "Given")


def names_of(text, made, own):
    """The dashed names that a file defines, or takes from a definition of the repository."""
    found = set()
    for line in text.split("\n"):
        m = DECLARED.match(line) or DEFINED.match(line)
        if m and m.group(1) not in PLAIN and is_dashed(m.group(1)):
            if made and m.re is DEFINED and re.match(r"(goal|given|need)\b", m.group(2)):
                continue
            found.add(m.group(1))
    for a, b, path in uses(text):
        if is_own(path, own):
            found |= {t for t in TOKEN.findall(text[a:b]) if is_dashed(t)}
    return found


def foreign(text, own):
    """The names that a file takes from the library, or from what the check makes."""
    found = set()
    for a, b, path in uses(text):
        if not is_own(path, own):
            found |= set(TOKEN.findall(text[a:b]))
    return found


def turned(text, names, left, skip):
    """The text with its names turned: none of `left`, none at a place where skip(text, start) holds."""
    def turn(m):
        t = m.group(0)
        if t in MORE:
            return MORE[t]
        return respelled(t) if t in names and t not in left and not skip(text, m.start()) else t

    return TOKEN.sub(turn, text)


def in_foreign_use(text, own):
    spans = [(a, b) for a, b, path in uses(text) if not is_own(path, own)]
    return lambda at: any(a <= at < b for a, b in spans)


def outside_code(text):
    """Whether a place of a source lies in a comment or a string."""
    spans = [m.span() for m in re.finditer(r'//[^\n]*|"(?:[^"\\\n]|\\.)*"', text)]
    return lambda at: any(a <= at < b for a, b in spans)


def main():
    own = set(crates())
    antt, rt, edits = files(".antt"), files(".rt"), files(".edit")
    texts = {p: open(p, encoding="utf-8").read() for p in antt + rt + edits}
    fields = set()
    names = set()
    for p in antt + rt:
        names |= names_of(texts[p], os.path.basename(p) in MADE, own) if p in antt else {
            t for a, b, path in uses(texts[p]) if is_own(path, own) for t in TOKEN.findall(texts[p][a:b]) if is_dashed(t)}
    for p in antt:
        for m in re.finditer(r"(?m)^(?:abbrev |pub )*record [^\n]*where\n((?:[ \t]+[^\n]*\n|--[^\n]*\n|\n(?=[ \t]))+)", texts[p]):
            fields |= {d.group(1) for l in m.group(1).split("\n") if (d := DEFINED.match(l)) and is_dashed(d.group(1))}
    new = {}
    for p in antt + rt + edits:
        text = texts[p]
        left = foreign(text, own)
        made = os.path.basename(p) in MADE
        comment = outside_code(text) if p in rt else lambda at: False
        outside = in_foreign_use(text, own)

        def skip(t, at):
            if comment(at) or outside(at):
                return True
            # In an answer what follows a dot is a step of the check's own, or a field.
            if made and at and t[at - 1] == ".":
                word = TOKEN.match(t, at).group(0)
                line = t[t.rfind("\n", 0, at) + 1:at]
                return word not in fields and not line.lstrip().startswith(("use ", "pub use "))
            return False

        new[p] = turned(text, names, left, skip)

    together = []
    for p in antt:
        defined = [m.group(1) for l in new[p].split("\n") if (m := DECLARED.match(l) or (DEFINED.match(l) if not l.startswith(" ") else None))]
        before = [m.group(1) for l in texts[p].split("\n") if (m := DECLARED.match(l) or (DEFINED.match(l) if not l.startswith(" ") else None))]
        low = {}
        for n, o in zip(defined, before):
            low.setdefault(n, set()).add(o)
        together += [f"{p}: {', '.join(sorted(os_))} fall together as {n}" for n, os_ in low.items() if len(os_) > 1]
        imported = foreign(new[p], own)
        together += [f"{p}: {o} falls together with the library's {n}" for n, o in zip(defined, before) if n in imported and o != n]
    if together:
        print("\n".join(together))
        if "--force" not in sys.argv:
            return 1
    known = names | {"-".join(w) for p in antt for l in new[p].split("\n") if (m := DECLARED.match(l) or DEFINED.match(l)) for w in [m.group(1).split("_")]}
    for p in ["README.md"] + sorted(glob.glob("docs/*.md")):
        texts[p] = open(p, encoding="utf-8").read()
        new[p] = re.sub(r"`([^`\s]+)`", lambda m: "`" + (respelled(m.group(1)) if m.group(1) in known else m.group(1)) + "`", texts[p])
    count = 0
    for p, t in new.items():
        if t != texts[p]:
            open(p, "w", encoding="utf-8").write(t)
            count += 1
    print(f"{len(names)} names, {count} files")
    return 0


if __name__ == "__main__":
    raise SystemExit(main())
