#!/usr/bin/env python3
"""Gives the definitions and lemmas of specs/ and proofs/ today's spelling: run once, at the top of the repository.

A fact or a type is in upper camel case, everything else in snake case. Functions of src/, goals' names, strings and prose keep their spelling.
With --list it only prints the old and the new names.
"""
import os
import re
import sys

ROOT = "crates"
NAME = r"[^\s(){}\[\].,;\"«»:⌜⌝]+"
TOKEN = re.compile(r"[^\s(){}\[\].,;\"«»⌜⌝]+")
SIGNATURE = re.compile(r"^\s*(?:(?:abbrev|unfoldable|pub)\s+)*(" + NAME + r")\s*:(?!=)\s*(.*)$")
HEAD = re.compile(r"^\s*(?:pub\s+)?(record|data)\s+(?:pub\s+)?(" + NAME + r")")
USE = re.compile(r"^\s*(?:ghost )?(?:pub )?use ([^{;]*?)(?:\.\{(.*?)\})?(?: as (\S+))?;?\s*$", re.M)
# facts whose new name would be that of an enum or of its variant
APART = {"Trace-fault": "FaultApplies", "Too-many-tuples": "HasTooManyTuples"}
# words that clauses use for themselves now
OTHERS = {"result": "result_of"}


def antt_files():
    for folder, dirs, files in os.walk(ROOT):
        dirs[:] = sorted(d for d in dirs if d != "out")
        for f in sorted(files):
            if f.endswith(".antt"):
                yield os.path.join(folder, f)


def rt_files():
    for folder, dirs, files in os.walk(ROOT):
        dirs[:] = sorted(d for d in dirs if d != "out")
        for f in sorted(files):
            if f.endswith(".rt"):
                yield os.path.join(folder, f)


def read(path):
    with open(path, encoding="utf-8") as f:
        return f.read()


def signatures(path, text):
    """The names that a file declares, each with its kind, fact or word."""
    lines = text.split("\n")
    for i, line in enumerate(lines):
        if line.lstrip().startswith(("--", "use ")):
            continue
        if m := HEAD.match(line):
            yield m[2], "fact"
            continue
        if m := SIGNATURE.match(line):
            name, rest = m[1], m[2]
            if name in ("module", "use") or "=" == rest.strip():
                continue
            if rest.startswith("goal.") or rest.startswith("given."):
                continue
            whole = rest
            k = i + 1
            while k < len(lines) and lines[k].startswith("    ") and not SIGNATURE.match(lines[k]) and not re.match(r"^\s*" + re.escape(name) + r"\b", lines[k]) and "=" not in lines[k]:
                whole += " " + lines[k].strip()
                k += 1
            if re.search(r"(^|→ )Type( \d+)?$", whole.strip()):
                yield name, "fact"
            else:
                yield name, "word"


def camel(name):
    return "".join(p[:1].upper() + p[1:] for p in re.split(r"[-_]", name))


def snake(name):
    return name.replace("-", "_")


def collect():
    kinds = {}
    for path in antt_files():
        for name, kind in signatures(path, read(path)):
            kinds.setdefault(name, {}).setdefault(kind, set()).add(path)
    new = {}
    for name, ks in kinds.items():
        if "-" not in name:
            continue
        new[name] = APART.get(name) or (camel(name) if "fact" in ks else snake(name))
    return kinds, new


def bound(text):
    """Names with a dash that a file binds by itself: by let, by a signature's or a lambda's binder, or by an import under another name."""
    found = {}
    for m in re.finditer(r"\blet (" + NAME + r") [:=]|\(((?:" + NAME + r" )+): |λ ((?:" + NAME + r" ?)+)\.", text):
        for name in (m[1] or m[2] or m[3]).split():
            if "-" in name.strip("-"):
                found[name] = snake(name)
    for m in re.finditer(r" as (" + NAME + r")", text):
        if "-" in m[1]:
            found[m[1]] = camel(m[1]) if m[1][0].isupper() else snake(m[1])
    return found


def foreign(text):
    """Names that a file imports from outside the repository, or by which it calls goals."""
    own = set(os.listdir(ROOT))
    out = set()
    for m in USE.finditer(text):
        path = m[1].strip()
        part = path.split(".")
        ours = part[0] == "Rattle" and len(part) > 1 and part[1] in own
        generated = ours and (path.endswith((".Goals", ".Given")) or ".contracts" in path)
        if m[2] is not None and (not ours or generated):
            for item in m[2].split(","):
                item = item.strip()
                out.add(item.split(" as ")[0].strip())
    return out


def respell(text, new, other, code):
    skip = foreign(text)
    here = {} if code else bound(text)
    goals = set(re.findall(r"^\s*(?:abbrev )?(?:pub )?(?:abbrev )?(" + NAME + r")\s*:\s*(?:goal|given)\.", text, re.M))

    def word(m):
        t = m[0]
        if t in skip or t in goals:
            return t
        before = m.string[: m.start()]
        if t in other and not (code and not before.endswith((" ", "(", "{"))):
            return other[t]
        return new.get(t) or here.get(t, t)

    out = []
    for line in text.split("\n"):
        body, comment = line, ""
        if code:
            i = line.find("//")
            if i >= 0:
                body, comment = line[:i], line[i:]
        else:
            m = re.search(r"(^|\s)-- ", line)
            if m:
                body, comment = line[: m.start()], line[m.start():]
        if code and '"' in body:
            out.append(line)
            continue
        body = re.sub(r"\b(goal|given)\.(" + NAME + ")", lambda m: m[0].replace("-", "\0"), body)
        body = TOKEN.sub(word, body).replace("\0", "-")
        comment = re.sub(r"`([^`]+)`", lambda m: "`" + TOKEN.sub(word, m[1]) + "`", comment)
        out.append(body + comment)
    return "\n".join(out)


def others_in(path, text):
    """The words of OTHERS that a file declares or imports from the repository."""
    found = {}
    for old, to in OTHERS.items():
        if re.search(r"^\s*(?:abbrev )?(?:pub )?" + old + r" :", text, re.M) or re.search(r"use Rattle\.\w+\.specs\.\w+\.\{[^}]*\b" + old + r"\b", text):
            found[old] = to
    return found


def main():
    kinds, new = collect()
    taken = {}
    for a, b in new.items():
        taken.setdefault(b, []).append(a)
    present = set()
    for path in list(antt_files()):
        present |= set(TOKEN.findall(read(path)))
    clashes = [(b, xs) for b, xs in sorted(taken.items()) if len(xs) > 1 or (b in kinds and b not in new)]
    if "--list" in sys.argv:
        for a in sorted(new):
            print(a, new[a], sorted(kinds[a]), sep="\t")
        for b, xs in clashes:
            print("FALL TOGETHER", b, xs, file=sys.stderr)
        for b in sorted(taken):
            if b in present and b not in kinds:
                print("IN USE", b, taken[b], file=sys.stderr)
        return
    for path in list(antt_files()) + list(rt_files()):
        text = read(path)
        after = respell(text, new, others_in(path, text), path.endswith(".rt"))
        if after != text:
            with open(path, "w", encoding="utf-8") as f:
                f.write(after)
    for page in ["README.md"] + sorted(os.path.join("docs", p) for p in os.listdir("docs") if p.endswith(".md") and not p.startswith("PORT")):
        text = read(page)
        after = re.sub(r"`([^`\n]+)`", lambda m: "`" + TOKEN.sub(lambda t: new.get(t[0], t[0]), m[1]) + "`", text)
        if after != text:
            with open(page, "w", encoding="utf-8") as f:
                f.write(after)


main()
