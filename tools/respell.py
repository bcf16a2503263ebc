#!/usr/bin/env python3
"""Respells the repository's own definitions and lemmas, once, after the toolchain's port.py: words in snake case, and a
dash only where it joins the names of two functions.

usage: tools/respell.py        at the top of the repository

It turns names that specs/ and the lemma files of proofs/ declare, in .antt files, in the clauses of .rt files and in the
edits of must-fail/. Names of functions of src/ and of libraries stay. It stops if two names of a file would fall together.
"""
import collections
import glob
import os
import re
import sys

NAME = r"[A-Za-zα-ωΑ-Ω_][\w'₀-₉-]*"
TOKEN = re.compile(rf"(?<![\w'₀-₉◌-])({NAME})")
# Functions of the library, and its words for relations, that a dash may join to another name.
LIBRARY = set("length take drop append set map filter replicate cons add sub mul div mod pow suc le lt mem elem reverse".split())
# Lemmas that would have a definition's name.
LEMMAS = """
after-all below-first byte-of bytes-from count-answer entries-in flag-in goes_on handle-clock handle-length
header-with in-range is_live is_stop key-ends key-part look-number merge-answer merged-entries number-at
of-key offer-answer offer-served point_at read-body receive-in-range refusal-number repl-in row-at
rows-in-range run-events same-entry slot-entry slot-with stamp-of value-at value-part write_word entry_in
flag_at key_in value_in not_found one_more other_key
""".split()
APART = {n: n.replace("-", "_") + "_lem" for n in LEMMAS}
# Fields that would hide a definition.
APART |= {"bad-key": "on_bad_key", "no-delivery": "on_no_delivery", "is-held": "held_now", "no-more": "no_more_read"}
# Only where the definition of that name is in scope.
APART_IN = {
    "goes_on": ["replayer/"], "is_live": ["history/"], "is_stop": ["replayer/"], "point_at": ["compensation/"],
    "write_word": ["capi/"], "entry_in": ["image/"], "flag_at": ["peers/proofs"], "key_in": ["capi/proofs", "frame/proofs"],
    "value_in": ["capi/proofs", "frame/proofs"], "not_found": ["explain/proofs", "frame/proofs", "peers/proofs", "store/proofs"],
    "one_more": ["deliveries/proofs"], "other_key": ["explain/proofs"],
    "no-more": ["replay/"],
}
USE = re.compile(r"(?m)^(?:ghost )?use ((?!Rattle\.(?!std\b|core\b))[\w.' ]+?)(?:\.\{([^}]*)\}|\.([\w'◌+*<>=≤≡-]+))?(?: as \w+)?;?$")


def snake(name):
    head = name[:1]
    if head.isupper():
        return name
    return re.sub(r"(?<=[a-z0-9₀-₉'])([A-Z]+)(?=[a-z0-9]|$|[-_'])", lambda m: "_" + m[1].lower(), name)


def files(kind):
    found = []
    for top, dirs, names in os.walk("crates"):
        dirs[:] = sorted(d for d in dirs if d != "out")
        found += [os.path.join(top, n) for n in sorted(names) if n.endswith(kind)]
    return found


def is_lemmas(path):
    """A file of specs/, or of lemmas right in proofs/."""
    parts = path.split(os.sep)
    return parts[2] == "specs" or (parts[2] == "proofs" and len(parts) == 4)


def plain(text):
    return re.sub(r"--.*", "", text)


def declared(text):
    t = plain(text)
    names = set(re.findall(rf"(?m)^\s*(?:pub |abbrev |unfoldable |data |record |private )*({NAME})\s*(?:\{{[^}}\n]*\}}\s*|\([^)\n]*\)\s*)*:(?!=)", t))
    names |= set(re.findall(rf"\blet ({NAME})", t))
    names |= set(re.findall(rf"[({{]((?:{NAME}\s+)*{NAME})\s*:", t) and [n for g in re.findall(rf"[({{]((?:{NAME}\s+)*{NAME})\s*:", t) for n in g.split()])
    # a constructor's binders, a clause's patterns and a lambda's
    for g in re.findall(rf"λ ((?:{NAME}\s*)+)\.", t):
        names |= set(g.split())
    return names


def imported(text):
    names = set()
    for m in USE.finditer(text):
        for g in (m[2], m[3]):
            if g:
                names |= {w.strip().split(" as ")[-1].strip() for w in g.split(",")}
    return names


def main():
    antt = files(".antt")
    texts = {p: open(p, encoding="utf-8").read() for p in antt}
    own, libs = set(), set()
    for p, t in texts.items():
        libs |= imported(t)
        if is_lemmas(p):
            own |= declared(t)
    functions = set()
    for p in files(".rt"):
        functions |= set(re.findall(r"\bfn (\w+)", open(p, encoding="utf-8").read()))
    own -= libs
    # names that a use line gives
    for p in antt + files(".rt"):
        own |= {n for n in re.findall(r"\bas ([a-z]\w*[A-Z]\w*)", plain(open(p, encoding="utf-8").read()))}
    # names that a dash may join: the functions that specs/ define, and the library's
    short = set(LIBRARY)
    for p, t in texts.items():
        if p.split(os.sep)[2] == "specs":
            short |= {snake(n) for n in re.findall(rf"(?m)^(?:abbrev|unfoldable) (?:pub )?({NAME}) :.*→", plain(t)) if "-" not in n and not n[0].isupper()}
    new = {}
    for n in own:
        parts = [snake(x) for x in n.split("-")]
        if n[0].isupper() and "-" not in n:
            continue
        out = parts[0]
        for a, b in zip(parts, parts[1:]):
            out += ("-" if a in short and b in short and len(a) > 1 and len(b) > 1 else "_") + b
        if out != n:
            new[n] = out

    spelled = {new.get(n, n) for n in own}

    def to_in_edit(name, path):
        """As to, and for a name that port.py respelled in the sources alone."""
        name = WORDS.get(name, name)
        if name in APART or name in new:
            return to(name, path)
        plain_name = snake(name).replace("-", "_")
        return plain_name if plain_name in spelled else name

    def to(name, path):
        if name in APART and (name not in APART_IN or any(x in path for x in APART_IN[name])):
            return APART[name]
        return new.get(name, name)

    failed = False
    for p, t in texts.items():
        seen = collections.defaultdict(set)
        for w in set(TOKEN.findall(re.sub(r"(?<=\.)[\w'-]+", "", plain(t)))):
            seen[to(w, p).replace("-", "_")].add(w)
        for k, v in seen.items():
            if len(v) > 1 and any(to(w, p) != w for w in v):
                failed = True
                print(f"{p}: {sorted(v)} would all be {k}", file=sys.stderr)
    if failed:
        return 1

    def turn(text, path):
        # comments keep their words, but for names that stand there
        def line(l):
            code, dash, note = l.partition("--") if not re.search(r"\w--\w", l) else (l, "", "")
            code = TOKEN.sub(lambda m: to(m[1], path), code)
            note = TOKEN.sub(lambda m: to(m[1], path) if re.search(r"[a-z][A-Z]", m[1]) else m[1], note)
            return code + dash + note
        return "\n".join(line(l) for l in text.split("\n"))

    for p, t in texts.items():
        u = turn(t, p)
        if u != t:
            open(p, "w", encoding="utf-8").write(u)
    word = re.compile(r"(?<![\w'.])([A-Za-z]\w*)(?![\w'])")
    for p in files(".rt"):
        t = open(p, encoding="utf-8").read()
        out, depth, ghost = [], 0, False
        for l in t.split("\n"):
            s = l.strip()
            if depth == 0 and re.match(r"(pub )?ghost\b|requires\b|ensures\b", s):
                ghost = True
            if ghost:
                l = word.sub(lambda m: to(m[1], p), l) if not s.startswith("//") else l
                depth += s.count("{") - s.count("}")
                if depth <= 0 and (s.endswith("}") or s.endswith(";") or s.endswith(",")):
                    ghost, depth = False, 0
            out.append(l)
        u = "\n".join(out)
        if u != t:
            open(p, "w", encoding="utf-8").write(u)
    for p in sorted(glob.glob("crates/*/must-fail/**/*.edit", recursive=True)):
        t = open(p, encoding="utf-8").read()
        u = edit(t, p, to_in_edit)
        if u != t:
            open(p, "w", encoding="utf-8").write(u)
    return 0


# Words of the library that edits name.
WORDS = {"bitXor": "bit_xor", "getD": "get_or"}
OPERATORS = {
    "_≡_": "◌≡◌", "_+_": "◌+◌", "_-_": "◌-◌", "_*_": "◌*◌", "_/_": "◌/◌", "_%_": "◌%◌", "_^_": "◌^◌", "_<_": "◌<◌", "_≤_": "◌≤◌",
    "_∷_": "◌∷◌", "_++_": "◌++◌", "_&&_": "◌&&◌", "_||_": "◌||◌", "_⊎_": "◌⊎◌", "_↔_": "◌↔◌", "_∈_": "◌∈◌", "_∙_": "◌∙◌",
}


def edit(text, path, to):
    """An edit's texts in today's spelling: operators, projections, paths and the repository's own names."""
    out, source = [], ""
    for l in text.split("\n"):
        m = re.match(r"(file|old|new|expect): ?(.*)$", l)
        if m and m[1] == "file":
            source = m[2]
        if m and m[1] == "expect":
            l = "expect: " + TOKEN.sub(lambda w: to(w[1], path), m[2])
        elif m and m[1] in ("old", "new"):
            s = m[2]
            s = clause(s)
            if source.endswith(".antt") or "ghost use" in s or "ensures" in s or "requires" in s or ".old" in s or ".new" in s:
                for a, b in OPERATORS.items():
                    s = s.replace(a, b)
                s = re.sub(r"Rattle·(\w+)·(specs|proofs)\.\2\b", r"Rattle.\1.\2", s)
                s = re.sub(r"Rattle·(\w+)\b", r"Rattle.\1", s)
                s = s.replace("the-variants", "TheVariants")
                s = tight(s)
                s = TOKEN.sub(lambda w: to(w[1], path), s)
            l = f"{m[1]}: {s}"
        out.append(l)
    return "\n".join(out)


def clause(s):
    """What an edit says in a contract."""
    s = re.sub(r"\bnow \((\w+) \.entry\)", r"\1.old", s)
    s = re.sub(r"\bnow \((\w+) \.exit\)", r"\1.new", s)
    return s.replace(" ⌝", "").replace("⌜ ", "")


def tight(s):
    """(x .f) as x.f, and x .f .g as x.f.g"""
    prev = None
    while prev != s:
        prev = s
        s = re.sub(r"(?<![\w'])([A-Za-z_][\w'₀-₉-]*(?:\.[\w'₀-₉-]+)*) \.([a-z0-9][\w'-]*)", r"\1.\2", s)
        s = re.sub(r"\(([A-Za-z_][\w'₀-₉-]*(?:\.[\w'₀-₉-]+)+)\)", r"\1", s)
        s = re.sub(r"(\([^()]*\)) \.([a-z0-9][\w'-]*)", r"\1.\2", s)
    return s


if __name__ == "__main__":
    sys.exit(main())
