"""Gives the repository's own definitions and lemmas the spelling of today's Rattle: words in snake case, types in upper camel case.

Run once at the top of the checkout, right after the kit's own upgrade script. A name is the repository's own where a file of specs/ or a lemma
file of proofs/ declares it (or a `let` names it); names of the library and those that the check makes for goals keep their dashes.
Comments, strings, functions of src/ and exported names are left as they are; in pages only what stands between backticks is turned.
"""

import glob
import re

WORD = r"[A-Za-z_À-ɏͰ-ϿΑ-ω℀-⅏𝐀-𝟿][A-Za-z0-9_À-ɏͰ-ϿΑ-ω℀-⅏𝐀-𝟿₀-₉'′≡≤<+*-]*"
ANSWERS = re.compile(r"/(Answers|Invariants|Choices|Proof)\.antt$")
DECLARED = re.compile(r"\s*(?:(?:pub|abbrev|unfoldable|opaque) )*(?:record |data )?(" + WORD + r")\s*(?::|\(|\{|$)")
# Names that a rule alone would spell badly, or that would fall together with another.
GIVEN = {
    "getD-same": "get_or_same",
    "getD-places": "get_or_places",
    "kindOf": "kind_of",
    "wordsOf": "words_of",
    "W-is": "whole_is",
    "bit-xor": "bit_xor_is",
    "zero-Lawful": "zero_lawful",
    "Goes_on": "GoesOn",
}
# Parameters, other names of imports, and helpers that stand in a file of answers.
MORE = """at-end b-is below-q bit-polynomials each-place extent-of found-again is-back is-drawn is-fed is-found-again is-opened
is-refused is-reopened kept-all no-law ok-prop residue-laws total-is work-of yes-it-does""".split()
# Names of the library with which a line of a proof begins, so that it reads like a declaration.
KEPT = {"get_or-append_right", "get_or-eq_default", "get_or-set_other", "get_or-set_same"}
# A string, or a word, in code.
CODE = re.compile(r'"(?:[^"\\]|\\.)*"|' + WORD)
FOREIGN = re.compile(r"^\s*(?:ghost )?(?:pub )?use (?:Rattle\.std|Rattle\.core|mathlib|native|lib|Prim)\b[^{]*\{([^}]*)\}")


def turned(name):
    if name in GIVEN:
        return GIVEN[name]
    parts = name.split("-")
    if name[0].isupper():
        return "".join(p[:1].upper() + p[1:] for p in parts)
    return "_".join(parts)


def odd(name):
    return name in GIVEN or ("-" in name and not name.startswith("-"))


def declared(path, text):
    names = set()
    for line in text.split("\n"):
        if line.lstrip().startswith("--"):
            continue
        if not ANSWERS.search(path):
            m = DECLARED.match(line)
            if m:
                names.add(m[1])
        names.update(re.findall(r"\blet (" + WORD + r")\s*[:=(]", line))
    return {n for n in names if odd(n) and n not in KEPT}


def foreign(text):
    names = set()
    for line in text.split("\n"):
        m = FOREIGN.match(line)
        if m:
            for part in m[1].split(","):
                names.add(part.split(" as ")[-1].strip())
    return names


def respelled(line, own, theirs):
    """One line of antt, its comment apart."""
    code, dash, comment = line, "", ""
    m = re.search(r"(^|\s)--(\s|$)", line)
    if m:
        code, comment = line[: m.start()], line[m.start() :]
    if FOREIGN.match(code):
        return line

    def put(m):
        name = m[0]
        if name not in own:
            return name
        after = code[m.end() :].lstrip()
        before = code[: m.start()]
        if name in theirs and not before.endswith(".") and not re.match(r"[=:](?!=)", after):
            return name
        return turned(name)

    return re.sub(WORD, put, code) + dash + comment


def main():
    paths = [p for p in glob.glob("crates/*/*/**/*.antt", recursive=True) if "/out/" not in p]
    texts = {p: open(p).read() for p in paths}
    own = set(GIVEN) | set(MORE)
    for p, t in texts.items():
        own |= declared(p, t)
    for p in glob.glob("crates/*/src/**/*.rt", recursive=True):
        for line in re.findall(r"^ghost use .*$", open(p).read(), re.M):
            own |= {n for n in re.findall(r" as (" + WORD + ")", line) if odd(n)}
    for p, t in texts.items():
        theirs = foreign(t)
        new = "\n".join(respelled(line, own, theirs) for line in t.split("\n"))
        if new != t:
            open(p, "w").write(new)
    for p in glob.glob("crates/*/src/**/*.rt", recursive=True) + glob.glob("crates/*/must-fail/*.edit"):
        t = open(p).read()
        new = re.sub(r"«([^»]*)»", lambda m: turned(m[1]) if m[1] in own else m[0], t)
        new = "\n".join(line if line.lstrip().startswith("//") else re.sub(CODE, lambda m: turned(m[0]) if m[0] in own else m[0], line) for line in new.split("\n"))
        if new != t:
            open(p, "w").write(new)
    for p in ["README.md"] + glob.glob("docs/*.md"):
        t = open(p).read()
        new = re.sub(r"`[^`\n]*`", lambda m: re.sub(WORD, lambda w: turned(w[0]) if w[0] in own else w[0], m[0]), t)
        if new != t:
            open(p, "w").write(new)
    print(len(own), "names")


if __name__ == "__main__":
    main()
