"""Spells the repository's own definitions and lemmas as Rattle's libraries spell theirs.

    python3 tools/snake_names.py [--dry]

Run at the top. A definition, lemma, field, constructor or bound name is in snake case, a
function into `Type` in upper camel case, and there is one prime, the apostrophe. Names of
src/, strings, inputs, outputs, names of the library and names that Rattle makes (goals,
projections) keep their spelling. It stops before it writes anything if two names fall together.
"""
import collections
import glob
import re
import sys

WORD = r"[A-Za-z_0-9'′*≤≡∈∉≠⊥₀-₉]+"
NAME = WORD + r"(?:-" + WORD + r")*"
TOKEN = re.compile(r"(?<![A-Za-z_0-9'′-])(" + NAME + r")(?![A-Za-z_0-9'′-])")
MARKS = r"(?:(?:pattern|unfoldable|abbrev|pub|data|record|let)\s+)*"

# where a name is declared: with its type, as a record or data with parameters, by let or λ, as
# an argument of a clause, in a binder, or by `as` in an import of src/
SIGNATURE = re.compile(r"^\s*" + MARKS + r"(" + NAME + r"(?:\s+" + NAME + r")*)\s*(?:\{[^}]*\})?\s*:\s")
PARAMETERS = re.compile(r"^(?:pub\s+)?(?:record|data)\s+(" + NAME + r")\s+\(.*Type 0 where")
LET = re.compile(r"(?:\blet\s+|λ\s*)(" + NAME + r")\b(?!-)")
LEFT = re.compile(r"^\s*" + NAME + r"((?:\s+" + NAME + r")+)\s*=\s")
BINDER = re.compile(r"[({]((?:" + NAME + r"\s+)*" + NAME + r")\s*:\s")
ALIAS = re.compile(r"\bas\s+(" + NAME + r")\b(?!-)")

MADE = ("Answers.antt", "Invariants.antt", "Proof.antt")
OWN = "|".join(l.split(":")[0].split()[0] for l in open("crates.txt") if l.strip() and not l.startswith("#"))


class Names:
    """The dashed names of the repository's specs/, proofs/ and src/."""

    def __init__(self):
        self.types, self.words, self.fields, self.goals = set(), set(), set(), set()
        self.library = collections.defaultdict(set)
        for path in antt_files():
            self.read(path)
        for path in rt_files():
            self.words.update(dashed(ALIAS.findall(blanked(open(path).read()))))
        self.new = {n: camel(n) for n in self.types - self.goals}
        self.new.update({n: snake(n) for n in self.words - self.types - self.goals})

    def read(self, path):
        lines = [without_comment(l) for l in open(path).read().split("\n")]
        in_record = False
        for i, line in enumerate(lines):
            top = not line.startswith((" ", "\t"))
            if top:
                in_record = bool(re.match(r"(pub )?record ", line))
            if of_library(line):
                self.library[path].update(dashed(TOKEN.findall(line)))
                continue
            self.goals.update(re.findall(r"\bgoals?\.(" + NAME + ")", line))
            self.read_signature(lines, i, in_record and not top)
            if (m := LEFT.match(line)) and not path.endswith(MADE):
                self.words.update(dashed(m[1].split()))
            self.words.update(dashed(LET.findall(line)))
            for group in BINDER.findall(line):
                self.words.update(dashed(group.split()))

    def read_signature(self, lines, i, field):
        if m := PARAMETERS.match(lines[i]):
            self.types.update(dashed([m[1]]))
        if m := SIGNATURE.match(lines[i]):
            whole, k = lines[i], i + 1
            while k < len(lines) and re.match(r"\s*(→|\()", lines[k]) and "=" not in lines[k]:
                whole, k = whole + " " + lines[k], k + 1
            is_type = re.search(r"(→|:)\s*Type( 0| ℓ)?\s*(where)?\s*$", whole) and not field
            (self.types if is_type else self.words).update(dashed(m[1].split()))
            if field:
                self.fields.update(dashed(m[1].split()))

    def clashes(self):
        """Names that would fall together, in the repository or within one file."""
        olds = collections.defaultdict(list)
        for n in self.new:
            olds[self.new[n]].append(n)
        found = [ns for ns in olds.values() if len(ns) > 1]
        found += sorted(self.types & self.words)
        for path in antt_files():
            text = "\n".join(without_comment(l) for l in open(path).read().split("\n"))
            spoken = {m[1] for m in TOKEN.finditer(text) if text[m.start() - 1:m.start()] != "."}
            found += [(path, n) for n in spoken & set(self.new) if self.new[n] in spoken]
            found += [(path, n) for n in self.library[path] & set(self.new)]
        return found

    def turned(self, text, seen, modules):
        """The text with its names turned; seen is the text with blanks for what stays."""
        out, last = [], 0
        for m in TOKEN.finditer(seen):
            before = seen[:m.start()]
            projected = before.endswith(".") and not before.endswith("..")
            owner = re.search(r"([A-Za-z_0-9']+)\.$", before)
            if m[1] in self.new and (not projected or m[1] in self.fields or (owner and owner[1] in modules)):
                out.append(text[last:m.start()] + self.new[m[1]])
                last = m.end()
        return "".join(out) + text[last:]

    def turned_proof(self, text):
        own_modules = re.findall(r"^use Rattle\.(?:%s)\.(?:specs|proofs)\..* as ([a-z_]+)$" % OWN, text, re.M)
        modules = set(own_modules) - {"goal", "given"}
        lines = []
        for line in text.split("\n"):
            code = without_comment(line)
            if ("-" in code or "′" in code) and not of_library(line):
                line = self.turned(line, code.ljust(len(line)), modules).replace("′", "'")
            lines.append(line)
        return "\n".join(lines)


def without_comment(line):
    return line.split("--", 1)[0] if re.match(r"\s*--|.*\s--\s", line) else line


def blanked(text):
    """Text of src/ with blanks for comments and strings."""
    return re.sub(r'//[^\n]*|b?"(?:\\.|[^"\\])*"', lambda m: " " * len(m[0]), text)


def of_library(line):
    return line.startswith("use ") and not re.match(r"use Rattle\.(%s)\." % OWN, line)


def dashed(names):
    return {n for n in names if "-" in n or "′" in n}


def camel(name):
    return "".join(p[:1].upper() + p[1:] for p in re.split(r"[-_]", name))


def snake(name):
    return name.replace("-", "_").replace("′", "'")


def antt_files():
    return sorted(p for d in ("specs", "proofs") for p in glob.glob(f"crates/*/{d}/**/*.antt", recursive=True))


def rt_files():
    return sorted(glob.glob("crates/*/src/**/*.rt", recursive=True))


def rewrite(path, turn):
    text = open(path).read()
    if (new := turn(text)) != text:
        open(path, "w").write(new)


def main():
    names = Names()
    if clashes := names.clashes():
        sys.exit(f"two names fall together: {clashes}")
    print(f"{len(names.new)} names, of them {len(names.types)} types")
    if "--dry" in sys.argv:
        return
    for path in antt_files():
        rewrite(path, names.turned_proof)
    for path in rt_files():
        rewrite(path, lambda text: names.turned(text, blanked(text), names.fields))
    for path in sorted(glob.glob("crates/*/must-fail/*.edit")):
        rewrite(path, lambda text: names.turned(text, text, ()))


if __name__ == "__main__":
    main()
