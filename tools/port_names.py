#!/usr/bin/env python3
"""Turns the repository's own names of specs/ into the house spelling: snake_case, with a dash only between two names.

Run once at the top of the repository, after port.py; a second run changes nothing.
--list prints the table (old, new), the clashes and what was ambiguous, and writes nothing.
"""
import glob
import os
import re
import subprocess
import sys

# Words of std that count as names beside this repository's own definitions.
STD = set("""length take drop set append map reverse sum count add sub mul div mod rem pow suc zero one min max eq ne
lt le gt ge eqb ltb leb not and or iff T bit get_or nil cons list""".split())
KIT = os.path.dirname(subprocess.run(["rt", "doc"], capture_output=True, text=True, check=True).stdout.strip())
PRELUDE = os.path.join(KIT, "rattle", "std", "specs", "Prelude.antt")
# Plain words of lemma names, although a definition is called so.
PLAIN = set("""low off over own more below beyond behind into along down toward together elsewhere nothing earlier late
ahead whole full in_turn only_if stays done high""".split())
# Names that a rule does not give: old name, new name.
SPECIAL = {
    "is-kept": "bit_kept",  # fields beside them cite isKept, which becomes is_kept
    "robinson-foulds": "robinson_foulds_same",
    "getD-left": "get_or_left",
    "row-S2": "row_s2_lem",  # rowS2 and rowS3 become row_s2 and row_s3
    "row-S3": "row_s3_lem",
    "node-S2": "node_s2_lem",
    "node-S3": "node_s3_lem",
    "comparison-of-P-and-Q": "comparison_of_P_and_Q",
    "crossings-of-P-and-Q": "crossings_of_P_and_Q",
    "listing-of-P-and-Q": "listing_of_P_and_Q",
    "others-and-own": "others_and_own",
    "pass-through-or-not": "pass_through_or_not",
}
# Items of one file that a turned name would meet: file, that old name, the item, its new name.
BOUND = {
    "crates/canonical_copy/specs/lemmas/RootedCopy.antt": ("writtenOver", "written_over", "written_over_lem"),
    "crates/shapes/specs/theorems/TripletCounts.antt": ("alikeAt", "alike_at", "alike_at_lem"),
}
RESERVED = set("""data record deriving module where use mod pub package open as unfoldable abbrev axiom unfold unfolding
ruleset mutual infix infixl infixr elim let in do Type coe fcoe tcoe hcom com result search rules omega arith grind simp
cc rw ground assumption""".split())

# An antt word ends at these.
ENDS = r"""\s(){}\[\].;,@"«»`"""
WORD = re.compile("[^" + ENDS + "]+")
# In Rust text and in pages also at these.
LOOSE = re.compile("[^" + ENDS + r":=/*|&<>!?+#~$%^\\…×·−≡≤↔→–—]+")
DECL = re.compile(r"^(\s*)((?:(?:abbrev|unfoldable|pub) )*)(?:(record|data) )?([^" + ENDS + r":]+)(?: :(?: |$)| [({]|$)")


def files(*patterns):
    return sorted(f for p in patterns for f in glob.glob(p, recursive=True) if os.path.isfile(f))


def read(f):
    with open(f, encoding="utf-8", newline="") as h:
        return h.read()


# --- 1. the names declared in specs/ ---

def declared(f):
    """(name, kind, depth) of each item: kind is def, lem, field, con or local."""
    out = []
    blocks = []  # (indent of the opener, what it opens)
    opener = None  # a header that goes on over lines
    for line in read(f).split("\n"):
        code = line.split("--")[0].rstrip() if line.lstrip().startswith("--") else line.rstrip()
        if not code.strip():
            continue
        indent = len(code) - len(code.lstrip())
        first = code.split()[0]
        if opener is None or indent <= opener[0]:
            opener = None
            while blocks and blocks[-1][0] >= indent:
                blocks.pop()
            m = DECL.match(code)
            head = re.match(r"^\s*(?:(?:abbrev|unfoldable|pub) )*(record|data|module)\b", code)
            inside = blocks[-1][1] if blocks else "module"
            if m and (m.group(3) or " : " in code or code.endswith(" :")):
                name, words = m.group(4), m.group(2).split()
                local = any(b[1] == "where" for b in blocks)
                if m.group(3) or not head:
                    kind = "local" if local else (
                        "field" if inside == "record" else "con" if inside == "data" else
                        "def" if m.group(3) or "abbrev" in words or "unfoldable" in words
                        or (name[0].isupper() and "-" not in name) else "lem")
                    out.append((name, kind, "pub" in words))
            what = head.group(1) if head else "where"
            if head or re.search(r"\bwhere$", code):
                if code.endswith(" where") or first == "where":
                    blocks.append((indent, what))
                elif head:
                    opener = (indent, what)
        elif code.endswith(" where") and opener:
            blocks.append(opener)
            opener = None
        elif code.endswith("where"):
            blocks.append((indent, "where"))
    return out


# --- 2. the new spelling ---

def snake(part):
    if part[:1].isupper():
        return part  # a type, a fact or a letter of the field
    part = re.sub(r"([a-z0-9'₀-₉])([A-Z])", r"\1_\2", part)
    part = re.sub(r"([A-Z])([A-Z][a-z])", r"\1_\2", part)
    return part.lower()


def spelled(name, names, field):
    """Keeps a dash only between two names; a name may have several parts, as all_kept in all_kept_at."""
    pieces = re.split("([-_])", name.replace("′", "'"))
    parts, joints = [snake(p) for p in pieces[::2]], pieces[1::2]
    if field:
        return "_".join(parts)
    i, units, between = 0, [], []
    while i < len(parts):
        j = next((j for j in range(len(parts), i + 1, -1) if "_".join(parts[i:j]) in names), i + 1)
        units.append("_".join(parts[i:j]))
        between += joints[j - 1:j]
        i = j
    out = units[0]
    for a, b, joint in zip(units, units[1:], between):
        out += ("-" if joint == "-" and a in names and b in names else "_") + b
    return out


def table():
    notes = []
    kinds, per_file, public = {}, {}, set()
    for f in files("crates/*/specs/**/*.antt"):
        per_file[f] = declared(f)
        for name, kind, pub in per_file[f]:
            if kind == "def" and pub:
                public.add(name)
            if kind != "local":
                kinds.setdefault(name, set()).add(kind)
    names = set(STD)
    if os.path.exists(PRELUDE):
        for group in re.findall(r"\{([^}]*)\}", read(PRELUDE)):
            names |= {w.strip() for w in group.split(",") if re.fullmatch(r"\w+", w.strip())}
    defs = {n for n in public if len(n) > 2 or n[0].isupper()}
    names |= {snake(n) for n in defs if "-" not in n}
    names |= {snake(n) for n, k in kinds.items() if "def" in k and "-" not in n and "_" in snake(n)}
    names -= PLAIN
    dashed = {spelled(n, names, False) for n in defs if "-" in n}
    names |= {n for n in dashed if "-" not in n} | {n for n in dashed}
    names -= PLAIN
    new = {}
    for n, k in sorted(kinds.items()):
        field = bool(k & {"field", "con"})
        new[n] = SPECIAL.get(n, spelled(n, names, field))
        if field and k - {"field", "con"} and new[n] != spelled(n, names, False):
            notes.append(f"field and item: {n} -> {new[n]} (as a field)")
    # a lemma that falls together with a definition
    of_def = {new[n]: n for n in sorted(kinds) if "def" in kinds[n]}
    for n, k in sorted(kinds.items()):
        if n not in SPECIAL and "def" not in k and new[n] != n and new[n] in of_def and of_def[new[n]] != n:
            notes.append(f"lemma and definition: {n}, {of_def[new[n]]} -> {new[n]}{'_lem' if 'lem' in k else ' (only a field)'}")
            if "lem" in k:
                new[n] += "_lem"
    turned = {n: w for n, w in new.items() if n != w}
    by_new = {}
    for n, w in turned.items():
        by_new.setdefault(w, []).append(n)
        if w in RESERVED:
            notes.append(f"RESERVED: {n} -> {w}")
    for w, olds in sorted(by_new.items()):
        if w in kinds:
            olds = olds + [w]
        if len(olds) > 1:
            notes.append(f"one name: {', '.join(olds)} -> {w}")
    for f, items in per_file.items():
        low = {}
        for n, k, _ in items:
            if k in ("def", "lem"):
                low.setdefault(new.get(n, n).lower(), set()).add(n)
        notes += [f"CASE: {f}: {', '.join(sorted(s))}" for s in low.values() if len({n.lower() for n in s}) > 1]
    return turned, kinds, notes


# --- 3. the texts ---

OWN = {os.path.basename(d) for d in glob.glob("crates/*")}


def kept_words(f, text):
    """Words of one antt file that are not this repository's: imported from elsewhere, or a proof's own items."""
    out = set()
    for path, group in re.findall(r"use ([\w.◌]+)\.\{([^}]*)\}", text):
        steps = path.split(".")
        own = steps[0] == "Rattle" and steps[1] in OWN and "specs" in steps
        if not own:
            out |= {w for w in WORD.findall(group) if w != "as"}
    if "/proofs/" in f:
        out |= set(re.findall(r"^ *(?:(?:pub|abbrev|unfoldable) )*(?:record |data )?([^\s(){}.;,@:]+) :", text, re.M))
    return out


class Turner:
    def __init__(self):
        self.table, self.kinds, self.notes = table()
        self.fields = {n for n, k in self.kinds.items() if "field" in k}
        self.functions = set()
        for f in files("crates/*/src/**/*.rt"):
            self.functions |= {n.replace("_", "-") for n in re.findall(r"\bfn (\w+)", read(f))}
        # words of pages that are also names of programs, calls and files
        self.foreign = {os.path.basename(f).split(".")[0] for f in files(
            "bin/**", "docs/**", "tests/**", "tools/**", "bench/**", "bindings/**", "python/**", "examples/**", "include/**")}

        self.foreign |= set(re.findall(r"leskwyn ([a-z-]+)", read("docs/COMMANDS.md")))  # the commands

    def words(self, text, word, keep=(), proof=False, page=False, f=""):
        def one(m):
            w = m.group()
            w = w.replace("′", "'") if page else w
            new = self.table.get(w) or (page and self.ported(w, f))
            before = text[:m.start()] if len(text) < 400 else text[max(0, m.start() - 60):m.start()]
            if not new or w in keep:
                return m.group()
            if page and w in self.foreign:
                self.note(f"PAGE, left: {f}: {w}")
                return m.group()
            if proof and before.endswith("."):
                last = re.search(r"([^\s(){}.;,@]*)\.$", before).group(1)
                path = re.search(r"Rattle\.\w+\.specs\.[\w.]*$", before)
                if not path and (w not in self.fields or last in ("tie", "before")):
                    self.note(f"DOT, left: {f}: {last}.{w}")
                    return m.group()
                if not path and w in self.functions and re.match(
                        r"\.(ensures|result|new|old|now|args|given|true|false|before)\b", text[m.end():m.end() + 10]):
                    return m.group()
                if not path and w in self.functions:
                    self.note(f"AMBIGUOUS, turned as a field: {f}: {last}.{w}")
            return new
        return word.sub(one, text)

    def ported(self, w, f):
        """What port.py made of a name in specs/, but not in pages and edits."""
        if w in self.kinds or not re.search("[a-z0-9][A-Z]|[^-]-[^-]", w):
            return None
        new = spelled(w, set(), True)
        if new == w or new not in self.kinds or new in self.fields or w in self.foreign:
            return None
        self.note(f"PORTED, turned too: {w} -> {new}")
        return new

    def note(self, line):
        if line not in self.notes:
            self.notes.append(line)

    def antt(self, f, text):
        trigger, item, instead = BOUND.get(f, ("", "", ""))
        if trigger and trigger in WORD.findall(text):
            text = WORD.sub(lambda m: instead if m.group() == item else m.group(), text)
        keep = kept_words(f, text)
        for w in sorted(keep & set(self.table)):
            self.note(f"FILE'S OWN, left: {f}: {w}")
        self.meets(f, text, keep)
        return self.words(text, WORD, keep, "/proofs/" in f, f=f)

    def meets(self, f, text, keep):
        """Notes a new name that this file has already, for something else."""
        alone = set()
        code = re.sub(r"--.*", "", text)
        for m in WORD.finditer(code):
            if code[max(0, m.start() - 1):m.start()] != ".":
                alone.add(m.group())
        got = {}
        for w in alone - keep:
            got.setdefault(self.table.get(w, w), []).append(w)
        for w in alone & keep:
            got.setdefault(w, []).append(w)
        for n, ws in sorted(got.items()):
            if len(ws) > 1:
                kinds = [k for w in sorted(ws) for k in sorted(self.kinds.get(w, ["bound"]))]
                self.note(f"MEET: {f}: {', '.join(sorted(ws))} -> {n} ({', '.join(kinds)})")

    def ticks(self, text, f, page=True):
        return re.sub(r"`[^`\n]*`", lambda m: self.words(m.group(), LOOSE, page=page, f=f), text)

    def rust(self, f, text):
        out = []
        for line in text.split("\n"):
            pieces = re.split(r'("(?:[^"\\\\]|\\\\.)*")', line)
            done = []
            for i, piece in enumerate(pieces):
                if i % 2 or (done and done[-1] is None):
                    done.append(piece)
                elif "//" in piece:
                    code, rest = piece.split("//", 1)
                    whole = rest + "".join(pieces[i + 1:])
                    done.append(self.words(code, LOOSE, f=f) + "//" + self.ticks(whole, f))
                    break
                else:
                    done.append(self.words(piece, LOOSE, f=f))
            out.append("".join(done))
        text2 = "\n".join(out)
        if text2 != text:
            bound = set(re.findall(r"\b(\w+): (?!:)|\blet (?:mut )?(\w+)", text) and
                        [a or b for a, b in re.findall(r"\b(\w+): (?!:)|\blet (?:mut )?(\w+)", text)])
            for w in sorted(set(LOOSE.findall(text)) & set(self.table)):
                if self.table[w] in bound:
                    self.note(f"RUST NAME: {f}: {w} -> {self.table[w]}")
        return text2

    def edit(self, f, text):
        out, rt = [], True
        for line in text.split("\n"):
            if line.startswith("file:"):
                rt = line.strip().endswith(".rt")
            elif line.startswith("#"):
                line = self.words(line, LOOSE, page=True, f=f)
            elif rt:
                line = self.rust(f, line)
            else:
                line = self.words(line, WORD, page=True, f=f)
            out.append(line)
        return "\n".join(out)

    def page(self, f, text):
        out, fence = [], None
        for line in text.split("\n"):
            if line.lstrip().startswith("```"):
                fence = line.strip().strip("`") or "text" if fence is None else None
            elif fence is None:
                line = self.ticks(line, f)
            elif fence.split(",")[0] in ("antt", "rattle", "rust"):
                line = self.words(line, LOOSE, page=True, f=f)
            out.append(line)
        return "\n".join(out)

    def run(self, write):
        jobs = [(self.antt, "crates/*/specs/**/*.antt", "crates/*/proofs/**/*.antt"), (self.rust, "crates/*/src/**/*.rt"),
                (self.edit, "crates/*/must-fail/*.edit"),
                (self.page, "docs/**/*.md", "README.md", "CONTRIBUTING.md", "CHANGELOG.md", "crates/*/*.md")]
        done = []
        for job, *where in jobs:
            for f in files(*where):
                text = read(f)
                new = job(f, text)
                if new != text:
                    done.append((f, new))
        if write:
            for f, new in done:
                with open(f, "w", encoding="utf-8", newline="") as h:
                    h.write(new)
        return done


def main():
    turner = Turner()
    listing = "--list" in sys.argv[1:]
    turner.run(not listing)
    if listing:
        for old, new in sorted(turner.table.items()):
            print(f"{old}\t{new}")
        print("\n".join(f"# {n}" for n in turner.notes))


if __name__ == "__main__":
    main()
