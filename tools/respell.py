#!/usr/bin/env python3
"""Brings the repository's own names in specs/ and proofs/ to today's spelling. Run once at the top of the repository, after port.py and its commit.

usage: python3 tools/respell.py --table FILE [--landed COMMIT] [--dry]        a second run would rename again: where FILE is there already, it is refused

Functions, lemmas, fields and constructors become snake case; a dash stays in a lemma only where it joins two names; types and facts keep upper camel case.
Names from Rattle source (functions, parameters, exported names), strings, and names that Rattle makes stay. What Rattle makes is told by its place: behind a dot
that is no module of ours and no field of a record of ours. A new name that would fall together with another word of some file gets a name of FIXED, or stays ('stays:').
--landed COMMIT also turns the texts of must-fail/*.edit, by what became of the same lines since COMMIT (the commit before port.py), and says which don't fit.
Each renamed name is printed: crate, old -> new (--table writes them to a file too). 'look:' lines are for a reader.
"""
import collections, os, re, subprocess, sys

# ---- exceptions: old name -> new name, where the rule's own would fall together with something or is not what the style wants
FIXED = {
    "minusOne": "minus_one_32",           # `minus_one` is a variable of proofs in bitmap_index
    # a Rust function or a variable has the name that the rule gives
    "firstClear": "first_clear_row", "extentOf": "extent_said", "frontOf": "front_found", "recordOf": "record_from_numbers", "recordNumbers": "numbers_of_record",
    "ofThree": "record_of_three", "isDue": "is_value_due", "inTwo": "in_two_bytes", "inThree": "in_three_bytes", "inFour": "in_four_bytes", "noEntry": "no_entry_there",
    "hasNull": "has_null_byte", "lookUp": "looked_up", "hasMagic": "begins_with_magic", "checksumHolds": "is_true_checksum", "askFile": "file_asked",
    "nextBin": "step_to_next_bin", "nextBitmap": "indexed_bitmap", "inWindow": "rows_in_window", "markBin": "bin_marked", "markBitmap": "bitmap_marked",
    "askedBin": "bin_asked_for", "knownEdition": "is_known_edition", "notIn": "is_not_in", "nullEntry": "entry_of_null", "numberBehind": "cell_number_behind",
    "placeAt": "entry_placed", "placeBitmap": "bitmap_placed", "fromWord": "line_from_word", "rowsEnd": "end_of_all_rows", "entriesOne": "entries_version_one",
    "entriesTwo": "entries_version_two", "extentAt": "stored_extent_at", "mostValues": "value_limit", "lookedAt": "bytes_looked_at", "hashBytes": "hash_of_bytes",
    "afterColumn": "place_after_column", "afterEntry": "place_after_entry", "askedSize": "size_of_asked_name", "standsAt": "form_stands_at", "frontBehind": "rest_of_front",
    "bodyEnd": "end_of_body", "bodySize": "size_of_body", "containersIn": "container_count", "offsetIs": "offset_checked", "offsetsSize": "size_of_offsets",
    "valuesRise": "do_values_rise", "bytesLess": "is_less_bytewise", "foundIn": "found_inside",
    "pointAt": "PointIsAt", "countAt": "CountIsAt", "walkAt": "WalkIsAt",  # facts: their type ends in Type 0
    # a page's numbering
    "Demand3": "EachFileIsAnsweredAsTheScan", "demand-3": "each_file_is_answered_as_the_scan",
}
# facts and labels of clauses whose names Rust items or the rule leave: (old, new, what must stand before it, what must not stand behind it), by the text
BY_TEXT = [
    ("name_at", "NameIsAt", r"(?<![\w.'-])", r"(?![\w(.'-])"),      # a fact of index_file's Promises, beside the function name_at
    ("demand_3", "as_the_scan", r"(?<![\w'-])", r"(?![\w'-])"),     # the label of a clause
]
# names that stay as they are
STAY = set()
# names that are plain words too: in a comment they stay
PLAIN = {"well-formed"}
# plain words for operators and constructors, which count as names in a lemma's name
WORDS = set("add sub mul div mod le lt eq append cons nil or and not pow zero suc refl".split())
# a name with one of these is a sentence: underscores alone
SENTENCE = set("is are has have the of as a no not its each without so names keeps than for from to on by out only was were either both".split())
KEYWORDS = set("record ruleset data open module where let in use mod pub abbrev unfoldable unfolding as by elim if then else do match enum fn self requires ensures "
               "ghost forall infix infixl infixr syntax absurd rw simp search omega grind cc subst ground assumption refl type impl trait for while loop move return".split())
NAME = r"[^\s(){}.;,@\"«»`]+"
TOKEN = re.compile(NAME)
# what a file declares at the start of a line
DECL = re.compile(r"^([ \t]*)((?:(?:abbrev|unfoldable|pub|instance|private)[ \t]+)*)(" + NAME + r")(?:[ \t]+:|[ \t]*$(?=\n[ \t]+:))(?=\s)", re.M)
TYPE = re.compile(r"^[ \t]*(?:pub[ \t]+)?(data|record|ruleset|module)[ \t]+(" + NAME + r")", re.M)
GENERATED = re.compile(r"^(?:tie|goal)\.")


def snake(word):
    """One part of a name, with no dash in it."""
    if word[:1].isupper():
        return word  # a fact, a type, a constructor
    return re.sub(r"(?<=[a-z0-9'])([A-Z])(?=[a-z0-9]|$)", lambda m: "_" + m.group(1).lower(), word)


def files(root, suffixes=(".antt",)):
    for folder, dirs, fs in os.walk(os.path.join(root, "crates")):
        dirs[:] = sorted(d for d in dirs if d not in ("out", ".git"))
        for f in sorted(fs):
            if f.endswith(suffixes):
                yield os.path.join(folder, f)


def crate_of(root, p):
    return os.path.relpath(p, os.path.join(root, "crates")).split(os.sep)[0]


def strip_comments(t):
    return re.sub(r"(?m)--[^\n]*$", "", t)


class Repo:
    def __init__(self, root):
        self.root = root
        self.text = {}
        for p in files(root, (".antt", ".rt")):
            with open(p, encoding="utf-8") as f:
                self.text[p] = f.read()
        self.declared = collections.defaultdict(list)   # name -> [(path, kind, mark)]
        self.fields = set()
        self.rust = collections.defaultdict(set)        # crate -> names of functions and other items
        self.imported = set()                           # names imported from a library
        for p, t in self.text.items():
            (self.read_rust if p.endswith(".rt") else self.read_antt)(p, t)

    def read_rust(self, p, t):
        c = crate_of(self.root, p)
        self.rust[c] |= set(re.findall(r"\b(?:fn|const|static|mod|struct|enum|trait|type)\s+(?:mut\s+)?(\w+)", t))

    def read_antt(self, p, t):
        code = strip_comments(t)
        for m in re.finditer(r"(?m)^use ([^\s;{]+?)\.\{([^}]*)\}", code):
            if not self.is_own(m.group(1)):
                self.imported |= {w.strip().split(" as ")[-1].split()[-1] for w in m.group(2).split(",") if w.strip()}
        walk = os.path.basename(p) == "Proof.antt"
        blocks = []  # (indent, kind) of the record or data that a line stands in
        for line in re.split(r"(?<=\n)", code):
            if not line.strip():
                continue
            indent = len(line) - len(line.lstrip())
            while blocks and indent <= blocks[-1][0]:
                blocks.pop()
            m = TYPE.match(line)
            if m:
                if m.group(1) != "module" or m.group(2) != "_":
                    self.declared[m.group(2)].append((p, m.group(1), ""))
                if m.group(1) in ("data", "record"):
                    blocks.append((indent, m.group(1)))
                continue
            m = re.match(r"^([ \t]*)((?:(?:abbrev|unfoldable|pub|instance|private)[ \t]+)*)(" + NAME + r")[ \t]*(?::(?=\s)|\n)", line)
            if not m or m.group(3) in KEYWORDS or not re.match(r"[^\W\d]", m.group(3)):
                continue
            if line.rstrip().endswith("=") or (":" not in line and not m.group(2)):
                continue
            rest = line.split(":", 1)[1].strip() if ":" in line else ""
            if walk and (GENERATED.match(rest) or m.group(3).endswith("-spec") or m.group(3).endswith("_spec")):
                continue
            kind = "def"
            if blocks:
                kind = "field" if blocks[-1][1] == "record" else "constructor"
                if kind == "field":
                    self.fields.add(m.group(3))
            self.declared[m.group(3)].append((p, kind, m.group(2)))

    def is_own(self, path):
        steps = path.split(".")
        return steps[0] == "Rattle" and len(steps) > 1 and os.path.isdir(os.path.join(self.root, "crates", steps[1]))


def renamed(repo):
    known = set(WORDS) | {n for n in repo.imported if re.fullmatch(r"[A-Za-z_']+\d*", n)}
    for n, places in repo.declared.items():
        if any(k in ("data", "record", "constructor") or "abbrev" in mark or "unfoldable" in mark for _, k, mark in places):
            if "-" not in n:
                known |= {n, snake(n)}

    def new_of(name):
        if name in FIXED:
            return FIXED[name]
        if name in STAY or "◌" in name or not re.match(r"[^\W\d_]", name):
            return name
        parts = [snake(w) for w in name.split("-")]
        groups, i = [], 0   # [(text, whether it ends a group that began with a name, whether it is a name)]
        while i < len(parts):
            for j in range(len(parts), i, -1):
                joined = "_".join(parts[i:j])
                if joined in known or j == i + 1:
                    groups.append((joined, joined in known))
                    i = j
                    break
        if any(text in SENTENCE and not is_name for text, is_name in groups) or len(parts) > 3 and any(w in SENTENCE for w in parts):
            return "_".join(text for text, _ in groups)  # a sentence, and no name of a left side
        out, has_name = groups[0][0], groups[0][1]
        for text, is_name in groups[1:]:
            if is_name and has_name:
                out += "-" + text
            else:
                out += "_" + text
                has_name = has_name or is_name
        return out

    tokens = collections.defaultdict(set)  # token -> files
    for p, t in repo.text.items():
        for w in TOKEN.findall(strip_comments(t) if p.endswith(".antt") else t):
            tokens[w].add(p)
    rust = set().union(*repo.rust.values()) if repo.rust else set()
    table, said = {}, []
    for n in sorted(repo.declared, key=lambda n: ('-' in n, n)):
        new = new_of(n)
        if new == n:
            continue
        kinds = {k for _, k, _ in repo.declared[n]}
        if n in rust and "-" not in n:
            said.append(f"stays: {n}: a Rust item is called so")
            continue
        if n in repo.imported:
            said.append(f"stays: {n}: a library's name too, imported in some file")
            continue
        for attempt in (new, new + "_lem" if "-" in n else new + "_of"):
            why = None
            owner = [k for k, v in table.items() if v == attempt]
            if owner:
                why = f"falls together with {owner[0]}"
            elif attempt in tokens:
                why = f"a word of {os.path.relpath(sorted(tokens[attempt])[0], repo.root)}"
            elif attempt in repo.declared or attempt in repo.imported:
                why = "declared or imported elsewhere"
            elif attempt in rust and "field" not in kinds:
                why = "a Rust function or item"
            elif attempt in KEYWORDS:
                why = "a keyword"
            if not why:
                break
            said.append(f"look: {n} -> {attempt}: {why}")
        if why:
            said.append(f"stays: {n}: {why}")
            continue
        table[n] = attempt
    return table, said


STRING = re.compile(r'"(?:[^"\\\n]|\\.)*"')


def respell(text, table, fields, aliases, rust):
    """The text with the table's names turned. Behind a dot a name turns only behind a module's name or where it is a field of ours."""

    def one(m):
        w = m.group(0)
        if w not in table:
            return w
        before = m.string[: m.start()]
        if w in PLAIN and re.search(r"(?:--|//)[^\n]*$", before):
            return w
        if before.endswith("."):
            head = re.search(r"([^\s(){};,@\"«»]+)\.$", before)
            last = head.group(1).split(".")[-1] if head else ""
            if not (w in fields or last in aliases or last[:1].isupper() or before.endswith(".(")):
                return w
        return table[w]

    word = TOKEN if not rust else re.compile(r"(?<![\w'-])[A-Za-z_][\w']*(?:-[\w']+)*(?![\w'])")
    if not rust:
        return word.sub(one, text)
    out, at = [], 0
    for s in STRING.finditer(text):
        out += [word.sub(one, text[at:s.start()]), s.group(0)]
        at = s.end()
    return "".join(out) + word.sub(one, text[at:])


def aliases_in(text):
    return set(re.findall(r"\bas (\w+)\b", text)) | set(re.findall(r"(?m)^use [^\s{]*?(\w+)$", text))


# ---- must-fail edits
def tight(text):
    """Spaces and brackets of the older form: `(x .f)` is `x.f`, `_+_` is `◌+◌`."""
    text = re.sub(r"Rattle·(\w+)(?:·(?:specs|proofs))?\.", r"Rattle.\1.", text)
    for _ in range(4):
        text = re.sub(r"\(([^\s()]+(?: \.[\w'-]+)+)\)", lambda m: m.group(1).replace(" .", "."), text)
        text = re.sub(r"(?<=[\w')\]]) \.(?=[\w'])", ".", text)
    return text


def turned(landed, now):
    """old word -> new word, of the lines of a file that differ in words alone."""
    import difflib
    count = collections.Counter()
    a = [TOKEN.findall(l) for l in tight(strip_comments(landed)).split("\n")]
    b = [TOKEN.findall(l) for l in strip_comments(now).split("\n")]
    flat_a, flat_b = [w for l in a for w in l], [w for l in b for w in l]
    for tag, i, j, k, m in difflib.SequenceMatcher(None, flat_a, flat_b, autojunk=False).get_opcodes():
        if tag == "replace" and j - i == m - k:
            for x, y in zip(flat_a[i:j], flat_b[k:m]):
                count[(x, y)] += 1
    best = {}
    for (x, y), n in count.items():
        if n > best.get(x, ("", 0))[1]:
            best[x] = (y, n)
    return {x: y for x, (y, n) in best.items()}


def edits(root, landed, table, dry):
    bad = changed = total = 0
    maps = {}
    for p in files(root, (".edit",)):
        total += 1
        with open(p, encoding="utf-8") as f:
            text = f.read()
        m = re.search(r"(?m)^file: (\S+)", text)
        if not m:
            continue
        at = os.path.join(os.path.dirname(os.path.dirname(p)), m.group(1))
        if not os.path.exists(at):
            print(f"look: {os.path.relpath(p, root)}: {m.group(1)} is gone")
            bad += 1
            continue
        with open(at, encoding="utf-8") as f:
            now = f.read()
        lines = text.split("\n")
        olds = [l[5:] for l in lines if l.startswith("old: ")]
        if olds and all(now.count(o) == 1 for o in olds):
            continue
        if at not in maps:
            r = subprocess.run(["git", "show", f"{landed}:./" + os.path.relpath(at, root)], cwd=root, capture_output=True, text=True)
            maps[at] = turned(r.stdout, now) if r.returncode == 0 else {}
        def turn(s):
            s = tight(s)
            return TOKEN.sub(lambda k: maps[at].get(k.group(0), table.get(k.group(0), k.group(0))), s)
        new = [l[:5] + turn(l[5:]) if l.startswith(("old: ", "new: ")) else l for l in lines]
        # rt fmt may have put several of a table's lines into one
        if any(l.startswith("old: ") and now.count(l[5:]) != 1 and now.count(l[5:].strip()) == 1 for l in new):
            new = [l[:5] + l[5:].strip() if l.startswith(("old: ", "new: ")) else l for l in new]
        for i, l in enumerate(new):
            if l.startswith("old: ") and now.count(l[5:]) != 1:
                bad += 1
                print(f"look: {os.path.relpath(p, root)}: stands {now.count(l[5:])} times: {l}")
        if new != lines:
            changed += 1
            if not dry:
                with open(p, "w", encoding="utf-8") as f:
                    f.write("\n".join(new))
    print(f"respell: {total} edits, {changed} turned, {bad} to mend by hand")


def main(argv):
    dry = "--dry" in argv
    words = [a for a in argv if a != "--dry"]
    if len(words) not in (2, 4) or any(a not in ("--table", "--landed") for a in words[::2]) or "--table" not in words or not os.path.isdir("crates"):
        print(__doc__)
        return 2
    table_file = argv[argv.index("--table") + 1]
    if os.path.exists(table_file) and not dry:
        print(f"respell: {table_file} is there, so it has run already: it runs once")
        return 2
    landed = argv[argv.index("--landed") + 1] if "--landed" in argv else None
    root = os.getcwd()
    repo = Repo(root)
    table, said = renamed(repo)
    where = {n: sorted({crate_of(root, p) for p, _, _ in repo.declared[n]}) for n in table}
    lines = [f"{','.join(where[n])}\t{n} -> {table[n]}" for n in sorted(table, key=lambda n: (where[n], n))]
    print("\n".join(lines))
    if not dry:
        with open(table_file, "w") as f:
            f.write("\n".join(f"{n}\t{new}" for n, new in sorted([*table.items(), *((b[0], b[1]) for b in BY_TEXT)])) + "\n")
    print("\n".join(said))
    changed = 0
    for p, t in repo.text.items():
        new = respell(t, table, repo.fields, aliases_in(t), p.endswith(".rt"))
        for old, to, before, behind in BY_TEXT:
            new = re.sub(before + re.escape(old) + behind, to, new)
        if new != t:
            changed += 1
            if not dry:
                with open(p, "w", encoding="utf-8") as f:
                    f.write(new)
    print(f"respell: {len(table)} names, {changed} files, {sum(s.startswith('stays') for s in said)} names stay")
    if landed and not dry:  # the edits are turned by what became of the files
        edits(root, landed, table, dry)
    return 0


if __name__ == "__main__":
    raise SystemExit(main(sys.argv[1:]))
