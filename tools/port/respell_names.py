#!/usr/bin/env python3
"""Respells a repository's OWN names in the new style: camelCase and hyphens to snake_case, a prime to an apostrophe.

usage: respell_names.py [--dry] [--verbose] REPO   rewrites crates/*/{specs,proofs}/**.antt, the ghost text of crates/*/src/**.rt
                                       and crates/*/must-fail/*.edit in place; run after port.py. Idempotent.
       respell_names.py --pages REPO   only *.md pages: whole tokens in backquotes that are own names (reads the map that the
                                       first form left in .git/respell-names.json)
       respell_names.py --check REPO   only checks imports: each name imported from an own module is declared there
"""
import collections, json, os, re, signal, sys

# Names whose plain spelling collides: old spelling -> new one, each with its reason.
# A lemma beside a function that takes the same spelling, such as `good-gate` beside `goodGate`: the kit's rule
# (CONTRACT_STYLE.md, Names, 3) gives the lemma `_lem` at its end.
LEMMAS = """
admit-first candidate-span chosen-high cut-end duels-from entry-end found-bit free-chain free-slot gate-at
good-chains good-gate grade-at graded-limits graded-reasons in-urn key-of key-words larger-if line-with
links-from list-in losers-from meetings-from not-of ones-span only-bits operand-counts own-boards own-wires
plus-run ranked-reasons refused-text rehearsal-text rows-of run-board sheet-text slot-bytes stage-end
stage-figure started-published step-board step-wires tables-fit totals-text turn-shown turn-wires width-within
wires-fit withdraw-first won-bit
""".split()
TABLE = {
    # constructors of `Beats`, beside the tests betterMedian, strongerMedian, largerP, smallerQ
    "better-median": "by_better_median",
    "stronger-median": "by_stronger_median",
    "larger-p": "by_larger_p",
    "smaller-q": "by_smaller_q",
    # fields whose own type cites the function of that spelling
    "most-ballots": "ballots_within",            # n ≤ mostBallots
    "most-candidates": "candidates_within",      # k ≤ mostCandidates
    "within-limits": "is_within",                # T (withinLimits ..)
    "other-triple": "other_view",                # a field and its lemma, beside the dealing otherTriple
}
TABLE.update({n: n.replace("-", "_") + "_lem" for n in LEMMAS})
# In one crate or one file only: these spellings are used for other things elsewhere.
LOCAL_TABLE = {
    ("urn", "first-of"): "first_of_lem",         # a lemma on first_of
    ("urn_chains", "no-reason"): "no_reason_lem",    # a lemma on noReason, and where it is imported
    ("urn_run", "no-reason"): "no_reason_lem",
    ("text", "in-front"): "in_front_lem",        # a lemma on inFront
}
# A name that has the new spelling already, in one file, and must make room: (file, name) -> (new name, the name that comes).
AGAIN = {
    ("text_lines/proofs/DecimalLaws.antt", "is_digit"): ("is_digit_lem", "isDigit"),   # a lemma on isDigit
    ("season/proofs/Theorems.antt", "sum_over"): ("sum_over_lem", "sumOver"),          # a lemma on sumOver
    ("trustee_alone/proofs/Once.antt", "own_turn"): ("own_turn_lem", "ownTurn"),       # a law of the turn, beside ownTurn
}
AUTO = {}      # `_lem` for further pairs of that kind, found in this run
KEYWORDS = set("""record data open ruleset module where let in use pub abbrev unfoldable unfolding unfold elim result mod as
rw search omega grind ghost fn self Self match if else loop while for return requires ensures invariant decreases old new now
simp rules forall exists do of with then case mut ref const static struct enum impl trait type move dyn crate super true false
and or not""".split()) - {"and", "or", "not", "of"}
GENERATED_LEAF = {"Tie", "Statement", "Requires", "Ensures", "Goals", "Given", "TheVariants"}
KEPT_FILES = {"Answers.antt", "Invariants.antt"}   # names there are Rattle's

TOK = re.compile(r'--[^\n]*|"(?:[^"\\\n]|\\.)*"|[^\s(){}.;,@"]+|\s+|.', re.S)
BACK = re.compile(r"`[^`\n]*`")
LOWER = re.compile(r"[a-z][\w'′-]*\Z")
MODS = ("unfoldable", "abbrev", "pub", "opaque", "private", "irreducible")


def spell(name):
    """The plain new spelling of a name, or the name itself."""
    if not LOWER.match(name):
        if name[:1].isalpha() and "′" in name:
            return name.replace("′", "'")
        return name
    n = name.replace("′", "'")
    parts = []
    for p in re.split("[-_]", n):
        if p[:1].islower():      # a part that starts with a capital is a fact's or a type's name and keeps it
            p = re.sub(r"(?<=[a-z0-9₀-₉'])([A-Z]+)", lambda m: "_" + (m.group(1).lower()), p)
        parts.append(p)
    return "_".join(parts)


class File:
    pass


def tokens(text):
    return [(m.group(0), m.start()) for m in TOK.finditer(text)]


def is_word(t):
    return not (t.isspace() or t in "(){}.;,@" or t.startswith("--") or t.startswith('"'))


USE = re.compile(r"^[ \t]*(?:ghost |unfoldable |abbrev )*(?P<pub>pub )?(?:open )?(?:ghost )?use (?P<path>[^\s{};]+?)(?:\.\{(?P<items>[^}]*)\})?(?:[ ]+as (?P<alias>[^\s;]+))?[ ]*;?[ ]*$", re.M)


def parse_uses(text):
    for m in USE.finditer(text):
        items = []
        if m.group("items") is not None:
            base = m.start("items")
            for it in re.finditer(r"[^,\s]+(?:\s+as\s+[^,\s]+)?", m.group("items")):
                w = it.group(0).split()
                items.append((w[0], w[2] if len(w) == 3 else None, base + it.start()))
        yield m, items


def module_of(rel):
    """crates/c/specs/A/B.antt -> Rattle.c.specs.A.B"""
    p = rel.split("/")
    return "Rattle." + ".".join(p[1:])[:-5]


DECL = re.compile(r"^(?P<ind>[ ]*)(?P<mods>(?:(?:unfoldable|abbrev|pub|opaque|private|irreducible) )*)(?P<names>[^\s(){}.;,@\":]+(?: [^\s(){}.;,@\":]+)*) :(?= |$)")


def declarations(text):
    """(tops, fields, constructors, records, places): tops are declared at column 0 or directly in modules; places are the
    positions of the fields' declarations."""
    tops, fields, cons, records, places = collections.OrderedDict(), [], [], {}, {}
    stack, pos = [["module", 0, None, False, 0]], 0         # kind, indent of its lines, record, header still open, indent of header
    for line in text.split("\n"):
        start, pos = pos, pos + len(line) + 1
        if not line.strip() or line.lstrip().startswith("--"):
            continue
        i = len(line) - len(line.lstrip())
        ends = re.sub(r"--.*", "", line).rstrip().endswith(" where")
        if stack[-1][3]:
            if i > stack[-1][4]:
                stack[-1][3] = not ends
                continue
            stack.pop()                                      # no `where` came: it was no header
        while len(stack) > 1 and (i <= stack[-1][4] or stack[-1][1] is not None and i < stack[-1][1]):
            stack.pop()
        if stack[-1][1] is None:
            stack[-1][1] = i
        kind, ind, rec = stack[-1][:3]
        if i != ind:
            continue
        head = line.strip()
        while head.split(" ", 1)[0] in MODS and " " in head:
            head = head.split(" ", 1)[1]
        w = head.split()
        if kind == "module" and w[0] in ("record", "data", "module") and len(w) > 1 and w[1] not in ("{", ":", "=") :
            name = re.match(r"[^\s(){}.;,@\":]+", w[1])
            if name is None:
                continue
            name = name.group(0)
            if w[0] != "module":
                tops[name] = 1
                records.setdefault(name, [])
            stack.append([w[0], None, name, not ends, i])
            continue
        m = DECL.match(line)
        if m and (kind == "record" or " " not in m.group("names")) and "=" not in m.group("names").split():
            at = m.start("names")
            for x in re.finditer(r"\S+", m.group("names")):
                n = x.group(0)
                if kind == "record":
                    fields.append(n)
                    records[rec].append(n)
                    places[start + at + x.start()] = (rec, n)
                else:
                    tops[n] = tops.get(n, 0) + 1
                    if kind == "data":
                        cons.append(n)
    return tops, fields, cons, records, places


def load(repo):
    out = {}
    for d, dirs, fs in os.walk(os.path.join(repo, "crates")):
        dirs[:] = sorted(x for x in dirs if x not in ("out", ".git"))
        for f in sorted(fs):
            p = os.path.join(d, f)
            rel = os.path.relpath(p, repo)
            parts = rel.split("/")
            if len(parts) < 4:
                continue
            kind = None
            if f.endswith(".antt") and parts[2] in ("specs", "proofs"):
                kind = "antt"
            elif f.endswith(".rt") and parts[2] == "src":
                kind = "rt"
            elif f.endswith(".edit") and parts[2] == "must-fail":
                kind = "edit"
            if not kind:
                continue
            F = File()
            F.rel, F.path, F.kind, F.crate = rel, p, kind, parts[1]
            F.text = open(p, encoding="utf-8").read()
            F.tops, F.fields, F.cons, F.records, F.places = {}, [], [], {}, {}
            if kind == "antt":
                F.tops, F.fields, F.cons, F.records, F.places = declarations(F.text)
                F.module = module_of(rel)
            F.uses = [(m.group("path"), m.group("alias"), bool(m.group("pub")), its, m.group("items") is not None) for m, its in parse_uses(F.text)] if kind != "edit" else []
            out[rel] = F
    return out


class Repo:
    def __init__(self, repo):
        self.root = repo
        self.files = load(repo)
        self.modules = {F.module: F for F in self.files.values() if F.kind == "antt"}
        self.fields = collections.Counter(n for F in self.files.values() for n in F.fields)
        self.tops = collections.Counter(n for F in self.files.values() for n in F.tops)
        self.exports = {}
        # what Rattle makes from the source: names of functions, with dashes in the older spelling
        self.made = set()
        for F in self.files.values():
            if F.kind == "rt":
                for n in re.findall(r"\bfn (\w+)", F.text):
                    self.made.add(n.replace("_", "-"))
                    self.made.add(n)

    def origin(self, module, name, seen=()):
        """'own' (declared in an own file), 'foreign' (from elsewhere, at the end of re-exports), or 'missing'."""
        F = self.modules.get(module)
        if F is None:
            up, _, last = module.rpartition(".")      # the constructors of a type, `Module.Type.{..}`
            if up in self.modules and last in self.modules[up].tops and name in self.modules[up].tops:
                return "own"
            return "foreign"
        if name in F.tops:
            return "own"
        if (module, name) in seen:
            return "missing"
        for path, alias, pub, items, braces in F.uses:
            for n, a, _ in items:
                if pub and (a or n) == name:
                    o = self.origin(path, n, seen + ((module, name),))
                    return "own" if a and o == "foreign" and a != n else o
        for path, alias, pub, items, braces in F.uses:
            if pub and not braces and path in self.modules:
                o = self.origin(path, name, seen + ((module, name),))
                if o == "own":
                    return o
        return "missing"

    def taken(self, path, name):
        """As origin, but a name that is not there is own only if an own file declares it, or that module has its new spelling."""
        o = self.origin(path, name)
        if o == "missing":
            return "own" if name in self.tops or self.origin(path, spell(name)) == "own" else "foreign"
        return o

    def foreign(self, F):
        """Names that this file takes from elsewhere than an own file."""
        out = set()
        for path, alias, pub, items, braces in F.uses:
            for n, a, _ in items:
                if self.taken(path, n) == "foreign" and not a:
                    out.add(n)
        return out

    def missing(self):
        out = []
        for F in self.files.values():
            for path, alias, pub, items, braces in F.uses:
                for n, a, _ in items:
                    if path in self.modules and self.origin(path, n) == "missing":
                        out.append((F.rel, path, n))
        return out


def new_name(F, name):
    for key in ((F.rel.split("/", 1)[1], name), (F.crate, name)):
        if key in LOCAL_TABLE:
            return LOCAL_TABLE[key]
        if key in AGAIN and re.search(r"(?<![\w'-])" + AGAIN[key][1] + r"(?![\w'-])", F.text):
            return AGAIN[key][0]
    return TABLE.get(name) or AUTO.get(name) or spell(name)


def clause_spans(text):
    """Spans of ghost text in a .rt file: the braces of clauses, and `ghost use` items."""
    spans = []
    code = re.sub(r"//[^\n]*|\"(?:[^\"\\\n]|\\.)*\"", lambda m: " " * len(m.group(0)), text)
    for m in re.finditer(r"^[ \t]*ghost use [^;]*;", code, re.M):
        spans.append((m.start(), m.end()))
    for m in re.finditer(r"\b(requires|ensures|invariant|decreases)\b(?:[ \n]+[\w-]+)?[ \n]*\{", code):
        d, i = 0, m.end() - 1
        while i < len(code):
            d += {"{": 1, "}": -1}.get(code[i], 0)
            i += 1
            if d == 0:
                break
        spans.append((m.start(), i))
    return sorted(spans)


class Turn:
    def __init__(self, R):
        self.R = R
        self.renamed = collections.Counter()      # (old, new)
        self.where = collections.defaultdict(collections.Counter)
        self.left_projections = collections.Counter()
        self.left_record = collections.Counter()
        self.made_fields = collections.Counter()
        self.named_args = collections.Counter()
        self.skipped_foreign = collections.Counter()
        self.bad = []

    def words(self, F, text, foreign, aliases, base=0, marks=None, ghost=True):
        """The text with its names renamed. marks, if given, gets (position, old, new, kind)."""
        R, out = self.R, []
        toks = tokens(text)
        stack, prev_sig, prev = [], None, None
        chain = []                                # words joined by dots, before this one
        use_spans = {}
        for m, items in parse_uses(text):
            for n, a, pos in items:
                use_spans[pos] = (m.group("path"), n)
            if m.group("alias"):
                use_spans[m.start("alias")] = ("", m.group("alias"))
            for k in range(m.start("path"), m.end("path")):
                use_spans.setdefault(k, None)
        for k, (t, pos) in enumerate(toks):
            if t.startswith("--"):
                out.append(BACK.sub(lambda m: self.quoted(F, m.group(0)), t))
                chain = []
                prev = t
                continue
            if not is_word(t):
                if t == "{":
                    stack.append("record" if prev_sig == "record" else "{")
                elif t == "(":
                    stack.append("(")
                elif t in "})" and stack:
                    stack.pop()
                if t != ".":
                    chain = []
                out.append(t)
                if not t.isspace():
                    prev_sig = t
                prev = t
                continue
            old, new, kind = t, t, None
            nxt = next((x for x, _ in toks[k + 1:k + 4] if not x.isspace()), "")
            if pos in use_spans:
                u = use_spans[pos]
                if u is not None:
                    path, n = u
                    if path == "" or R.taken(path, n) != "foreign":
                        kind = "import"
            elif prev == ".":
                root = chain[0] if chain else None
                if root in aliases:
                    path = aliases[root]
                    if path in R.modules and len(chain) == 1:
                        kind = "path"
                elif root == "Rattle":
                    kind = None
                if kind is None and root not in ("tie", "goal", "Rattle") and root not in aliases:
                    if t in R.fields and spell(t) != t and re.search(r"\b(?:After|Need|In|At)-" + re.escape(t) + r"(?![A-Za-z_])", F.text):
                        self.made_fields[t + " left in " + F.rel] += 1
                    elif t in R.fields:
                        kind = "field"
                        if t in R.made and spell(t) != t:
                            self.made_fields[t + " renamed in " + F.rel] += 1
                    elif spell(t) != t:
                        self.left_projections[t] += 1
            elif stack and stack[-1] == "record" and prev_sig in ("{", ";") and nxt == "=":
                if t in R.fields:
                    kind = "field"
                elif spell(t) != t:
                    self.left_record[t] += 1
            else:
                kind = "plain"
                if prev_sig == "{" and nxt == "=" and spell(t) != t:
                    self.named_args[t] += 1
                # a field's own declaration is a plain word too
                if t in foreign:
                    if spell(t) != t:
                        self.skipped_foreign[t] += 1
                    kind = None
            if kind:
                new = new_name(F, t)
            if new != old:
                self.renamed[(old, new)] += 1
                self.where[(old, new)][F.rel] += 1
            if marks is not None:
                marks.append((base + pos, old, new, kind or "kept", prev == "."))
            out.append(new)
            chain.append(t) if prev == "." else None
            if prev != ".":
                chain = [t]
            prev_sig, prev = t, t
        return "".join(out)

    def quoted(self, F, q):
        def one(m):
            w = m.group(0)
            if m.start() and q[m.start() - 1] == ".":
                return new_name(F, w) if w in self.R.fields or w in self.R.tops and not re.search(r"(tie|goal)\.$", q[:m.start()]) else w
            return new_name(F, w) if w in self.known else w
        if q.startswith("`tie.") or q.startswith("`goal."):
            return q
        return re.sub(r"[^\s(){}.;,@\"`]+", one, q)

    def file(self, F):
        R = self.R
        foreign = R.foreign(F)
        aliases = {a: p for p, a, *_ in F.uses if a}
        marks = []
        if F.kind == "antt":
            if os.path.basename(F.rel) in KEPT_FILES:
                foreign |= {n for n in F.tops}
            text = self.words(F, F.text, foreign, aliases, 0, marks)
        elif F.kind == "rt":
            out, at = [], 0
            for a, b in clause_spans(F.text):
                out.append(self.comments(F, F.text[at:a]))
                out.append(self.words(F, F.text[a:b], foreign, aliases, a, marks))
                at = b
            out.append(self.comments(F, F.text[at:]))
            text = "".join(out)
        else:
            target, lines = "", []
            for line in F.text.split("\n"):
                if line.startswith("file:"):
                    target = line[5:].strip()
                m = re.match(r"(old:|new:)? ?", line)
                antt = target.endswith(".antt")
                G = R.files.get("crates/" + F.crate + "/" + target)
                if line.startswith(("file:", "#")) or not target:
                    lines.append(line)
                    continue
                fo = R.foreign(G) if G else set()
                al = {a: p for p, a, *_ in G.uses if a} if G else {"tie": "?"}
                head, body = line[:m.end()], line[m.end():]
                if antt:
                    body = self.words(F, body, fo, al)
                else:
                    body = re.sub(r"(?<![\w.'′-])[a-z][\w'′-]*", lambda w: new_name(F, w.group(0)) if w.group(0) in R.tops and w.group(0) not in fo and (clauselike(body) or "-" not in w.group(0)) else w.group(0), body)
                lines.append(head + body)
            text = "\n".join(lines)
        F.marks = marks
        F.foreign_names = foreign
        return text

    def comments(self, F, text):
        return re.sub(r"//[^\n]*", lambda m: BACK.sub(lambda q: self.quoted(F, q.group(0)), m.group(0)), text)


def clauselike(body):
    return bool(re.search(r"\b(requires|ensures|ghost use)\b|≡|→|≤", body))


def blocks(F):
    """Starts of blocks of a file: from a declaration at column 0 to the next."""
    starts, pos, last = [0], 0, None
    for line in F.text.split("\n"):
        if line and line[0] not in " -":
            w = line
            while w.split(" ", 1)[0] in MODS and " " in w:
                w = w.split(" ", 1)[1]
            if DECL.match(line) or w.split(" ", 1)[0] in ("record", "data", "module", "use") and not w.startswith("record {"):
                starts.append(pos)
        pos += len(line) + 1
    return starts


def collisions(R):
    """Where two names of one scope fall together."""
    import bisect
    found = []
    for F in R.files.values():
        if F.kind == "edit":
            continue
        starts = blocks(F) if F.kind == "antt" else [0] + [m.start() for m in re.finditer(r"^[ ]*(?:pub )?(?:unsafe )?(?:extern \"C\" )?fn ", F.text, re.M)]
        shared = set(F.tops) | {a or n for _, _, _, its, _ in F.uses for n, a, _ in its} | {a for _, a, *_ in F.uses if a}
        per_block = collections.defaultdict(lambda: collections.defaultdict(set))
        glob = collections.defaultdict(set)
        for pos, old, new, kind, dotted in F.marks:
            if dotted or kind == "field" or pos in F.places:
                continue
            per_block[bisect.bisect(starts, pos)][new].add(old)
            if old in shared:
                glob[new].add(old)
        said = set()
        for new, olds in glob.items():
            if len(olds) > 1:
                found.append(("both in scope", F.rel, new, tuple(sorted(olds))))
                said.add(new)
        for b, names in per_block.items():
            for new, olds in names.items():
                if len(olds) > 1 and new not in said:
                    found.append(("one hides the other", F.rel, new, tuple(sorted(olds))))
                    said.add(new)
        if F.kind == "rt":
            for m in re.finditer(r"\bfn (\w+)\s*(?:<[^>]*>)?\(([^{;]*?)\)", F.text):
                params = set(re.findall(r"(\w+)\s*:", m.group(2)))
                end = starts[bisect.bisect(starts, m.start())] if bisect.bisect(starts, m.start()) < len(starts) else len(F.text)
                for pos, old, new, kind, dotted in F.marks:
                    if m.start() <= pos < end and not dotted and kind != "field" and new != old and new in params:
                        found.append(("a Rust parameter", F.rel, new, (old, m.group(1))))
        for p, (rec, f) in F.places.items():      # a field hides a function of its name in the fields after it
            n = new_name(F, f)
            ind = p - F.text.rfind("\n", 0, p) - 1 - (4 if F.text[p - 4:p] == "pub " else 0)
            nl = re.compile(r"\n {%d}(?! )" % ind).search(F.text, p)
            out = re.compile(r"\n {0,%d}(?![ \n])" % max(ind - 1, 0)).search(F.text, p)
            end = out.start() if out else len(F.text)
            for pos, old, new, kind, dotted in F.marks:
                if nl and nl.start() < pos < end and pos not in F.places and kind == "plain" and not dotted and new == n and old != f:
                    found.append(("field of " + rec + " hides", F.rel, n, (f, old)))
        for rec, fs in F.records.items():
            seen = {}
            for f in fs:
                n = new_name(F, f)
                if n in seen and seen[n] != f:
                    found.append(("fields of " + rec, F.rel, n, (seen[n], f)))
                seen[n] = f
        seen = {}
        for t in F.tops:
            n = new_name(F, t) if t not in F.foreign_names else t
            if n in seen and seen[n] != t:
                found.append(("declared twice", F.rel, n, (seen[n], t)))
            seen[n] = t
        for pos, old, new, kind, dotted in F.marks:
            if new != old and new in KEYWORDS:
                found.append(("keyword", F.rel, new, (old,)))
            if new != old and not dotted and new in F.foreign_names:
                found.append(("library name", F.rel, new, (old,)))
    return sorted(set(found))


def spec_names(R):
    """The name by which the check finds a proof: the Rust function's, with its own spelling, and `_spec`."""
    out = []
    for F in R.files.values():
        if F.kind == "antt" and os.path.basename(F.rel) == "Proof.antt":
            fn = F.rel.split("/")[-2].lstrip("+")
            if not any(new_name(F, t) == fn + "_spec" for t in F.tops):
                out.append((F.rel, fn, [t for t in F.tops if t.endswith("spec")]))
    return out


def tops_fall(R):
    return [(F.rel, n) for F in R.files.values() if F.kind == "antt" for n, c in F.tops.items() if c > 1]


def pages(repo):
    mp = json.load(open(os.path.join(repo, ".git", "respell-names.json")))["declared"]
    skip = {"rt", "must-fail"}
    for d, dirs, fs in os.walk(repo):
        dirs[:] = sorted(x for x in dirs if x not in ("out", ".git", "target", "node_modules"))
        for f in sorted(fs):
            if not f.endswith(".md"):
                continue
            p = os.path.join(d, f)
            t = open(p, encoding="utf-8").read()
            said = collections.Counter()

            def one(m):
                w = m.group(0)
                if w in mp and w not in skip:
                    said[(w, mp[w])] += 1
                    return mp[w]
                return w
            n = re.sub(r"(?<!`)`[^`\n]+`(?!`)", lambda q: re.sub(r"(?<![/])[^\s(){}.;,@\"`/:]+(?![/])", one, q.group(0)) if not re.search(r"`(rt|git|cargo|tie|goal|tools/\S*|python3)[ .]", q.group(0)) else q.group(0), t)
            if n != t:
                print(os.path.relpath(p, repo) + ": " + ", ".join(f"{a} -> {b}" + (f" ({c})" if c > 1 else "") for (a, b), c in sorted(said.items())))
                open(p, "w", encoding="utf-8").write(n)


def main(argv):
    opts = {a for a in argv if a.startswith("--")}
    repo = os.path.abspath([a for a in argv if not a.startswith("--")][0])
    if "--pages" in opts:
        return pages(repo)
    R = Repo(repo)
    miss = R.missing()
    if "--check" in opts:
        print(f"{len(R.files)} files, {len(R.modules)} modules; imported from an own module and not there: {len(miss)}")
        for m in miss:
            print("  missing:", *m)
        for rel, n in tops_fall(R):
            print("  declared twice:", rel, n)
        for x in spec_names(R):
            print("  proof without its name:", *x)
        return
    T = Turn(R)
    T.known = set(R.tops) | {n for n in R.fields}
    for _ in range(6):
        T = Turn(R)
        T.known = set(R.tops) | set(R.fields)
        texts = {F.rel: T.file(F) for F in R.files.values()}
        bad = collisions(R)
        more = {o: spell(o) + "_lem" for what, rel, new, olds in bad if what in ("both in scope", "declared twice", "one hides the other")
                for o in olds if "-" in o and o in R.tops and o not in R.fields and new == spell(o) and len([x for x in olds if "-" in x]) == 1}
        if not more:
            break
        AUTO.update(more)
    if AUTO:
        print("more lemmas that got `_lem`: " + " ".join(sorted(AUTO)))
    changed = [r for r, t in texts.items() if t != R.files[r].text]
    if "--dry" not in opts:
        for r in changed:
            open(R.files[r].path, "w", encoding="utf-8").write(texts[r])
        declared = {n: TABLE.get(n) or AUTO.get(n) or spell(n) for n in T.known}
        declared = {n: v for n, v in declared.items() if v != n}
        mp = os.path.join(repo, ".git", "respell-names.json")
        if os.path.isdir(os.path.dirname(mp)):
            if os.path.exists(mp):
                declared = json.load(open(mp))["declared"] | declared
            json.dump({"declared": declared, "all": {a: b for a, b in T.renamed}}, open(mp, "w"), ensure_ascii=False, indent=1, sort_keys=True)
    decl = {a for a, b in T.renamed if a in T.known}
    print(f"files changed: {len(changed)} of {len(R.files)}; names: {len(T.renamed)} ({len(decl)} declared, {len(T.renamed) - len(decl)} local only); places: {sum(T.renamed.values())}")
    print(f"imports of an own name that is not there, before: {len(miss)}")
    for m in miss[:20]:
        print("  missing:", *m)
    print(f"collisions: {len(bad)}")
    for c in bad:
        print("  ", c[0] + ":", c[1], c[2], "<-", ", ".join(c[3]))
    odd = sorted({n for F in R.files.values() if F.kind == "antt" for n in list(F.tops) + F.fields if n[:1].isupper() and "-" in n})
    print(f"upper-case names with a hyphen, left: {len(odd)}: {' '.join(odd[:60])}")
    odd = sorted({n for F in R.files.values() if F.kind == "antt" for n in list(F.tops) + F.fields if not n[:1].isalpha()})
    print(f"names that start with no letter, left: {len(odd)}: {' '.join(odd[:60])}")
    odd = sorted({n for F in R.files.values() if F.kind == "antt" for n in list(F.tops) + F.fields if n[:1].islower() and re.search("[-′]|[a-z][A-Z]", new_name(F, n))})
    print(f"names still odd after: {len(odd)}: {' '.join(odd[:60])}")
    print("own fields that Rattle may make too:")
    for k, c in sorted(T.made_fields.items()):
        print("  ", k, c)
    gen = {re.sub(r"\d+$", "", x) for x in R.made}
    hard = sorted(x for x in T.left_projections if re.sub(r"\d+$", "", x) not in gen and not re.match(r"(shared-|slice-|enum-|loop-|if|add-|sub-|mul-|div-|rem-)", x))
    print(f"projections left that are no function's: {len(hard)}: {' '.join(hard)}")
    print(f"projections left (no own field): {len(T.left_projections)}" + (": " + " ".join(f"{a}" for a, c in sorted(T.left_projections.items())) if "--verbose" in opts else ""))
    print(f"fields in record braces left: {dict(T.left_record)}")
    print(f"named arguments in braces: {dict(T.named_args)}")
    print(f"library names left: {len(T.skipped_foreign)}" + (": " + " ".join(sorted(T.skipped_foreign)) if "--verbose" in opts else ""))
    same = collections.defaultdict(lambda: collections.defaultdict(set))
    for F in R.files.values():
        if F.kind == "antt":
            for m in re.finditer(r"^ *(?:(?:unfoldable|abbrev) )*pub (?:(?:unfoldable|abbrev) )*([^\s(){}:;,.]+) :", F.text, re.M):
                if m.group(1) in F.tops:
                    same[new_name(F, m.group(1))][m.group(1)].add(F.crate)
    print("two exported names with one new spelling, never in one scope:")
    for n, v in sorted(same.items()):
        if len(v) > 1:
            print("   " + n + ": " + "; ".join(a + " in " + " ".join(sorted(c)) for a, c in sorted(v.items())) + ("   SAME CRATE" if len(v) > len(set.union(*v.values())) or any(x & y for i, x in enumerate(v.values()) for y in list(v.values())[:i]) else ""))
    no = spec_names(R)
    print(f"proofs without FUNCTION_spec: {len(no)}")
    for x in no[:20]:
        print("  ", *x)
    if "--verbose" in opts:
        print("local only:", " ".join(f"{a}>{b}" for a, b in sorted(T.renamed) if a not in T.known))


if __name__ == "__main__":
    signal.signal(signal.SIGPIPE, signal.SIG_DFL)
    main(sys.argv[1:])
