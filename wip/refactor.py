#!/usr/bin/env python3
"""refactor.py TREE: moves modules and definitions of a tree that derives from the base into the new layout."""
import os, re, sys, subprocess

TREE = sys.argv[1]
os.chdir(TREE)

# ---- the plan ----------------------------------------------------------------------------------------------------
# (crate, old module) -> (crate, new module): whole moves
MOVES = {}
# (crate, old module) -> list of (names, (crate, new module)); the rest goes to REST
SPLITS = {}
REST = {}
HEAD = {}  # (crate, new module) -> header comment of a module that is made

def move(c, old, new, c2=None):
    MOVES[(c, old)] = (c2 or c, new)

for m in "Cases Consist Mul Shift".split():
    move("words", m, "laws." + m)
move("words", "Determined", "promises.Determined")
SPLITS[("words", "Bits")] = [("bit", ("words", "Bits"))]
REST[("words", "Bits")] = ("words", "laws.Bits")
SPLITS[("words", "Agree")] = [("Agrees Within", ("words", "Agree"))]
REST[("words", "Agree")] = ("words", "laws.Agree")
SPLITS[("words", "Pick")] = [("Least NoneFrom Empty FirstFrom Pick Picked Between", ("words", "Pick"))]
REST[("words", "Pick")] = ("words", "laws.Pick")
SPLITS[("words", "Decides")] = [("Decides", ("words", "inner.Decides"))]
REST[("words", "Decides")] = ("words", "laws.Decides")
for m, ns in [("Less", "less"), ("Narrow", "over"), ("Meet", "lesser"), ("Modular", "Inverse WordInverse"), ("Zeros", "Tail Top"), ("Raised", "raised")]:
    SPLITS[("words", m)] = [(ns, ("words", "inner.Words"))]
    REST[("words", m)] = ("words", "laws." + m)
HEAD[("words", "Bits")] = "-- The bits of a number by their places."
HEAD[("words", "laws.Bits")] = "-- Laws of the bits of a number, and of the operations on words bit by bit. All at any width."
HEAD[("words", "Agree")] = "-- Ternary words: the values that agree with one, bit by bit, and Within, the same by bitAnd, as code tests it. All at any width."
HEAD[("words", "laws.Agree")] = "-- Laws of ternary words and of the values that agree with one. All at any width."
HEAD[("words", "Pick")] = "-- What a search in a set of numbers finds, and the pick with a proposal (document 01, \"Picking\"), for any set A."
HEAD[("words", "laws.Pick")] = "-- Laws of searches and picks in any set: at most one answer, picks made of searches, and sets with the same members."
HEAD[("words", "inner.Decides")] = "-- What a test answers: true exactly where the fact that it tests holds."
HEAD[("words", "laws.Decides")] = "-- Laws of tests: at most one answer, and tests made of tests."
HEAD[("words", "inner.Words")] = "-- What the functions on words answer, as numbers. All at any width."
HEAD[("words", "laws.Less")] = "-- Laws of the bits of one word that are not in another. All at any width."
HEAD[("words", "laws.Narrow")] = "-- Words with given low bits, and the ternary word narrowed to them. All at any width."
HEAD[("words", "laws.Zeros")] = "-- The highest and the lowest set bit of a word by the counts of leading and trailing zeros. All at any width."

move("operators", "Ready", "inner.Ready")
move("operators", "TableLaws", "laws.Table")
move("operators", "MeaningLaws", "laws.Meaning")
move("operators", "Sound", "laws.Sound")
move("operators", "Forced", "promises.Forced")
move("operators", "Determined", "promises.Determined")
for m in "SignedLaws Sums DivisionLaws".split():  # of later requests, where they are there
    move("operators", m, "laws." + m.replace("Laws", ""))

move("problem", "Facts", "inner.Facts")
for m, n in [("LayoutLaws", "Layout"), ("FirstLaws", "First"), ("TestLaws", "Tests"), ("FactsLaws", "Facts")]:
    move("problem", m, "laws." + n)
for m in "Outside Numbers Determined".split():
    move("problem", m, "promises." + m)

for m in "Asks Boxes".split():
    move("picking", m, "inner." + m)
for m in "Positions Tests".split():
    move("picking", m, "laws." + m)
for m in "Paper Exact Determined".split():
    move("picking", m, "promises." + m)
SPLITS[("picking", "Marks")] = [("marked Marks mark", ("picking", "inner.Marks"))]
REST[("picking", "Marks")] = ("picking", "laws.Marks")
HEAD[("picking", "inner.Marks")] = "-- Some of a node's positions as the bits of a number."
HEAD[("picking", "laws.Marks")] = "-- Laws of positions as the bits of a number."

E = "evaluation"
move("search", "Problem", "Problem", E)
for m, n in [("Positions", "Positions"), ("NodeLaws", "Nodes"), ("GoodLaws", "Good"), ("Upward", "Upward"), ("EvalLaws", "Values"),
             ("PairLaws", "Pairs"), ("SpotLaws", "Spot"), ("Decide", "Decide")]:
    move("search", m, "laws." + n, E)
SPLITS[("search", "Reach")] = [("Evaluated VariablesAgree", (E, "Values")), ("Solution apart", ("search", "Reach"))]
REST[("search", "Reach")] = (E, "Height")
SPLITS[("search", "Good")] = [("NodesAgree", (E, "Values"))]
REST[("search", "Good")] = (E, "inner.Good")
SPLITS[("search", "Step")] = [("Lists", (E, "Lists"))]
REST[("search", "Step")] = ("search", "Step")
SPLITS[("search", "Apart")] = [("chain-le chain-longest", (E, "laws.Height"))]
REST[("search", "Apart")] = ("search", "laws.Apart")
SPLITS[("search", "MoveLaws")] = [("Aimed", ("search", "inner.Run"))]
REST[("search", "MoveLaws")] = ("search", "laws.Moves")
for m, n in [("Candidates", "Candidates"), ("RunLaws", "Runs"), ("Lead", "Lead"), ("Found", "Found")]:
    move("search", m, "laws." + n)
for m in "Demands Determined More Need".split():
    move("search", m, "promises." + m)
move("search", "Chains", "laws.Height", E)
move("search", "MoreLaws", "laws.More")
move("search", "NeedLaws", "laws.Need")
SPLITS[("search", "StartLaws")] = [("Accepts accepted-start start-accepted", ("search", "promises.Accepted"))]
REST[("search", "StartLaws")] = ("search", "laws.Starts")
HEAD[("search", "promises.Accepted")] = "-- Refusals 14 and 15 as facts: a call is accepted exactly if its problem is, there is a place for each node, and the variables agree."
HEAD[("search", "laws.Starts")] = "-- Laws of refusals 14 and 15: what each tests, and that only the variables' places bear on them."
SPLITS[("search", "Inner")] = [
    ("ids operandCount OperandsBelow heldIn widthsIn operatorIn Readable standingOp Evaluable Assigned pairsOf narrows derives Narrowed"
     " Fillable Unfilled Filled Spotted spotIn", (E, "inner.Evaluation"))]
REST[("search", "Inner")] = ("search", "inner.Run")
HEAD[(E, "Values")] = "-- Values of all nodes: that each place holds its node's value, and that values agree with their pairs."
HEAD[(E, "inner.Good")] = "-- The facts that an accepted problem has, of the problem as the run sees it; and those of the values while it runs."
HEAD[("search", "Reach")] = "-- What demand 3 speaks of: solutions, and how far a start is from one."
HEAD[(E, "Height")] = "-- H, the longest chain of operand links under a root."
HEAD[(E, "Lists")] = "-- The members of a set of numbers, in order."
HEAD[("search", "laws.Apart")] = "-- Laws of the distance between two assignments."
HEAD[(E, "laws.Height")] = "-- Laws of the longest chain under a root."
HEAD[(E, "inner.Evaluation")] = "-- What the functions of evaluation ask and answer, in terms of the definitions. (Not needed to read what is promised.)"
HEAD[("search", "inner.Run")] = "-- What the inner functions of the run ask and answer, in terms of the definitions. (Not needed to read what the run promises.)"

for m in "Whole Determined".split():
    move("files", m, ("laws." if m == "Whole" else "promises.") + m)
move("files", "Enough", "laws.Enough")
SPLITS[("files", "Told")] = [("Output Read Prints", ("files", "Told"))]
REST[("files", "Told")] = ("files", "inner.Told")
HEAD[("files", "inner.Told")] = "-- What the functions inside tell: a run and its answer's text, and where the nodes of an answered problem stand."
move("files", "LaidLaws", "laws.Laid")
move("files", "TextLaws", "laws.Text")
move("walumpeh", "Determined", "promises.Determined")
SPLITS[("walumpeh", "Runs")] = [("verdictCode counted reported RunCode", ("walumpeh", "Runs"))]
REST[("walumpeh", "Runs")] = ("walumpeh", "promises.Runs")
HEAD[("walumpeh", "promises.Runs")] = "-- The contract of `wal_run` determines its number and every lent place, and 255 is told exactly where `out` is too short."
move("walumpeh", "Had", "promises.Had")
move("walumpeh", "Witness", "laws.Witness")
move("walumpeh", "Built", "laws.Built")
move("walumpeh", "Rules", "laws.Rules")
SPLITS[("tvrun", "Reading")] = [("AtMost", ("tvrun", "Reading"))]
REST[("tvrun", "Reading")] = ("tvrun", "laws.Reading")
HEAD[("tvrun", "laws.Reading")] = "-- Laws of how many bytes of a file were read."

# proofs/Nodes of search: what the code's readings of a node have to do with the definitions becomes laws of evaluation
PROOF_SPLIT_STAYS = "root-place root-value".split()

OPEN = {}  # old split module -> parsed

# ---- parsing -----------------------------------------------------------------------------------------------------
DECL = re.compile(r"^(?:(?:abbrev|unfoldable)\s+)?(?:pub\s+)?(?:(record|data)\s+)?(\S+)(\s.*)?$")

class Chunk:
    def __init__(self, name, kind):
        self.name, self.kind, self.lines, self.subs, self.head = name, kind, [], None, None

def parse_body(lines, indent=0):
    """lines (without common indent considered) into chunks"""
    chunks, pending = [], []
    cur = None
    pad = " " * indent
    def close():
        nonlocal cur
        if cur is not None:
            while cur.lines and cur.lines[-1].strip() == "":
                cur.lines.pop()
            chunks.append(cur)
            cur = None
    i = 0
    while i < len(lines):
        l = lines[i]
        s = l[indent:] if l.startswith(pad) else l
        if l.strip() == "":
            if cur is not None:
                cur.lines.append(l)
            else:
                pending.append(l)
            i += 1
            continue
        if not l.startswith(pad) or l[indent:indent + 1] == " ":
            # continuation
            if cur is None:
                raise Exception("stray line: " + l)
            cur.lines.append(l)
            i += 1
            continue
        if s.startswith("-- ----"):
            close()
            h = Chunk(None, "heading"); h.lines = [l]
            chunks.append(h)
            pending = []
            i += 1
            continue
        if s.startswith("--"):
            close()
            pending.append(l)
            i += 1
            continue
        if s.startswith("module "):
            close()
            sec = Chunk(None, "section")
            sec.lines = [p for p in pending if p.strip()]
            pending = []
            head = [l]
            i += 1
            while not head[-1].rstrip().endswith("where"):
                head.append(lines[i]); i += 1
            body = []
            while i < len(lines) and (lines[i].strip() == "" or lines[i].startswith(pad + "  ")):
                body.append(lines[i]); i += 1
            sec.head = head
            sec.subs = parse_body(body, indent + 2)
            chunks.append(sec)
            continue
        if s.startswith("unfolding "):
            cur.lines.append(l); i += 1
            continue
        # a declaration or an equation
        first = s.split()[0]
        m = re.match(r"^((?:abbrev|unfoldable)\s+)?(pub\s+)?((?:record|data)\s+)?(\S+)", s)
        name = m.group(4)
        isdecl = bool(m.group(1) or m.group(2) or m.group(3)) or re.match(r"^\S+ :(\s|$)", s)
        if isdecl:
            close()
            cur = Chunk(name, (m.group(3) or "fn").strip())
            cur.lines = [p for p in pending if p.strip()] + [l]
            pending = []
        else:
            if cur is None:
                raise Exception("equation without declaration: " + l)
            cur.lines.append(l)
        i += 1
    close()
    return chunks

def parse(text):
    lines = text.rstrip("\n").split("\n")
    head, uses, i = [], [], 0
    while i < len(lines) and lines[i].startswith("--"):
        head.append(lines[i]); i += 1
    rest = []
    for l in lines[i:]:
        if l.startswith("use "):
            uses.append(l)
        else:
            rest.append(l)
    return head, uses, parse_body(rest)

def text_of(chunks, indent=0):
    out = []
    for c in chunks:
        if c.kind == "heading":
            out.append("\n".join(c.lines))
        elif c.kind == "section":
            out.append("\n".join(c.lines + c.head) + "\n" + text_of(c.subs))
        else:
            out.append("\n".join(c.lines))
    return "\n\n".join(out)

def names_in(chunks):
    r = {}
    for c in chunks:
        if c.kind == "section":
            r.update(names_in(c.subs))
        elif c.name:
            r[c.name] = c.name
            if c.kind == "data":
                for l in c.lines:
                    m = re.match(r"^\s+(\S+) : ", l)
                    if m:
                        r[m.group(1)] = c.name
    return r

def select(chunks, want):
    """chunks whose name is in want (keeping sections), and those that are not"""
    a, b = [], []
    for c in chunks:
        if c.kind == "section":
            x, y = select(c.subs, want)
            for part, dest in ((x, a), (y, b)):
                if any(k.kind != "heading" for k in part):
                    n = Chunk(None, "section"); n.lines = c.lines; n.head = c.head; n.subs = part
                    dest.append(n)
        elif c.kind == "heading":
            a.append(c); b.append(c)
        else:
            (a if c.name in want else b).append(c)
    return trim(a), trim(b)

def trim(chunks):
    out = []
    for i, c in enumerate(chunks):
        if c.kind == "heading":
            nxt = chunks[i + 1] if i + 1 < len(chunks) else None
            if nxt is None or nxt.kind == "heading":
                continue
        out.append(c)
    return out

TOK = re.compile(r"[\s(){},;.\[\]|]+")
def tokens(text):
    text = "\n".join(re.sub(r"(^|\s)--(\s.*)?$", "", l) for l in text.split("\n"))
    return set(TOK.split(text)) | ({"[]"} if "[]" in text else set())

def used(name, toks):
    base = name.split(" as ")[-1].strip()
    base = base.split(".")[-1] if not base.startswith("_") else base
    if base == "[]":
        return "[]" in toks
    if "_" in base:
        parts = [p for p in base.split("_") if p]
        return base in toks or all(p in toks for p in parts)
    return base in toks

USE = re.compile(r"^((?:ghost )?use )(\S+?)\.\{(.*)\}(;?)\s*$")
def split_names(s):
    return [x.strip() for x in s.split(",") if x.strip()]

def path(crate, mod, here):
    return ("Rattle·%s·specs.specs.%s" if crate == here else "Rattle·%s.specs.%s") % (crate, mod)

def make_uses(uses, toks):
    out = []
    for u in uses:
        m = USE.match(u)
        if not m:
            out.append(u); continue
        ns = [n for n in split_names(m.group(3)) if used(n, toks)]
        if ns:
            out.append("%s%s.{%s}%s" % (m.group(1), m.group(2), ", ".join(ns), m.group(4)))
    return out

# ---- splitting and moving modules ----------------------------------------------------------------------------------
def fpath(crate, mod):
    return "crates/%s/specs/%s.antt" % (crate, mod.replace(".", "/"))

made = {}      # (crate, mod) -> list of (head, uses, chunks)
NAMEDEST = {}  # (crate, old module) -> {name: (crate, mod)}
gone = []
for key in list(SPLITS):
    f = fpath(*key)
    if not os.path.exists(f):
        continue
    head, uses, chunks = parse(open(f).read())
    allnames = names_in(chunks)
    dest = {}
    parts = []
    left = chunks
    for ns, d in SPLITS[key]:
        want = set(ns.split())
        got, left = select(left, want)
        parts.append((d, got))
        for n, c in allnames.items():
            if c in want:
                dest[n] = d
    for n in allnames:
        dest.setdefault(n, REST[key])
    parts.append((REST[key], left))
    NAMEDEST[key] = dest
    gone.append(f)
    for d, got in parts:
        if any(c.kind != "heading" for c in got):
            made.setdefault(d, []).append((key, head, uses, got, dest))

for f in gone:
    os.remove(f)

def need_pub(chunks, names):
    for c in chunks:
        if c.kind == "section":
            need_pub(c.subs, names)
        elif c.name in names:
            for i, l in enumerate(c.lines):
                s = l.strip()
                if s.startswith("--"):
                    continue
                if "pub " not in s.split(c.name)[0]:
                    ind = len(l) - len(l.lstrip())
                    m = re.match(r"^((?:abbrev|unfoldable)\s+)?(.*)$", l.lstrip())
                    c.lines[i] = " " * ind + (m.group(1) or "") + "pub " + m.group(2)
                break

# which names are used across parts: make them pub
for d, ps in made.items():
    for key, head, uses, got, dest in ps:
        toks = tokens(text_of(got))
        for n, dd in dest.items():
            if dd != d and used(n, toks):
                for d2, ps2 in made.items():
                    for k2, _, _, g2, _ in ps2:
                        if k2 == key and d2 == dd:
                            need_pub(g2, {n})

for d, ps in made.items():
    body = "\n\n".join(text_of(got) for _, _, _, got, _ in ps)
    toks = tokens(body)
    uses = []
    for key, head, us, got, dest in ps:
        mine = tokens(text_of(got))
        for u in make_uses(us, mine):
            uses.append(u)
        by = {}
        for n, dd in dest.items():
            if dd != d and used(n, mine) and n in [c for c in dest]:
                by.setdefault(dd, []).append(n)
        for dd, ns in by.items():
            uses.append("use %s.{%s}" % (path(key[0], key[1], d[0]), ", ".join(ns)))  # rewritten below by name
    # merge use lines of one path
    order, merged = [], {}
    for u in uses:
        m = USE.match(u)
        if not m:
            if u not in order: order.append(u)
            continue
        p = m.group(2)
        if p not in merged:
            merged[p] = []; order.append(p)
        for n in split_names(m.group(3)):
            if n not in merged[p]: merged[p].append(n)
    lines = [u if u not in merged else "use %s.{%s}" % (u, ", ".join(merged[u])) for u in order]
    h = HEAD.get(d) or "\n".join(ps[0][1])
    f = fpath(*d)
    os.makedirs(os.path.dirname(f), exist_ok=True)
    if os.path.exists(f):
        raise Exception("exists: " + f)
    open(f, "w").write(h + "\n" + "\n".join(lines) + "\n\n" + body + "\n")

for (c, old), (c2, new) in MOVES.items():
    f, g = fpath(c, old), fpath(c2, new)
    if os.path.exists(f):
        os.makedirs(os.path.dirname(g), exist_ok=True)
        subprocess.check_call(["mv", f, g])

# ---- search's functions of evaluation --------------------------------------------------------------------------------
PROOFPATH = {}
if os.path.exists("crates/search/src/evaluate.rt"):
    os.makedirs("crates/evaluation/src", exist_ok=True)
    os.makedirs("crates/evaluation/proofs", exist_ok=True)
    for a, b in [("evaluate", "values"), ("operands", "operands"), ("pairs", "pairs"), ("spot", "spot")]:
        os.rename("crates/search/src/%s.rt" % a, "crates/evaluation/src/%s.rt" % b)
        os.rename("crates/search/proofs/%s" % a, "crates/evaluation/proofs/%s" % b)
        PROOFPATH["Rattle·search·proofs.proofs.%s." % a] = "Rattle·evaluation·proofs.proofs.%s." % b
    os.makedirs("crates/search/proofs/roots", exist_ok=True)
    os.rename("crates/evaluation/proofs/pairs/closed_root", "crates/search/proofs/roots/closed_root")
    for fn in ("count_unsatisfied", "nth_unsatisfied"):
        os.rename("crates/search/proofs/moves/" + fn, "crates/search/proofs/roots/" + fn)
        PROOFPATH["Rattle·search·proofs.proofs.moves.%s." % fn] = "Rattle·search·proofs.proofs.roots.%s." % fn
    # proofs/Nodes: what speaks of moves stays
    head, uses, chunks = parse(open("crates/search/proofs/Nodes.antt").read())
    stay, go = select(chunks, set(PROOF_SPLIT_STAYS))
    os.remove("crates/search/proofs/Nodes.antt")
    open(fpath(E, "laws.Readings"), "w").write("\n".join(head) + "\n" + "\n".join(make_uses(uses, tokens(text_of(go)))) + "\n\n" + text_of(go) + "\n")
    open("crates/search/proofs/RootPlaces.antt", "w").write("-- What the code's readings of a root have to do with the definitions.\n" + "\n".join(make_uses(uses, tokens(text_of(stay)))) + "\n\n" + text_of(stay) + "\n")

# ---- use lines everywhere ---------------------------------------------------------------------------------------------
def dest_of(crate, mod, name):
    key = (crate, mod)
    if key in NAMEDEST:
        d = NAMEDEST[key]
        base = name.split(" as ")[0].strip()
        base = base.split(".")[0] if not base.startswith("_") else base
        if base not in d:
            raise Exception("no %s in %s.%s" % (base, crate, mod))
        return d[base]
    return MOVES.get(key, key)

def rewrite_line(l, here):
    m = re.match(r"^(\s*(?:ghost )?use )Rattle·(\w+?)(·specs\.specs|\.specs)\.([\w.·-]+?)(\.\{(.*)\}| as .*|;.*|)(;?)\s*$", l)
    if not m:
        return [l]
    pre, crate, kind, mod, tail, names, semi = m.groups()
    if mod.startswith("declared"):
        if crate == "search" and mod.startswith("declared.operands."):
            crate = E
        return ["%s%s%s%s" % (pre, path(crate, mod, here), tail, semi)]
    if names is None:
        d = MOVES.get((crate, mod), (crate, mod))
        return ["%s%s%s%s" % (pre, path(d[0], d[1], here), tail, semi)]
    by = {}
    for n in split_names(names):
        by.setdefault(dest_of(crate, mod, n), []).append(n)
    return ["%s%s.{%s}%s" % (pre, path(d[0], d[1], here), ", ".join(ns), semi) for d, ns in by.items()]

for root, dirs, files in os.walk("crates"):
    for fn in files:
        if not fn.endswith((".antt", ".rt")):
            continue
        f = os.path.join(root, fn)
        here = f.split("/")[1]
        src = open(f).read()
        out = []
        for l in src.split("\n"):
            for a, b in PROOFPATH.items():
                l = l.replace(a, b)
            m = re.match(r"^(use )Rattle·search·proofs\.proofs\.Nodes\.\{(.*)\}$", l)
            if m:
                ns = split_names(m.group(2))
                a = [n for n in ns if n in PROOF_SPLIT_STAYS]
                b = [n for n in ns if n not in PROOF_SPLIT_STAYS]
                if a: out.append("use Rattle·search·proofs.proofs.RootPlaces.{%s}" % ", ".join(a))
                if b: out.append("use %s.{%s}" % (path(E, "laws.Readings", here), ", ".join(b)))
                continue
            out += rewrite_line(l, here)
        own = None
        if "/specs/" in f:
            own = path(here, f.split("/specs/")[1][:-5].replace("/", "."), here)
        out = [l for l in out if not (own and l.startswith("use %s.{" % own))]
        new = "\n".join(out)
        # one line for one path
        lines, first, res = new.split("\n"), {}, []
        for l in lines:
            m = USE.match(l)
            if m and not f.endswith(".rt"):
                p = m.group(1) + m.group(2)
                if p in first:
                    k = first[p]
                    mm = USE.match(res[k])
                    ns = split_names(mm.group(3))
                    ns += [n for n in split_names(m.group(3)) if n not in ns]
                    res[k] = "%s%s.{%s}%s" % (mm.group(1), mm.group(2), ", ".join(ns), mm.group(4))
                    continue
                first[p] = len(res)
            res.append(l)
        new = "\n".join(res)
        if new != src:
            open(f, "w").write(new)

# ---- what a section gave by itself is now an argument
def sub(f, pairs):
    if os.path.exists(f):
        t = open(f).read()
        for a, b in pairs:
            t = re.sub(a, b, t)
        open(f, "w").write(t)
sub("crates/search/specs/Reach.antt", [(r": Evaluated vs", ": Evaluated P vs"), (r": VariablesAgree vs", ": VariablesAgree P vs")])
sub("crates/search/specs/laws/Moves.antt", [(r"\bAimed (?!P\b)(?=[a-z(])", "Aimed P ")])
sub("crates/search/specs/promises/Accepted.antt", [(r"\bplaces-right \.", "places-right s start ."), (r"\bstart-right n \.", "start-right s start n .")])
sub("crates/search/proofs/RootPlaces.antt", [(r"\n\n-- ---- roots", "\nuse Rattle·evaluation.specs.laws.Readings.{root-inside}")])

# ---- Lib.antt of specs ---------------------------------------------------------------------------------------------------
FOLDERS = ["inner", "promises", "laws"]
ORDER = {
    "words": "Bits Agree Pick", "operators": "Table Meaning Fixed", "problem": "Layout Refusals", "picking": "Spot",
    "evaluation": "Problem Values Lists Height", "search": "Step Run Call Answers Reach Steps Needed Passing", "files": "Laid Words Text Told",
    "walumpeh": "Codes Offered Calls Runs", "tvrun": "Reading",
}
ABOUT = {
    "inner": "-- What functions that are no entry point ask and answer of each other. Nothing that an entry point promises rests on it.",
    "promises": "-- What is promised, as theorems over all that the contracts allow.",
    "laws": "-- Laws of the definitions, for proofs. Nothing here has to be read to know what is promised.",
}
for c in ORDER:
    d = "crates/%s/specs" % c
    if not os.path.isdir(d):
        continue
    here = sorted(x[:-5] for x in os.listdir(d) if x.endswith(".antt") and x != "Lib.antt" and x[:-5] not in FOLDERS)
    order = [m for m in ORDER[c].split() if m in here] + [m for m in here if m not in ORDER[c].split()]
    subs = [s for s in FOLDERS if os.path.isdir(os.path.join(d, s))]
    open(d + "/Lib.antt", "w").write("-- The definitions to be believed, in this order; then by folder what is inner, what is promised, and laws.\n"
        + "".join("pub mod %s\n" % m for m in order) + "".join("pub mod %s\n" % s for s in subs))
    for s in subs:
        ms = sorted(x[:-5] for x in os.listdir(os.path.join(d, s)) if x.endswith(".antt"))
        open("%s/%s.antt" % (d, s), "w").write(ABOUT[s] + "\n" + "".join("pub mod %s\n" % m for m in ms))
print("refactored")
