#!/usr/bin/env python3
"""mend_proofs.py CRATE_DIR [MODULE.FUNCTION..]: turns proofs/**/Proof.antt of the older form to today's names.

`rt check --generated` writes today's modules (Tie), and with --old-names names.json. Then, in each Proof.antt:
 - arguments of `tie.spec` are matched with today's goals by position, or by likeness where their number differs;
 - places `tie.P` and steps `.s` get their new names by names.json;
 - chains of `.before` go, since a place opens the one before it; where a helper takes a place, the chain is counted anew.

Run it once on files that port.py and respell_names.py have turned; the crates below must be proved, and src/ must
compile. It says which goals it dropped or added. What a check then still refuses is mended by hand.
"""
import difflib, glob, json, os, re, shutil, subprocess, sys, tempfile

argv = sys.argv[1:]
reuse = False
if argv[0] == '--reuse': reuse = True; argv = argv[1:]
crate = os.path.abspath(argv[0]); name = os.path.basename(crate); only = argv[1:]
work = os.path.join(tempfile.gettempdir(), 'mend_proofs', name)
def run(*w):
    return subprocess.run(['rt', 'check', *w], cwd=crate, stdout=subprocess.PIPE, stderr=subprocess.STDOUT, text=True).stdout
o1 = o2 = ''
if not reuse:
    shutil.rmtree(work, ignore_errors=True); os.makedirs(os.path.dirname(work), exist_ok=True)
    o1 = run('--generated', work + '/old', '--old-names')
    o2 = run('--generated', work + '/new')
if not os.path.exists(work + '/old/names.json') or not os.path.isdir(work + '/new'):
    print(o1[-6000:], o2[-3000:]); sys.exit(1)
names = json.load(open(work + '/old/names.json'))
base = work + '/new/Rattle-%s-proofs/' % name
norm = lambda s: re.sub(r'-?(\d+)$', r'\1', s.replace('_', '-')).lower()
W = r"[^\s(){}.;,@\"\x01]+"
report = []

def spec_types(tie):
    m = re.search(r'pub spec\s*:(.*?)Lts\.Closed', tie, re.S)
    if not m: return None
    out = []; depth, start = 0, None; t = m.group(1)
    for i, ch in enumerate(t):
        if ch == '(':
            if depth == 0: start = i
            depth += 1
        elif ch == ')':
            depth -= 1
            if depth == 0:
                b = t[start + 1:i]
                out.append(re.split(r'[\s(]', b.split(':', 1)[1].strip())[0])
    return out

def top_arrows(t):
    """Components of a type at its outer arrows."""
    out, depth, cur, i = [], 0, '', 0
    while i < len(t):
        ch = t[i]
        if ch in '({[': depth += 1
        elif ch in ')}]': depth -= 1
        if depth == 0 and ch == '→':
            out.append(cur.strip()); cur = ''
        else: cur += ch
        i += 1
    out.append(cur.strip())
    # '(a : X) (b : Y)' without arrows between binders
    res = []
    for c in out:
        while True:
            m = re.match(r'^([({])([^:(){}]+) :', c)
            if not m: break
            depth = 0
            for j, ch in enumerate(c):
                if ch in '({[': depth += 1
                elif ch in ')}]':
                    depth -= 1
                    if depth == 0: break
            res.append(c[:j + 1]); c = c[j + 1:].strip()
            if not c: break
        if c: res.append(c)
    return res

def closing(t, i):
    """The place after the bracket that closes the one at i."""
    depth = 0
    for j in range(i, len(t)):
        if t[j] in '({': depth += 1
        elif t[j] in ')}':
            depth -= 1
            if depth == 0: return j + 1
    return None

def mend_ways(text, lts):
    """In `⊎_elim (λ w. ..) (λ w. ..) c.STEP.branch-raw`, the old parts w.0, w.1 .. become the fields of today's record of that way."""
    pos = 0
    while True:
        k = text.find('⊎_elim', pos)
        if k < 0: return text
        i = k + len('⊎_elim'); pos = i; args = []
        while len(args) < 2:
            m = re.compile(r'\s+').match(text, i)
            if m: i = m.end()
            if i >= len(text) or text[i] not in '({': break
            e = closing(text, i)
            if e is None: break
            if text[i] == '(': args.append((i, e))
            i = e
        if len(args) < 2: continue
        m = re.compile(r'\s+\(?[^\s()]*\.([^\s().]+)\.branch-raw').match(text, i)
        if not m: continue
        joined = [b for b in re.findall(r'pub record (Joined-\S+) : Type 0 where(?:\n\s+pub [^\n]*)*?\n\s+pub %s : Step-' % re.escape(m.group(1)), lts)]
        if len(joined) != 1: continue
        ways = re.findall(r'pub record By-\d+-%s-(?:then|else|in)[^\n]* : Type 0 where\n(.*?)(?=\n\s*pub (?:record|data) )' % re.escape(joined[0]), lts, re.S)
        if len(ways) != 2: continue
        for (a, e), body in reversed(list(zip(args, ways))):
            ind = re.match(r'\s*', body).group(0)
            fields = re.findall(r'(?m)^%spub (\S+) :' % ind, body)
            t = text[a:e]
            v = re.match(r'\(λ (\S+)\.\s', t)
            if not v: continue
            v = v.group(1)
            def one(mm):
                n = int(mm.group(1))
                return v + '.' + fields[n] if n < len(fields) else mm.group(0)
            if len(fields) == 1: t = re.sub(r'(?<![\w.])%s\.(?=(?:taken|left)\b)' % re.escape(v), v + '.' + fields[0] + '.', t)
            t = re.sub(r'(?<![\w.])%s\.(\d)(?!\w)' % re.escape(v), one, t)
            t = re.sub(r'\.taken(?!\w)', '.true', t); t = re.sub(r'\.left(?!\w)', '.false', t)
            text = text[:a] + t + text[e:]

class Fn:
    def __init__(self, data):
        self.data = data
        self.new = data['places_by_name']
        self.places = data['places']
        self.index = {n: i for i, n in enumerate(self.new)}
        self.by_old = {}
        for i, p in enumerate(self.places): self.by_old.setdefault(p[0], []).append(i)
        self.by_norm = {}
        for i, p in enumerate(self.places): self.by_norm.setdefault(norm(p[0]), []).append(i)
        self.steps_new = {p[2][1] for p in self.places if p[2][1]}
    def parent(self, i):
        o = self.places[i][1]
        if o is None: return None
        return self.by_old[o][0]
    def ancestors(self, i):
        out = []
        while i is not None:
            out.append(i); i = self.parent(i)
        return out
    def place(self, w):
        """Index of a place by its new or old name."""
        if w in self.by_old: return self.by_old[w][0]   # the file speaks the old names, also where one is a new name too
        if w in self.index: return self.index[w]
        c = self.by_norm.get(norm(w), [])
        if not c:
            bare = lambda x: re.sub(r'\d+$', '', norm(x))
            c = [i for i, p in enumerate(self.places) if bare(p[0]) == bare(w)][-1:]
        return c[0] if len(c) >= 1 else None
    def arm(self, i, segs):
        """The path of today for one into an arm of a match."""
        for a in self.ancestors(i):
            row = self.data['arms'][a]
            if not row: continue
            if segs[0] == row[0]: return segs
            best = None
            for new, step, path in row[2]:
                if norm(step) == norm(segs[0]) and path == segs[1:1 + len(path)]:
                    if best is None or len(path) > len(best[1]): best = (new, path)
            if best: return [row[0], best[0]] + segs[1 + len(best[1]):]
        return None
    def step(self, i, seg):
        """Today's name of the old step seg, seen from place i."""
        anc = self.ancestors(i) if i is not None else range(len(self.places))
        cand = []
        for a in anc:
            o, n = self.places[a][2]
            if o and o == seg: return n
        for a in anc:
            o, n = self.places[a][2]
            if o and (seg == n): return seg
            if o and norm(o) == norm(seg): cand.append(n)
        if not cand and seg.endswith('_lem'): return self.step(i, seg[:-4])
        return cand[0] if cand else None
    today = None   # name of a place -> the one before it, as today's Lts has them
    def dist(self, i, j):
        if self.today and (self.new[i] in self.today):
            n, w = 0, self.new[i]
            while w is not None and w != self.new[j]: n, w = n + 1, self.today.get(w)
            if w is not None: return n
        anc = self.ancestors(i)
        return anc.index(j) if j in anc else None

def mend(p, rel):
    s = open(p).read(); orig = s
    tiep = base + rel.replace('.', '/') + '/Tie.antt'
    if not os.path.exists(tiep):
        report.append('%s: no Tie' % rel); return
    heads = spec_types(open(tiep).read())
    data = names.get('Rattle-%s-proofs.%s.Lts' % (name, rel))
    m = re.search(r'tie\.spec\b(.*?)\)\s*$', s, re.S)
    if not m: 
        m = re.search(r'tie\.spec\b(.*?)\)', s, re.S)
    if not m or heads is None or data is None:
        report.append('%s: no tie.spec (heads %s, data %s)' % (rel, heads is not None, data is not None)); return
    fn = Fn(data)
    ltsp = os.path.join(os.path.dirname(tiep), 'Lts.antt')
    if os.path.exists(ltsp):
        fn.today = dict(re.findall(r'record (\S+) : Type 0 where\n\s+pub before : (\S+)', open(ltsp).read()))
    args = m.group(1).split()
    oldt = []
    for a in args:
        mm = re.search(r'(?m)^(?:abbrev |pub )*%s : (?:\{[^}]*\} → )?tie\.([^\s)]+)' % re.escape(a), s)
        oldt.append(mm.group(1) if mm else None)
    old_of = {'Need-' + b: 'Need-' + a for a, b in data['needs']}
    def like(a, b):
        a = norm(re.sub(r'^Need-(overflow-)?', '', a or '')); b = norm(re.sub(r'^Need-', '', b))
        return difflib.SequenceMatcher(None, a, b).ratio()
    n, k = len(args), len(heads)
    typ = {}
    if n == k:
        for a, h in zip(args, heads): typ[a] = h
    else:
        score = [[max(like(oldt[i] or args[i], heads[j]), like(oldt[i] or args[i], old_of.get(heads[j], heads[j]))) for j in range(k)] for i in range(n)]
        best = [[0.0] * (k + 1) for _ in range(n + 1)]
        for i in range(n - 1, -1, -1):
            for j in range(k - 1, -1, -1):
                best[i][j] = max(best[i + 1][j], best[i][j + 1], best[i + 1][j + 1] + score[i][j] - 0.3)
        i = j = 0; dropped, added, order = [], [], []
        while i < n or j < k:
            if i < n and j < k and score[i][j] > 0.3 and abs(best[i][j] - (best[i + 1][j + 1] + score[i][j] - 0.3)) < 1e-9:
                typ[args[i]] = heads[j]; order.append(args[i]); i += 1; j += 1
            elif j < k and (i >= n or best[i][j] == best[i][j + 1]):
                order.append(('new', heads[j])); added.append(heads[j]); j += 1
            else: dropped.append(args[i]); i += 1
        report.append('%s: %d arguments, today %d: dropped %s, added %s' % (rel, n, k, dropped, added))
        invs = [a for a in args if re.search(r'(?m)^(?:abbrev |pub )*%s : tie\.(invariant|decreases)' % re.escape(a), s)]
        new_args = []
        for o in order:
            if isinstance(o, str): new_args.append(o); continue
            nm = 'new-' + re.sub(r'^Need-', '', o[1]); new_args.append(nm)
            text = '%s : tie.%s %s\n%s c = search rules\n\n' % (nm, o[1], ' '.join(invs), nm)
            text = text.replace(' \n', '\n')
            s = re.sub(r'(?m)^(pub \S+ : \{M : Type 1\} → statement M)', lambda mm: text + mm.group(1), s, count=1)
        m = re.search(r'tie\.spec\b(.*?)\)\s*$', s, re.S) or re.search(r'tie\.spec\b(.*?)\)', s, re.S)
        s = s[:m.start(1)] + '\n    ' + '\n    '.join(new_args) + s[m.end(1):]
        for d in dropped:
            s = re.sub(r'(?m)^%s : .*\n(?:(?![a-z]).*\n)*?%s .*\n(?:[ \t]+.*\n)*' % (re.escape(d), re.escape(d)), '', s)
    asked = {}
    for (o, nn), (ao, an) in zip(data['needs'], data['asked_at']): asked['Need-' + nn] = an
    # blocks
    lines = s.split('\n'); blocks = []; cur = []
    for l in lines:
        if cur and l and not l[0].isspace() and not l.startswith(('--', ')', '}')):
            blocks.append(cur); cur = [l]
        else: cur.append(l)
    blocks.append(cur)
    # join a signature with its equations
    defs = []
    for b in blocks:
        first = b[0]
        mm = re.match(r'^((?:abbrev |pub |unfoldable )*)(%s) : ' % W, first)
        if mm: defs.append([mm.group(2), [b]])
        elif defs and defs[-1][0] and not first.startswith('use ') and (re.match(r'^unfolding ', first) or re.match(r'^(?:%s)(?=[\s(=])' % re.escape(defs[-1][0]), first)):
            defs[-1][1].append(b)
        else: defs.append([None, [b]])
    # helpers
    needplaces = {}
    sig = {}
    for nm, bs in defs:
        if not nm: continue
        t = '\n'.join(bs[0]); t = t.split(' : ', 1)[1]
        comps = top_arrows(t)
        sig[nm] = comps
    def place_of(comp):
        """(vars, place index) of a component of a type."""
        mm = re.match(r'^[({]([^:]+) : tie\.(%s)' % W, comp)
        if mm:
            vs, w = mm.group(1).split(), mm.group(2)
        else:
            mm = re.match(r'^\(?tie\.(%s)' % W, comp)
            if not mm: return None
            vs, w = [None], mm.group(1)
        if w.startswith(('Need-', 'invariant', 'decreases')): return None
        i = fn.place(w)
        return None if i is None else (vs, i)
    jumps = {}   # helpers that only go back
    helper = {}  # name -> list over explicit parameters of place index or None
    for nm, bs in defs:
        if not nm: continue
        ps = []
        for c in sig[nm][:-1]:
            if c.startswith('{'): continue
            po = place_of(c)
            if re.match(r'^\(', c) and ' : ' in c:
                vs = re.match(r'^\(([^:]+) :', c)
                cnt = len(vs.group(1).split()) if vs else 1
            else: cnt = 1
            ps += [po[1] if po else None] * cnt
        if any(x is not None for x in ps): helper[nm] = ps
        body = '\n'.join(l for b in bs[1:] for l in b)
        if len(ps) == 1 and ps[0] is not None and place_of(sig[nm][-1]): jumps[nm] = ps[0]
    out = []
    for nm, bs in defs:
        if nm in jumps: 
            # keep leading comments that follow? drop the helper
            tail = []
            for b in bs[1:][-1:]:
                for l in b[1:]:
                    if l.startswith('--') or not l.strip(): tail.append(l)
            out.append('\n'.join(tail)); continue
        text = '\n'.join('\n'.join(b) for b in bs)
        if not nm:
            # a block `module _ (c : tie.PLACE) where`, or the like
            def blockplace(mm):
                w = mm.group(1)
                if w in fn.index or w.startswith(('Need-', 'invariant', 'decreases', 'spec', 'close')): return mm.group(0)
                i = fn.place(w)
                return 'tie.' + fn.new[i] if i is not None else mm.group(0)
            if re.match(r'\s*(?:--[^\n]*\n|\s*\n)*module ', text):
                text = re.sub(r'tie\.(%s)' % W, blockplace, text)
                text = re.sub(r'(?<=[\w)])\.pre(?=[.\s);,\]]|$)', '.requires', text)
            out.append(text); continue
        h = typ.get(nm)
        envs = {}
        if h:
            text = re.sub(r'^((?:abbrev |pub )*%s : (?:\{[^}]*\} → )?)tie\.[^\s)]+' % re.escape(nm), lambda mm: mm.group(1) + 'tie.' + h, text)
            pl = asked.get(h)
            eq = re.search(r'(?m)^%s((?: [^\s=(){}]+)*) =' % re.escape(nm), text)
            if eq and pl is not None:
                a = eq.group(1).split()
                v = 'c' if 'c' in a else (a[0] if a else None)
                if v: envs[v] = fn.index[pl]
        else:
            eq = re.search(r'(?m)^%s((?: [^\s=(){}]+)*) =' % re.escape(nm), text)
            a = eq.group(1).split() if eq else []
            for k2, pi in enumerate(helper.get(nm, [])):
                if pi is not None and k2 < len(a): envs[a[k2]] = pi
            for c in sig[nm]:
                po = place_of(c)
                if po and po[0][0]:
                    for v in po[0]: envs[v] = po[1]
            # a helper typed by a goal of this function
        # lambdas with a place
        for mm in re.finditer(r'\((%s) : tie\.(%s)' % (W, W), text):
            i = fn.place(mm.group(2)) if not mm.group(2).startswith(('Need-', 'invariant', 'decreases')) else None
            if i is not None: envs.setdefault(mm.group(1), i)
        # drop jumps:  (start-from-x E) or start-from-x E
        for j in sorted(jumps, key=len, reverse=True) * (3 if jumps else 1):
            text = re.sub(r'\(%s ([^\s()]+)\)' % re.escape(j), r'\1', text)
            text = re.sub(r'\(%s \(([^\s()]+)\)\)' % re.escape(j), r'\1', text)
            if re.search(r'let %s =' % re.escape(j), text): continue   # a local of the same name
            text = re.sub(r'(?<![^\s(,{;=])%s ([^\s()=:∙≡]+)' % re.escape(j), r'\1', text)
        # let g = c.before.v.given in .. g.0.0: inlined, so that the arm's fields stand for it
        for mm in list(re.finditer(r'let (\S+) = \(?((?:%s)(?:\.%s)*\.given)\)? in[ \n]*' % (W, W), text)):
            v0 = mm.group(2).split('.')[0]
            if v0 not in envs: continue
            rest = text[mm.end():]
            rest = re.sub(r'(?<![\w.\-\'])%s((?:\.[01])+)' % re.escape(mm.group(1)), lambda m2: mm.group(2) + m2.group(1), rest)
            if re.search(r'(?<![\w.\-\'])%s(?![\w\-\'])' % re.escape(mm.group(1)), rest): continue
            text = text[:mm.start()] + rest
            break
        # an opened helper that is gone
        for j in jumps: text = re.sub(r'(?m)^(unfolding.*?) %s(?=[ \n])' % re.escape(j), r'\1', text)
        text = re.sub(r'(?m)^unfolding *\n', '', text)
        # let-bound places: let s = c.before.before in
        for _ in range(3):
            for mm in re.finditer(r'let (\S+) = \(?(%s)((?:\.before)*)\)? in' % W, text):
                if mm.group(2) in envs: envs.setdefault(mm.group(1), envs[mm.group(2)])
        # the places' names
        def place_name(mm):
            w = mm.group(1)
            if (w in fn.index and w not in fn.by_old) or w.startswith(('Need-', 'invariant', 'decreases', 'spec', 'close')): return mm.group(0)
            i = fn.place(w)
            return 'tie.' + fn.new[i] if i is not None else mm.group(0)
        text = re.sub(r'tie\.(%s)' % W, place_name, text)
        # paths
        def path(mm):
            v, segs = mm.group(1), mm.group(2).split('.')[1:]
            if v not in envs: return mm.group(0)
            i = envs[v]
            nb = 0
            while segs and segs[0] == 'before': segs.pop(0); nb += 1
            if not segs:
                return v + '\x01' * 1 if nb else v   # a bare chain: recounted below
            if len(segs) > 1 or segs[0].startswith('match'):
                ar = fn.arm(i, segs)
                if ar is not None:
                    return '.'.join([v] + ar)
            st = fn.step(i, segs[0])
            if st is None:
                if segs[0] == 'pre': st = 'requires'
                elif segs[0] == 'fits': st = 'ranges'
                else: st = segs[0]
            segs = [x if x != 'inv' else 'invariant' for x in segs]
            if st.startswith('if-') or st.endswith('-test'):
                segs = [{'taken': 'true', 'left': 'false'}.get(x, x) for x in segs]
            if len(segs) > 2 and segs[1] in ('last', 'new', 'kept', 'auto') and segs[2] in ('0', '1'):
                k = 0
                while k + 2 < len(segs) and segs[k + 2] == '1': k += 1
                callee = next((fn.places[a][3] for a in fn.ancestors(i) if fn.places[a][2][1] == st), None)
                ps = fn.data['params'].get(callee)
                if ps and k < len(ps) and segs[2 + k:3 + k] == ['0']:
                    segs = [segs[0], 'auto' if segs[1] in ('kept', 'auto') else 'new', ps[k]] + segs[3 + k:]
            return '.'.join([v, st] + segs[1:])
        eqs = text.split('\n')
        for q, l in enumerate(eqs):
            if re.match(r'^\s*--', l): continue
            eqs[q] = re.sub(r'(?<![\w.\-\'])(%s)((?:\.%s)+)' % (W, W), path, l)
        text = '\n'.join(eqs)
        # let e = c.call in .. e.new.1.0
        for mm in list(re.finditer(r'let (%s) = (%s)\.(%s) in' % (W, W, W), text)):
            e, v, st = mm.groups()
            if v not in envs: continue
            callee = next((fn.places[a][3] for a in fn.ancestors(envs[v]) if fn.places[a][2][1] == st), None)
            ps = fn.data['params'].get(callee)
            if not ps: continue
            def newp(m2):
                k = m2.group(1).count('.1')
                return e + '.new.' + ps[k] if k < len(ps) else m2.group(0)
            text = re.sub(r'(?<![\w.\-])%s\.(?:new|last)((?:\.1)*)\.0(?![\w])' % re.escape(e), newp, text)
        # helpers' arguments
        for hn, ps in helper.items():
            if hn in jumps: continue
            for k2, pi in enumerate(ps):
                if pi is None: continue
                def arg(mm):
                    v = mm.group(3)
                    if v not in envs: return mm.group(0)
                    d = fn.dist(envs[v], pi)
                    if d is None: return mm.group(0)
                    return mm.group(1) + mm.group(2) + v + '.before' * d + mm.group(5)
                atom = r'(?:\([^()]*\)|[^\s()]+)'
                text = re.sub(r'((?<![^\s(,{;=])%s)((?: %s){%d} \(?)(%s)(\x01?)(\)?)(?![.\w])' % (re.escape(hn), atom, k2, W), 
                              lambda mm: arg(mm), text)
        text = text.replace('\x01', '')
        # joined ways: `.branch` is a type of its own, `.branch-raw` the old sum
        if '⊎_elim' in text: text = re.sub(r'\.branch(?![-\w])', '.branch-raw', text)
        if '.branch-raw' in text and os.path.exists(ltsp):
            try: text = mend_ways(text, open(ltsp).read())
            except Exception as e: report.append('%s: ways: %r' % (rel, e))
        # today `if !x` says that x is false, and not that `not x` is true
        def plain(mm):
            field = mm.group(2).split('not-', 1)[1]
            return '' if '-' not in field or mm.group(1).endswith('.result') else mm.group(0)
        text = re.sub(r'(?<![\w-])not-(?:true|false) (\([^()]*\)|[^\s()]+) (?=[\w.]*\.((?:if|loop)[\w-]*not-[\w-]*)\.(?:true|false))', plain, text)
        text = re.sub(r'\(copied (?!_)', '(copied _ _ _ ', text)
        text = re.sub(r'\.inv(?=[.\s);,\]]|$)', '.invariant', text)
        text = re.sub(r'(?<=[\w)])\.pre(?=[.\s);,\]]|$)', '.requires', text)
        out.append(text)
    s = '\n'.join(out)
    s = re.sub(r'(?m)^(pub )?([a-z+]\S*)-spec( :| =)', lambda mm: (mm.group(1) or '') + mm.group(2).replace('-', '_') + '_spec' + mm.group(3), s)
    s = re.sub(r'-- The stages of the function, seen from later ones\.\n\n+', '', s)
    s = re.sub(r'\n{3,}', '\n\n', s)
    if s != orig: open(p, 'w').write(s)

for p in sorted(glob.glob(crate + '/proofs/**/Proof.antt', recursive=True)):
    rel = os.path.relpath(os.path.dirname(p), crate + '/proofs').replace('/', '.')
    if only and rel not in only: continue
    try: mend(p, rel)
    except Exception as e:
        report.append('%s: %r' % (rel, e))
        import traceback; traceback.print_exc()
print('\n'.join(report))
