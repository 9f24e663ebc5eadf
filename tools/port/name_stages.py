#!/usr/bin/env python3
"""name_stages.py CRATE_DIR..: in proofs, names the stage that a chain of more than eight `.before` goes back to."""
import glob, json, os, re, sys, tempfile
W = r"[^\s(){}.;,@\"\x01]+"
def parents(lts):
    """Today's places: name -> the place before it."""
    out = {}
    for m in re.finditer(r'(?m)^ *(?:abbrev )?pub record (\S+) : Type 0 where\n(?: *--.*\n)* *pub before : (\S+)', lts): out[m.group(1)] = m.group(2)
    return out
for crate in sys.argv[1:]:
    name = os.path.basename(os.path.abspath(crate)); work = os.path.join(tempfile.gettempdir(), 'mend_proofs', name)
    if not os.path.exists(work + '/old/names.json') or not os.path.isdir(work + '/new'):
        import subprocess
        os.makedirs(work, exist_ok=True)
        for a in (['--generated', work + '/old', '--old-names'], ['--generated', work + '/new']):
            subprocess.run(['rt', 'check', *a], cwd=crate, stdout=subprocess.DEVNULL, stderr=subprocess.DEVNULL)
    names = json.load(open(work + '/old/names.json'))
    for p in sorted(glob.glob(crate + '/proofs/**/Proof.antt', recursive=True)):
        s = open(p).read()
        if not re.search(r'(\.before){9}', s): continue
        rel = os.path.relpath(os.path.dirname(p), crate + '/proofs').replace('/', '.')
        lts = open('%s/new/Rattle-%s-proofs/%s/Lts.antt' % (work, name, rel.replace('.', '/'))).read()
        par = parents(lts)
        data = names['Rattle-%s-proofs.%s.Lts' % (name, rel)]
        asked = {'Need-' + b: an for (a, b), (_, an) in zip(data['needs'], data['asked_at'])}
        # the arguments of places: invariants and measures
        m = re.search(r'tie\.Need-\S+((?: [^\s:=→()]+)*)', s)
        inv = m.group(1) if m else ''
        blocks = re.split(r'(?m)^(?=[^\s\-)}])', s)
        cur_env = {}; stages = {}; order = []
        def up(place, n):
            for _ in range(n):
                if place not in par: return None
                place = par[place]
            return place
        word = lambda q: re.sub(r'[^A-Za-z0-9]+', '_', q).lower()
        def stage(P, n):
            """the name of a stage n steps before P, with those that it is made of"""
            Q = up(P, n)
            if Q is None: return None
            nm = word(Q) + '_from_' + word(P)
            if nm not in stages:
                if n <= 8: body = 'c' + '.before' * n
                else:
                    k = stage(P, n - 8) if n - 8 > 8 else None
                    if n - 8 <= 8:
                        M = up(P, 8); k = stage(P, 8)
                        body = '(%s c)' % k + '.before' * (n - 8)
                    else: body = '(%s c)' % k + '.before' * 8
                stages[nm] = (P, Q, body); order.append(nm)
            return nm
        lastsig = None; out = []; fail = 0
        for b in blocks:
            sig = re.match(r'((?:abbrev |pub |unfoldable )*)(%s) : ' % W, b)
            if sig:
                lastsig = sig.group(2); env = {}
                t = b.split(' : ', 1)[1]
                for mm in re.finditer(r'\((%s) : tie\.(%s)' % (W, W), t):
                    if not mm.group(2).startswith('Need-'): env[mm.group(1)] = mm.group(2)
                cur_type = t
            def fix(b):
                global fail
                eq = re.match(r'%s((?: [^\s=(){}]+)*) =' % re.escape(lastsig or '?'), b)
                e = dict(env) if lastsig else {}
                if eq:
                    args = eq.group(1).split()
                    mm = re.match(r'\s*(?:\{[^}]*\} → )?tie\.(Need-%s)' % W, cur_type)
                    if mm:
                        pl = asked.get(mm.group(1))
                        v = 'c' if 'c' in args else (args[0] if args else None)
                        if pl and v: e[v] = pl
                    else:
                        comps = [c.strip() for c in re.split(r'→', cur_type)]
                        k = 0
                        for c in comps[:-1]:
                            mm = re.match(r'\(?tie\.(%s)' % W, c)
                            if mm and k < len(args): e[args[k]] = mm.group(1)
                            k += 1
                for _ in range(3):
                    for mm in re.finditer(r'let (%s) = \(?(%s)((?:\.before)*)\)? in' % (W, W), b):
                        if mm.group(2) in e and mm.group(1) not in e:
                            q = up(e[mm.group(2)], mm.group(3).count('.before'))
                            if q: e[mm.group(1)] = q
                    for mm in re.finditer(r'\(?λ \((%s) : tie\.(%s)' % (W, W), b): e.setdefault(mm.group(1), mm.group(2))
                def chain(mm):
                    v, n = mm.group(1), mm.group(2).count('.before')
                    if n <= 8 or v not in e: return mm.group(0)
                    st = stage(e[v], n)
                    if st is None: return mm.group(0)
                    return '(%s %s)' % (st, v)
                return re.sub(r'\(?(?<![\w.\-\'])(%s)((?:\.before)+)(?![\w.\-])\)?' % W, lambda mm: (lambda r: r if r == mm.group(0) else (('(' if mm.group(0).startswith('(') and not mm.group(0).endswith(')') else '') + r + (')' if mm.group(0).endswith(')') and not mm.group(0).startswith('(') else '')))(chain(mm)), b)
            nb = fix(b)
            out.append(nb)
        text = ''.join(out)
        if order:
            lines = '-- The stages of the function, seen from later ones.\n'
            for nm in order:
                P, Q, body = stages[nm]
                lines += 'abbrev %s : tie.%s%s → tie.%s%s\n%s c = %s\n\n' % (nm, P, inv, Q, inv, nm, body)
            # after the invariants and measures, else after the imports
            at = [m.end() for m in re.finditer(r'(?m)^abbrev (?:pub )?(\S+) : tie\.(?:invariant|decreases)[^\n]*\n(?:unfolding[^\n]*\n)?\1 [^\n]*\n(?:[ \t]+[^\n]*\n)*', text)]
            if not at: at = [m.end() for m in re.finditer(r'(?m)^use [^\n]*\n', text)]
            i = at[-1]
            text = text[:i] + '\n' + lines.rstrip('\n') + '\n' + text[i:]
        left = len(re.findall(r'(?:\.before){9,}', text))
        print(p, len(order), 'stages', left, 'left')
        open(p, 'w').write(text)
