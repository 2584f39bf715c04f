#!/usr/bin/env python3
"""Turns the proofs of an older kit, proofs/F/Proof.antt, which walk the code by hand, into proofs/F/Invariants.antt and proofs/F/Answers.antt.

usage: turn_proofs.py CRATE NAMES [FUNCTION..]

CRATE is the crate's folder, NAMES the file names.json that `rt check --generated FOLDER --old-names` writes there: the goals and steps by their old and
new names. An answer that only calls the search is left out, since the check tries that itself. The old file stays as Proof.antt.old. A line `look:`
says what was not mapped. The check decides; what it still refuses is mended by hand.
"""
import json, os, re, sys, glob

folder, names_file, only = sys.argv[1], sys.argv[2], sys.argv[3:]
crate = os.path.basename(os.path.abspath(folder))
names = json.load(open(names_file, encoding='utf-8'))

# The names of a function's ensures, where it has several.
CLAUSES, MUTS = {}, {}
for rt in glob.glob(os.path.join(os.path.dirname(os.path.abspath(folder)), '*/src/**/*.rt'), recursive=True):
    c_ = rt.split('/crates/')[1].split('/')[0]
    fn_, cl = None, []
    whole_ = open(rt, encoding='utf-8').read()
    for m in re.finditer(r"\bfn (\w+)(?:<[^>]*>)?\(([^)]*)\)", whole_):
        MUTS[(c_, m[1])] = re.findall(r"(\w+): &mut \[", m[2])
    for line in open(rt, encoding='utf-8'):
        m = re.match(r"\s*(?:pub )?(?:unsafe )?(?:extern \"C\" )?fn (\w+)", line)
        if m:
            fn_, cl = m[1], []
        m = re.match(r"\s*ensures (\w+) \{", line)
        if m and fn_:
            cl.append(m[1])
            CLAUSES.setdefault((c_, fn_), cl)

IDENT = r"[A-Za-z_◌][\w'₀-₉·≡≤≢-]*"
BACK = {'of-first': 'first-of', 'of-second': 'second-of'}
def norm(s):
    s = s.replace('_', '-')
    if s.endswith('-law'):
        s = s[:-4]
    return BACK.get(s, s)

def cutpath(tok):
    """splits a path NAME.seg.seg"""
    return tok.split('.')

def key(fn):
    return f'Rattle-{crate}-proofs.{fn}.Lts'

class Conv:
    def __init__(self, d, where):
        self.d, self.where = d, where
        self.places = {p[0]: p for p in d['places']}
        self.index = {p[0]: i for i, p in enumerate(d['places'])}
        # names repeat? (several places may have one old name)
        self.goals = {norm(o): n for o, n in d['needs']}
        self.order = [norm(o) for o, n in d['needs']]
        self.asked = {}
        for (o, n), a in zip(d['needs'], d['asked_at']):
            self.asked[norm(o)] = a
        self.problems = []
        self.arms = d['arms']

    def said(self, text):
        self.problems.append(text)

    def fits(self, place, field, rest):
        i = self.index[place]
        if norm(self.places[place][2][0]) == norm(field):
            return True
        arm = self.arms[i] if i < len(self.arms) else None
        if arm:
            for nf, os_, op in arm[2]:
                if norm(os_) == norm(field) and [norm(x) for x in rest[:len(op)]] == [norm(x) for x in op]:
                    return True
        return False

    def chain(self, place):
        out = []
        while place is not None:
            out.append(place)
            place = self.places[place][1] if place in self.places else None
        return out

    def step(self, place, field, rest):
        """The new path below c of the field at a place."""
        if field in ('args', 'requires', 'ranges', 'well_formed', 'lifetimes', 'utf8', 'type_inv', 'auto', 'changed'):
            return [field] + rest
        if not self.fits(place, field, rest):
            ch = self.chain(self.start)
            if place in ch:
                at = ch.index(place)
                fit = [k for k, x in enumerate(ch) if self.fits(x, field, rest)]
                if fit:
                    k = min(fit, key=lambda k: abs(k - at))
                    place = ch[k]
        return self.step_at(place, field, rest)

    def step_at(self, place, field, rest):
        if field in ('args', 'requires', 'ranges', 'well_formed', 'lifetimes', 'utf8', 'type_inv', 'auto', 'changed'):
            return [field] + rest
        p = self.places[place]
        i = self.index[place]
        old, new = p[2]
        arm = self.arms[i] if i < len(self.arms) else None
        if arm:
            best = None
            for nf, os_, op in arm[2]:
                if norm(os_) == norm(field) and [norm(x) for x in rest[:len(op)]] == [norm(x) for x in op]:
                    if best is None or len(op) > len(best[1]):
                        best = (nf, op)
            if best:
                return [arm[0], best[0]] + rest[len(best[1]):]
            if rest and norm(arm[0]) == norm(field):
                return [arm[0]] + rest
        if norm(old) != norm(field):
            self.said(f'{self.where}: at {place} the field is {old}, not {field}')
            return [field] + rest
        callee = p[3]
        if callee and rest:
            cc_, cf = callee.split('::')[0], callee.split('::')[-1]
            cl = CLAUSES.get((cc_, cf), [])
            if rest[0] == 'ensures' and len(cl) > 1 and len(rest) > 1 and rest[1] in ('0', '1'):
                k = 0; j = 1
                while j < len(rest) and rest[j] == '1' and k < len(cl) - 1:
                    k += 1; j += 1
                if k < len(cl) - 1 and j < len(rest) and rest[j] == '0':
                    j += 1
                rest = ['ensures', cl[k]] + rest[j:]
            params = self.d['params'].get(callee)
            muts = self.d['params'].get(callee) or MUTS.get((cc_, cf), [])
            if rest[0] == 'auto' and len(rest) > 1 and rest[1] in ('0', '1'):
                k = 0; j = 1
                while j < len(rest) and rest[j] == '1':
                    k += 1; j += 1
                if k < len(muts):
                    if j < len(rest) and rest[j] == '0':
                        j += 1
                    rest = ['auto', muts[k]] + rest[j:]
            if rest[0] == 'new' and params and len(rest) > 1 and rest[1] in ('0', '1'):
                k = 0; j = 1
                while j < len(rest) and rest[j] == '1':
                    k += 1; j += 1
                if j < len(rest) and rest[j] == '0' and k < len(params):
                    rest = ['new', params[k]] + rest[j + 1:]
        ren = {norm(a): b for a, b in p[4]}
        if rest and norm(rest[0]) in ren:
            rest = [ren[norm(rest[0])]] + rest[1:]
        return [new] + rest

    def path(self, place, segs):
        """segs behind the variable: before.before.X.."""
        segs = list(segs)
        while segs and segs[0] == 'before':
            p = self.places.get(place)
            if p is not None and p[1] is not None:
                place = p[1]
            segs = segs[1:]
        return place, segs

    def body(self, goal, text):
        a = self.asked.get(goal)
        start = a[0] if a else 'Start'
        if start not in self.places:
            self.said(f'{self.where}: place {start} of {goal} is unknown')
        self.start = start
        alias = {'c': start}
        steps = {}

        def let(m):
            name, tok = m[1], m[2]
            segs = cutpath(tok)
            if segs[0] in alias:
                place, rest = self.path(alias[segs[0]], segs[1:])
                if place is not None and not rest:
                    alias[name] = place
                elif place is not None and len(rest) == 1 and rest[0] not in ('args', 'requires', 'auto'):
                    steps[name] = (place, rest[0])
            return m[0]
        for m in re.finditer(rf"\blet ({IDENT}) = ((?:{IDENT})(?:\.(?:{IDENT}|\d+))*) in", text):
            let(m)

        def turn(m):
            tok = m[0]
            segs = cutpath(tok)
            v = segs[0]
            if v in steps and len(segs) > 1:
                place, field = steps[v]
                base = self.step(place, field, [])
                full = self.step(place, field, segs[1:])
                if full[:len(base)] == base:
                    return '.'.join([v] + full[len(base):])
            if v not in alias:
                return tok
            if len(segs) == 1:
                return 'c' if v != 'c' else tok
            place, rest = self.path(alias[v], segs[1:])
            if place is None:
                return tok
            if not rest:
                return 'c'
            return '.'.join(['c'] + self.step(place, rest[0], rest[1:]))
        out = re.sub(rf"(?<![\w'.·-])({IDENT})(?:\.(?:{IDENT}|\d+))*", turn, text)
        out = re.sub(r"\blet (c|" + '|'.join(map(re.escape, [a for a in alias if a != 'c']) ) + r") = c in\s*", '', out) if len(alias) > 1 else out
        return out

def last_in(b):
    """The place behind the last `in` at depth 0."""
    depth, at = 0, 0
    for m in re.finditer(r"[(\[{]|[)\]}]|(?<![\w'.-])in(?![\w'-])", b):
        if m[0] in '([{':
            depth += 1
        elif m[0] in ')]}':
            depth -= 1
        elif depth == 0:
            at = m.end()
    return at

def parts(b):
    """The parts of a tuple at the top, or None."""
    s = b.strip()
    if not (s.startswith('(') and s.endswith(')')):
        return None
    depth, out, cur = 0, [], ''
    for i, ch in enumerate(s):
        if ch in '([{':
            depth += 1
            if depth == 1:
                continue
        if ch in ')]}':
            depth -= 1
            if depth == 0:
                if i != len(s) - 1:
                    return None
                break
        if ch == ',' and depth == 1:
            out.append(cur); cur = ''
        else:
            cur += ch
    if cur.strip():
        out.append(cur)
    return [x.strip() for x in out]

def named(b, cl):
    at = last_in(b)
    head, final = b[:at], b[at:]
    f = final.strip()
    if re.sub(r'\s+', ' ', f) in ('search rules', '?') or f.startswith(('record', 'search', 'elim', 'grind')):
        return b
    ps = parts(f)
    while ps and len(ps) == 2 and len(ps) < len(cl) and parts(ps[1]):
        ps = [ps[0]] + parts(ps[1])
    if ps and len(ps) == len(cl):
        body = '; '.join(f'{n} = {x}' for n, x in zip(cl, ps))
        return f'{head}\n    record {{ {body} }}'
    m = re.match(r"(rw \((?:[^()]|\([^()]*\))*\)|rw [\w.'-]+)\s*(\(.*\))$", f, re.S)
    if m:
        ps = parts(m[2])
        while ps and len(ps) == 2 and len(ps) < len(cl) and parts(ps[1]):
            ps = [ps[0]] + parts(ps[1])
        if ps and len(ps) == len(cl):
            body = '; '.join(f'{n} = {x}' for n, x in zip(cl, ps))
            return f'{head}\n    {m[1]} (record {{ {body} }})'
    proj = ['.0'] + ['.1' * k + '.0' for k in range(1, len(cl))]
    proj[-1] = '.1' * (len(cl) - 1)
    body = '; '.join(f'{n} = both{p}' for n, p in zip(cl, proj))
    return f'{head}\n    let both = {f} in record {{ {body} }}'

def split_defs(text):
    """Top-level pieces of a proof file: imports, then definitions (with their comments)."""
    lines = text.split('\n')
    uses, pieces, cur = [], [], []
    i = 0
    # a piece begins at a line that is a signature at column 0: NAME : ..  (maybe with abbrev/pub/..)
    sig = re.compile(r"^(?:(?:abbrev|unfoldable|pub|mutual|data|record|module) )*(\S+?)(?: \{[^{}]*\})* : ")
    comment = []
    for l in lines:
        if l.startswith('use ') or l.startswith('open '):
            uses.append(l); continue
        if l.startswith('--'):
            comment.append(l); continue
        m = sig.match(l)
        if (m or l.startswith('data ') or l.startswith('record ') or l.startswith('module ') or l.startswith('pub data') or l.startswith('pub record')):
            cur = comment + [l]; comment = []
            pieces.append([m[1] if m else l.split()[1], cur])
            continue
        if pieces:
            if comment:
                pieces[-1][1].extend(comment); comment = []
            pieces[-1][1].append(l)
        elif l.strip():
            uses.append(l)
    return uses, [(n, '\n'.join(c).rstrip()) for n, c in pieces]

def convert(path, fn):
    k = key(fn)
    if k not in names:
        print(f'no names for {fn}'); return
    d = names[k]
    cv = Conv(d, f'{crate}::{fn}')
    text = open(path, encoding='utf-8').read()
    uses, defs = split_defs(text)
    uses = [u for u in uses if not re.search(rf"proofs\.{re.escape(fn)}\.(Statement|Tie)\b", u)]
    inv, ans, helpers = [], [], []
    loops = {norm(o[0]): (o[1], vars_) for o, vars_ in d['loops']}
    for (o, vars_), ch in zip(d['loops'], d['changed']):
        loops[norm(o[0])] = (o[1], vars_, ch)
    for name, piece in defs:
        n = norm(name)
        m = re.match(r"(invariant|decreases|measure)-?(.*)", n)
        if n.endswith('-spec') and 'tie.close' in piece:
            continue
        if m and ('tie.' in piece.split('\n')[0] or 'tie.' in piece):
            what, loop = m[1], m[2]
            if loop in loops:
                new, vars_, ch = loops[loop]
                head, clause = piece.split('\n', 1) if '\n' in piece else (piece, '')
                lines = [l for l in piece.split('\n') if not l.startswith('--')]
                comments = [l for l in piece.split('\n') if l.startswith('--')]
                sigl = lines[0]; rest = '\n'.join(lines[1:])
                mm = re.match(rf"{re.escape(name)} ([^=]*?)=(.*)$", rest, re.S)
                if not mm:
                    cv.said(f'{fn}: cannot read {name}'); continue
                params = mm[1].split()
                b = mm[2]
                want = [(v, False) for v in vars_] + [(v, True) for v, c_ in zip(vars_, ch) if c_]
                if len(params) != len(want):
                    cv.said(f'{fn}: {name} has parameters {params}, wanted {vars_} {ch}')
                table = {}
                for p_, (v, cur_) in zip(params, want):
                    c_ = ch[vars_.index(v)]
                    table[p_] = f'l.{v}' if (cur_ or not c_) else f'l.initial.{v}'
                def sub(m_):
                    return table.get(m_[0], m_[0])
                # parameters that are bound again in the body
                for p_ in params:
                    if re.search(rf"(λ|\() ?(?:[^().:]* )?{re.escape(p_)}(?: [^().:]*)?(?: :|\.)", b) and table.get(p_) != p_:
                        cv.said(f'{fn}: {name} binds {p_} again')
                b = re.sub(rf"(?<![\w'.·-]){IDENT}", sub, b)
                inv.append('\n'.join(comments + [f'abbrev pub {what}-{new} : goal.{what}-{new}', f'{what}-{new} l ={b}'.rstrip()]))
            else:
                # a recursion's measure
                lines = [l for l in piece.split('\n') if not l.startswith('--')]
                rest = '\n'.join(lines[1:])
                inv.append(f'-- MEASURE? {name}\n' + piece)
                cv.said(f'{fn}: {name}: a measure, by hand')
            continue
        if n not in cv.goals:
            need = re.search(r"tie\.Need-([\w'-]+)", piece.split('\n', 1)[0])
            if need:
                for x in (norm(need[1]), norm(need[1]).replace('overflow-', '', 1)):
                    if x in cv.goals:
                        n = x
                        break
        if n in cv.goals:
            new = cv.goals[n]
            lines = piece.split('\n')
            comments = []
            while lines and lines[0].startswith('--'):
                comments.append(lines.pop(0))
            # the signature may go on over several lines
            i = 1
            while i < len(lines) and lines[i].startswith('    ') and not lines[i].startswith(name):
                i += 1
            unf = []
            while i < len(lines) and lines[i].startswith('unfolding'):
                unf.append(lines[i]); i += 1
                while i < len(lines) and lines[i].startswith('    '):
                    unf.append(lines[i]); i += 1
            clauses = '\n'.join(lines[i:])
            mm = re.match(rf"{re.escape(name)} ([^=\n]*?) ?=(.*)$", clauses, re.S)
            if not mm:
                cv.said(f'{fn}: cannot read the clause of {name}: {clauses[:80]}')
                ans.append((new, '\n'.join(comments + ['-- UNREAD', piece]))); continue
            args = mm[1].split()
            b = mm[2]
            b2 = cv.body(n, b)
            cl = CLAUSES.get((crate, fn.split('.')[-1]), [])
            if len(cl) > 1 and new.startswith('returns') and not new.startswith('returns-clause'):
                b2 = named(b2, cl)
            simple = re.sub(r'\s+', ' ', b2).strip()
            args2 = [a for a in args if a not in ('κs',)]
            if simple in ('search rules', 'omega arith', 'tt') and not comments and not unf:
                continue
            head = f'pub {new} : goal.{new}'
            ans.append((new, '\n'.join(comments + [head] + unf + [f'{new} {" ".join(args2)} ={b2}'])))
            continue
        if re.search(r"tie\.Need-", piece.split('\n', 1)[0]) and re.sub(r'\s+', ' ', piece.split('=', 1)[1]).strip() in ('search rules', 'omega arith', 'tt', 'refl'):
            continue
        helpers.append(piece)
        if 'tie.' in piece or 'Lts' in piece:
            cv.said(f'{fn}: helper {name} speaks of generated names')
    out = os.path.dirname(path)
    def write(fname, module, parts):
        f = os.path.join(out, fname)
        if not parts:
            return
        us = [u for u in uses if u.strip()]
        t = '\n'.join(us + [f'use Rattle.{crate}.proofs.{fn}.{module} as goal']) + '\n\n' + '\n\n'.join(parts) + '\n'
        open(f, 'w', encoding='utf-8').write(t)
    write('Invariants.antt', 'Given', inv)
    write('Answers.antt', 'Goals', helpers + [a for _, a in ans] if ans or False else [])
    if not ans and helpers:
        cv.said(f'{fn}: helpers dropped: {len(helpers)}')
    os.rename(path, path + '.old')
    for p in cv.problems:
        print('look:', p)

base = os.path.join(folder, 'proofs')
for path in sorted(glob.glob(base + '/**/Proof.antt', recursive=True)):
    rel = os.path.dirname(os.path.relpath(path, base))
    fn = rel.replace('/', '.')
    if only and fn not in only:
        continue
    convert(path, fn)
