#!/usr/bin/env python3
"""Turns proofs of the older form into today's: each proofs/F/Proof.antt of a crate becomes Invariants.antt and Answers.antt.

usage: tools/answers.py CRATE NAMES [F ..]    CRATE is a crate's folder, F a function, as steps.rank; without it all

NAMES is the file names.json that `rt check --generated FOLDER --old-names` writes in that folder: each goal's old and
new name. What it can't turn it says in a line below the function's name: that one is mended by hand, as is every
`.branch`, which is an `elim` now. It goes by text, and proves nothing: the check decides. It is kept for the work in
docs/sleepers.patch, and goes with it.

- An invariant's arguments become fields of `l`; an answer's path `c.before.before.args.x` is `c.args.x`; steps, places and
  goals get their new names; places of tuples get the names of parameters and clauses.
- An answer `search rules` is dropped, since the check tries more than that by itself.
- A fact about an earlier place is handed that place, as `(goal.at.returns c).After-call`.
"""
import json
import os
import re
import sys

ID = r"[^\s(){}\[\].;,@\"«»|]+"
def norm(s):
    return s.replace('_', '-')
def norm_need(s):
    s = norm(s)
    s = re.sub(r'^slice-bounds-', 'part-', s)
    return re.sub(r'^overflow-', '', s)

def split_decls(text):
    """top-level chunks: list of (kind, text)"""
    lines = text.split('\n')
    chunks, cur = [], []
    for ln in lines:
        if ln.strip() == '' :
            # blank line inside a module block continues if next is indented; handle below
            cur.append(ln)
            continue
        if not ln.startswith((' ', '\t')) and cur and any(x.strip() for x in cur):
            # does a new chunk start here? A top-level line that begins a declaration after a blank line or a comment
            if cur[-1].strip() == '':
                chunks.append('\n'.join(cur).strip('\n')); cur = [ln]; continue
        cur.append(ln)
    if any(x.strip() for x in cur): chunks.append('\n'.join(cur).strip('\n'))
    return chunks

class Fn:
    def __init__(self, d, clauses_of):
        self.d = d
        self.needs = {}
        for o, n in d['needs']:
            self.needs.setdefault(norm_need(o), n)
        self.order = [n for o, n in d['needs']]
        self.settled = {norm_need(s) for s in d['settled']}
        self.steps, self.places, self.callee, self.fields = {}, {}, {}, {}
        self.joins, self.dup, self.used_places, self.extra = {}, set(), set(), {}
        cl = d['clauses']
        for i, (name, parent, (so, sn), callee, extra) in enumerate(d['places']):
            newname = d['places_by_name'][i]
            self.places[norm(name)] = newname
            if so:
                if name.startswith('Joined'): self.joins[norm(so)] = sn
                elif norm(so) not in self.steps: self.steps[norm(so)] = sn
                elif self.steps[norm(so)] != sn: self.dup.add((so, sn))
                if callee: self.callee[sn] = callee
                for a, b in extra: self.extra.setdefault(sn, {})[a] = b
                if i < len(cl) and cl[i]: self.fields[sn] = cl[i]['fields']
        self.parent = {}
        byold = {}
        for i, (name, parent, st, callee, extra) in enumerate(d['places']):
            byold[name] = d['places_by_name'][i]
        for i, (name, parent, st, callee, extra) in enumerate(d['places']):
            self.parent[d['places_by_name'][i]] = byold.get(parent)
        self.at = {n: a[1] for (o, n), a in zip(d['needs'], d['asked_at'])}
        self.takes, self.gives = {}, {}
        self.params = d['params']
        self.pre = d['pre']['fields'] if d['pre'] else None
        self.asked = {}
        for o, f in d['asked'].items():
            self.asked[self.needs.get(norm_need(o), o)] = f
        self.loops = d['loops']
        self.changed = d['changed']

def index_fields(rest, names, closed):
    """rest: list of '0'/'1' fields after a tuple; names: field names; closed: tuple ends in tt (each has .0).
    returns (number consumed, name) or None"""
    k = 0
    while True:
        if closed:
            if k < len(rest) and rest[k] == '0':
                return (k + 1, names[k]) if k < len(names) else None
        else:
            if k == len(names) - 1:
                return (k, names[k])
            if k < len(rest) and rest[k] == '0':
                return (k + 1, names[k]) if k < len(names) else None
        if k < len(rest) and rest[k] == '1':
            k += 1
            continue
        return None

PATH = re.compile(rf"(?P<root>\)|(?<![\w.'₀-₉◌-])(?!\d)«?{ID}»?)(?P<fields>(?:\.(?:«[^»]+»|{ID}))+)")

PL = r"tie\.((?:After|At|In|Then|Else|Start|Joined|Untold)[\w'-]*)(?: invariant-[\w-]+| decreases-[\w-]+)*"

def signatures(text, fn):
    for m in re.finditer(rf"^( *)(?:abbrev |pub )*(\S+) : (?:\((\S+) : {PL}\)|{PL} →\s*(?:{PL}\s*$)?)", text, re.M):
        take = m[4] or m[5]
        if take: fn.takes[m[2]] = fn.places.get(norm(take))
        if m[6]: fn.gives[m[2]] = fn.places.get(norm(m[6]))
    for m in re.finditer(rf"^module _ (?:\{{[^}}]*\}} )*\((\S+) : {PL}\)[^\n]* where\n((?:(?: [^\n]*)?\n)*)", text, re.M):
        for k in re.finditer(r"^ +(?:abbrev |pub )*([^\s(){}:=]+) : ", m[3], re.M):
            if not re.match(r" {4,}", k[0]): fn.takes[k[1]] = fn.places.get(norm(m[2]))

def distance(fn, cur, target):
    n, p = 0, cur
    while p is not None and p != target:
        p = fn.parent.get(p); n += 1
    return n if p is not None else None

def collapse(text, cvar, cur, fn, notes, here=None):
    pv = {cvar}
    def pp(): return r"(?<![\w.'-])(?:" + '|'.join(re.escape(v) for v in sorted(pv, key=len, reverse=True)) + r")(?:\.before)*(?![\w'-])"
    while True:
        old = text
        if fn.gives:
            g = '|'.join(re.escape(x) for x in fn.gives)
            text = re.sub(rf"\((?:{g})\s+{pp()}(?!\.)\)", cvar, text)
            m = re.search(rf"let ([^\s(){{}}]+)(?: : [^=\n]*?)? = (?:{g})\s+{pp()}(?!\.) in\b\s*", text)
            if m:
                pv.add(m[1]); text = text[:m.start()] + text[m.end():]; continue
        m = re.search(rf"let ([^\s(){{}}]+)(?: : [^=\n]*?)? = {pp()}(?!\.) in\b\s*", text)
        if m:
            pv.add(m[1]); text = text[:m.start()] + text[m.end():]; continue
        if text == old: break
    # fields
    text = re.sub(pp() + r"(?=\.(?!before))", cvar, text)
    if fn.takes:
        t = '|'.join(re.escape(x) for x in sorted(fn.takes, key=len, reverse=True))
        def arg(m):
            n = distance(fn, cur, fn.takes[m[1]])
            if n is None:
                notes.append(f'no way from {cur} to {fn.takes[m[1]]} for {m[1]}')
                return m[0]
            if n == 0: return m[1] + m[2] + cvar
            fn.used_places.discard(None)
            return m[1] + m[2] + f"(goal.at.{here or cur} {cvar}).{fn.takes[m[1]]}"
        text = re.sub(rf"(?<![\w.'-])({t})(\s+){pp()}(?!\.)", arg, text)
    return text

class Turn:
    def __init__(self, fn, notes):
        self.fn, self.notes = fn, notes

    def fields_turn(self, fields, is_place, value=None):
        """fields after a place root (befores dropped) or a value (dict with step)"""
        fn = self.fn
        out = []
        fields = list(fields)
        step = None
        if is_place:
            kept = 0
            while fields and fields[0] == 'before':
                fields.pop(0); kept += 1
            if not fields:
                return ['before'] * kept, ('place', None)
            f = fields.pop(0).strip('«»')
            if f == 'pre': f = 'requires'
            if f in ('args', 'ranges', 'lifetimes', 'well_formed', 'type_inv', 'auto'):
                out.append(f)
            elif f == 'requires':
                out.append('requires'); step = '*own'
            else:
                new = fn.steps.get(norm(f))
                if norm(f) in fn.joins and (new is None or fields[:1] not in (['true'], ['false'], ['given'])):
                    new = fn.joins[norm(f)]
                if new is None:
                    self.notes.append(f'no step {f}')
                    new = f
                out.append(new); step = new
        else:
            step = value
        if step == '*own':
            if fn.pre and fields and fields[0] in '01':
                r = index_fields(fields, fn.pre, False)
                if r: out.append(r[1]); fields = fields[r[0]:]
                else: return out + fields, ('partial', ('pre', fields))
            return out + fields, (('tuple', fn.pre) if fn.pre and not fields else ('value', None))
        if step and fields:
            f = fields[0]
            f = fn.extra.get(step, {}).get(f, f)
            if f in ('pre',): f = 'requires'
            if f in ('post',): f = 'ensures'
            if f == 'last' and step in fn.callee: f = 'new'
            if f == 'kept' and step in fn.callee: f = 'auto'
            if f in ('new', 'auto') and step in fn.callee:
                names = fn.params.get(fn.callee[step], [])
                rest = fields[1:]
                if rest and rest[0] in '01':
                    r = index_fields(rest, names, True)
                    if r:
                        return out + [f, r[1]] + rest[r[0]:], ('value', None)
                    return out + [f], ('partial', (f, names, True, rest))
                return out + [f] + rest, ('value', None)
            if f == 'ensures' and step in fn.fields:
                names = fn.fields[step]
                rest = fields[1:]
                if rest and rest[0] in '01':
                    r = index_fields(rest, names, False)
                    if r:
                        return out + [f, r[1]] + rest[r[0]:], ('value', None)
                    return out + [f], ('partial', (f, names, False, rest))
                return out + [f] + rest, ('tuple', names)
            return out + [f] + fields[1:], ('value', None)
        return out + fields, ('step', step)

    def expr(self, text, env):
        """env: var -> ('place',) | ('step', name) | ('partial', prefix, (f, names, closed, rest))"""
        def sub(m):
            root, fields = m['root'], [x for x in re.findall(r"\.(«[^»]+»|[^\s(){}\[\].;,@\"«»|]+)", m['fields'])]
            if root == ')':
                # place or value unknown: map only step names
                f = fields
                k = 0
                while k < len(f) and f[k] == 'before': k += 1
                if k < len(f):
                    if f[k] == 'pre': f = f[:k] + ['requires'] + f[k+1:]
                    name = f[k].strip('«»')
                    if name == 'requires' and self.fn.pre or norm(name) in self.fn.steps and f[k+1:k+2] and f[k+1] in ('result', 'ensures', 'new', 'auto', 'last', 'kept', 'true', 'false', 'given', 'invariant', 'post', 'pre'):
                        if name != 'args':
                            o, kind = self.fields_turn(f, True)
                            if kind[0] == 'partial': self.notes.append('partial after )'); return m[0]
                            return ')' + ''.join('.' + x for x in o)
                return ')' + ''.join('.' + x for x in f)
            e = env.get(root)
            if e is None: return m[0]
            if e[0] == 'place':
                o, kind = self.fields_turn(fields, True)
                if kind[0] == 'partial': self.notes.append('bare partial ' + m[0])
                return root + ''.join('.' + x for x in o)
            if e[0] == 'step':
                o, kind = self.fields_turn(fields, False, e[1])
                if kind[0] == 'partial': self.notes.append('bare partial ' + m[0])
                return root + ''.join('.' + x for x in o)
            if e[0] == 'tuple' and fields[0] in '01':
                r = index_fields(fields, e[1], False)
                if r: return root + '.' + r[1] + ''.join('.' + x for x in fields[r[0]:])
                self.notes.append('bare partial ' + m[0]); return m[0]
            if e[0] == 'partial':
                prefix, (f, names, closed, rest) = e[1], e[2]
                r = index_fields(rest + fields, names, closed)
                if r:
                    more = (rest + fields)[r[0]:]
                    return prefix + '.' + r[1] + ''.join('.' + x for x in more)
                self.notes.append('bare partial ' + m[0])
                return m[0]
            return m[0]
        return PATH.sub(sub, text)

    def body(self, text, env):
        env = dict(env)
        out = ''
        pos = 0
        LET = re.compile(r"let (" + ID + r")((?: : [^=]*?)?) =\s+(?:([^\s(){}\[\].;,@\"|]+)((?:\.(?:«[^»]+»|" + ID + r"))*)) in(?=\s)")
        ANYLET = re.compile(r"let (" + ID + r")")
        while True:
            m = LET.search(text, pos)
            if not m:
                out += self.expr(text[pos:], env); break
            out += self.expr(text[pos:m.start()], env)
            var, typ, root, fs = m[1], m[2], m[3], re.findall(r"\.(«[^»]+»|[^\s(){}\[\].;,@\"«»|]+)", m[4])
            e = env.get(root)
            if e is None:
                out += m[0]; env.pop(var, None)
            elif e[0] in ('place', 'step'):
                o, kind = self.fields_turn(fs, e[0] == 'place', e[1] if e[0] == 'step' else None)
                if kind[0] == 'place':
                    env[var] = ('place',)
                    out += f"let {var}{typ} = {root}{''.join('.'+x for x in o)} in"
                elif kind[0] == 'partial' and kind[1][0] != 'pre':
                    env[var] = ('partial', root + ''.join('.' + x for x in o), kind[1])
                    # swallow the let
                else:
                    if kind[0] == 'partial': self.notes.append('pre partial')
                    env[var] = kind if kind[0] == 'tuple' else ('step', kind[1]) if kind[0] == 'step' and kind[1] and len(o) == 1 else ('other',)
                    out += f"let {var}{typ} = {root}{''.join('.'+x for x in o)} in"
            elif e[0] == 'partial':
                prefix, (f, names, closed, rest) = e[1], e[2]
                r = index_fields(rest + fs, names, closed)
                if r:
                    more = (rest + fs)[r[0]:]
                    env[var] = ('other',)
                    out += f"let {var}{typ} = {prefix}.{r[1]}{''.join('.'+x for x in more)} in"
                else:
                    env[var] = ('partial', prefix, (f, names, closed, rest + fs))
            else:
                out += m[0]; env[var] = ('other',)
            pos = m.end()
        return re.sub(r"\n[ \t]*\n+", "\n", out) if '\n\n' in out and '\n\n' not in text else out

def turn_types(s, fn, notes):
    def place(m):
        p = m[1]
        if p.startswith('Need-'):
            n = fn.needs.get(norm_need(p[5:]))
            if n is None: notes.append('no need ' + p); return m[0]
            return 'goal.' + n
        n = fn.places.get(norm(p))
        if n is None: notes.append('no place ' + p); return m[0]
        fn.used_places.add(n)
        return n
    s = re.sub(r"tie\.([A-Z][\w'-]*)(?: invariant-[\w-]+| decreases-[\w-]+)*", place, s)
    return s

def top_split(s):
    """splits a tuple literal's inside at top-level commas"""
    depth, cur, out = 0, '', []
    for ch in s:
        if ch in '([{': depth += 1
        if ch in ')]}': depth -= 1
        if ch == ',' and depth == 0: out.append(cur); cur = ''
        else: cur += ch
    if cur.strip(): out.append(cur)
    return [x.strip() for x in out]

def flat(s, n):
    """flattens (a, (b, c)) or (a, b, c) into n parts"""
    s = s.strip()
    if n == 1: return [s]
    if not (s.startswith('(') and s.endswith(')')): return None
    # whole?
    depth = 0
    for i, ch in enumerate(s):
        if ch in '([{': depth += 1
        if ch in ')]}': depth -= 1
        if depth == 0 and i < len(s) - 1: return None
    parts = top_split(s[1:-1])
    if len(parts) == n: return parts
    if len(parts) < 2 or len(parts) > n: return None
    tail = flat(parts[-1], n - len(parts) + 1)
    return parts[:-1] + tail if tail else None

def to_record(body, names):
    # body: expression text possibly with lets; find final expr after the last top-level ' in'
    depth = 0; last = 0
    for m in re.finditer(r"[(\[{]|[)\]}]|\blet\b|(?<![\w-])in(?![\w-])|λ", body):
        t = m[0]
        if t in '([{': depth += 1
        elif t in ')]}': depth -= 1
        elif t == 'in' and depth == 0: last = m.end()
    head, tail = body[:last], body[last:]
    parts = flat(tail, len(names))
    if parts is None:
        if re.fullmatch(rf"\s*[^\s(){{}};,]+\s*", tail):
            t = tail.strip()
            parts = [t + '.1' * k + ('.0' if k < len(names) - 1 else '') for k in range(len(names))]
        elif re.match(r"\s*(omega|search|grind)\b", tail):
            parts = [tail.strip()] * len(names)
        else:
            parts = ['facts' + '.1' * k + ('.0' if k < len(names) - 1 else '') for k in range(len(names))]
            head = head + ' let facts = ' + tail.strip() + ' in'
    return head + ' record { ' + ' '.join(f'{n} = {p};' for n, p in zip(names, parts)) + ' }'

def convert(path, fn, qual, notes):
    text = open(path, encoding='utf-8').read()
    chunks = split_decls(text)
    header, uses, decls = [], [], []
    first = True
    for ch in chunks:
        lines = ch.split('\n')
        if first:
            i = 0
            while i < len(lines) and (lines[i].startswith('--') or lines[i].startswith('use ')):
                (header if lines[i].startswith('--') else uses).append(lines[i]); i += 1
            rest = '\n'.join(lines[i:]).strip('\n')
            if rest: decls.append(rest)
            first = False
        else:
            # use lines may be elsewhere
            while lines and lines[0].startswith('use '):
                uses.append(lines.pop(0))
            if '\n'.join(lines).strip(): decls.append('\n'.join(lines))
    uses = [u for u in uses if not re.search(r"\.(Statement\.\{statement\}|Tie as tie)", u)]
    inv, ans = [], []
    T = Turn(fn, notes)
    signatures(text, fn)
    loopn = {norm(o): (n, vs, ch) for ((o, n), vs), ch in zip(fn.loops, fn.changed)}
    for d in decls:
        d = d.rstrip()
        if re.search(r"tie\.close", d): continue
        m = re.search(r"^(?:abbrev |pub )*(invariant|decreases)-(\S+) : tie\.(invariant|decreases)-(\S+)\n((?:.|\n)*)$", d, re.M)
        if m:
            kind, label = m[1], m[4]
            lo = loopn.get(norm(label))
            pre = d[:m.start()]
            if lo is None:
                notes.append('no loop ' + label); inv.append(d); continue
            new, vs, ch = lo
            eq = re.match(rf"\S+((?:\s+[^\s=]+)*)\s+=\s*((?:.|\n)*)$", m[5])
            unf = ''
            body5 = m[5]
            um = re.match(r"(unfolding [^\n]*\n)", body5)
            if um: unf = um[1]; body5 = body5[um.end():]
            eq = re.match(rf"\S+((?:\s+[^\s=]+)*)\s+=\s*((?:.|\n)*)$", body5)
            args = eq[1].split()
            cur = [v for v, c in zip(vs, ch) if c]
            want = list(vs) + cur
            if len(args) != len(want):
                notes.append(f'args of {label}: {args} vs {want}')
            mapping = {}
            for i, a in enumerate(args):
                if i < len(vs):
                    f = f"l.initial.{vs[i]}" if ch[i] else f"l.{vs[i]}"
                elif i - len(vs) < len(cur):
                    f = f"l.{cur[i-len(vs)]}"
                else: f = a
                mapping[a.strip('«»')] = f
            mapping.pop('_', None)
            body = re.sub(rf"(?<![\w.'◌-])(?!\d)«?({ID})»?", lambda mm: mapping.get(mm[1], mm[0]), eq[2])
            name = f"{kind}-{new}"
            if pre.strip(): inv.append(pre.strip('\n') + f"\nabbrev pub {name} : goal.{name}\n{unf}{name} l = {body}")
            else: inv.append(f"abbrev pub {name} : goal.{name}\n{unf}{name} l = {body}")
            continue
        m = re.search(r"^(pub )?(\S+) : tie\.Need-(\S+)((?: invariant-\S+| decreases-\S+)*)\n((?:.|\n)*)$", d, re.M)
        if m:
            key = norm_need(m[3])
            if key in fn.settled and key not in fn.needs: continue
            new = fn.needs.get(key)
            if new is None:
                notes.append('no need ' + m[3]); new = 'UNKNOWN-' + m[3]
            body5 = m[5]; unf = ''
            um = re.match(r"(unfolding [^\n]*\n)", body5)
            if um: unf = um[1]; body5 = body5[um.end():]
            eq = re.match(rf"(\S+)((?:\s+[^\s=]+)*)\s+=\s*((?:.|\n)*)$", body5)
            if not eq:
                notes.append('clauses ' + m[2]); ans.append(turn_types(d, fn, notes)); continue
            args = eq[2].split()
            body = eq[3]
            if body.strip() == 'search rules' and not unf: continue
            if 'κs' in args:
                args.remove('κs')
                if 'κs' in body: notes.append('κs used in ' + m[2])
            env = {args[0]: ('place',)} if args else {}
            if args: body = collapse(body, args[0], fn.at.get(new), fn, notes, new)
            body = T.body(body, env)
            body = turn_types(body, fn, notes)
            if new in fn.asked and len(fn.asked[new]) > 1:
                b = to_record(body, fn.asked[new])
                if b is None: notes.append(f'record for {new}: {fn.asked[new]}')
                else: body = b
            pre = d[:m.start()]
            nl = '\n    ' if body.startswith('let') or '\n' in body else ' '
            ans.append(pre + f"pub {new} : goal.{new}\n{unf}{new} {' '.join(args)} ={nl}{body.strip()}")
            continue
        # helpers: places in types
        env = {}
        for mm in re.finditer(r"\((\S+) : tie\.[A-Z]", d): env[mm[1]] = ('place',)
        # f : tie.X → tie.Y ; f c = ..
        hm = re.search(r"^(?:abbrev |pub )*(\S+) : ((?:tie\.[A-Z][^→\n]*→\s*)+)", d, re.M)
        if hm:
            dm = re.search(rf"^{re.escape(hm[1])} (\S+)", d, re.M)
            if dm: env[dm[1]] = ('place',)
        for mm in re.finditer(r"^\s*(\S+)((?: [^\s=]+)*) =", d, re.M):
            pass
        name = re.search(r"^(?:abbrev |pub )*(\S+) : ", d, re.M)
        if name and name[1] in fn.gives: continue
        cur = None
        mm = re.search(rf"\((\S+) : {PL}\)", d)
        if mm: cvar, cur = mm[1], fn.places.get(norm(mm[2]))
        elif hm and env:
            cvar = list(env)[0]; cur = fn.takes.get(hm[1])
        if cur:
            head = d
            d = collapse(d, cvar, cur, fn, notes)
            env = {cvar: ('place',)}
        b = T.body(d, env)
        ans.append(turn_types(b, fn, notes))
    def used(u, body):
        m = re.match(r"use ([\w.'+«»-]+)\.\{([^}]*)\}$", u)
        if not m:
            a = re.search(r" as (\S+)$", u)
            return u if not a or re.search(rf"(?<![\w.-]){re.escape(a[1])}\.", body) else None
        keep = []
        for w in m[2].split(','):
            w = w.strip()
            n = w.split(' as ')[-1].strip()
            if '◌' in n:
                parts = [p for p in n.split('◌') if p]
                ok = all(p in body for p in parts)
            else:
                ok = re.search(rf"(?<![\w'◌-])(?<!\.){re.escape(n)}(?![\w'◌-])", body)
            if ok: keep.append(w)
        return f"use {m[1]}.{{{', '.join(keep)}}}" if keep else None
    d = os.path.dirname(path)
    # helpers that an invariant names go before it
    moved, names_moved = [], []
    def named(a):
        m = re.search(r"^(?:abbrev |pub |unfoldable |record |data )*([^\s(){}:=]+)", re.sub(r"^(--[^\n]*\n)*", "", a))
        return m[1] if m else None
    if inv:
        again = True
        while again:
            again = False
            text_inv = '\n'.join(inv + moved)
            for a in list(ans):
                n = named(a)
                if n and not a.lstrip().startswith('pub ') and 'goal.' not in a and n not in ('module',) and re.search(rf"(?<![\w.'-]){re.escape(n)}(?![\w'-])", text_inv):
                    ans.remove(a); moved.insert(0, a); names_moved.append(n); again = True; break
        moved = [re.sub(r"^((?:--[^\n]*\n)*)(abbrev |unfoldable )?(?=[^-\s])", lambda m: m[1] + (m[2] or '') + 'pub ', a, count=1) for a in moved]
        moved = [re.sub(r"^  (?!pub )(?=[a-z][^\s]* : )", "  pub ", a, flags=re.M) if re.search(r"^pub record|^(abbrev )?pub record", a, re.M) else a for a in moved]
        inv = moved + inv
        if names_moved: uses.append(f"use {qual}.Invariants.{{{', '.join(names_moved)}}}")
    head = '\n'.join(header)
    if inv:
        body = '\n\n'.join(inv)
        us = [x for x in (used(u, body) for u in uses if f"{qual}.Invariants." not in u) if x]
        open(os.path.join(d, 'Invariants.antt'), 'w').write(head + '\n' + '\n'.join(us) + f"\nuse {qual}.Given as goal\n\n" + body + '\n')
    if ans:
        body = '\n\n'.join(ans)
        us = [x for x in (used(u, body) for u in uses) if x]
        if fn.used_places: us.append(f"use {qual}.Goals.{{{', '.join(sorted(fn.used_places))}}}")
        if inv and re.search(r"(?<![\w.-])(invariant|decreases)-", body):
            ns = sorted(set(re.findall(r"(?<![\w.-])((?:invariant|decreases)-[\w-]+)", body)))
        h2 = head if not inv else re.sub(r" The measure[^.]*\.", "", head)
        open(os.path.join(d, 'Answers.antt'), 'w').write(head + '\n' + '\n'.join(us) + f"\nuse {qual}.Goals as goal\n\n" + body + '\n')
    os.remove(path)

def main():
    crate, names = sys.argv[1], json.load(open(sys.argv[2]))
    only = sys.argv[3:]
    cn = os.path.basename(os.path.abspath(crate))
    for folder, dirs, files in os.walk(os.path.join(crate, 'proofs')):
        if 'Proof.antt' in files:
            rel = os.path.relpath(folder, os.path.join(crate, 'proofs'))
            mod = rel.replace('/', '.')
            key = f"Rattle-{cn}-proofs.{mod}.Lts"
            if only and mod not in only: continue
            if key not in names:
                print(f"{mod}: no entry in names"); continue
            notes = []
            fn = Fn(names[key], None)
            if fn.dup: notes.append('dup steps ' + str(sorted(fn.dup)))
            try:
                convert(os.path.join(folder, 'Proof.antt'), fn, f"Rattle.{cn}.proofs.{mod}", notes)
                print(f"{mod}: turned" + (''.join('\n    ' + n for n in notes)))
            except Exception as e:
                import traceback
                print(f"{mod}: FAILED {e!r}"); traceback.print_exc()
main()
