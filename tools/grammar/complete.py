# What a tree writes is read as that tree.
from reader import *
PARAMS = '(x n : Terminal) (p : Place) (b : List ℕ) (next : (st : List Symbol) → Go st → Option StatementP) (stack : List Symbol)'
MARKS_USE = f'use {CR}.proofs.Marks.{{One, one, Last, last, Two, two, done, seen, Begins, begins, none}}'
o = ['-- The table reads what a tree writes as that tree.'] + HEAD + [WRITTEN_USE, TABLE_USE, READER_USE, MARKS_USE, 'use Rattle.std.proofs.lemmas.Bool.{eqb-true}', '',
'''along : (ts ts' : List Piece) (stack : List Symbol) (k : Go stack) → ts ≡ ts' → read ts stack k ≡ read ts' stack k
along ts ts' stack k e = ap (λ x. read x stack k) e

-- a form that ends before a token that it does not take
fitting-ends : (c : Bool) (r : Row) (n : Terminal) (s : Symbol) (v : Built s (chosen r n)) (r' : Turn) (w : Built s r') (d : Val s) (stack : List Symbol) (next : (st : List Symbol) → Go st → Option StatementP) (beyond : Go stack → Option StatementP) (k : Go (s ∷ stack)) → (r' ≡ Ends → on_turn s r' w stack next beyond k ≡ beyond (λ vs. k (d, vs))) → cond c (chosen r n) r' ≡ Ends → on_turn s (cond c (chosen r n) r') (pick s c (chosen r n) r' v w) stack next beyond k ≡ beyond (λ vs. k (d, vs))
fitting-ends true r n s v r' w d stack next beyond k ih h = absurd (chosen-takes r n h)
  where
    chosen-takes : (r : Row) (n : Terminal) → chosen r n ≡ Ends → ⊥
    chosen-takes (on x how more) n e = cc
    chosen-takes (spelt c more) n e = cc
    chosen-takes (before x y how more how' more') n e = either (same y n) how more how' more' e
      where
        either : (c : Bool) (how : Taking) (more : List Symbol) (how' : Taking) (more' : List Symbol) → cond c (Takes how more) (Takes how' more') ≡ Ends → ⊥
        either true how more how' more' e = cc
        either false how more how' more' e = cc
fitting-ends false r n s v r' w d stack next beyond k ih h = ih h

pub halting : (s : Symbol) (rs : List Row) (ms : Makes s rs) (d : Val s) (x : Terminal) (b : List ℕ) (n : Terminal) (p : Place) (stack : List Symbol) (next : (st : List Symbol) → Go st → Option StatementP) (beyond : Go stack → Option StatementP) (k : Go (s ∷ stack)) → find rs true x b n ≡ Ends → on_turn s (find rs true x b n) (found s rs ms true d x b n p) stack next beyond k ≡ beyond (λ vs. k (d, vs))
halting s [] ms d x b n p stack next beyond k h = refl
halting s (r ∷ rs) ms d x b n p stack next beyond k h = fitting-ends (fits r x b) r n s (made s r ms.0 n p b) (find rs true x b n) (found s rs ms.1 true d x b n p) d stack next beyond k (halting s rs ms.1 d x b n p stack next beyond k) h

-- a row that is for another token
other-row : (s : Symbol) (c : Bool) (r r' : Turn) (v : Built s r) (w : Built s r') (stack : List Symbol) (next : (st : List Symbol) → Go st → Option StatementP) (beyond : Go stack → Option StatementP) (k : Go (s ∷ stack)) → c ≡ false → on_turn s (cond c r r') (pick s c r r' v w) stack next beyond k ≡ on_turn s r' w stack next beyond k
other-row s true r r' v w stack next beyond k e = cc
other-row s false r r' v w stack next beyond k e = refl

both-left : (a b : Bool) → (a && b) ≡ true → a ≡ true
both-left true b e = refl
both-left false b e = cc

both-right : (a b : Bool) → (a && b) ≡ true → b ≡ true
both-right true b e = e
both-right false b e = cc

pub bytes-same : (a b : List ℕ) → same_bytes a b ≡ true → a ≡ b
bytes-same [] [] e = refl
bytes-same [] (y ∷ ys) e = cc
bytes-same (x ∷ xs) [] e = cc
bytes-same (x ∷ xs) (y ∷ ys) e =
    let h : x ≡ y = eqb-true x y (both-left (x == y) (same_bytes xs ys) e) in
    let g : xs ≡ ys = bytes-same xs ys (both-right (x == y) (same_bytes xs ys) e) in
    ap (λ z. z ∷ xs) h ∙ ap (λ z. y ∷ z) g

-- the token does not continue the form
abbrev pub Halts : Symbol → Terminal → Type 0
Halts s x = turn s x [] t.Finish ≡ Ends
''']
names = sorted(CALMS.items(), key=lambda kv: (len(kv[0]), int(kv[1][4:])))
done_ = set()
o.append('-- the token continues none of the forms that may be open at the end of one')
for l, nm in names:
    o += [f'abbrev pub {nm} : Terminal → Type 0', f'{nm} x = Halts {l[0]} x' + (f' × {CALMS[l[1:]]} x' if len(l) > 1 else ''), '']
for s in TABLE:
    if may_end(s):
        e = end_value(s)
        o += [f'pub {s}-end : (ts : List Piece) (stack : List Symbol) (k : Go ({s} ∷ stack)) → Halts {s} (first ts) → read ts ({s} ∷ stack) k ≡ read ts stack (λ v. k ({e}, v))',
              f'{s}-end [] stack k h = refl',
              f'{s}-end (x ∷ ts) stack k h = halting {s} {rname(s)} {mname(s)} {e} x.terminal x.bytes (first ts) x.place stack (read ts) (read_at x.terminal (first ts) x.place x.bytes (read ts) stack) k h', '']
# ---- first sets
FIRST = {}
def first_set(form):
    if form in FIRST: return FIRST[form]
    s = []
    for con, pat, items, parts in FORMS[form]['cases']:
        if not items: continue
        i = items[0]
        if is_token(i): k = [head_terminal(i)]
        elif i[0] == 'f' and i[1] == form: continue
        elif i[0] == 'f': k = first_set(i[1])
        s += [x for x in k if x not in s]
    FIRST[form] = s
    return s
for n in FORMS: first_set(n)
NAMED = {}
def starts(form):
    key = tuple(sorted(FIRST[form]))
    if key not in NAMED: NAMED[key] = 'Starts_' + form
    return NAMED[key]
LINKG = [g for (f, g) in LINKS]
need_first = []
def need(form):
    if form in need_first: return
    need_first.append(form)
    for con, pat, items, parts in FORMS[form]['cases']:
        if items and items[0][0] == 'f' and items[0][1] != form: need(items[0][1])
for g in LINKG: need(g)
need_first = [n for n in FORMS if n in need_first]
out_first = []
for n in need_first:
    nm = starts(n)
for key, nm in NAMED.items():
    o += [f'abbrev {nm} : Terminal → Type 0'] + [f'{nm} t.{x} = Unit {{0}}' for x in key] + [f'{nm} _ = ⊥', '']
def widen(f, g):   # Starts f -> Starts g
    return None if starts(f) == starts(g) else f'{starts(f)}-{starts(g)}'
wid = {}
def first_lemma(n, ind):
    r = [f'{ind}{n}-first : (x : {FORMS[n]["type"]}) (ts rest : List Piece) → Spells (of_{n} x) ts rest → {starts(n)} (first ts)']
    for con, pat, items, parts in FORMS[n]['cases']:
        i = items[0]
        if is_token(i): r.append(f'{ind}{n}-first {pat} ts rest h = begins {starts(n)} _ ts rest tt h'); continue
        lets = []; sp, rs = 'h', 'rest'; R = list(items); c = 0
        while len(R) > 1:
            v = f'x{c}'; c += 1
            lets.append(f'let {v} = two ({pexpr(R[:-1])}) ({pexpr(R[-1:])}) ts {rs} {sp} in'); rs, sp = f'{v}.mid', f'{v}.before'; R.pop()
        g = i[1]; w = widen(g, n) if g != n else None
        e = f'{g}-first {i[2]} ts {rs} {sp}'
        if w: wid[w] = (g, n); e = f'{w} (first ts) ({e})'
        r.append(f'{ind}{n}-first {pat} ts rest h = ' + ' '.join(lets) + ' ' + e)
    return r
def pexpr(items):
    return ' ++ '.join((i[2] if i[0] == 'g' else expr1(i)) for i in items) if items else '[]'
body = []
groups = []; ns = list(need_first)
while ns:
    n = ns[0]
    if n in SCALARS: blk = [m for m in ns if m in SCALARS]
    elif n in RELATIONS: blk = [m for m in ns if m in RELATIONS]
    else: blk = [n]
    groups.append(blk); ns = [m for m in ns if m not in blk]
for blk in groups:
    if len(blk) > 1:
        body.append('mutual')
        for n in blk: body += first_lemma(n, '  ') + ['']
    else: body += first_lemma(blk[0], '') + ['']
for w, (f, g) in wid.items():
    o += [f'{w} : (x : Terminal) → {starts(f)} x → {starts(g)} x'] + [f'{w} t.{x} h = tt' for x in sorted(FIRST[f])] + [f'{w} _ h = absurd h', '']
o += body
# ---- links
LOOKS = {}   # links beside which the form has a row for a name that is spelled so: what stands behind a name of the other form
for (f, g) in LINKS:
    if any(r[0] == 'spelt' for r in TABLE[FORMS[f]['symbol']]['rows']):
        found = {r[5][0][1] for r in EXP[FORMS[g]['symbol']] if r[1] == 'Name'}
        assert len(found) == 1, (f, g, found)
        LOOKS[(f, g)] = found.pop()
def second_lemma(n, x):
    r = [f'{n}-second : (x : {FORMS[n]["type"]}) (ts rest : List Piece) → Spells (of_{n} x) ts rest → first ts ≡ t.Name → second ts ≡ t.{x}']
    for con, pat, items, parts in FORMS[n]['cases']:
        head = f'{n}-second {pat} ts rest h name ='
        if items[0][0] == 'f': r.append(f'{head} let x0 = two ({pexpr(items[:1])}) ({pexpr(items[1:])}) ts rest h in {items[0][1]}-second {items[0][2]} ts x0.mid x0.before name')
        elif items[0][0] == 'name':
            assert items[1] == ('fx', x), (n, con)
            r.append(f'{head} let x0 = one ({mark(items[0])}) ({pexpr(items[1:])}) ts rest h in ap second x0.is ∙ begins (λ z. z ≡ t.{x}) _ x0.left rest refl x0.spells')
        else: r.append(f'{head} absurd (begins (λ z. z ≡ t.Name → ⊥) _ ts rest (λ z. cc) h name)')
    return r + ['']
def look_lemmas(f, g, st, k):
    """Behind a name that is spelled so, the rest of the other form takes what the form of this link has there, and makes the same."""
    fs, x = FORMS[f]['symbol'], LOOKS[(f, g)]
    row = next(r for r in TABLE[fs]['rows'] if r[0] == 'spelt')
    w, [rest] = word_name(row[1]), row[4]
    of_rest = next(r for r in TABLE[rest]['rows'] if r[0] == 'on' and r[1] == x)
    more = next(r for r in EXP[fs] if r[0] == 'on' and r[1] == 'Name')[5]
    assert more == [('Just', x)] + of_rest[4], (more, of_rest)
    made = vs(of_rest[5], 'v.1')
    spelled = re.sub(r'\bq\b', 'p', made)
    end = 'v' + '.1' * len(more)
    forms = ' ∷ '.join(sym(y) for y in more)
    r = [f'{rest}-goes_on : (x n : Terminal) (p q : Place) (b : List ℕ) (next : (st : List Symbol) → Go st → Option StatementP) (stack : List Symbol) (k : Go ({fs} ∷ stack)) → x ≡ t.{x} → read_at x n q b next ({rest} ∷ stack) (λ v. k (v.0 p, v.1)) ≡ read_at x n q b next ({forms} ∷ stack) (λ v. k ({spelled}, {end}))',
         f'{rest}-goes_on x n p q b next stack k is = subst (λ z. read_at z n q b next ({rest} ∷ stack) (λ v. k (v.0 p, v.1)) ≡ read_at z n q b next ({forms} ∷ stack) (λ v. k ({spelled}, {end}))) (sym is) refl', '']
    either = lambda b: f'read_at t.Name (first ts) p {b} (read ts) ({fs} ∷ stack) k ≡ read_at t.Name (first ts) p {b} (read ts) {st} {k}'
    r += [f'{f}-named : (p : Place) (b : List ℕ) (ts : List Piece) (stack : List Symbol) (k : Go ({fs} ∷ stack)) (c : Bool) → same_bytes {w} b ≡ c → first ts ≡ t.{x} → {either("b")}',
          f'{f}-named p b [] stack k c e is = absurd (no-end is)', '  where', f'    no-end : t.Finish ≡ t.{x} → ⊥', '    no-end e = cc',
          f'{f}-named p b (y ∷ ts) stack k true e is = subst (λ z. {either("z").replace("first ts", "first (y ∷ ts)").replace("read ts", "read (y ∷ ts)")}) (bytes-same {w} b e) ({rest}-goes_on y.terminal (first ts) p y.place y.bytes (read ts) stack k is)',
          f'{f}-named p b (y ∷ ts) stack k false e is = other-row {fs} (same_bytes {w} b) (Takes Plain ({rest} ∷ [])) (Takes Plain ({forms} ∷ [])) (λ v. {vs(row[5], "v")}) (λ v. {spelled.replace(w, "b")}) stack (read (y ∷ ts)) (read_at t.Name y.terminal p b (read (y ∷ ts)) stack) k e', '']
    r += [f'{f}-is-{g} : (x : Terminal) (p : Place) (b : List ℕ) (ts : List Piece) (stack : List Symbol) (k : Go ({fs} ∷ stack)) → {starts(g)} x → (x ≡ t.Name → first ts ≡ t.{x}) → read_at x (first ts) p b (read ts) ({fs} ∷ stack) k ≡ read_at x (first ts) p b (read ts) {st} {k}']
    for y in sorted(FIRST[g]): r.append(f'{f}-is-{g} t.{y} p b ts stack k h g = ' + (f'{f}-named p b ts stack k (same_bytes {w} b) refl (g refl)' if y == 'Name' else 'refl'))
    r += [f'{f}-is-{g} _ p b ts stack k h g = absurd h', '']
    r += [f'{f}-as-{g} : (ts : List Piece) (stack : List Symbol) (k : Go ({fs} ∷ stack)) → {starts(g)} (first ts) → (first ts ≡ t.Name → second ts ≡ t.{x}) → read ts ({fs} ∷ stack) k ≡ read ts {st} {k}',
          f'{f}-as-{g} [] stack k h g = absurd h', f'{f}-as-{g} (x ∷ ts) stack k h g = {f}-is-{g} x.terminal x.place x.bytes ts stack k h g', '']
    return r
for (f, g), (gs, c, mk) in LINKS.items():
    fs = FORMS[f]['symbol']
    if c is None:
        st = f'({gs} ∷ stack)'; k = f'(λ v. k ({mk.replace("$0", "v.0")}, v.1))'
    else:
        st = f'({gs} ∷ {sym(c)} ∷ stack)'; k = f'(λ v. k ({mk.replace("$0", "v.0").replace("$1", "v.1.0")}, v.1.1))'
    if (f, g) in LOOKS:
        chain = [g]
        while FORMS[chain[-1]]['cases'][0][2][0][0] == 'f': chain.append(FORMS[chain[-1]]['cases'][0][2][0][1])
        for n in reversed(chain): o += second_lemma(n, LOOKS[(f, g)])
        o += look_lemmas(f, g, st, k)
        continue
    o += [f'{f}-is-{g} : {PARAMS} (k : Go ({fs} ∷ stack)) → {starts(g)} x → read_at x n p b next ({fs} ∷ stack) k ≡ read_at x n p b next {st} {k}']
    for x in sorted(FIRST[g]):
        two_ = [r for r in EXP[gs] if r[1] == x and r[0] == 'first']
        if two_: o += [f'{f}-is-{g} t.{x} t.{two_[0][2]} p b next stack k h = refl', f'{f}-is-{g} t.{x} _ p b next stack k h = refl']
        else: o += [f'{f}-is-{g} t.{x} n p b next stack k h = refl']
    o += [f'{f}-is-{g} _ n p b next stack k h = absurd h', '']
    o += [f'{f}-as-{g} : (ts : List Piece) (stack : List Symbol) (k : Go ({fs} ∷ stack)) → {starts(g)} (first ts) → read ts ({fs} ∷ stack) k ≡ read ts {st} {k}',
          f'{f}-as-{g} [] stack k h = absurd h', f'{f}-as-{g} (x ∷ ts) stack k h = {f}-is-{g} x.terminal (first ts) x.place x.bytes (read ts) stack k h', '']
o += ['''-- a "-" that no integer follows
dash-takes : (n : Terminal) (p : Place) (b : List ℕ) (next : (st : List Symbol) → Go st → Option StatementP) (stack : List Symbol) (k : Go (TheSign ∷ stack)) → (n ≡ t.Digits → ⊥) → read_at t.Dash n p b next (TheSign ∷ stack) k ≡ next (TheSign ∷ stack) (λ v. k (Negate p v.0, v.1))
dash-takes t.Digits p b next stack k h = absurd (h refl)
dash-takes _ p b next stack k h = refl
''']
# ---- first of nullable forms, for any property
NULLFIRST = {}
def null_first(n):
    if n in NULLFIRST: return
    keys = []
    r = []
    for con, pat, items, parts in FORMS[n]['cases']:
        if not items: r.append(('', pat)); continue
        assert is_token(items[0]), n
        keys.append(head_terminal(items[0])); r.append((head_terminal(items[0]), pat))
    sig = f'{n}-start : (P : Terminal → Type 0) (x : {FORMS[n]["type"]}) (ts rest : List Piece) → Spells (of_{n} x) ts rest → ' + ''.join(f'P t.{k} → ' for k in keys) + 'P (first rest) → P (first ts)'
    ks = ' '.join(f'h{i}' for i in range(len(keys)))
    lines = [sig]
    for k, pat in r:
        if not k: lines.append(f'{n}-start P {pat} ts rest h {ks} e = none P ts rest h e')
        else: lines.append(f'{n}-start P {pat} ts rest h {ks} e = begins P _ ts rest h{keys.index(k)} h')
    NULLFIRST[n] = (keys, lines + [''])
def pname(P): return f'(Halts {P[0]})' if len(P) == 1 else CALMS[P]
PENDING = {('cmp', 'OneSum'): 'MoreCmp', ('primary', 'AttributeName'): 'AfterName'}
class Seq:
    def __init__(self, form, outer): self.form, self.outer, self.lets, self.n = form, outer, [], 0
    def fresh(self): v = f'x{self.n}'; self.n += 1; return v
    def prove(self, P, items, idx, spans, rest):
        """P at the first token of item idx; spans[idx] = (a, b, spells)"""
        if not P: return 'tt'
        if idx == len(items): return self.at_end(P)
        i = items[idx]
        if is_token(i): return refls(P)
        a, b, sp = spans[idx]
        if i[0] == 'g': return f'(begins {pname(P)} _ {a} {b} {refls(P)} {sp})'
        assert nullable(i[1]), (self.form, i)
        null_first(i[1])
        ks = ' '.join(refls(P) for _ in NULLFIRST[i[1]][0])
        return f'({i[1]}-start {pname(P)} {i[2]} {a} {b} {sp} {ks} {self.prove(P, items, idx + 1, spans, rest)})'
    def run(self, items, ts, rest, h, stack_end, top):
        """the chain from reading at ts to reading at rest"""
        self.at_end = getattr(self, 'at_end')
        chain = []; lead = []; j = 0
        while j < len(items) and is_token(items[j]):
            v = self.fresh()
            self.lets.append(f'let {v} = one ({mark(items[j])}) ({pexpr(items[j+1:])}) {ts} {rest} {h} in')
            lead.append((v, items[j])); ts, h = f'{v}.left', f'{v}.spells'; j += 1
        if lead:
            eq = f'done {ts} {rest} {h}' if j == len(items) else None
            for v, m in reversed(lead):
                eq = f'{v}.is' if eq is None else f'{v}.is ∙ ap (λ z. seen ({mark(m)}) {v}.place {v}.bytes ∷ z) ({eq})'
            chain.append(f'along {self.ts0(top)} _ _ _ ({eq})')
            if lead[-1][1][0] == 'apart':
                v = lead[-1][0]; chain.append(f'dash-takes (first {v}.left) p {v}.bytes (read {v}.left) stack go {v}.aside')
        items = items[j:]
        spans = [None] * len(items); R = list(items); rs, sp = rest, h
        while R:
            i = R[-1]; idx = len(R) - 1
            if is_token(i):
                v = self.fresh(); self.lets.append(f'let {v} = last ({pexpr(R[:-1])}) ({mark(i)}) {ts} {rs} {sp} in'); rs, sp = '_', f'{v}.spells'
            elif len(R) > 1:
                v = self.fresh(); self.lets.append(f'let {v} = two ({pexpr(R[:-1])}) ({pexpr(R[-1:])}) {ts} {rs} {sp} in')
                spans[idx] = (f'{v}.mid', rs, f'{v}.after'); rs, sp = f'{v}.mid', f'{v}.before'
            else: spans[idx] = (ts, rs, sp)
            R.pop()
        for idx, i in enumerate(items):
            if is_token(i): continue
            a, b, s_ = spans[idx]
            last_one = idx == len(items) - 1 and top
            if i[0] == 'g':
                sub = self.sub(); 
                self.gts = a
                chain += self.run(i[1], a, b, s_, None, False)
                continue
            g = i[1]; first_item = idx == 0 and not chain
            oc = open_calm(g)
            pr = self.prove(oc, items, idx + 1, spans, rest)
            st, k = '_', '_'
            if last_one: st = stack_end
            if first_item and top:
                if g == self.form: st, k = 'stack', 'go'
                else: chain.append(f'{self.form}-as-{g} {a} stack go ({g}-first {i[2]} {a} {b} {s_})' + (f' ({g}-second {i[2]} {a} {b} {s_})' if (self.form, g) in LOOKS else ''))
            tail = TAIL[g]
            args = f'{i[2]} {a} {b} {s_}' + (f' {pr}' if oc else '')
            chain.append(f'{g}-reads {args} {st} {k}')
            nxt = items[idx + 1] if idx + 1 < len(items) else None
            if tail and not (g == self.form and idx == 0) and not (nxt and is_token(nxt)):
                chain.append(f'{tail}-end {b} _ _ {self.prove((tail,), items, idx + 1, spans, rest)}')
        return chain
    def sub(self): pass
    def ts0(self, top): return 'ts' if top else self.gts
def reads(n, ind):
    f = FORMS[n]; oc = open_calm(n); tail = TAIL[n]
    ctype = f' → {CALMS[oc]} (first rest)' if oc else ''
    cvar = ' calm' if oc else ''
    end = f'read rest ({tail} ∷ stack) (λ v. k (v.0 x, v.1))' if tail else 'read rest stack (λ v. k (x, v))'
    r = [f'{ind}pub {n}-reads : (x : {f["type"]}) (ts rest : List Piece) → Spells (of_{n} x) ts rest{ctype} → (stack : List Symbol) (k : Go ({f["symbol"]} ∷ stack)) → read ts ({f["symbol"]} ∷ stack) k ≡ {end}']
    for con, pat, items, parts in f['cases']:
        head = f'{ind}{n}-reads {pat} ts rest sp{cvar} stack go ='
        if not items:
            r.append(f'{head} along ts rest ({f["symbol"]} ∷ stack) go (done ts rest sp) ∙ {f["symbol"]}-end rest stack go {project("calm", oc, (f["symbol"],))}'); continue
        s = Seq(n, oc)
        s.at_end = lambda P: project('calm', oc, P)
        pend = PENDING.get((n, con))
        se = f'({tail} ∷ stack)' if tail else ('stack' if not pend else f'({pend} ∷ stack)')
        # symbols that stay behind the last form of a link
        if items[0][0] == 'f' and (n, items[0][1]) in LINKS:
            c = LINKS[(n, items[0][1])][1]
            if len(items) == 1 and c and not tail and not pend: raise Exception((n, con))
        chain = s.run(items, 'ts', 'rest', 'sp', se, True)
        if pend: chain.append(f'{pend}-end rest stack _ {project("calm", oc, (pend,))}')
        if len(s.lets) == 0: r.append(head + ' ' + ' ∙ '.join(chain))
        else: r += [head] + [f'{ind}    {l}' for l in s.lets] + [f'{ind}    ' + ' ∙ '.join(chain)]
    return r
body = []
for blk in [[n] if n not in SCALARS + RELATIONS else (SCALARS if n == 'scalar' else RELATIONS if n == 'rel' else []) for n in FORMS if FORMS[n]['symbol']]:
    if len(blk) > 1:
        body.append('mutual')
        for n in blk: body += reads(n, '  ') + ['']
    elif blk: body += reads(blk[0], '') + ['']
for n, (keys, lines) in NULLFIRST.items(): o += lines
o += body
o += ['''-- the value, or this one
some_or : StatementP → Option StatementP → StatementP
some_or x None = x
some_or x (Some y) = y

-- two trees that write the same tokens are equal
pub written-once : (x y : StatementP) (ts : List Piece) → Spells (of_statement x) ts [] → Spells (of_statement y) ts [] → x ≡ y
unfolding some_or
written-once x y ts h g = ap (some_or x) (sym (statement-reads x ts [] h [] (λ v. v.0)) ∙ statement-reads y ts [] g [] (λ v. v.0))''']
write('proofs/Complete.antt', '\n'.join(o) + '\n')
