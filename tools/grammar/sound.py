# What the table accepts is written by what it reads.
from complete import *
def rtuple(m, first=False):
    return {'fixed':'refl','at':'(refl, refl)','spelled':'(refl, refl, refl)'}[m]
def markof(m, t, spelling):
    return {'fixed':f'fixed t.{t}','at':f'at t.{t} p','spelled':f'spelled t.{t} p {spelling}','apart':'apart t.Dash p t.Digits'}[m]
def sound_case(s, t, forms, make, mk, seq, extra='', spelling='b'):
    d = TABLE[s]; m = len(forms); isafter = d['kind'] == 'after'
    def h(i): return 'h' if m == 1 else ('h' + '.2' * i + '.1' if i < m - 1 else 'h' + '.2' * (m - 1))
    R = '(refl, refl, e)' if mk == 'apart' else rtuple(mk)
    piece = f'(piece_at t.{t} p {spelling})'
    nilp = '(nil h)' if m == 0 else '(nil refl)'
    tok = f'(cons ({markof(mk, t, spelling)}) [] {piece} ts _ {R} {nilp})'
    def item(x):
        if x == 'T': return tok
        if x == 'G': return 'g'
        if isinstance(x, int): return h(x)
        if x[0] == 'loose': return f'(loose_word _ _ _ _ {h(x[1])})'
        _, i, args, inner_ = x
        start = 'from' if inner_[0] == 'G' else f'({piece[1:-1]} ∷ ts)'
        return f'({h(i)} ' + ' '.join(paren(vs(a, 'vs')) for a in args) + f' {start} {join_(inner_)})'
    def join_(l):
        acc = item(l[0])
        for x in l[1:]: acc = f'(join _ _ _ _ _ {acc} {item(x)})'
        return acc
    if seq is None: seq = (['G'] if isafter else []) + ['T'] + list(range(m))
    body = join_(seq)
    ps = ''.join(f' {p}' for p, _ in d['params']) + ' from g' if isafter else ''
    return f'(λ p{" b" if spelling == "b" else ""} ts{extra} vs rest h{ps}. {body})'
def srow(s, r):
    if r[0] == 'on': return sound_case(s, r[1], (r[3] or []) + r[4], r[5], r[6], r[7])
    if r[0] == 'spelt': return sound_case(s, 'Name', r[4], r[5], r[6], r[7], spelling=word_name(r[1]))
    a, b = r[3], r[4]
    return '(' + sound_case(s, r[1], (a[1] or []) + a[2], a[3], a[4], a[5], ' e') + ', ' + sound_case(s, r[1], (b[1] or []) + b[2], b[3], b[4], b[5], ' e') + ')'
def sname(s): return snake(s[3:] if s.startswith('The') else s) + '-sound'
def writes(s):
    d = TABLE[s]
    if d['kind'] == 'form': return f'Writes {s} v ts rest = Spells ({d["marks"]}) ts rest'
    ps = ' '.join(f'({p} : {t})' for p, t in d['params'])
    return f'Writes {s} v ts rest = {ps} (from : List Piece) → Spells ({d["prefix"]}) from ts → Spells ({d["result"]} (v {" ".join(p for p, _ in d["params"])})) from rest'
o = ['-- What the table reads writes the tokens.'] + HEAD + [WRITTEN_USE, TABLE_USE, READER_USE,
 f'use {CR}.specs.Verdict.{{Whole, no_limits, verdict}}', f'use {CR}.proofs.Marks.{{Spells-append}}', f'use {CR}.proofs.Accepted.{{Agree, agrees}}', f'use {CR}.proofs.Complete.{{both-left, both-right, bytes-same}}', 'use Rattle.std.proofs.lemmas.Bool.{eqb-true}', '',
'''pub nil : {ts rest : List Piece} → ts ≡ rest → Spells [] ts rest
unfolding Spells
nil h = h

pub cons : (m : Mark) (ms : List Mark) (x : Piece) (ts rest : List Piece) → IsMark m x (first ts) → Spells ms ts rest → Spells (m ∷ ms) (x ∷ ts) rest
unfolding Spells
cons m ms x ts rest h g = (h, g)

join : (a b : List Mark) (ts mid rest : List Piece) → Spells a ts mid → Spells b mid rest → Spells (a ++ b) ts rest
join a b ts mid rest h g = Spells-append a b ts mid rest h g

loose_word : (p : Place) (b : List ℕ) (ts rest : List Piece) → Spells (spelled t.Name p b ∷ []) ts rest → Spells (worded b ∷ []) ts rest
unfolding Spells
loose_word p b [] rest h = h
loose_word p b (y ∷ ts) rest h = ((h.0.0, h.0.2), h.1)

-- what a form's value writes; the rest of a form makes the whole from the part before it
abbrev pub Writes : (s : Symbol) → Val s → List Piece → List Piece → Type 0''']
o += [writes(s) for s in TABLE] + ['Writes (Just x) v ts rest = Spells (token x) ts rest', 'Writes (Worded w) v ts rest = Spells (lexeme t.Name v w) ts rest', 'Writes (Shut outer) v ts rest = ts ≡ rest', '']
o += ['''abbrev pub WritesAll : (stack : List Symbol) → Vals stack → List Piece → List Piece → Type 0
WritesAll [] vs ts rest = ts ≡ rest
WritesAll (s ∷ stack) vs ts rest = (mid : List Piece) × Writes s vs.0 ts mid × WritesAll stack vs.1 mid rest

-- the same without an equation at the end
abbrev pub Chain : (stack : List Symbol) → Vals stack → List Piece → List Piece → Type 0
Chain [] vs ts rest = ts ≡ rest
Chain (s ∷ []) vs ts rest = Writes s vs.0 ts rest
Chain (s ∷ (z ∷ stack)) vs ts rest = (mid : List Piece) × Writes s vs.0 ts mid × Chain (z ∷ stack) vs.1 mid rest

chain : (stack : List Symbol) (vs : Vals stack) (ts rest : List Piece) → WritesAll stack vs ts rest → Chain stack vs ts rest
chain [] vs ts rest h = h
chain (s ∷ []) vs ts rest h = subst (λ r. Writes s vs.0 ts r) h.2 h.1
chain (s ∷ (z ∷ stack)) vs ts rest h = (h.0, h.1, chain (z ∷ stack) vs.1 h.0 rest h.2)

unchain : (stack : List Symbol) (vs : Vals stack) (ts rest : List Piece) → Chain stack vs ts rest → WritesAll stack vs ts rest
unchain [] vs ts rest h = h
unchain (s ∷ []) vs ts rest h = (rest, h, refl)
unchain (s ∷ (z ∷ stack)) vs ts rest h = (h.0, h.1, unchain (z ∷ stack) vs.1 h.0 rest h.2)

abbrev piece_at : Terminal → Place → List ℕ → Piece
piece_at x p b = record { terminal = x; place = p; bytes = b }

-- a row: what its forms write, behind its token, is what the whole writes
abbrev pub SoundCase : (s : Symbol) (how : Taking) (more : List Symbol) → Case s how more → Piece → List Piece → Type 0
SoundCase s how more f x ts = (vs : Vals (inner how ++ more)) (rest : List Piece) → Chain (inner how ++ more) vs ts rest → Writes s (f x.place x.bytes vs) (x ∷ ts) rest

abbrev pub SoundRow : (s : Symbol) (r : Row) → Make s r → Type 0
SoundRow s (on x how more) f = (p : Place) (b : List ℕ) (ts : List Piece) → SoundCase s how more f (piece_at x p b) ts
SoundRow s (spelt c more) f = (p : Place) (ts : List Piece) → SoundCase s Plain more f (piece_at t.Name p c) ts
SoundRow s (before x y how more how' more') f = ((p : Place) (b : List ℕ) (ts : List Piece) → first ts ≡ y → SoundCase s how more f.0 (piece_at x p b) ts) × ((p : Place) (b : List ℕ) (ts : List Piece) → (first ts ≡ y → ⊥) → SoundCase s how' more' f.1 (piece_at x p b) ts)

abbrev pub SoundRows : (s : Symbol) (rs : List Row) → Makes s rs → Type 0
SoundRows s [] ms = Unit {0}
SoundRows s (r ∷ rs) ms = SoundRow s r ms.0 × SoundRows s rs ms.1

-- of a form that is another
over-sound : (a b : Symbol) (f : Val a → Val b) → ((u : Val a) (from rest : List Piece) → Writes a u from rest → Writes b (f u) from rest) → (r : Row) (m : Make a r) → SoundRow a r m → SoundRow b r (over_make a b f r m)
over-sound a b f g (on x how more) m h = λ p c ts vs rest k. g (m p c vs) _ rest (h p c ts vs rest k)
over-sound a b f g (spelt w more) m h = λ p ts vs rest k. g (m p w vs) _ rest (h p ts vs rest k)
over-sound a b f g (before x y how more how' more') m h = ((λ p c ts e vs rest k. g (m.0 p c vs) _ rest (h.0 p c ts e vs rest k)), (λ p c ts e vs rest k. g (m.1 p c vs) _ rest (h.1 p c ts e vs rest k)))

over-sounds : (a b : Symbol) (f : Val a → Val b) → ((u : Val a) (from rest : List Piece) → Writes a u from rest → Writes b (f u) from rest) → (rs : List Row) (ms : Makes a rs) → SoundRows a rs ms → SoundRows b rs (over_makes a b f rs ms)
over-sounds a b f g [] ms h = tt
over-sounds a b f g (r ∷ rs) ms h = (over-sound a b f g r ms.0 h.0, over-sounds a b f g rs ms.1 h.1)

-- of a form that is another and then more
unlast : (xs : List Symbol) (c : Symbol) (vs : Vals (xs ++ c ∷ [])) (ts rest : List Piece) → WritesAll (xs ++ c ∷ []) vs ts rest → (mid : List Piece) × WritesAll xs (last_of xs c vs).0 ts mid × Writes c (last_of xs c vs).1 mid rest
unlast [] c vs ts rest h = (ts, refl, subst (λ r. Writes c vs.0 ts r) h.2 h.1)
unlast (x ∷ xs) c vs ts rest h = let r = unlast xs c vs.1 h.0 rest h.2 in (r.0, (h.0, h.1, r.1), r.2)

unlast_behind : (xs ys : List Symbol) (c : Symbol) (vs : Vals (xs ++ (ys ++ c ∷ []))) (ts rest : List Piece) → WritesAll (xs ++ (ys ++ c ∷ [])) vs ts rest → (mid : List Piece) × WritesAll (xs ++ ys) (last_behind xs ys c vs).0 ts mid × Writes c (last_behind xs ys c vs).1 mid rest
unlast_behind [] ys c vs ts rest h = unlast ys c vs ts rest h
unlast_behind (x ∷ xs) ys c vs ts rest h = let r = unlast_behind xs ys c vs.1 h.0 rest h.2 in (r.0, (h.0, h.1, r.1), r.2)

abbrev Glue : (a b c : Symbol) → (Val a → Val c → Val b) → Type 0
Glue a b c f = (u : Val a) (w : Val c) (from mid rest : List Piece) → Writes a u from mid → Writes c w mid rest → Writes b (f u w) from rest

then-case : (a b c : Symbol) (f : Val a → Val c → Val b) → Glue a b c f → (how : Taking) (more : List Symbol) (m : Case a how more) (x : Piece) (ts : List Piece) → SoundCase a how more m x ts → SoundCase b how (more ++ c ∷ []) (then_case a b c f how more m) x ts
then-case a b c f glue how more m x ts h vs rest all =
    let r = unlast_behind (inner how) more c vs ts rest (unchain (inner how ++ (more ++ c ∷ [])) vs ts rest all) in
    let u = (last_behind (inner how) more c vs).0 in
    glue (m x.place x.bytes u) (last_behind (inner how) more c vs).1 (x ∷ ts) r.0 rest (h u r.0 (chain (inner how ++ more) u ts r.0 r.1)) r.2

then-sound : (a b c : Symbol) (f : Val a → Val c → Val b) → Glue a b c f → (r : Row) (m : Make a r) → SoundRow a r m → SoundRow b (then_row r (c ∷ [])) (then_make a b c f r m)
then-sound a b c f glue (on x how more) m h = λ p w ts. then-case a b c f glue how more m (piece_at x p w) ts (h p w ts)
then-sound a b c f glue (spelt w more) m h = λ p ts. then-case a b c f glue Plain more m (piece_at t.Name p w) ts (h p ts)
then-sound a b c f glue (before x y how more how' more') m h = ((λ p w ts e. then-case a b c f glue how more m.0 (piece_at x p w) ts (h.0 p w ts e)), (λ p w ts e. then-case a b c f glue how' more' m.1 (piece_at x p w) ts (h.1 p w ts e)))

then-sounds : (a b c : Symbol) (f : Val a → Val c → Val b) → Glue a b c f → (rs : List Row) (ms : Makes a rs) → SoundRows a rs ms → SoundRows b (rs ▹ (c ∷ [])) (then_makes a b c f rs ms)
then-sounds a b c f glue [] ms h = tt
then-sounds a b c f glue (r ∷ rs) ms h = (then-sound a b c f glue r ms.0 h.0, then-sounds a b c f glue rs ms.1 h.1)

append-sounds : (s : Symbol) (xs ys : List Row) (ms : Makes s xs) (ns : Makes s ys) → SoundRows s xs ms → SoundRows s ys ns → SoundRows s (xs ++ ys) (append_makes s xs ys ms ns)
append-sounds s [] ys ms ns h g = g
append-sounds s (r ∷ xs) ys ms ns h g = (h.0, append-sounds s xs ys ms.1 ns h.1 g)
''']
def glue(s, r):
    """for over: λ u from rest h. ..; for then: λ u w from mid rest h g. .."""
    a = r[1]
    if r[0] == 'over': return '(λ u from rest h. h)'
    c = r[2]; e = r[-1]
    if isinstance(c, str) and TABLE[c]['kind'] == 'after':
        m = re.match(r'^\$1 (.*)$', e); arg = m[1].replace('$0', 'u')
        return f'(λ u w from mid rest h g. g {arg} from h)'
    return '(λ u w from mid rest h g. join _ _ _ _ _ h g)'
def sparts(s):
    parts = []; cur = []
    def tup(c):
        e = 'tt'
        for x in reversed(c): e = f'({x}, {e})'
        return e
    for r in TABLE[s]['rows']:
        if r[0] in OWN: cur.append(srow(s, r))
        else:
            if cur: parts.append(tup(cur)); cur = []
            if r[0] == 'over': parts.append(f'over-sounds {r[1]} {s} {link_fun(r)} {glue(s, r)} {rname(r[1])} {mname(r[1])} {sname(r[1])}')
            else: parts.append(f'then-sounds {r[1]} {s} {paren(sym(r[2]))} {link_fun(r)} {glue(s, r)} {rname(r[1])} {mname(r[1])} {sname(r[1])}')
    if cur: parts.append(tup(cur))
    return parts
for s in TABLE:
    ps = sparts(s); rs = group_rows(s); ms = [p[1] for p in makes_parts(s)]
    o.append(f'{sname(s)} : SoundRows {s} {rname(s)} {mname(s)}')
    if len(ps) == 1:
        rows_ = TABLE[s]['rows']
        if rows_[0][0] in OWN and len(rows_) > 1:
            o.append(f'{sname(s)} = ' + files.pairs_of([srow(s, r) for r in rows_]))
        else: o.append(f'{sname(s)} = {ps[0]}')
    else:
        e = paren(ps[-1]); tail = rs[-1]; mt = paren(ms[-1])
        for p, r, m in zip(reversed(ps[:-1]), reversed(rs[:-1]), reversed(ms[:-1])):
            e = f'(append-sounds {s} {paren(r)} {paren(tail)} {paren(m)} {mt} {paren(p)} {e})'
            mt = f'(append_makes {s} {paren(r)} {paren(tail)} {paren(m)} {mt})'
            tail = f'({r} ++ {tail})'
        o.append(f'{sname(s)} = {e}')
    o.append('')
def end_sound(s):
    d = TABLE[s]
    if d['kind'] == 'after': return 'λ rest ' + ' '.join(p for p, _ in d['params']) + ' from g. g'
    return 'λ rest. nil refl'
o += ['sounds : (s : Symbol) → SoundRows s (rows s) (makes s)'] + [f'sounds {s} = {sname(s)}' for s in TABLE]
o += ['sounds (Just x) = ((λ p b ts vs rest h. cons (fixed x) [] (piece_at x p b) ts _ refl (nil h)), tt)',
      'sounds (Worded w) = ((λ p ts vs rest h. cons (spelled t.Name p w) [] (piece_at t.Name p w) ts _ (refl, refl, refl) (nil h)), tt)', 'sounds (Shut outer) = tt', '']
o += ['-- a form that ends before its first token writes nothing', 'abbrev EndSound : (s : Symbol) (e : Bool) → Ended s e → Type 0', 'EndSound s true v = (rest : List Piece) → Writes s v rest rest', 'EndSound s false v = Unit {0}', '',
 'end-sounds : (s : Symbol) → EndSound s (may_end s) (end_value s)'] + [f'end-sounds {s} = {end_sound(s)}' for s in TABLE if may_end(s)] + ['end-sounds (Shut outer) = λ rest. refl', 'end-sounds _ = tt', '']
o += ['''at_number : (x : Terminal) (P : Terminal → Terminal → Type 0) → ((y : Terminal) → P y y) → (y : Terminal) → number x ≡ number y → P x y
at_number x P h y e = subst (λ z. P z y) (sym (numbered x) ∙ ap of_number e ∙ numbered y) (h y)
  where
    all : List Terminal
    all = ALL
    of_number : ℕ → Terminal
    of_number n = get_or all n t.Finish
    numbered : (x : Terminal) → of_number (number x) ≡ x
    unfolding of_number all
    numbered t.All = refl
    numbered _ = refl
'''.replace('ALL', ' ∷ '.join(f't.{x}' for x in TERMINALS) + ' ∷ []')] if False else []
o += ['all : List Terminal', 'all = ' + ' ∷ '.join(f't.{x}' for x in TERMINALS) + ' ∷ []', '',
'''of_number : ℕ → Terminal
of_number n = get_or all n t.Finish

numbered : (x : Terminal) → of_number (number x) ≡ x
unfolding of_number all
numbered t.All = refl
numbered _ = refl

pub number-same : (a b : Terminal) → same a b ≡ true → a ≡ b
number-same a b e = sym (numbered a) ∙ ap of_number (eqb-true _ _ e) ∙ numbered b

pub same-self : (a : Terminal) → same a a ≡ true
same-self t.All = refl
same-self _ = refl

number-eq : (n : ℕ) → (n == n) ≡ true
number-eq n = search rules

pub bytes-self : (b : List ℕ) → same_bytes b b ≡ true
bytes-self [] = refl
bytes-self (x ∷ xs) = both (x == x) (same_bytes xs xs) (number-eq x) (bytes-self xs)
  where
    both : (a b : Bool) → a ≡ true → b ≡ true → (a && b) ≡ true
    both true b h g = g
    both false b h g = h

true-false : (c : Bool) → c ≡ true → c ≡ false → ⊥
true-false c a b = cc

-- what a turn makes
abbrev pub SoundTurn : (s : Symbol) (r : Turn) → Built s r → Piece → List Piece → Type 0
SoundTurn s Never v x ts = Unit {0}
SoundTurn s Ends v x ts = (rest : List Piece) → Writes s v rest rest
SoundTurn s (Takes how more) v x ts = (vs : Vals (inner how ++ more)) (rest : List Piece) → Chain (inner how ++ more) vs ts rest → Writes s (v vs) (x ∷ ts) rest

by_case-sound : (s : Symbol) (how : Taking) (more : List Symbol) (how' : Taking) (more' : List Symbol) (c : Bool) (f : Case s how more) (g : Case s how' more') (x : Piece) (ts : List Piece) → (c ≡ true → SoundCase s how more f x ts) → (c ≡ false → SoundCase s how' more' g x ts) → SoundTurn s (cond c (Takes how more) (Takes how' more')) (by_case s how more how' more' c f g x.place x.bytes) x ts
by_case-sound s how more how' more' true f g x ts h k = h refl
by_case-sound s how more how' more' false f g x ts h k = k refl

made-sound : (s : Symbol) (r : Row) (m : Make s r) → SoundRow s r m → (x : Terminal) (p : Place) (b : List ℕ) (ts : List Piece) → fits r x b ≡ true → SoundTurn s (chosen r (first ts)) (made s r m (first ts) p b) (piece_at x p b) ts
made-sound s (on y how more) m h x p b ts e = subst (λ z. SoundCase s how more m (piece_at z p b) ts) (number-same y x e) (h p b ts)
made-sound s (spelt c more) m h x p b ts e =
    let a : t.Name ≡ x = number-same t.Name x (both-left (same t.Name x) (same_bytes c b) e) in
    let d : c ≡ b = bytes-same c b (both-right (same t.Name x) (same_bytes c b) e) in
    subst (λ z. SoundCase s Plain more m (piece_at z p b) ts) a (subst (λ z. SoundCase s Plain more m (piece_at t.Name p z) ts) d (h p ts))
made-sound s (before y z how more how' more') m h x p b ts e =
    by_case-sound s how more how' more' (same z (first ts)) m.0 m.1 (piece_at x p b) ts
    (λ c. subst (λ w. SoundCase s how more m.0 (piece_at w p b) ts) (number-same y x e) (h.0 p b ts (sym (number-same z (first ts) c))))
    (λ c. subst (λ w. SoundCase s how' more' m.1 (piece_at w p b) ts) (number-same y x e) (h.1 p b ts (λ q. true-false (same z (first ts)) (ap (same z) q ∙ same-self z) c)))

pick-sound : (s : Symbol) (c : Bool) (r r' : Turn) (v : Built s r) (w : Built s r') (x : Piece) (ts : List Piece) → (c ≡ true → SoundTurn s r v x ts) → SoundTurn s r' w x ts → SoundTurn s (cond c r r') (pick s c r r' v w) x ts
pick-sound s true r r' v w x ts h k = h refl
pick-sound s false r r' v w x ts h k = k

found_end-sound : (s : Symbol) (e : Bool) (v : Ended s e) (x : Piece) (ts : List Piece) → EndSound s e v → SoundTurn s (cond e Ends Never) (found_end s e v) x ts
found_end-sound s true v x ts h = h
found_end-sound s false v x ts h = tt

found-sound : (s : Symbol) (rs : List Row) (ms : Makes s rs) → SoundRows s rs ms → (e : Bool) (v : Ended s e) → EndSound s e v → (x : Terminal) (p : Place) (b : List ℕ) (ts : List Piece) → SoundTurn s (find rs e x b (first ts)) (found s rs ms e v x b (first ts) p) (piece_at x p b) ts
found-sound s [] ms h e v k x p b ts = found_end-sound s e v (piece_at x p b) ts k
found-sound s (r ∷ rs) ms h e v k x p b ts = pick-sound s (fits r x b) (chosen r (first ts)) (find rs e x b (first ts)) (made s r ms.0 (first ts) p b) (found s rs ms.1 e v x b (first ts) p) (piece_at x p b) ts (made-sound s r ms.0 h.0 x p b ts) (found-sound s rs ms.1 h.1 e v k x p b ts)

sound-row : (s : Symbol) (x : Terminal) (p : Place) (b : List ℕ) (ts : List Piece) → SoundTurn s (turn s x b (first ts)) (build s x b (first ts) p) (piece_at x p b) ts
sound-row s x p b ts = found-sound s (rows s) (makes s) (sounds s) (may_end s) (end_value s) (end-sounds s) x p b ts

-- what is read has values that write the tokens
abbrev pub SoundAt : (stack : List Symbol) → Go stack → List Piece → Option StatementP → Type 0
SoundAt stack k ts None = Unit {0}
SoundAt stack k ts (Some x) = (vs : Vals stack) × (k vs ≡ x) × WritesAll stack vs ts []

ends-lift : (s : Symbol) (stack : List Symbol) (v : Val s) (k : Go (s ∷ stack)) (ts : List Piece) (o : Option StatementP) → Writes s v ts ts → SoundAt stack (λ vs. k (v, vs)) ts o → SoundAt (s ∷ stack) k ts o
ends-lift s stack v k ts None w h = tt
ends-lift s stack v k ts (Some x) w h = ((v, h.0), h.1, (ts, w, h.2))

unsplit : (xs ys : List Symbol) (vs : Vals (xs ++ ys)) (ts rest : List Piece) → WritesAll (xs ++ ys) vs ts rest → (mid : List Piece) × WritesAll xs (split xs ys vs).0 ts mid × WritesAll ys (split xs ys vs).1 mid rest
unsplit [] ys vs ts rest h = (ts, refl, h)
unsplit (x ∷ xs) ys vs ts rest h = let r = unsplit xs ys vs.1 h.0 rest h.2 in (r.0, (h.0, h.1, r.1), r.2)

takes-lift : (s : Symbol) (row stack : List Symbol) (f : Vals row → Val s) (k : Go (s ∷ stack)) (x : Piece) (ts : List Piece) (o : Option StatementP) → ((vs : Vals row) (rest : List Piece) → Chain row vs ts rest → Writes s (f vs) (x ∷ ts) rest) → SoundAt (row ++ stack) (λ vs. k (f (split row stack vs).0, (split row stack vs).1)) ts o → SoundAt (s ∷ stack) k (x ∷ ts) o
takes-lift s row stack f k x ts None g h = tt
takes-lift s row stack f k x ts (Some y) g h =
    let r = unsplit row stack h.0 ts [] h.2 in
    let vs = split row stack h.0 in
    ((f vs.0, vs.1), h.1, (r.0, g vs.0 r.0 (chain row vs.0 ts r.0 r.1), r.2))

turn-sound : (s : Symbol) (r : Turn) (v : Built s r) (x : Piece) (ts : List Piece) (stack : List Symbol) (k : Go (s ∷ stack)) → SoundTurn s r v x ts → ((st : List Symbol) (g : Go st) → SoundAt st g ts (read ts st g)) → (beyond : Go stack → Option StatementP) → ((g : Go stack) → SoundAt stack g (x ∷ ts) (beyond g)) → SoundAt (s ∷ stack) k (x ∷ ts) (on_turn s r v stack (read ts) beyond k)
turn-sound s Never v x ts stack k row next beyond h = tt
turn-sound s Ends v x ts stack k row next beyond h = ends-lift s stack v k (x ∷ ts) _ (row (x ∷ ts)) (h _)
turn-sound s (Takes how more) v x ts stack k row next beyond h = takes-lift s (inner how ++ more) stack v k x ts _ row (next _ _)

at-sound : (x : Piece) (ts : List Piece) → ((st : List Symbol) (g : Go st) → SoundAt st g ts (read ts st g)) → (stack : List Symbol) (k : Go stack) → SoundAt stack k (x ∷ ts) (read_at x.terminal (first ts) x.place x.bytes (read ts) stack k)
at-sound x ts next [] k = tt
at-sound x ts next (s ∷ stack) k = turn-sound s (turn s x.terminal x.bytes (first ts)) (build s x.terminal x.bytes (first ts) x.place) x ts stack k (sound-row s x.terminal x.place x.bytes ts) next _ (at-sound x ts next stack)

end-turn-sound : (s : Symbol) (r : Turn) (v : Built s r) (x : Piece) (stack : List Symbol) (k : Go (s ∷ stack)) → SoundTurn s r v x [] → ((g : Go stack) → SoundAt stack g [] (read_end stack g)) → SoundAt (s ∷ stack) k [] (on_end s r v stack (read_end stack) k)
end-turn-sound s Never v x stack k row h = tt
end-turn-sound s Ends v x stack k row h = ends-lift s stack v k [] _ (row []) (h _)
end-turn-sound s (Takes how more) v x stack k row h = tt

end-sound : (stack : List Symbol) (k : Go stack) → SoundAt stack k [] (read_end stack k)
end-sound [] k = (tt, refl, refl)
end-sound (s ∷ stack) k = end-turn-sound s (turn s t.Finish [] t.Finish) (build s t.Finish [] t.Finish (place_of [])) (piece_at t.Finish (place_of []) []) stack k (sound-row s t.Finish (place_of []) [] []) (end-sound stack)

pub sound : (ts : List Piece) (stack : List Symbol) (k : Go stack) → SoundAt stack k ts (read ts stack k)
sound [] stack k = end-sound stack k
sound (x ∷ ts) stack k = at-sound x ts (sound ts) stack k

-- what the table accepts, a tree writes
from_read : (ts : List Piece) (load : Load) (o : Option StatementP) → SoundAt (TheStatement ∷ []) (λ v. v.0) ts o → Agree o (verdict no_limits ts (TheStatement ∷ []) load) → verdict no_limits ts (TheStatement ∷ []) load ≡ Whole → (x : StatementP) × Spells (of_statement x) ts []
from_read ts load None h a e = absurd (a e)
from_read ts load (Some x) h a e = (h.0.0, subst (λ r. Spells (of_statement h.0.0) ts r) h.2.2 h.2.1)

pub accepted-written : (ts : List Piece) (load : Load) → verdict no_limits ts (TheStatement ∷ []) load ≡ Whole → (x : StatementP) × Spells (of_statement x) ts []
accepted-written ts load e = from_read ts load _ (sound ts (TheStatement ∷ []) (λ v. v.0)) (agrees ts (TheStatement ∷ []) load (λ v. v.0)) e''']
o[1] = o[1].replace('cond,', 'cond, get_or, rules,')
write('proofs/Sound.antt', '\n'.join(o) + '\n')
# ---------------------------------------------------------------- Accepted
o = ['-- The verdict without limits, and what the table reads.'] + HEAD[:4] + [PIECES_USE, f'use {CR}.specs.Plain.{{StatementP}}', f'use {CR}.specs.Written.{{Spells, of_statement}}', TABLE_USE, READER_USE,
 f'use {CR}.specs.Verdict.{{Verdict, Whole, Refused, no_limits, verdict, reach, taken, ended, at_form, Reach, Over, Stuck, Reaches, outside, counted, stack_after, load_after}}', f'use {CR}.proofs.Complete.{{statement-reads}}', '',
'''-- the stack without the ends of levels
abbrev pub bare : List Symbol → List Symbol
bare [] = []
bare (Shut outer ∷ stack) = bare stack
bare (s ∷ stack) = s ∷ bare stack

pub bare-append : (a b : List Symbol) → bare (a ++ b) ≡ bare a ++ bare b
bare-append [] b = refl
bare-append (Shut outer ∷ a) b = bare-append a b
bare-append (s ∷ a) b = ap (λ x. s ∷ x) (bare-append a b)

-- the forms that a turn asks for
abbrev pub row : Turn → List Symbol
row (Takes how more) = inner how ++ more
row _ = []

-- no row holds the end of a level
abbrev IsBare : List Symbol → Type 0
IsBare xs = bare xs ≡ xs

abbrev BareRow : Row → Type 0
BareRow (on x how more) = IsBare (inner how ++ more)
BareRow (spelt c more) = IsBare more
BareRow (before x y how more how' more') = IsBare (inner how ++ more) × IsBare (inner how' ++ more')

abbrev BareRows : List Row → Type 0
BareRows [] = Unit {0}
BareRows (r ∷ rs) = BareRow r × BareRows rs
''']
def exp_rows(s):
    """expanded rows with firsts and seconds joined: list of ('on', x, inner, more) or ('before', x, y, (inner, more), (inner, more))"""
    out = []; e = EXP[s]; i = 0
    while i < len(e):
        k, x, n, h, inn, m = e[i]
        if k in ('on', 'spelt'): out.append(('on', x, inn, m, h))
        else:
            k2, x2, n2, h2, inn2, m2 = e[i + 1]; out.append(('before', x, n, (inn, m), (inn2, m2))); i += 1
        i += 1
    return out
def tuple_of(items):
    e = 'tt'
    for x in reversed(items): e = f'({x}, {e})'
    return e
o += ['bare-rows : (s : Symbol) → BareRows (rows s)'] + [f'bare-rows {s} = ' + tuple_of(['refl' if r[0] == 'on' else '(refl, refl)' for r in exp_rows(s)]) for s in TABLE] + ['bare-rows (Just x) = (refl, tt)', 'bare-rows (Worded w) = (refl, tt)', 'bare-rows (Shut outer) = tt', '']
o += ['''bare-case : (c : Bool) (how how' : Taking) (more more' : List Symbol) → IsBare (inner how ++ more) → IsBare (inner how' ++ more') → bare (row (cond c (Takes how more) (Takes how' more'))) ≡ row (cond c (Takes how more) (Takes how' more'))
bare-case true how how' more more' h g = h
bare-case false how how' more more' h g = g

bare-chosen : (r : Row) (n : Terminal) → BareRow r → bare (row (chosen r n)) ≡ row (chosen r n)
bare-chosen (on x how more) n h = h
bare-chosen (spelt c more) n h = h
bare-chosen (before x y how more how' more') n h = bare-case (same y n) how how' more more' h.0 h.1

bare-pick : (c : Bool) (r r' : Turn) → bare (row r) ≡ row r → bare (row r') ≡ row r' → bare (row (cond c r r')) ≡ row (cond c r r')
bare-pick true r r' h g = h
bare-pick false r r' h g = g

bare-find : (rs : List Row) (e : Bool) (x : Terminal) (b : List ℕ) (n : Terminal) → BareRows rs → bare (row (find rs e x b n)) ≡ row (find rs e x b n)
bare-find [] true x b n h = refl
bare-find [] false x b n h = refl
bare-find (r ∷ rs) e x b n h = bare-pick (fits r x b) (chosen r n) (find rs e x b n) (bare-chosen r n h.0) (bare-find rs e x b n h.1)

pub plain : (s : Symbol) (x : Terminal) (b : List ℕ) (n : Terminal) → bare (row (turn s x b n)) ≡ row (turn s x b n)
plain s x b n = bare-find (rows s) (may_end s) x b n (bare-rows s)

pub bare-after : (how : Taking) (load : Load) (more stack : List Symbol) → bare (inner how ++ more) ≡ inner how ++ more → bare (stack_after how load (more ++ stack)) ≡ (inner how ++ more) ++ bare stack
bare-after Plain load more stack h = bare-append more stack ∙ ap (λ x. x ++ bare stack) h
bare-after Negated load more stack h = bare-append more stack ∙ ap (λ x. x ++ bare stack) h
bare-after Dated load more stack h = bare-append more stack ∙ ap (λ x. x ++ bare stack) h
bare-after Timed load more stack h = bare-append more stack ∙ ap (λ x. x ++ bare stack) h
bare-after Operator load more stack h = bare-append more stack ∙ ap (λ x. x ++ bare stack) h
bare-after Separator load more stack h = bare-append more stack ∙ ap (λ x. x ++ bare stack) h
bare-after (Opens f) load more stack h = bare-append f (Shut load ∷ (more ++ stack)) ∙ ap (λ x. bare f ++ x) (bare-append more stack) ∙ sym (append_assoc (bare f) (bare more) (bare stack)) ∙ ap (λ x. x ++ bare stack) (sym (bare-append f more) ∙ h)
bare-after (OperatorOpens f) load more stack h = bare-append f (Shut (counted load) ∷ (more ++ stack)) ∙ ap (λ x. bare f ++ x) (bare-append more stack) ∙ sym (append_assoc (bare f) (bare more) (bare stack)) ∙ ap (λ x. x ++ bare stack) (sym (bare-append f more) ∙ h)

-- the table reads something exactly where the verdict is that the text is whole
abbrev pub Agree : Option StatementP → Verdict → Type 0
Agree (Some x) v = v ≡ Whole
Agree None v = v ≡ Whole → ⊥

end-step : (s : Symbol) (r : Turn) (v : Built s r) (stack : List Symbol) (load : Load) (k : Go (s ∷ bare stack)) → ((h : Go (bare stack)) → Agree (read_end (bare stack) h) (ended (reach stack load t.Finish [] t.Finish))) → Agree (on_end s r v (bare stack) (read_end (bare stack)) k) (ended (at_form r stack load (reach stack load t.Finish [] t.Finish)))
end-step s Never v stack load k ih = λ e. cc
end-step s Ends v stack load k ih = ih _
end-step s (Takes how more) v stack load k ih = λ e. cc

pub agrees-end : (stack : List Symbol) (load : Load) (k : Go (bare stack)) → Agree (read_end (bare stack) k) (ended (reach stack load t.Finish [] t.Finish))
unfolding reach
agrees-end [] load k = refl
agrees-end (Shut outer ∷ stack) load k = agrees-end stack outer k
agrees-end (s ∷ stack) load k = end-step s (turn s t.Finish [] t.Finish) (build s t.Finish [] t.Finish (place_of [])) stack load k (agrees-end stack load)

turn-step : (s : Symbol) (r : Turn) (v : Built s r) → bare (row r) ≡ row r → (x : Piece) (ts : List Piece) → ((stack : List Symbol) (load : Load) (k : Go (bare stack)) → Agree (read ts (bare stack) k) (verdict no_limits ts stack load)) → (stack : List Symbol) (load : Load) (k : Go (s ∷ bare stack)) (beyond : Go (bare stack) → Option StatementP) (reached : Reach) → ((h : Go (bare stack)) → Agree (beyond h) (taken no_limits reached x (verdict no_limits ts))) → Agree (on_turn s r v (bare stack) (read ts) beyond k) (taken no_limits (at_form r stack load reached) x (verdict no_limits ts))
turn-step s Never v plain_row x ts ih stack load k beyond reached h = λ e. cc
turn-step s Ends v plain_row x ts ih stack load k beyond reached h = h _
turn-step s (Takes how more) v plain_row x ts ih stack load k beyond reached h =
    let P : List Symbol → Type 0 = λ xs. (g : Go xs) → Agree (read ts xs g) (verdict no_limits ts (stack_after how load (more ++ stack)) (load_after how load)) in
    subst P (bare-after how load more stack plain_row) (ih (stack_after how load (more ++ stack)) (load_after how load)) _

agrees-at : (x : Piece) (ts : List Piece) → ((stack : List Symbol) (load : Load) (k : Go (bare stack)) → Agree (read ts (bare stack) k) (verdict no_limits ts stack load)) → (stack : List Symbol) (load : Load) (k : Go (bare stack)) → Agree (read_at x.terminal (first ts) x.place x.bytes (read ts) (bare stack) k) (taken no_limits (reach stack load x.terminal x.bytes (first ts)) x (verdict no_limits ts))
unfolding reach
agrees-at x ts ih [] load k = λ e. cc
agrees-at x ts ih (Shut outer ∷ stack) load k = agrees-at x ts ih stack outer k
agrees-at x ts ih (s ∷ stack) load k = turn-step s (turn s x.terminal x.bytes (first ts)) (build s x.terminal x.bytes (first ts) x.place) (plain s x.terminal x.bytes (first ts)) x ts ih stack load k _ _ (agrees-at x ts ih stack load)

pub agrees : (ts : List Piece) (stack : List Symbol) (load : Load) (k : Go (bare stack)) → Agree (read ts (bare stack) k) (verdict no_limits ts stack load)
unfolding verdict
agrees [] stack load k = agrees-end stack load k
agrees (x ∷ ts) stack load k = agrees-at x ts (agrees ts) stack load k

-- the table accepts what a tree writes
pub written-accepted : (x : StatementP) (ts : List Piece) (load : Load) → Spells (of_statement x) ts [] → verdict no_limits ts (TheStatement ∷ []) load ≡ Whole
written-accepted x ts load h = subst (λ r. Agree r (verdict no_limits ts (TheStatement ∷ []) load)) (statement-reads x ts [] h [] (λ v. v.0)) (agrees ts (TheStatement ∷ []) load (λ v. v.0))''']
write('proofs/Accepted.antt', '\n'.join(o) + '\n')
