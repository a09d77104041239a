# Each stack that the table reaches can be completed; and the laws.
from sound import *
o = ['-- Each stack that the table reaches can be completed; so E01 is that no statement continues so.'] + [COMMON, TERM, TV, PLACE,
 'use Rattle.point_core.specs.declared.fault.Code.{Code}', 'use Rattle.point_core.specs.declared.fault.Code.TheVariants.{E01, E05, E06}', PIECES_USE,
 f'use {CR}.specs.Plain.{{StatementP}}', f'use {CR}.specs.Written.{{Spells, of_statement, ' + ', '.join(word_name(w) for w in CONTEXT) + '}', f'use {CR}.specs.Continues.{{Starts, again, NoStatement}}', f'use {CR}.specs.Terminals.{{spelling, is_token, AreTokens}}', TABLE_USE,
 f'use {CR}.specs.Verdict.{{Verdict, Whole, Refused, Limits, no_limits, verdict, reach, taken, ended, at_form, Reach, Over, Stuck, Reaches, outside, stack_after, load_after}}',
 READER_USE, f'use {CR}.proofs.Complete.{{statement-reads, Halts, ' + ', '.join(CALMS.values()) + ', ' + ', '.join(f'{s}-end' for s in TABLE if may_end(s)) + '}',
 f'use {CR}.proofs.Accepted.{{bare, row, plain, bare-after, Agree, agrees-end}}', f'use {CR}.proofs.Sound.{{SoundAt, sound, same-self, bytes-self}}', '']
def tok_text(x, b): return f'(t.{x}, {b})' if b else f'(t.{x}, spelling t.{x})'
o += ['-- the tokens that complete a form', 'abbrev pub ending : Symbol → List (Terminal × List ℕ)']
o += [f'ending {s} = ' + ' ∷ '.join([tok_text(x, b) for x, b in ENDING[s]] + ['[]']) for s in TABLE] + ['ending (Just x) = (x, spelling x) ∷ []', 'ending (Worded w) = (t.Name, w) ∷ []', 'ending (Shut outer) = []', '']
o += ['''abbrev pub pieces_of : List (Terminal × List ℕ) → List Piece → List Piece
pieces_of [] rest = rest
pieces_of (x ∷ xs) rest = record { terminal = x.0; place = place_of []; bytes = x.1 } ∷ pieces_of xs rest

abbrev pub complete : List Symbol → List Piece
complete [] = []
complete (s ∷ stack) = pieces_of (ending s) (complete stack)

abbrev pub lead : List Symbol → Terminal
lead stack = first (complete stack)

-- what comes next does not continue a form that could go on
abbrev pub Calm : Symbol → Terminal → Type 0''']
o += [f'Calm {s} x = ' + (f'Halts {calm(s)[0]} x' if len(calm(s)) == 1 else f'{CALMS[calm(s)]} x') for s in TABLE if calm(s)] + ['Calm (Just y) x = is_token y (spelling y) ≡ true', 'Calm (Worded w) x = is_token t.Name w ≡ true', 'Calm _ x = Unit {0}', '']
o += ['''abbrev pub Good : List Symbol → Type 0
Good [] = Unit {0}
Good (s ∷ stack) = Calm s (lead stack) × Good stack

abbrev pub Reads : Option StatementP → Type 0
Reads o = (x : StatementP) × (o ≡ Some x)

pub by : (o o' : Option StatementP) → o ≡ o' → Reads o' → Reads o
by o o' e h = (h.0, e ∙ h.1)

-- a token that a form of one row takes
one-row : (s : Symbol) (c : Bool) (more : List Symbol) (v : Vals more → Val s) (stack : List Symbol) (next : (st : List Symbol) → Go st → Option StatementP) (beyond : Go stack → Option StatementP) (k : Go (s ∷ stack)) → c ≡ true → on_turn s (cond c (Takes Plain more) Never) (pick s c (Takes Plain more) Never v tt) stack next beyond k ≡ next (more ++ stack) (λ vs. let r : Vals more × Vals stack = split more stack vs in k (v r.0, r.1))
one-row s true more v stack next beyond k e = refl
one-row s false more v stack next beyond k e = cc

both-true : (a b : Bool) → a ≡ true → b ≡ true → (a && b) ≡ true
both-true true b h g = g
both-true false b h g = h

just-self : (x n : Terminal) (p : Place) (b : List ℕ) (next : (st : List Symbol) → Go st → Option StatementP) (stack : List Symbol) (k : Go (Just x ∷ stack)) → read_at x n p b next (Just x ∷ stack) k ≡ next stack (λ v. k (tt, v))
just-self x n p b next stack k = one-row (Just x) (same x x) [] (λ v. tt) stack next (read_at x n p b next stack) k (same-self x)

worded-self : (w : List ℕ) (n : Terminal) (p : Place) (next : (st : List Symbol) → Go st → Option StatementP) (stack : List Symbol) (k : Go (Worded w ∷ stack)) → read_at t.Name n p w next (Worded w ∷ stack) k ≡ next stack (λ v. k (p, v))
worded-self w n p next stack k = one-row (Worded w) (same t.Name t.Name && same_bytes w w) [] (λ v. p) stack next (read_at t.Name n p w next stack) k (bytes-self w)

shut-end : (ts : List Piece) (outer : Load) (st : List Symbol) (k : Go (Shut outer ∷ st)) → read ts (Shut outer ∷ st) k ≡ read ts st (λ v. k (tt, v))
shut-end [] outer st k = refl
shut-end (x ∷ ts) outer st k = refl

-- a good stack can be completed
pub complete-reads : (stack : List Symbol) → Good stack → (k : Go stack) → Reads (read (complete stack) stack k)
complete-reads [] g k = (k tt, refl)''']
def simulate(s):
    st = [s]
    toks = ENDING[s]
    for j, (x, b) in enumerate(toks):
        while True:
            f = st[0]
            if not isinstance(f, str):
                assert (f[0] == 'Just' and f[1] == x) or (f[0] == 'Worded' and x == 'Name'), (s, f, x); st = st[1:]; break
            rs = [r for r in EXP[f] if r[1] == x]
            if rs:
                r = rs[0]
                if len(rs) == 2:
                    nxt = toks[j + 1][0]; r = rs[0] if nxt == rs[0][2] else rs[1]
                st = r[4] + r[5] + st[1:]; break
            assert may_end(f), (s, f, x); st = st[1:]
    assert all(may_end(f) for f in st), (s, st)
    return st
for s in TABLE:
    if ENDING[s] == []: pend = [s]
    else: pend = simulate(s)
    L = calm(s)
    if pend:
        ch = ' ∙ '.join(f'{m}-end (complete st) _ _ {project("g.0", L, (m,))}' for m in pend)
        o.append(f'complete-reads ({s} ∷ st) g k = by _ _ ({ch}) (complete-reads st g.1 _)')
    else: o.append(f'complete-reads ({s} ∷ st) g k = complete-reads st g.1 _')
o += ['complete-reads (Just wanted ∷ st) g k = by _ _ (just-self wanted (first (complete st)) (place_of []) (spelling wanted) (read (complete st)) st k) (complete-reads st g.1 _)',
 'complete-reads (Worded w ∷ st) g k = by _ _ (worded-self w (first (complete st)) (place_of []) (read (complete st)) st k) (complete-reads st g.1 _)',
 'complete-reads (Shut outer ∷ st) g k = by _ _ (shut-end (complete st) outer st k) (complete-reads st g.1 _)', '']
o += ['''-- and that with tokens
pub complete-tokens : (stack : List Symbol) → Good stack → AreTokens (complete stack)
complete-tokens [] g = tt'''] + [f'complete-tokens ({s_} ∷ st) g = ' + '(refl, ' * len(ENDING[s_]) + 'complete-tokens st g.1' + ')' * len(ENDING[s_]) for s_ in TABLE] + ['complete-tokens (Just wanted ∷ st) g = (g.0, complete-tokens st g.1)', 'complete-tokens (Worded w ∷ st) g = (g.0, complete-tokens st g.1)', 'complete-tokens (Shut outer ∷ st) g = complete-tokens st g.1', '']
o += ['''-- the rows keep stacks good
abbrev GoodForms : Symbol → List Symbol → Type 0
GoodForms s forms = (st : List Symbol) → Good (s ∷ st) → Good (forms ++ st)

abbrev GoodRow : Symbol → Row → Type 0
GoodRow s (on x how more) = GoodForms s (inner how ++ more)
GoodRow s (spelt c more) = GoodForms s more
GoodRow s (before x y how more how' more') = GoodForms s (inner how ++ more) × GoodForms s (inner how' ++ more')

abbrev GoodRows : Symbol → List Row → Type 0
GoodRows s [] = Unit {0}
GoodRows s (r ∷ rs) = GoodRow s r × GoodRows s rs
''']
def good_forms(s, forms):
    L = calm(s); e = 'g.1'
    for i in reversed(range(len(forms))):
        C = calm(forms[i]); leadt = None
        for f in forms[i+1:]:
            en = ending(f)
            if en: leadt = en[0][0]; break
        if not isinstance(forms[i], str): c = 'refl'
        elif not C: c = 'tt'
        elif leadt:
            for m in C: assert leadt not in [r[1] for r in EXP[m]], (s, forms, m, leadt)
            c = refls(C)
        else: c = project('g.0', L, C)
        e = f'({c}, {e})'
    return f'(λ st g. {e})'
for s in TABLE:
    o.append(f'good-{snake(s)} : GoodRows {s} {rname(s)}')
    items = []
    for r in exp_rows(s):
        if r[0] == 'on': items.append(good_forms(s, r[2] + r[3]))
        else: items.append('(' + good_forms(s, r[3][0] + r[3][1]) + ', ' + good_forms(s, r[4][0] + r[4][1]) + ')')
    if len(items) > 1: o += [f'good-{snake(s)} = ' + files.pairs_of(items), '']
    else: o += [f'good-{snake(s)} = ({items[0]}, tt)', '']
o += ['good-rows : (s : Symbol) → GoodRows s (rows s)'] + [f'good-rows {s} = good-{snake(s)}' for s in TABLE] + ['good-rows (Just x) = ((λ st g. g.1), tt)', 'good-rows (Worded w) = ((λ st g. g.1), tt)', 'good-rows (Shut outer) = tt', '']
o += ['''good-case : (s : Symbol) (c : Bool) (how how' : Taking) (more more' : List Symbol) → GoodForms s (inner how ++ more) → GoodForms s (inner how' ++ more') → GoodForms s (row (cond c (Takes how more) (Takes how' more')))
good-case s true how how' more more' h g = h
good-case s false how how' more more' h g = g

good-chosen : (s : Symbol) (r : Row) (n : Terminal) → GoodRow s r → GoodForms s (row (chosen r n))
good-chosen s (on x how more) n h = h
good-chosen s (spelt c more) n h = h
good-chosen s (before x y how more how' more') n h = good-case s (same y n) how how' more more' h.0 h.1

good-pick : (s : Symbol) (c : Bool) (r r' : Turn) → GoodForms s (row r) → GoodForms s (row r') → GoodForms s (row (cond c r r'))
good-pick s true r r' h g = h
good-pick s false r r' h g = g

good-find : (s : Symbol) (rs : List Row) (e : Bool) (x : Terminal) (b : List ℕ) (n : Terminal) → GoodRows s rs → GoodForms s (row (find rs e x b n))
good-find s [] true x b n h = λ st g. g.1
good-find s [] false x b n h = λ st g. g.1
good-find s (r ∷ rs) e x b n h = good-pick s (fits r x b) (chosen r n) (find rs e x b n) (good-chosen s r n h.0) (good-find s rs e x b n h.1)

good-row : (s : Symbol) (x : Terminal) (b : List ℕ) (n : Terminal) (st : List Symbol) → Good (s ∷ st) → Good (row (turn s x b n) ++ st)
good-row s x b n = good-find s (rows s) (may_end s) x b n (good-rows s)

-- what the token behind it changes: never whether a token can stand there
abbrev kind : Turn → ℕ
kind Never = 0
kind Ends = 1
kind (Takes how more) = 2

is-never : (r : Turn) → kind r ≡ 0 → r ≡ Never
is-never Never e = refl
is-never Ends e = cc
is-never (Takes how more) e = cc

is-ends : (r : Turn) → kind r ≡ 1 → r ≡ Ends
is-ends Never e = cc
is-ends Ends e = refl
is-ends (Takes how more) e = cc

kind-case : (c : Bool) (how how' : Taking) (more more' : List Symbol) → kind (cond c (Takes how more) (Takes how' more')) ≡ 2
kind-case true how how' more more' = refl
kind-case false how how' more more' = refl

kind-chosen : (r : Row) (n : Terminal) → kind (chosen r n) ≡ 2
kind-chosen (on x how more) n = refl
kind-chosen (spelt c more) n = refl
kind-chosen (before x y how more how' more') n = kind-case (same y n) how how' more more'

kind-pick : (c : Bool) (r r' q q' : Turn) → kind r ≡ kind q → kind r' ≡ kind q' → kind (cond c r r') ≡ kind (cond c q q')
kind-pick true r r' q q' h g = h
kind-pick false r r' q q' h g = g

kind-find : (rs : List Row) (e : Bool) (x : Terminal) (b : List ℕ) (n m : Terminal) → kind (find rs e x b n) ≡ kind (find rs e x b m)
kind-find [] e x b n m = refl
kind-find (r ∷ rs) e x b n m = kind-pick (fits r x b) (chosen r n) (find rs e x b n) (chosen r m) (find rs e x b m) (kind-chosen r n ∙ sym (kind-chosen r m)) (kind-find rs e x b n m)

kind-row : (s : Symbol) (x : Terminal) (b : List ℕ) (n m : Terminal) → kind (turn s x b n) ≡ kind (turn s x b m)
kind-row s x b n m = kind-find (rows s) (may_end s) x b n m

-- what a token is taken for holds before the completion of the forms that it asks for
abbrev SteadyRow : Row → Type 0
SteadyRow (on x how more) = Unit {0}
SteadyRow (spelt c more) = Unit {0}
SteadyRow (before x y how more how' more') = ((st : List Symbol) → same y (lead ((inner how ++ more) ++ st)) ≡ true) × ((st : List Symbol) → same y (lead ((inner how' ++ more') ++ st)) ≡ false)

abbrev SteadyRows : List Row → Type 0
SteadyRows [] = Unit {0}
SteadyRows (r ∷ rs) = SteadyRow r × SteadyRows rs
''']
o += ['steady-rows : (s : Symbol) → SteadyRows (rows s)'] + [f'steady-rows {s} = ' + tuple_of(['tt' if r[0] == 'on' else '((λ st. refl), (λ st. refl))' for r in exp_rows(s)]) for s in TABLE] + ['steady-rows (Just x) = (tt, tt)', 'steady-rows (Worded w) = (tt, tt)', 'steady-rows (Shut outer) = tt', '']
o += ['''steady-case : (c : Bool) (y : Terminal) (how how' : Taking) (more more' : List Symbol) (st : List Symbol) → same y (lead ((inner how ++ more) ++ st)) ≡ true → same y (lead ((inner how' ++ more') ++ st)) ≡ false → cond (same y (lead (row (cond c (Takes how more) (Takes how' more')) ++ st))) (Takes how more) (Takes how' more') ≡ cond c (Takes how more) (Takes how' more')
steady-case true y how how' more more' st h g = ap (λ z. cond z (Takes how more) (Takes how' more')) h
steady-case false y how how' more more' st h g = ap (λ z. cond z (Takes how more) (Takes how' more')) g

steady-chosen : (r : Row) (n : Terminal) (st : List Symbol) → SteadyRow r → chosen r (lead (row (chosen r n) ++ st)) ≡ chosen r n
steady-chosen (on x how more) n st h = refl
steady-chosen (spelt c more) n st h = refl
steady-chosen (before x y how more how' more') n st h = steady-case (same y n) y how how' more more' st (h.0 st) (h.1 st)

steady-pick : (c : Bool) (f g : Terminal → Turn) (n : Terminal) (st : List Symbol) → f (lead (row (f n) ++ st)) ≡ f n → g (lead (row (g n) ++ st)) ≡ g n → cond c (f (lead (row (cond c (f n) (g n)) ++ st))) (g (lead (row (cond c (f n) (g n)) ++ st))) ≡ cond c (f n) (g n)
steady-pick true f g n st h k = h
steady-pick false f g n st h k = k

steady-find : (rs : List Row) (e : Bool) (x : Terminal) (b : List ℕ) (n : Terminal) (st : List Symbol) → SteadyRows rs → find rs e x b (lead (row (find rs e x b n) ++ st)) ≡ find rs e x b n
steady-find [] e x b n st h = refl
steady-find (r ∷ rs) e x b n st h = steady-pick (fits r x b) (chosen r) (find rs e x b) n st (steady-chosen r n st h.0) (steady-find rs e x b n st h.1)

stable-row : (s : Symbol) (x : Terminal) (b : List ℕ) (n : Terminal) (st : List Symbol) → turn s x b (lead (row (turn s x b n) ++ st)) ≡ turn s x b n
stable-row s x b n st = steady-find (rows s) (may_end s) x b n st (steady-rows s)
''']
# what speaks of stacks alone, and so of no form by name
o.append(files.text_of('refused.txt'))
write('proofs/Refused.antt', '\n'.join(o))
# ---------------------------------------------------------------- Laws
write('proofs/Laws.antt', files.text_of('laws.txt'))
