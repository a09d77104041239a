# What the table reads: a value for each form, made row by row.
from definitions import *
COMMON = 'use Rattle.std.proofs.Common.{◌≡◌, ◌≢◌, ◌↔◌, ℕ, List, [], ◌∷◌, ◌++◌, Bool, true, false, cond, ◌==◌, ◌&&◌, eqb, ◌⊎◌, inl, inr, Option, Some, None, refl, sym, ◌∙◌, ap, subst, append_assoc, if◌then◌else◌}'
WRITTEN_USE = f'use {CR}.specs.Written.{{Mark, fixed, at, spelled, worded, apart, IsMark, Spells, token, placed, lexeme, word_of, contextual, negation, ' + ', '.join(word_name(w) for w in CONTEXT) + ', ' + ', '.join(CHOICES) + ', ' + ', '.join(OFS) + '}'
TABLE_USE = f'use {CR}.specs.Table.{{Load, Symbol, {SYMS}, Taking, Plain, Operator, Separator, Negated, Dated, Timed, Opens, OperatorOpens, Turn, Never, Ends, Takes, Row, on, spelt, before, then_row, ◌▹◌, rows, may_end, number, same, same_bytes, fits, chosen, find, turn, ' + ', '.join(rname(s) for s in TABLE) + '}'
PIECES_USE = f'use {CR}.specs.Pieces.{{Piece, first, second, place_of}}'
HEAD = [COMMON, TERM, TV, PLACE] + choice_uses() + [PIECES_USE, PLAIN_USE]
def val_type(s):
    d = TABLE[s]
    if d['kind'] == 'form': return d['type']
    return ' → '.join([t for _, t in d['params']] + [d['restype']])
def lam_params(s): return ''.join(f' {p}' for p, _ in TABLE[s]['params']) if TABLE[s]['kind'] == 'after' else ''
def prow(s, r):   # make of a row: list of strings (two for before)
    if r[0] in ('on', 'spelt'):
        return f'(λ p b v{lam_params(s)}. {vs(r[5], "v")})'
    return '(' + ', '.join(f'(λ p b v{lam_params(s)}. {vs(c[3], "v")})' for c in (r[3], r[4])) + ')'
def mname(s): return 'make_' + snake(s[3:] if s.startswith('The') else s)
def link_fun(r): 
    e = re.sub(r'\$0', 'u', re.sub(r'\$1', 'w', r[-1]))
    return f'(λ u. {e})' if r[0] == 'over' else f'(λ u w. {e})'
def makes_parts(s):
    """the makes of a symbol in parts joined as its rows are"""
    parts = []; cur = []
    def tup(c): 
        e = 'tt'
        for x in reversed(c): e = f'({x}, {e})'
        return e
    for r in TABLE[s]['rows']:
        if r[0] in OWN: cur.append(prow(s, r))
        else:
            if cur: parts.append(('lit', tup(cur), [rowtext(x) for x in []])); cur = []
            if r[0] == 'over': parts.append(('over', f'over_makes {r[1]} {s} {link_fun(r)} {rname(r[1])} {mname(r[1])}'))
            else: parts.append(('then', f'then_makes {r[1]} {s} {paren(sym(r[2]))} {link_fun(r)} {rname(r[1])} {mname(r[1])}'))
    if cur: parts.append(('lit', tup(cur)))
    return parts
def group_rows(s):   # the lists of rows that are appended, as text
    return rows_text(s)
def emit_makes(s):
    ps = makes_parts(s); rs = group_rows(s)
    o = [f'abbrev pub {mname(s)} : Makes {s} {rname(s)}']
    if len(ps) == 1:
        if ps[0][0] == 'lit':
            rows_ = TABLE[s]['rows']
            if len(rows_) > 1:
                o.append(f'{mname(s)} = ' + files.pairs_of([prow(s, r) for r in rows_]))
            else: o.append(f'{mname(s)} = {ps[0][1]}')
        else: o.append(f'{mname(s)} = {ps[0][1]}')
        return o + ['']
    e = paren(ps[-1][1]); tail = rs[-1]
    for p, r in zip(reversed(ps[:-1]), reversed(rs[:-1])):
        e = f'(append_makes {s} {paren(r)} {paren(tail)} {paren(p[1])} {e})'
        tail = f'({r} ++ {tail})'
    o.append(f'{mname(s)} = {e}')
    return o + ['']
def end_value(s):
    d = TABLE[s]
    ps = ' '.join(p for p, _ in d.get('params', []))
    return f'(λ {ps}. {d["ends"]})' if d['kind'] == 'after' else d['ends']
o = ['-- What the table reads: a value for each form.'] + HEAD + [TABLE_USE, f'use {CR}.specs.Written.{{' + ', '.join(word_name(w) for w in CONTEXT) + '}', '',
 '-- what a form gives; the rest of one gives what it makes of the part before it', 'abbrev pub Val : Symbol → Type 0']
o += [f'Val {s} = {val_type(s)}' for s in TABLE] + ['Val (Just x) = Unit {0}', 'Val (Worded b) = Place', 'Val (Shut outer) = Unit {0}', '']
o += ['''abbrev pub Vals : List Symbol → Type 0
Vals [] = Unit {0}
Vals (s ∷ stack) = Val s × Vals stack

abbrev pub inner : Taking → List Symbol
inner (Opens forms) = forms
inner (OperatorOpens forms) = forms
inner _ = []

-- what a row makes of its token and of what its forms give
abbrev pub Case : Symbol → Taking → List Symbol → Type 0
Case s how more = Place → List ℕ → Vals (inner how ++ more) → Val s

abbrev pub Make : Symbol → Row → Type 0
Make s (on x how more) = Case s how more
Make s (spelt c more) = Case s Plain more
Make s (before x y how more how' more') = Case s how more × Case s how' more'

abbrev pub Makes : Symbol → List Row → Type 0
Makes s [] = Unit {0}
Makes s (r ∷ rs) = Make s r × Makes s rs

-- of a form that is another, and of one that is another and then more
abbrev pub over_make : (a b : Symbol) → (Val a → Val b) → (r : Row) → Make a r → Make b r
over_make a b f (on x how more) g = λ p c vs. f (g p c vs)
over_make a b f (spelt w more) g = λ p c vs. f (g p c vs)
over_make a b f (before x y how more how' more') g = ((λ p c vs. f (g.0 p c vs)), (λ p c vs. f (g.1 p c vs)))

abbrev pub over_makes : (a b : Symbol) → (Val a → Val b) → (rs : List Row) → Makes a rs → Makes b rs
over_makes a b f [] ms = tt
over_makes a b f (r ∷ rs) ms = (over_make a b f r ms.0, over_makes a b f rs ms.1)

abbrev pub last_of : (xs : List Symbol) (c : Symbol) → Vals (xs ++ c ∷ []) → Vals xs × Val c
last_of [] c vs = (tt, vs.0)
last_of (x ∷ xs) c vs = let r : Vals xs × Val c = last_of xs c vs.1 in ((vs.0, r.0), r.1)

abbrev pub last_behind : (xs ys : List Symbol) (c : Symbol) → Vals (xs ++ (ys ++ c ∷ [])) → Vals (xs ++ ys) × Val c
last_behind [] ys c vs = last_of ys c vs
last_behind (x ∷ xs) ys c vs = let r : Vals (xs ++ ys) × Val c = last_behind xs ys c vs.1 in ((vs.0, r.0), r.1)

abbrev pub then_case : (a b c : Symbol) → (Val a → Val c → Val b) → (how : Taking) (more : List Symbol) → Case a how more → Case b how (more ++ c ∷ [])
then_case a b c f how more g = λ p w vs. let r : Vals (inner how ++ more) × Val c = last_behind (inner how) more c vs in f (g p w r.0) r.1

abbrev pub then_make : (a b c : Symbol) → (Val a → Val c → Val b) → (r : Row) → Make a r → Make b (then_row r (c ∷ []))
then_make a b c f (on x how more) g = then_case a b c f how more g
then_make a b c f (spelt w more) g = then_case a b c f Plain more g
then_make a b c f (before x y how more how' more') g = (then_case a b c f how more g.0, then_case a b c f how' more' g.1)

abbrev pub then_makes : (a b c : Symbol) → (Val a → Val c → Val b) → (rs : List Row) → Makes a rs → Makes b (rs ▹ (c ∷ []))
then_makes a b c f [] ms = tt
then_makes a b c f (r ∷ rs) ms = (then_make a b c f r ms.0, then_makes a b c f rs ms.1)

abbrev pub append_makes : (s : Symbol) (xs ys : List Row) → Makes s xs → Makes s ys → Makes s (xs ++ ys)
append_makes s [] ys ms ns = ns
append_makes s (r ∷ xs) ys ms ns = (ms.0, append_makes s xs ys ms.1 ns)
''']
for s in TABLE: o += emit_makes(s)
o += ['abbrev pub makes : (s : Symbol) → Makes s (rows s)'] + [f'makes {s} = {mname(s)}' for s in TABLE] + ['makes (Just x) = ((λ p b v. tt), tt)', 'makes (Worded w) = ((λ p b v. p), tt)', 'makes (Shut outer) = tt', '']
o += ['-- what a form gives that ends before its first token', 'abbrev pub Ended : Symbol → Bool → Type 0', 'Ended s true = Val s', 'Ended s false = Unit {0}', '',
 'abbrev pub end_value : (s : Symbol) → Ended s (may_end s)'] + [f'end_value {s} = {end_value(s)}' for s in TABLE if may_end(s)] + ['end_value (Shut outer) = tt', 'end_value _ = tt', '']
o += ['''-- what a turn of the table makes
abbrev pub Built : Symbol → Turn → Type 0
Built s Never = Unit {0}
Built s Ends = Val s
Built s (Takes how more) = Vals (inner how ++ more) → Val s

abbrev pub by_case : (s : Symbol) (how : Taking) (more : List Symbol) (how' : Taking) (more' : List Symbol) (c : Bool) → Case s how more → Case s how' more' → Place → List ℕ → Built s (if c then Takes how more else Takes how' more')
by_case s how more how' more' true f g p b = f p b
by_case s how more how' more' false f g p b = g p b

abbrev pub made : (s : Symbol) (r : Row) → Make s r → (n : Terminal) → Place → List ℕ → Built s (chosen r n)
made s (on x how more) f n p b = f p b
made s (spelt c more) f n p b = f p b
made s (before x y how more how' more') f n p b = by_case s how more how' more' (same y n) f.0 f.1 p b

abbrev pub pick : (s : Symbol) (c : Bool) (r r' : Turn) → Built s r → Built s r' → Built s (if c then r else r')
pick s true r r' v w = v
pick s false r r' v w = w

abbrev pub found_end : (s : Symbol) (e : Bool) → Ended s e → Built s (if e then Ends else Never)
found_end s true v = v
found_end s false v = tt

abbrev pub found : (s : Symbol) (rs : List Row) → Makes s rs → (e : Bool) → Ended s e → (x : Terminal) (b : List ℕ) (n : Terminal) → Place → Built s (find rs e x b n)
found s [] ms e v x b n p = found_end s e v
found s (r ∷ rs) ms e v x b n p = pick s (fits r x b) (chosen r n) (find rs e x b n) (made s r ms.0 n p b) (found s rs ms.1 e v x b n p)

abbrev pub build : (s : Symbol) (x : Terminal) (b : List ℕ) (n : Terminal) → Place → Built s (turn s x b n)
build s x b n p = found s (rows s) (makes s) (may_end s) (end_value s) x b n p

abbrev pub split : (xs ys : List Symbol) → Vals (xs ++ ys) → Vals xs × Vals ys
split [] ys vs = (tt, vs)
split (x ∷ xs) ys vs = let r : Vals xs × Vals ys = split xs ys vs.1 in ((vs.0, r.0), r.1)

-- what is done with the values of the forms to come
abbrev pub Go : List Symbol → Type 0
Go stack = Vals stack → StatementP

abbrev pub on_turn : (s : Symbol) (r : Turn) → Built s r → (stack : List Symbol) → ((st : List Symbol) → Go st → Option StatementP) → (Go stack → Option StatementP) → Go (s ∷ stack) → Option StatementP
on_turn s Never v stack next beyond k = None
on_turn s Ends v stack next beyond k = beyond (λ vs. k (v, vs))
on_turn s (Takes how more) v stack next beyond k = next ((inner how ++ more) ++ stack) (λ vs. let r : Vals (inner how ++ more) × Vals stack = split (inner how ++ more) stack vs in k (v r.0, r.1))

abbrev pub read_at : (x n : Terminal) → Place → List ℕ → ((st : List Symbol) → Go st → Option StatementP) → (stack : List Symbol) → Go stack → Option StatementP
read_at x n p b next [] k = None
read_at x n p b next (s ∷ stack) k = on_turn s (turn s x b n) (build s x b n p) stack next (read_at x n p b next stack) k

abbrev pub on_end : (s : Symbol) (r : Turn) → Built s r → (stack : List Symbol) → (Go stack → Option StatementP) → Go (s ∷ stack) → Option StatementP
on_end s Never v stack beyond k = None
on_end s Ends v stack beyond k = beyond (λ vs. k (v, vs))
on_end s (Takes how more) v stack beyond k = None

abbrev pub read_end : (stack : List Symbol) → Go stack → Option StatementP
read_end [] k = Some (k tt)
read_end (s ∷ stack) k = on_end s (turn s t.Finish [] t.Finish) (build s t.Finish [] t.Finish (place_of [])) stack (read_end stack) k

-- the forms of the stack in turn
abbrev pub read : List Piece → (stack : List Symbol) → Go stack → Option StatementP
read [] stack k = read_end stack k
read (x ∷ ts) stack k = read_at x.terminal (first ts) x.place x.bytes (read ts) stack k''']
write('proofs/Reader.antt', '\n'.join(o) + '\n')
READER_USE = f'use {CR}.proofs.Reader.{{Val, Vals, Case, Make, Makes, Ended, Built, Go, inner, over_make, over_makes, last_of, last_behind, then_case, then_make, then_makes, append_makes, makes, end_value, by_case, made, pick, found_end, found, build, split, on_turn, read_at, on_end, read_end, read, ' + ', '.join(mname(s) for s in TABLE) + '}'
