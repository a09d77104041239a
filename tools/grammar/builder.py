# What the builder of trees stands on: which of some words a token is, and what a form says of the next token where a
# statement goes on. It reads what the other scripts write of crates/utd_syntax.
import re
from forms import *
import files
write = files.writer('utd_builder')
def syntax(path): return files.WRITTEN[('utd_syntax', path)]
WORDFN = {'comparison':'comparison_word','sum_word':'sum_word','product_word':'product_word','function':'function_word','pair_function':'pair_word','infix_word':'infix_word','relation_comparison':'relation_comparison'}
DOC = {'comparison':'comparison of scalars','sum_word':'operator of a sum','product_word':'operator of a product','function':'function of one scalar','pair_function':'function of two scalars','infix_word':'infix of relations of one word','relation_comparison':'comparison of relations'}
CTYPE = {c: v[0] for c, v in CHOICES.items()}
# ---------------------------------------------------------------- choices
o = ['// Which of some words a token is.', 'ghost use Rattle.std.specs.Prelude.{◌≡◌};', 'ghost use Rattle.utd_builder.specs.Choices as choices;', ''] + files.use_lines('utd_syntax', sorted(CTYPE[c] for c in WORDFN) + ['Terminal']) + ['']
for c in WORDFN:
    ty, vs_ = CHOICES[c]
    o += [f'/// The {DOC[c]} that the token is.', f'pub fn {WORDFN[c]}(terminal: Terminal) -> Option<{ty}>', f'    ensures {{ result ≡ choices.{c}_at terminal }}', '{', '    match terminal {']
    o += [f'        Terminal::{t} => Some({ty}::{v}),' for v, t in vs_] + ['        _ => None,', '    }', '}', '']
for fn, doc, ts in [('is_infix','the token stands between two relations','Union Intersect Minus Join Matching Not'),('is_postfix','the token stands behind a relation, and what it does with it follows','OpenBrace Where Rename'),('is_constraint','the token begins a constraint','Key Foreign Packed When Using')]:
    o += [f'/// Whether {doc}.', f'pub fn {fn}(terminal: Terminal) -> bool', f'    ensures {{ result ≡ choices.{fn} terminal }}', '{', '    match terminal {'] + [f'        Terminal::{t} => true,' for t in ts.split()] + ['        _ => false,', '    }', '}', '']
write('src/choices.rt', o)
def choice_use(cs): return [x for c in cs for x in (f'use {CR}.specs.declared.words.{CTYPE[c]}.{{{CTYPE[c]}}}', f'use {CR}.specs.declared.words.{CTYPE[c]}.TheVariants as {PLURAL[c]}')]
o = ['-- Which of some words a token is.', 'use Rattle.std.specs.Prelude.{Option, Some, None, Bool, true, false}', f'use {CR}.specs.declared.terminal.Terminal.{{Terminal}}', f'use {CR}.specs.declared.terminal.Terminal.TheVariants as t'] + choice_use(list(WORDFN) + ['end_bracket', 'aggregate_word']) + ['', '-- the word of an aggregate of a scalar', 'abbrev pub aggregate_word_at : Terminal → AggregateWord', 'aggregate_word_at t.Sum = aggregate_words.Sum', 'aggregate_word_at t.Min = aggregate_words.Min', 'aggregate_word_at _ = aggregate_words.Max', '', '-- the comparison of relations', 'abbrev pub relation_comparison_of : Terminal → RelationComparison', *[f'relation_comparison_of t.{x} = relation_comparisons.{x}' for x in 'Equal NotEqual Less LessEqual Greater'.split()], 'relation_comparison_of _ = relation_comparisons.GreaterEqual', '', '-- the bracket that ends an interval', 'abbrev pub end_bracket_at : Terminal → EndBracket', 'end_bracket_at t.CloseBracket = end_brackets.Closed', 'end_bracket_at _ = end_brackets.Open', '']
for c in WORDFN:
    ty, vs_ = CHOICES[c]
    o += [f'-- the {DOC[c]} that the token is', f'abbrev pub {c}_at : Terminal → Option {ty}'] + [f'{c}_at t.{t} = Some {PLURAL[c]}.{v}' for v, t in vs_] + [f'{c}_at _ = None', '']
for fn, doc, ts in [('is_infix','the token stands between two relations','Union Intersect Minus Join Matching Not'),('is_postfix','the token stands behind a relation, and what it does with it follows','OpenBrace Where Rename'),('is_constraint','the token begins a constraint','Key Foreign Packed When Using')]:
    o += [f'-- {doc}', f'abbrev pub {fn} : Terminal → Bool'] + [f'{fn} t.{t} = true' for t in ts.split()] + [f'{fn} _ = false', '']
write('specs/Choices.antt', o)
# ---------------------------------------------------------------- lemmas
CON = {'comparison':'comparison','sum_word':'sum_word','product_word':'product_word','function':'function','pair_function':'pair_function','infix_word':'infix_word','relation_comparison':'relation_comparison','pack_word':'pack_word','aggregate_word':'aggregate_word','emptiness':'emptiness','extreme':'extreme','end_bracket':'end_bracket'}
READS = sorted(set(re.findall(r'pub (read_\w+) :', syntax('specs/Read.antt'))))
TREES = [('word','Word')] + [('parts',x) for x in 'Attribute Element Tuple SetItem Aggregate Renaming'.split()] + [('statement','Constraint'), ('statement','Item')]
def head(title, body, extra=[]):
    u = ['-- ' + title,
     'use Rattle.std.proofs.Common.{◌≡◌, ℕ, List, [], ◌∷◌, ◌++◌, Bool, true, false, cond, Option, Some, None, refl, sym, ◌∙◌, ap, subst}',
     f'use {CR}.specs.declared.terminal.Terminal.{{Terminal}}', f'use {CR}.specs.declared.terminal.Terminal.TheVariants as t', 'use Rattle.point_core.specs.declared.fault.Place.{Place}'] + choice_use(CON) + [
     f'use {CR}.specs.Pieces.{{Piece, first, second, place_of, bytes_of}}', 'use Rattle.utd_builder.specs.Building.{behind}', 'use Rattle.utd_syntax.specs.Plain.{StatementP, Word, word, ' + ', '.join(sorted(set(f["type"] for f in FORMS.values() if f["type"].endswith("P") and not f["type"].startswith("List")) - {"StatementP"})) + ', ' + ', '.join(sorted(set(CONS_ALL))) + '}',
     f'use {CR}.specs.Table.{{Symbol, Just, same, same_bytes, Plain, Takes, Never, ' + ', '.join(TABLE) + '}', f'use {CR}.specs.Written.{{' + ', '.join([*CON, *map(word_name, CONTEXT)]) + '}', f'use {CR}.proofs.Reader.{{Go, on_turn, pick, read, read_at}}',
     f'use {CR}.proofs.FormEnds.{{Halts, ' + ', '.join(sorted(STARTSETS)) + ', ' + ', '.join(f'{s}-end' for s in TABLE if may_end(s)) + '}', f'use {CR}.proofs.FirstTokens.{{' + ', '.join(sorted(STARTS | set(LINK_NAMES))) + '}',
     'use Rattle.utd_builder.specs.Choices.{' + ', '.join(f'{c}_at' for c in WORDFN) + ', is_infix, is_postfix, is_constraint, relation_comparison_of, end_bracket_at, aggregate_word_at}', 'use Rattle.utd_syntax.specs.Read.{' + ', '.join(READS) + '}', *[f'use Rattle.utd_syntax.specs.declared.{m}.{t_}.{{{t_} as {t_}Tree}}' for m, t_ in TREES]] + extra
    return u + [''] + body
CONS_ALL = [c for f in FORMS.values() for c, _ in f['alternatives'] if c and c not in ('[]', '∷')]
src = syntax('proofs/FirstTokens.antt') + syntax('proofs/FormEnds.antt')
ends_src = syntax('proofs/FormEnds.antt')
STARTS = set()
STARTSETS = {}
for m in re.finditer(r'\n(Starts_\w+) t\.(\w+) = Unit', src): STARTSETS.setdefault(m[1], []).append(m[2])
LINK = {}
for m in re.finditer(r'\npub (\w+)-as-(\w+) : .*? → (Starts_\w+) \(first ts\) → (\(first ts ≡ t\.Name → second ts ≡ t\.\w+\) → )?read ts \((\w+) ∷ stack\) k ≡ read ts (\(.*?∷ stack\)) (\(λ v\. .*\))\n', src): LINK[(m[1], m[2])] = (m[3], m[5], m[6], m[7], m[4])
LINK_NAMES = [f'{a}-as-{b}' for a, b in LINK]
ENDV = {m[1]: m[2] for m in re.finditer(r'\npub (\w+)-end : .*? ≡ read ts stack (\(λ v\. .*\))\n', ends_src)}
PAR = '(x n : Terminal) (p : Place) (b : List ℕ) (next : (st : List Symbol) → Go st → Option StatementP) (stack : List Symbol)'
def terminals(sym_): return list(dict.fromkeys(r[1] for r in EXP[sym_]))
def premises(excl, choices, at): 
    return ''.join(f'{c}_at {at} ≡ None → ' for c in choices) + ''.join(f'({at} ≡ t.{x} → ⊥) → ' for x in excl)
def names_of(excl, choices): return [f'f{i}' for i in range(len(choices))] + [f'n{i}' for i in range(len(excl))]
def refuted(x, excl, choices):
    for i, c in enumerate(choices):
        if x in [t for _, t in CHOICES[c][1]]: return f'differs (f{i})'
    for i, y in enumerate(excl):
        if x == y: return f'absurd (n{i} refl)'
    return None
def ends_lemma(S, excl=[], choices=[]):
    ns = ' '.join(names_of(excl, choices))
    r = [f'halts-{S} : (x : Terminal) → {premises(excl, choices, "x")}Halts {S} x']
    for x in terminals(S):
        f = refuted(x, excl, choices); assert f, (S, x)
        r.append(f'halts-{S} t.{x} {ns} = {f}')
    r += [f'halts-{S} _ {ns} = refl', '',
     f'pub done-{S} : (ts : List Piece) (stack : List Symbol) (k : Go ({S} ∷ stack)) (s : StatementP) → {premises(excl, choices, "(first ts)")}read ts ({S} ∷ stack) k ≡ Some s → read ts stack {ENDV[S]} ≡ Some s',
     f'done-{S} ts stack k s {ns} h = sym ({S}-end ts stack k (halts-{S} (first ts) {ns})) ∙ h', '']
    return r
def must_lemma(S, last, excl=[], choices=[]):
    ns = ' '.join(names_of(excl, choices))
    r = [f'is-{S} : {PAR} (k : Go ({S} ∷ stack)) (s : StatementP) → {premises(excl, choices, "x")}read_at x n p b next ({S} ∷ stack) k ≡ Some s → x ≡ t.{last}']
    for x in terminals(S):
        if x == last: r.append(f'is-{S} t.{x} n p b next stack k s {ns} h = refl'); continue
        f = refuted(x, excl, choices); assert f, (S, x)
        r.append(f'is-{S} t.{x} n p b next stack k s {ns} h = {f}')
    r += [f'is-{S} _ n p b next stack k s {ns} h = differs h', '',
     f'must-{S} : (ts : List Piece) (stack : List Symbol) (k : Go ({S} ∷ stack)) (s : StatementP) → {premises(excl, choices, "(first ts)")}read ts ({S} ∷ stack) k ≡ Some s → first ts ≡ t.{last}',
     f'must-{S} [] stack k s {ns} h = differs h', f'must-{S} (x ∷ ts) stack k s {ns} h = is-{S} x.terminal (first ts) x.place x.bytes (read ts) stack k s {ns} h', '',
     f'pub step-{S} : (p : Place) (b : List ℕ) (old new : List Piece) (stack : List Symbol) (k : Go ({S} ∷ stack)) (s : StatementP) → {premises(excl, choices, "(first old)")}p ≡ place_of old → b ≡ bytes_of old → new ≡ behind old → read old ({S} ∷ stack) k ≡ Some s → read_at t.{last} (first new) p b (read new) ({S} ∷ stack) k ≡ Some s',
     f'step-{S} p b old new stack k s {ns} hp hb hn h = at t.{last} p b old new ({S} ∷ stack) k s (must-{S} old stack k s {ns} h) refl hp hb hn h', '']
    return r
def to_lemma(f, g, excl=[], choices=[]):
    st, F, target, K, look = LINK[(f, g)]
    ns = ' '.join(names_of(excl, choices))
    ahead = f' (λ e. absurd (n{excl.index("Name")} e))' if look else ''
    r = [f'starts-{f}-{g} : {PAR} (k : Go ({F} ∷ stack)) (s : StatementP) → {premises(excl, choices, "x")}read_at x n p b next ({F} ∷ stack) k ≡ Some s → {st} x']
    for x in terminals(F):
        if x in STARTSETS[st]: r.append(f'starts-{f}-{g} t.{x} n p b next stack k s {ns} h = tt'); continue
        q = refuted(x, excl, choices); assert q, (f, g, x)
        r.append(f'starts-{f}-{g} t.{x} n p b next stack k s {ns} h = {q}')
    r += [f'starts-{f}-{g} _ n p b next stack k s {ns} h = differs h', '',
     f'pub {f}-to-{g} : (ts : List Piece) (stack : List Symbol) (k : Go ({F} ∷ stack)) (s : StatementP) → {premises(excl, choices, "(first ts)")}read ts ({F} ∷ stack) k ≡ Some s → read ts {target} {K} ≡ Some s',
     f'{f}-to-{g} [] stack k s {ns} h = differs h',
     f'{f}-to-{g} (x ∷ ts) stack k s {ns} h = sym ({f}-as-{g} (x ∷ ts) stack k (starts-{f}-{g} x.terminal (first ts) x.place x.bytes (read ts) stack k s {ns} h){ahead}) ∙ h', '']
    return r
def choice_lemmas(c):
    ty, vs_ = CHOICES[c]; C = CON[c]
    r = []
    if c in WORDFN:
        r += [f'word-{c} : Option {ty} → Terminal', f'word-{c} None = t.Finish', f'word-{c} (Some w) = {C} w', '',
          f'pub is-{c} : (x : Terminal) (w : {ty}) → {c}_at x ≡ Some w → x ≡ {C} w', f'unfolding word-{c}']
        r += [f'is-{c} t.{t} w e = ap word-{c} e' for v, t in vs_] + [f'is-{c} _ w e = differs e', '']
    r += [f'pub more-{c} : (w : {ty}) → same ({C} w) t.Finish ≡ false'] + [f'more-{c} {PLURAL[c]}.{v} = refl' for v, t in vs_] + ['']
    return r
def row_lemma(c, S, result):   # result: the stack and the continuation that a word of the choice leads to
    ty, vs_ = CHOICES[c]; C = CON[c]; st, K = result
    return [f'pub row-{S}-{c} : (w : {ty}) (n : Terminal) (p : Place) (b : List ℕ) (next : (st : List Symbol) → Go st → Option StatementP) (stack : List Symbol) (k : Go ({S} ∷ stack)) (s : StatementP) → read_at ({C} w) n p b next ({S} ∷ stack) k ≡ Some s → next ({st} ∷ stack) {K} ≡ Some s'] + \
      [f'row-{S}-{c} {PLURAL[c]}.{v} n p b next stack k s h = h' for v, t in vs_] + ['']
DIFFERS = ['-- a value is not nothing', 'pub differs : {A : Type 0} {B : Type 0} {b : B} → None ≡ Some b → A', 'differs e = cc', '', '-- nothing is not a value', 'pub differs-back : {A : Type 0} {B : Type 0} {b : B} → Some b ≡ None → A', 'differs-back e = cc', '']
def fix(lines): return [l.replace('differs (f', 'differs-back (f') if ' = differs (f' in l else l for l in lines]
NOTS = lambda s: s.split()
b = []
for S, ex, ch in [('MoreOr',['Or'],[]),('MoreAnd',['And'],[]),('MoreCmp',[],['comparison']),('MoreSum',[],['sum_word']),('MoreProd',[],['product_word']),('AfterName',['Dot'],[])]: b += ends_lemma(S, ex, ch)
for f, g, ex in [('scalar','conj',[]),('conj','neg',[]),('neg','cmp',['Not']),('cmp','sum',[]),('sum','prod',[]),('prod','sign',[]),('sign','primary',['Dash'])]: b += to_lemma(f, g, ex)
for S, last, ex, ch in [('ThePoint','Name',['Integer','Date','Moment'],[]),('ThePrimary','False',NOTS('Open OpenBracket First Last Name Digits Quoted Date Moment True'),['function','pair_function']),('AfterScalar','Close',['Colon'],[]),
   ('InParens','Open',[],[]),('InPair','Open',[],[]),('InPoint','Open',[],[]),('Comma','Comma',[],[]),('DateText','Quoted',[],[]),('MomentText','Quoted',[],[]),('NegativeDigits','Digits',[],[]),('TheName','Name',[],[])]: b += must_lemma(S, last, ex, ch)
for c in ['comparison','sum_word','product_word','function','pair_function','extreme']: b += choice_lemmas(c)
b += row_lemma('comparison','MoreCmp',('TheSum','(λ v. k ((λ x. Compare x p w v.0), v.1))'))
b += row_lemma('sum_word','MoreSum',('TheProd ∷ MoreSum','(λ v. k ((λ x. v.1.0 (Add x p w v.0)), v.1.1))'))
b += row_lemma('product_word','MoreProd',('TheSign ∷ MoreProd','(λ v. k ((λ x. v.1.0 (Multiply x p w v.0)), v.1.1))'))
b += row_lemma('function','ThePrimary',('InParens','(λ v. k (Function p w v.0, v.1))'))
b += row_lemma('pair_function','ThePrimary',('InPair','(λ v. k (PairFunction p w v.0.0 v.0.1, v.1))'))
b += row_lemma('extreme','ThePrimary',('InPoint','(λ v. k (Extreme p w v.0, v.1))'))
b += ['is-EndOfSelector : ' + PAR + ' (k : Go (EndOfSelector ∷ stack)) (s : StatementP) → read_at x n p b next (EndOfSelector ∷ stack) k ≡ Some s → next stack (λ v. k (end_bracket_at x, v)) ≡ Some s',
 'is-EndOfSelector t.CloseBracket n p b next stack k s h = h', 'is-EndOfSelector t.Close n p b next stack k s h = h', 'is-EndOfSelector _ n p b next stack k s h = differs h', '',
 'pub end-bracket : (w : EndBracket) (old new : List Piece) (stack : List Symbol) (k : Go (EndOfSelector ∷ stack)) (s : StatementP) → w ≡ end_bracket_at (first old) → new ≡ behind old → read old (EndOfSelector ∷ stack) k ≡ Some s → read new stack (λ v. k (w, v)) ≡ Some s',
 'end-bracket w [] new stack k s e hn h = differs h',
 'end-bracket w (o ∷ old) new stack k s e hn h = ap (λ z. read new stack (λ v. k (z, v))) e ∙ ap (λ z. read z stack (λ v. k (end_bracket_at o.terminal, v))) hn ∙ is-EndOfSelector o.terminal (first old) o.place o.bytes (read old) stack k s h', '']
write('proofs/ScalarRows.antt', head('What scalars say of the next token, where a statement goes on.', fix(b), ['use Rattle.utd_builder.proofs.Steps.{at, differs, differs-back}']))

# ---------------------------------------------------------------- parts
def push_lemma(name, tree, read_):
    return [f'pub push-{name} : (xs : List {tree}Tree) (x : {tree}Tree) (v : List {PLAINT[tree]}) → {read_}_list xs ++ ({read_} x ∷ v) ≡ {read_}_list (xs ++ x ∷ []) ++ v',
      f'push-{name} [] x v = refl', f'push-{name} (y ∷ xs) x v = ap (λ z. {read_} y ∷ z) (push-{name} xs x v)', '']
PLAINT = {'Word':'Word','Constraint':'ConstraintP','Item':'ItemP', **{x: x + 'P' for x in 'Attribute Element Tuple SetItem Aggregate Renaming'.split()}}
def first_lemma(F, x, item, more, close):
    def r(st, K, z): return f'read_at {z} (first ts) o.place o.bytes (read ts) {st} {K}'
    st2, K2 = f'({item} ∷ {more} ∷ Just t.{close} ∷ stack)', '(λ v. k (v.0 ∷ v.1.0, v.1.1.1))'
    return [f'pub first-{F} : (ts : List Piece) (stack : List Symbol) (k : Go ({F} ∷ stack)) (s : StatementP) → first ts ≡ t.{x} → read ts ({F} ∷ stack) k ≡ Some s → read ts {st2} {K2} ≡ Some s',
      f'first-{F} [] stack k s is h = differs h',
      f'first-{F} (o ∷ ts) stack k s is h = let g : {r(f"({F} ∷ stack)", "k", "t." + x)} ≡ Some s = sym (ap (λ z. {r(f"({F} ∷ stack)", "k", "z")}) is) ∙ h in ap (λ z. {r(st2, K2, "z")}) is ∙ g', '']
b = []
for S, x in [('MoreAttributes','Comma'),('MoreNames','Comma'),('MoreElements','Comma'),('MoreTuples','Comma'),('MoreSetItems','Comma'),('MoreAggregates','Comma'),('MoreRenamings','Comma'),('MaybePortion','Portion'),('MaybeWhere','Where')]: b += ends_lemma(S, [x])
b += to_lemma('kind','point',['Boolean','Char','Interval'])
for S, last, ex in [('TheAttribute','Name',[]),('TheElement','Name',[]),('TheTuple','Tuple',[]),('TheSetItem','Name',[]),('TheAggregate','Name',[]),('TheRenaming','Name',[]),('EmptyParens','Open',[]),('InHeading','CloseBrace',['Name']),('InNames','CloseBrace',['Name']),('InList','Close',['Name']),
  ('InElements','CloseBrace',['Name']),('InTuples','CloseBrace',['Tuple']),('TheHeading','OpenBrace',[]),('TheNames','OpenBrace',[]),('TheList','Open',[]),('TheElements','OpenBrace',[]),('TheSomeNames','OpenBrace',[]),('TheSomeElements','OpenBrace',[]),('TheSets','OpenBrace',[]),('TheAggregates','OpenBrace',[]),
  ('TheRenamings','OpenBrace',[]),('TheLiteral','Relation',[]),('AfterRelation','OpenBrace',[]),('TheTuples','OpenBrace',[]),('ThePortion','Portion',[]),('TheParenName','Open',[])]: b += must_lemma(S, last, ex)
for n, tr, rd in [('words','Word','read_name'),('attributes','Attribute','read_attribute'),('elements','Element','read_element'),('tuples','Tuple','read_tuple'),('set_items','SetItem','read_set_item'),('aggregates','Aggregate','read_aggregate'),('renamings','Renaming','read_renaming')]: b += push_lemma(n, tr, rd)
for F, x, it, m, cl in [('InHeading','Name','TheAttribute','MoreAttributes','CloseBrace'),('InNames','Name','TheName','MoreNames','CloseBrace'),('InList','Name','TheName','MoreNames','Close'),('InElements','Name','TheElement','MoreElements','CloseBrace'),('InTuples','Tuple','TheTuple','MoreTuples','CloseBrace')]: b += first_lemma(F, x, it, m, cl)
b += ['is-aggregate_of : ' + PAR + ' (k : Go (TheAggregateForm ∷ stack)) (s : StatementP) → (x ≡ t.Count → ⊥) → read_at x n p b next (TheAggregateForm ∷ stack) k ≡ Some s → next (InParens ∷ stack) (λ v. k (AggregateOf p (aggregate_word_at x) v.0, v.1)) ≡ Some s',
 'is-aggregate_of t.Count n p b next stack k s n0 h = absurd (n0 refl)'] + [f'is-aggregate_of t.{x} n p b next stack k s n0 h = h' for x in ('Sum','Min','Max')] + ['is-aggregate_of _ n p b next stack k s n0 h = differs h', '',
 'pub aggregate-of : (w : AggregateWord) (p : Place) (old new : List Piece) (stack : List Symbol) (k : Go (TheAggregateForm ∷ stack)) (s : StatementP) → w ≡ aggregate_word_at (first old) → (first old ≡ t.Count → ⊥) → p ≡ place_of old → new ≡ behind old → read old (TheAggregateForm ∷ stack) k ≡ Some s → read new (InParens ∷ stack) (λ v. k (AggregateOf p w v.0, v.1)) ≡ Some s',
 'aggregate-of w p [] new stack k s e n0 hp hn h = differs h',
 'aggregate-of w p (o ∷ ts) new stack k s e n0 hp hn h = ap (λ z. read new (InParens ∷ stack) (λ v. k (AggregateOf p z v.0, v.1))) e ∙ ap (λ z. read new (InParens ∷ stack) (λ v. k (AggregateOf z (aggregate_word_at o.terminal) v.0, v.1))) hp ∙ ap (λ z. read z (InParens ∷ stack) (λ v. k (AggregateOf o.place (aggregate_word_at o.terminal) v.0, v.1))) hn ∙ is-aggregate_of o.terminal (first ts) o.place o.bytes (read ts) stack k s n0 h', '']
HS, HK = '(TheHeading ∷ TheTuples ∷ stack)', '(λ v. k ((λ q. Headed q v.0 v.1.0), v.1.1))'
b += [f'headed-at : (n : Terminal) (p : Place) (b : List ℕ) (next : (st : List Symbol) → Go st → Option StatementP) (stack : List Symbol) (k : Go (AfterRelation ∷ stack)) (s : StatementP) → (n ≡ t.Tuple → ⊥) → read_at t.OpenBrace n p b next (AfterRelation ∷ stack) k ≡ Some s → read_at t.OpenBrace n p b next {HS} {HK} ≡ Some s',
 'headed-at t.Tuple p b next stack k s n0 h = absurd (n0 refl)', 'headed-at _ p b next stack k s n0 h = h', '',
 f'pub headed : (old new : List Piece) (stack : List Symbol) (k : Go (AfterRelation ∷ stack)) (s : StatementP) → (first new ≡ t.Tuple → ⊥) → new ≡ behind old → read old (AfterRelation ∷ stack) k ≡ Some s → read old {HS} {HK} ≡ Some s',
 'headed [] new stack k s n0 hn h = differs h',
 f'headed (o ∷ ts) new stack k s n0 hn h = let is = is-AfterRelation o.terminal (first ts) o.place o.bytes (read ts) stack k s h in ap (λ z. read_at z (first ts) o.place o.bytes (read ts) {HS} {HK}) is ∙ headed-at (first ts) o.place o.bytes (read ts) stack k s (λ e. n0 (ap first hn ∙ e)) (sym (ap (λ z. read_at z (first ts) o.place o.bytes (read ts) (AfterRelation ∷ stack) k) is) ∙ h)', '']
OK_ = '(λ v. k ((λ q. Onto q v.0), v.1))'
b += [f'is-onto : {PAR} (k : Go (InProjection ∷ stack)) (s : StatementP) → (x ≡ t.All → ⊥) → read_at x n p b next (InProjection ∷ stack) k ≡ Some s → read_at x n p b next (InNames ∷ stack) {OK_} ≡ Some s',
 'is-onto t.All n p b next stack k s n0 h = absurd (n0 refl)', 'is-onto t.Name n p b next stack k s n0 h = h', 'is-onto t.CloseBrace n p b next stack k s n0 h = h', 'is-onto _ n p b next stack k s n0 h = differs h', '',
 f'pub onto : (ts : List Piece) (stack : List Symbol) (k : Go (InProjection ∷ stack)) (s : StatementP) → (first ts ≡ t.All → ⊥) → read ts (InProjection ∷ stack) k ≡ Some s → read ts (InNames ∷ stack) {OK_} ≡ Some s',
 'onto [] stack k s n0 h = differs h', 'onto (o ∷ ts) stack k s n0 h = is-onto o.terminal (first ts) o.place o.bytes (read ts) stack k s n0 h', '']
write('proofs/PartRows.antt', head('What the parts of relations and statements say of the next token, where a statement goes on.', fix(b), ['use Rattle.utd_builder.proofs.Steps.{at, differs, differs-back}']))

# ---------------------------------------------------------------- relations
b = []
def flag_ends(S, flag, ts):
    return [f'halts-{S} : (x : Terminal) → {flag} x ≡ false → Halts {S} x'] + [f'halts-{S} t.{x} e = absurd (yes e)' for x in ts] + [f'halts-{S} _ e = refl', '',
      f'pub done-{S} : (ts : List Piece) (stack : List Symbol) (k : Go ({S} ∷ stack)) (s : StatementP) → {flag} (first ts) ≡ false → read ts ({S} ∷ stack) k ≡ Some s → read ts stack {ENDV[S]} ≡ Some s',
      f'done-{S} ts stack k s e h = sym ({S}-end ts stack k (halts-{S} (first ts) e)) ∙ h', '']
YES = ['yes : true ≡ false → ⊥', 'yes e = cc', '']
b += YES + flag_ends('MoreInfix','is_infix',terminals('MoreInfix')) + flag_ends('MorePostfix','is_postfix',terminals('MorePostfix'))
b += ['pub not-infix : (x : Terminal) → is_infix x ≡ true → infix_word_at x ≡ None → x ≡ t.Not'] + [f'not-infix t.{x} e f = differs-back f' for x in ('Union','Intersect','Minus','Join','Matching')] + ['not-infix t.Not e f = refl', 'not-infix _ e f = absurd (yes (sym e))', '',
 'pub not-postfix : (x : Terminal) → is_postfix x ≡ true → (x ≡ t.OpenBrace → ⊥) → (x ≡ t.Where → ⊥) → x ≡ t.Rename', 'not-postfix t.OpenBrace e n0 n1 = absurd (n0 refl)', 'not-postfix t.Where e n0 n1 = absurd (n1 refl)', 'not-postfix t.Rename e n0 n1 = refl', 'not-postfix _ e n0 n1 = absurd (yes (sym e))', '']
for f, g, ex in [('rel','terms',['Using']),('terms','term',[]),('term','rel_primary',[]),('rel_primary','operand',['Extend','Summarize']),('using_part','operand',['Extend','Summarize'])]: b += to_lemma(f, g, ex)
for S, last, ex, ch in [('TheOperand','Name',['Open','Relation','Pack','Unpack'],[]),('AfterOperand','Where',['Not','OpenBrace'],['infix_word'])]: b += must_lemma(S, last, ex, ch)
for c in ['infix_word','pack_word']: b += choice_lemmas(c)
b += row_lemma('infix_word','MoreInfix',('TheTerm ∷ MoreInfix','(λ v. k ((λ x. v.1.0 (Infix x p w v.0)), v.1.1))'))
b += row_lemma('infix_word','AfterOperand',('TheOperand','(λ v. k ((λ x. UsingInfix x p w v.0), v.1))'))
b += row_lemma('pack_word','TheOperand',('TheRel ∷ Just t.On ∷ TheList','(λ v. k (PackOn p w v.0 v.1.1.0, v.1.1.1))'))
write('proofs/RelationRows.antt', head('What relational expressions say of the next token, where a statement goes on.', fix(b), ['use Rattle.utd_builder.proofs.Steps.{at, differs, differs-back}']))

# ---------------------------------------------------------------- statements
# what a name begins: a log, where a name follows, and else an assignment; and the rows of a kept view
ON_LOG, ON_NAME = '(Takes Plain (AfterLog ∷ []))', '(Takes Plain (Just t.Assign ∷ TheRel ∷ MoreItems ∷ Just t.Semicolon ∷ []))'
SETS = 'Assignment (Assign (SetRelvar (word {p} {b}) v.1.0) v.1.1.0)'
NAMED = [f'is-sign : {PAR} (k : Go (Just t.Assign ∷ stack)) (s : StatementP) → read_at x n p b next (Just t.Assign ∷ stack) k ≡ Some s → x ≡ t.Assign',
 'is-sign t.Assign n p b next stack k s h = refl', 'is-sign _ n p b next stack k s h = differs h', '',
 'must-sign : (ts : List Piece) (stack : List Symbol) (k : Go (Just t.Assign ∷ stack)) (s : StatementP) → read ts (Just t.Assign ∷ stack) k ≡ Some s → first ts ≡ t.Assign',
 'must-sign [] stack k s h = differs h', 'must-sign (x ∷ ts) stack k s h = is-sign x.terminal (first ts) x.place x.bytes (read ts) stack k s h', '',
 'name-sign : t.Name ≡ t.Assign → ⊥', 'name-sign e = cc', '',
 f'named-sign : (c : Bool) (p : Place) (b : List ℕ) (ts : List Piece) (stack : List Symbol) (beyond : Go stack → Option StatementP) (k : Go (TheStatement ∷ stack)) (s : StatementP) → (first ts ≡ t.Name → ⊥) → on_turn TheStatement (cond c {ON_LOG} {ON_NAME}) (pick TheStatement c {ON_LOG} {ON_NAME} (λ v. v.0 p) (λ v. {SETS.format(p="p", b="b")})) stack (read ts) beyond k ≡ Some s → first ts ≡ t.Assign',
 'named-sign true p b ts stack beyond k s n0 h = must-AfterLog ts stack _ s n0 h', 'named-sign false p b ts stack beyond k s n0 h = must-sign ts _ _ s h', '',
 f'named-log : (c : Bool) (p : Place) (b : List ℕ) (ts : List Piece) (stack : List Symbol) (beyond : Go stack → Option StatementP) (k : Go (TheStatement ∷ stack)) (s : StatementP) → first ts ≡ t.Name → on_turn TheStatement (cond c {ON_LOG} {ON_NAME}) (pick TheStatement c {ON_LOG} {ON_NAME} (λ v. v.0 p) (λ v. {SETS.format(p="p", b="b")})) stack (read ts) beyond k ≡ Some s → read ts (AfterLog ∷ stack) (λ v. k (v.0 p, v.1)) ≡ Some s',
 'named-log true p b ts stack beyond k s is h = h', 'named-log false p b ts stack beyond k s is h = absurd (name-sign (sym is ∙ must-sign ts _ _ s h))', '',
 'sign-behind : (ts : List Piece) (stack : List Symbol) (k : Go (TheStatement ∷ stack)) (s : StatementP) → first ts ≡ t.Name → (second ts ≡ t.Name → ⊥) → read ts (TheStatement ∷ stack) k ≡ Some s → second ts ≡ t.Assign',
 'sign-behind [] stack k s is n0 h = differs h',
 'sign-behind (x ∷ ts) stack k s is n0 h = named-sign (same_bytes log_word x.bytes) x.place x.bytes ts stack (read_at t.Name (first ts) x.place x.bytes (read ts) stack) k s n0 (sym (ap (λ z. read_at z (first ts) x.place x.bytes (read ts) (TheStatement ∷ stack) k) is) ∙ h)', '',
 'pub name-to-assign : (ts : List Piece) (stack : List Symbol) (k : Go (TheStatement ∷ stack)) (s : StatementP) → first ts ≡ t.Name → (second ts ≡ t.Name → ⊥) → read ts (TheStatement ∷ stack) k ≡ Some s → read ts {2} {3} ≡ Some s'.format(*LINK[('statement', 'assign')]),
 'name-to-assign ts stack k s is n0 h = sym (statement-as-assign ts stack k (subst {0} (sym is) tt) (λ e. sign-behind ts stack k s is n0 h)) ∙ h'.format(*LINK[('statement', 'assign')]), '',
 'pub log-begins : (p : Place) (old new : List Piece) (stack : List Symbol) (k : Go (TheStatement ∷ stack)) (s : StatementP) → first old ≡ t.Name → first new ≡ t.Name → p ≡ place_of old → new ≡ behind old → read old (TheStatement ∷ stack) k ≡ Some s → read new (AfterLog ∷ stack) (λ v. k (v.0 p, v.1)) ≡ Some s',
 'log-begins p old new stack k s is name hp hn h = named-log (same_bytes log_word (bytes_of old)) p (bytes_of old) new stack (read_at t.Name (first new) p (bytes_of old) (read new) stack) k s name (at t.Name p (bytes_of old) old new (TheStatement ∷ stack) k s is refl hp refl hn h)', '',
 'kept-taken : (c : Bool) (p : Place) (stack : List Symbol) (next : (st : List Symbol) → Go st → Option StatementP) (beyond : Go stack → Option StatementP) (k : Go (TheVarForm ∷ stack)) (s : StatementP) → on_turn TheVarForm (cond c (Takes Plain (InKept ∷ [])) Never) (pick TheVarForm c (Takes Plain (InKept ∷ [])) Never (λ v. Kept p v.0) tt) stack next beyond k ≡ Some s → next (InKept ∷ stack) (λ v. k (Kept p v.0, v.1)) ≡ Some s',
 'kept-taken true p stack next beyond k s h = h', 'kept-taken false p stack next beyond k s h = differs h', '',
 'pub kept-begins : (p : Place) (old new : List Piece) (stack : List Symbol) (k : Go (TheVarForm ∷ stack)) (s : StatementP) → first old ≡ t.Name → p ≡ place_of old → new ≡ behind old → read old (TheVarForm ∷ stack) k ≡ Some s → read new (InKept ∷ stack) (λ v. k (Kept p v.0, v.1)) ≡ Some s',
 'kept-begins p old new stack k s is hp hn h = kept-taken (same_bytes kept_word (bytes_of old)) p stack (read new) (read_at t.Name (first new) p (bytes_of old) (read new) stack) k s (at t.Name p (bytes_of old) old new (TheVarForm ∷ stack) k s is refl hp refl hn h)', '']
b = []
b += YES + flag_ends('MoreConstraints','is_constraint',terminals('MoreConstraints')) + ends_lemma('MoreItems',['Comma'])
CT5 = 'Key Foreign Packed When Using'.split()
b += ['pub starts-constraint : (x : Terminal) → is_constraint x ≡ true → Starts_constraint x'] + [f'starts-constraint t.{x} e = tt' for x in CT5] + ['starts-constraint _ e = absurd (yes (sym e))', '',
 'pub not-constraint : (x : Terminal) → is_constraint x ≡ true → ' + ''.join(f'(x ≡ t.{x} → ⊥) → ' for x in CT5[:4]) + 'x ≡ t.Using'] + [f'not-constraint t.{x} e n0 n1 n2 n3 = absurd (n{i} refl)' for i, x in enumerate(CT5[:4])] + ['not-constraint t.Using e n0 n1 n2 n3 = refl', 'not-constraint _ e n0 n1 n2 n3 = absurd (yes (sym e))', '']
for f, g, ex in [('used_constraint','key',['Foreign']),('comparison','operand',[]),('test','comparison',['Using','IsEmpty','IsNotEmpty']),('used_deletion','rel',['Where']),('deletion','rel',['Where','Portion']),('assign','item',[]),('statement','assign',NOTS('Semicolon TypeWord Var History Constraint Drop Print Ask Name'))]: b += to_lemma(f, g, ex)
for S, last, ex in [('TheKey','Key',[]),('TheForeign','Foreign',[]),('TheConstraint','Using',CT5[:4]),('InRel','Open',[]),('TheVarForm','Relation',['Virtual','Name']),('InKept','Open',[]),('TheKept','Pack',['Using']),('TheUsedItem','Update',['Insert','Delete']),('TheItem','Name',NOTS('Insert Delete Update Terminate Using')),('AfterDrop','Var',['Constraint']),('AfterLog','Assign',['Name'])]: b += must_lemma(S, last, ex)
b += must_lemma('AfterKept','OpenBrace',['Not'],['infix_word']) + row_lemma('infix_word','AfterKept',('TheName','(λ v. k ((λ q a l. KeptInfix q a l p w v.0), v.1))')) + NAMED
b += choice_lemmas('emptiness') + row_lemma('emptiness','TheTest',('InRel','(λ v. k (Emptiness p w v.0, v.1))'))
b += push_lemma('constraints','Constraint','read_constraint') + push_lemma('items','Item','read_item')
AL = lambda w, p: f'(λ v. k ((λ x. Comparison x {p} {w} v.0), v.1))'
b += [f'is-after_left : {PAR} (k : Go (AfterLeft ∷ stack)) (s : StatementP) → read_at x n p b next (AfterLeft ∷ stack) k ≡ Some s → next (TheOperand ∷ stack) {AL("(relation_comparison_of x)","p").replace("λ x. Comparison x","λ z. Comparison z")} ≡ Some s'] + [f'is-after_left t.{x} n p b next stack k s h = h' for x in 'Equal NotEqual Less LessEqual Greater GreaterEqual'.split()] + ['is-after_left _ n p b next stack k s h = differs h', '',
 f'pub after-left : (w : RelationComparison) (p : Place) (old new : List Piece) (stack : List Symbol) (k : Go (AfterLeft ∷ stack)) (s : StatementP) → w ≡ relation_comparison_of (first old) → p ≡ place_of old → new ≡ behind old → read old (AfterLeft ∷ stack) k ≡ Some s → read new (TheOperand ∷ stack) {AL("w","p")} ≡ Some s',
 'after-left w p [] new stack k s e hp hn h = differs h',
 f'after-left w p (o ∷ ts) new stack k s e hp hn h = ap (λ z. read new (TheOperand ∷ stack) {AL("z","p")}) e ∙ ap (λ z. read new (TheOperand ∷ stack) {AL("(relation_comparison_of o.terminal)","z")}) hp ∙ ap (λ z. read z (TheOperand ∷ stack) {AL("(relation_comparison_of o.terminal)","o.place")}) hn ∙ is-after_left o.terminal (first ts) o.place o.bytes (read ts) stack k s h', '']
write('proofs/StatementRows.antt', head('What statements say of the next token, where a statement goes on.', fix(b), ['use Rattle.utd_builder.proofs.Steps.{at, differs, differs-back}']))
