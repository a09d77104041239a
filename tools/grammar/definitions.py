# The definitions: the terminals and choices in Rust, the plain trees, what they write, and the table.
from forms import *
import files
write = files.writer('utd_syntax')
# ---------------------------------------------------------------- Rust: terminals, choices
lines = ['// What a token is to the grammar.', '',
 '/// What a token is to the grammar: a reserved word, a symbol, a name, an integer, a text, or that no token is left.',
 '#[derive(Clone, Copy, Debug, PartialEq, Eq)]', 'pub enum Terminal {']
lines += [f'    {t},' for t in TERMINALS] + ['}']
write('src/terminal.rt', '\n'.join(lines) + '\n')
DOC = {'comparison':'The words and symbols that compare two scalars.','sum_word':'`+`, `-` and `||`.','product_word':'`*` and `/`.',
 'begin_bracket':'The bracket that begins an interval: `[` takes the point in, `(` leaves it out.','end_bracket':'The bracket that ends an interval: `]` takes the point in, `)` leaves it out.',
 'extreme':'FIRST and LAST, the points at the ends of a point type.','function':'The words of functions of one scalar.','pair_function':'The words of functions of two intervals.',
 'infix_word':'The words of one token that stand between two relations.','pack_word':'PACK and UNPACK.','aggregate_word':'The words of aggregates of a scalar.',
 'relation_comparison':'The symbols that compare two relations.','emptiness':'The words that ask whether a relation has rows.'}
lines = ['// The choices of one token inside the rules of the grammar.', '']
for c, (typ, vs_) in CHOICES.items():
    lines += [f'/// {DOC[c]}', '#[derive(Clone, Copy, Debug, PartialEq, Eq)]', f'pub enum {typ} {{'] + [f'    {v},' for v, _ in vs_] + ['}', '']
write('src/words.rt', '\n'.join(lines))
# ---------------------------------------------------------------- Plain
PLACE = 'use Rattle.point_core.specs.declared.fault.Place.{Place}'
TERM = f'use {CR}.specs.declared.terminal.Terminal.{{Terminal}}'
TV = f'use {CR}.specs.declared.terminal.Terminal.TheVariants as t'
def choice_uses(variants=True):
    o = []
    for c in CHOICES:
        o.append(f'use {CR}.specs.declared.words.{CHOICE_TYPES[c]}.{{{CHOICE_TYPES[c]}}}')
        if variants: o.append(f'use {CR}.specs.declared.words.{CHOICE_TYPES[c]}.TheVariants as {PLURAL[c]}')
    return o
COMMENT = {  # the rule of the grammar above each type
 'point':'"INTEGER" | "DATE" | "MOMENT" | name','scalar':'conj | scalar "OR" conj','conj':'neg | conj "AND" neg','neg':'"NOT" neg | cmp','cmp':'sum | sum comparison sum',
 'sum':'prod | sum ( "+" | "-" | "||" ) prod','prod':'sign | prod ( "*" | "/" ) sign','sign':'"-" integer | "-" sign | primary; a "-" before an integer is one literal with it',
 'primary':'integer | text | "DATE" text | "MOMENT" text | "TRUE" | "FALSE" | name | name "." name | "(" scalar ")" | an interval | a function',
 'kind':'"BOOLEAN" | "CHAR" | point | "INTERVAL" "(" point ")"','attribute':'name kind','heading':'"{" [ attribute { "," attribute } ] "}"','names':'"{" [ name { "," name } ] "}"',
 'list':'"(" [ name { "," name } ] ")"','some_names':'"{" name { "," name } "}"','element':'name scalar','elements':'"{" [ element { "," element } ] "}"','some_elements':'"{" element { "," element } "}"',
 'tuple':'"TUPLE" elements','literal':'"RELATION" "{" tuple { "," tuple } "}" | "RELATION" heading "{" [ tuple { "," tuple } ] "}"','set_item':'name ":=" scalar','sets':'"{" set_item { "," set_item } "}"',
 'aggregate_form':'"COUNT" "(" ")" | ( "SUM" | "MIN" | "MAX" ) "(" scalar ")"','aggregate':'name ":=" aggregate_form','aggregates':'"{" aggregate { "," aggregate } "}"','renaming':'name "AS" name','renamings':'"{" renaming { "," renaming } "}"',
 'portion':'"PORTION" some_elements','maybe_portion':'[ "PORTION" some_elements ]','condition':'[ "WHERE" scalar ]','projection':'names | "{" "ALL" "BUT" name { "," name } "}"',
 'rel':'using | terms','terms':'term | terms infix term','term':'rel_primary | term projection | term "WHERE" scalar | term "RENAME" renamings','rel_primary':'extend | summarize | operand',
 'operand':'name | literal | "(" rel ")" | ( "PACK" | "UNPACK" ) rel "ON" list','extend':'"EXTEND" rel ":" sets','summarize':'"SUMMARIZE" rel "BY" names ":" aggregates','using':'"USING" list ":" using_part',
 'using_part':'extend | summarize | operand infix operand | operand projection | operand "WHERE" scalar','key':'"KEY" names','foreign':'"FOREIGN" "KEY" names "REFERENCES" name','used_constraint':'key | foreign',
 'constraint':'key | foreign | "PACKED" "ON" list | "WHEN" "UNPACKED" "ON" list "THEN" key | "USING" list ":" used_constraint','kept':'"USING" list ":" name infix name | "USING" list ":" name projection | "PACK" name "ON" list','var_form':'"RELATION" heading { constraint } | "VIRTUAL" "(" rel ")" | "KEPT" "(" kept ")"',
 'comparison':'operand ( "=" | "<>" | "<" | "<=" | ">" | ">=" ) operand','test':'"USING" list ":" comparison | ( "IS_EMPTY" | "IS_NOT_EMPTY" ) "(" rel ")" | comparison',
 'used_deletion':'"WHERE" scalar | rel','used_item':'"INSERT" name rel | "DELETE" name used_deletion | "UPDATE" name condition ":" sets','deletion':'"WHERE" scalar | portion condition | rel',
 'item':'name ":=" rel | "INSERT" name rel | "DELETE" name deletion | "UPDATE" name maybe_portion condition ":" sets | "TERMINATE" name "AT" scalar condition | "USING" list ":" used_item',
 'assign':'item { "," item }','statement':'";" and what may stand before it'}
def data(names, indent=''):
    o = []
    for n in names:
        f = FORMS[n]
        if not f['type'].endswith('P') or f['type'].startswith('List') : continue
        o.append(f'{indent}-- {COMMENT[n]}')
        o.append(f'{indent}pub data {f["type"]} : Type 0 where')
        for con, parts in f['alternatives']:
            o.append(f'{indent}  {con} : ' + ' → '.join([t for _, t in args_of(parts)] + [f['type']]))
        o.append('')
    return o
single = [n for n in FORMS if n not in SCALARS + RELATIONS]
o = ['-- The syntax tree as plain data: without where its parts lie in memory. Each rule of the grammar is one type. A tree',
 '-- keeps the place of its first token, of each name, and of each token at which a refusal or a fault may stand.',
 'use Rattle.std.specs.Prelude.{ℕ, List, [], ◌∷◌}', PLACE] + choice_uses(False) + ['',
 '-- a name, and where it stands', 'pub record Word : Type 0 where', '  pub place : Place', '  pub bytes : List ℕ', '',
 'abbrev pub word : Place → List ℕ → Word', 'word place bytes = record { place = place; bytes = bytes }', '']
done = []
def block(stop):
    global done
    ns = [n for n in single if n not in done and list(FORMS).index(n) < list(FORMS).index(stop)] if stop else [n for n in single if n not in done]
    done += ns
    return data(ns)
o += block('scalar') + ['mutual'] + data(SCALARS, '  ') + block('rel') + ['mutual'] + data(RELATIONS, '  ') + block(None)
write('specs/Plain.antt', '\n'.join(o))
CONS = [con for n, f in FORMS.items() for con, _ in f['alternatives'] if con and con not in ('[]', '∷')]
assert len(CONS) == len(set(CONS)), [c for c in CONS if CONS.count(c) > 1]
TYPES = [f['type'] for f in FORMS.values() if f['type'].endswith('P') and not f['type'].startswith('List')]
PLAIN_USE = f'use {CR}.specs.Plain.{{Word, word, ' + ', '.join(dict.fromkeys(TYPES)) + ', ' + ', '.join(CONS) + '}'
# ---------------------------------------------------------------- Written
o = ['-- The grammar: the tokens that a tree is written as, an equation for each alternative.',
 'use Rattle.std.specs.Prelude.{◌≡◌, ℕ, List, [], ◌∷◌, ◌++◌}', TERM, TV, PLACE] + choice_uses() + [f'use {CR}.specs.Pieces.{{Piece, first}}', PLAIN_USE, '',
'''-- What a tree says of one token: what it is, and where the tree keeps them its place and its bytes.
pub data Mark : Type 0 where
  fixed : Terminal → Mark
  at : Terminal → Place → Mark
  spelled : Terminal → Place → List ℕ → Mark
  -- a word that is reserved at its place alone
  worded : List ℕ → Mark
  -- and that this one does not stand directly behind it
  apart : Terminal → Place → Terminal → Mark

-- the token, given the one behind it
abbrev pub IsMark : Mark → Piece → Terminal → Type 0
IsMark (fixed s) t behind = t.terminal ≡ s
IsMark (at s p) t behind = (t.terminal ≡ s) × (t.place ≡ p)
IsMark (spelled s p bytes) t behind = (t.terminal ≡ s) × (t.place ≡ p) × (t.bytes ≡ bytes)
IsMark (worded bytes) x behind = (x.terminal ≡ t.Name) × (x.bytes ≡ bytes)
IsMark (apart s p barred) t behind = (t.terminal ≡ s) × (t.place ≡ p) × (behind ≡ barred → ⊥)

-- the tokens begin with these, and these are the tokens after them
unfoldable pub Spells : List Mark → List Piece → List Piece → Type 0
Spells [] ts rest = ts ≡ rest
Spells (m ∷ ms) [] rest = ⊥
Spells (m ∷ ms) (t ∷ ts) rest = IsMark m t (first ts) × Spells ms ts rest

-- a token of this kind; one whose place the tree keeps; one whose bytes it keeps too
abbrev pub token : Terminal → List Mark
token s = fixed s ∷ []

abbrev pub placed : Terminal → Place → List Mark
placed s p = at s p ∷ []

abbrev pub lexeme : Terminal → Place → List ℕ → List Mark
lexeme s p bytes = spelled s p bytes ∷ []

abbrev pub word_of : Word → List Mark
word_of n = lexeme t.Name n.place n.bytes

abbrev pub contextual : List ℕ → List Mark
contextual bytes = worded bytes ∷ []

-- a "-" before an integer is one literal with it
abbrev pub negation : Place → List Mark
negation p = apart t.Dash p t.Digits ∷ []

-- the words that have a meaning at their places alone, and may be names''']
for w in CONTEXT:
    o += [f'abbrev pub {word_name(w)} : List ℕ', f'{word_name(w)} = ' + ' ∷ '.join(str(ord(c)) for c in w) + ' ∷ []', '']
for c, (typ, vv) in CHOICES.items():
    o += [f'abbrev pub {c} : {typ} → Terminal'] + [f'{c} {PLURAL[c]}.{v} = t.{x}' for v, x in vv] + ['']
def written(names, indent='', abbrev='abbrev '):
    r = []
    for n in names:
        f = FORMS[n]
        r.append(f'{indent}{abbrev}pub of_{n} : {f["type"]} → List Mark')
        for con, parts in f['alternatives']: r.append(f'{indent}of_{n} {pattern(con, parts, {})} = {expr(parts)}')
        r.append('')
        for l, (typ, item, mf) in LISTS.items():
            if mf == n:
                r += [f'{indent}{abbrev}pub of_{l} : {typ} → List Mark', f'{indent}of_{l} [] = []', f'{indent}of_{l} (x ∷ xs) = ' + ('word_of x' if item == 'name' else f'of_{item} x') + f' ++ of_{n} xs', '']
    return r
o = o[:1] + o[1:]
seen = []
order = list(FORMS)
i = 0
while i < len(order):
    n = order[i]
    if n in SCALARS: o += ['abbrev mutual'] + written(SCALARS, '  ', ''); i += len(SCALARS); continue
    if n in RELATIONS: o += ['abbrev mutual'] + written(RELATIONS, '  ', ''); i += len(RELATIONS); continue
    o += written([n]); i += 1
write('specs/Written.antt', '\n'.join(o))
OFS = [f'of_{n}' for n in FORMS] + [f'of_{l}' for l in LISTS]
# ---------------------------------------------------------------- Table
HOW = {'P':'Plain','O':'Operator','S':'Separator','N':'Negated','D':'Dated','T':'Timed'}
def how(h, inner): return HOW[h] if h in HOW else f'({"Opens" if h == "L" else "OperatorOpens"} ({symlist(inner)}))'
def rname(s): return snake(s[3:] if s.startswith('The') else s) + '_rows'
def sl(l): return f'({symlist(l)})' if l else '[]'
o = ['-- For each form and each place in it, the tokens that may stand next.',
 'use Rattle.std.specs.Prelude.{ℕ, List, [], ◌∷◌, ◌++◌, Bool, true, false, ◌==◌, ◌&&◌, if◌then◌else◌}', TERM, TV, f'use {CR}.specs.Written.{{' + ', '.join(word_name(w) for w in CONTEXT) + '}', '',
'''-- the levels that are open, the operators in force, and those of them that stand outside the innermost level
pub record Load : Type 0 where
  pub levels : ℕ
  pub outside : ℕ
  pub operators : ℕ

-- A form that may stand here, or the rest of one that has begun.
pub data Symbol : Type 0 where
''' + '  ' + ' '.join(TABLE) + ''' : Symbol
  -- this token; this word where it stands for itself
  Just : Terminal → Symbol
  Worded : List ℕ → Symbol
  -- the end of a level, and the load outside it
  Shut : Load → Symbol

-- How a token is taken: it counts as an operator; it is a comma; it is an integer behind its "-"; it is the text of a
-- date, or of a moment; it opens a level, which ends behind these forms; or it is an operator that opens one.
pub data Taking : Type 0 where
  Plain Operator Separator Negated Dated Timed : Taking
  Opens OperatorOpens : List Symbol → Taking

-- What a token does where a form may stand: it cannot stand there; the form ends before it; or it is taken, and these
-- forms follow.
pub data Turn : Type 0 where
  Never Ends : Turn
  Takes : Taking → List Symbol → Turn

-- A row of a form: this token is taken so, and these forms follow; the name spelled so is; or it depends on the token
-- behind, so before this one and so before any other.
pub data Row : Type 0 where
  on : Terminal → Taking → List Symbol → Row
  spelt : List ℕ → List Symbol → Row
  before : Terminal → Terminal → Taking → List Symbol → Taking → List Symbol → Row

-- the rows of a form that is another and then these
abbrev pub then_row : Row → List Symbol → Row
then_row (on x how next) more = on x how (next ++ more)
then_row (spelt b next) more = spelt b (next ++ more)
then_row (before x y how next how' next') more = before x y how (next ++ more) how' (next' ++ more)

infixl 4 ◌▹◌
abbrev pub ◌▹◌ : List Row → List Symbol → List Row
[] ▹ more = []
(r ∷ rows) ▹ more = then_row r more ∷ (rows ▹ more)
''']
def rowtext(r):
    if r[0] == 'on': return f'on t.{r[1]} {how(r[2], r[3])} {sl(r[4])}'
    if r[0] == 'spelt': return f'spelt {word_name(r[1])} {sl(r[4])}'
    if r[0] == 'before': return f'before t.{r[1]} t.{r[2]} {how(r[3][0], r[3][1])} {sl(r[3][2])} {how(r[4][0], r[4][1])} {sl(r[4][2])}'
def rows_text(s):
    parts = []; cur = []
    for r in TABLE[s]['rows']:
        if r[0] in OWN: cur.append(rowtext(r))
        else:
            if cur: parts.append('(' + ' ∷ '.join(cur + ['[]']) + ')'); cur = []
            parts.append(rname(r[1]) if r[0] == 'over' else f'({rname(r[1])} ▹ ({symlist([r[2]])}))')
    if cur: parts.append('(' + ' ∷ '.join(cur + ['[]']) + ')' if parts else ' ∷ '.join(cur + ['[]']))
    return parts
def layout(s):
    rs = TABLE[s]['rows']
    if all(r[0] in OWN for r in rs):
        return f'{rname(s)} =\n' + ''.join(f'    {rowtext(r)} ∷\n' for r in rs) + '    []' if len(rs) > 1 else f'{rname(s)} = {rowtext(rs[0])} ∷ []'
    ps = rows_text(s)
    # right nested appends
    e = ps[-1]
    for p in reversed(ps[:-1]): e = f'{p} ++ ({e})' if '++' in e else f'{p} ++ {e}'
    return f'{rname(s)} = {e}'
for s in TABLE: o += [f'abbrev pub {rname(s)} : List Row', layout(s), '']
o += ['abbrev pub rows : Symbol → List Row'] + [f'rows {s} = {rname(s)}' for s in TABLE] + ['rows (Just x) = on x Plain [] ∷ []', 'rows (Worded b) = spelt b [] ∷ []', 'rows (Shut outer) = []', '']
o += ['-- the form may end before a token that none of its rows takes', 'abbrev pub may_end : Symbol → Bool'] + [f'may_end {s} = true' for s in TABLE if may_end(s)] + ['may_end (Shut outer) = true', 'may_end _ = false', '']
o += ['-- the place of a terminal in their list, which tells them apart', 'abbrev pub number : Terminal → ℕ'] + [f'number t.{x} = {i}' for i, x in enumerate(TERMINALS)] + ['']
o += ['''abbrev pub same : Terminal → Terminal → Bool
same a b = number a == number b

abbrev pub same_bytes : List ℕ → List ℕ → Bool
same_bytes [] [] = true
same_bytes (x ∷ xs) (y ∷ ys) = (x == y) && same_bytes xs ys
same_bytes _ _ = false

-- the row is for this token
abbrev pub fits : Row → Terminal → List ℕ → Bool
fits (on y how more) x b = same y x
fits (spelt c more) x b = same t.Name x && same_bytes c b
fits (before y z how more how' more') x b = same y x

-- what the row does with its token before this one
abbrev pub chosen : Row → Terminal → Turn
chosen (on y how more) n = Takes how more
chosen (spelt c more) n = Takes Plain more
chosen (before y z how more how' more') n = if same z n then Takes how more else Takes how' more'

-- what the first row for this token does
abbrev pub find : List Row → Bool → Terminal → List ℕ → Terminal → Turn
find [] ends x b n = if ends then Ends else Never
find (r ∷ rs) ends x b n = if fits r x b then chosen r n else find rs ends x b n

-- What the next token, with its bytes, does where this form may stand, given the token behind it.
abbrev pub turn : Symbol → Terminal → List ℕ → Terminal → Turn
turn s x b n = find (rows s) (may_end s) x b n''']
write('specs/Table.antt', '\n'.join(o) + '\n')
SYMS = ', '.join(TABLE) + ', Just, Worded, Shut'
