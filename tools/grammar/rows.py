# The table as static rows of crates/utd_parser.
from forms import *
import files
from files import call, array
write = files.writer('utd_parser')
PRIMARY_PART = list(TABLE)[:list(TABLE).index('TheProd')]
OPERATOR_PART = list(TABLE)[list(TABLE).index('TheProd'):list(TABLE).index('TheNeg')]
SCALAR_PART = list(TABLE)[list(TABLE).index('TheNeg'):list(TABLE).index('ThePoint')]
STATEMENT_PART = list(TABLE)[list(TABLE).index('TheKey'):]
RELATION_PART = [s for s in TABLE if s not in PRIMARY_PART + OPERATOR_PART + SCALAR_PART + STATEMENT_PART]
TAKING = {'P': 'Plain', 'O': 'Operator', 'S': 'Separator', 'N': 'Negated', 'D': 'Dated', 'T': 'Timed'}
def form(s):
    if isinstance(s, str): return f'Form::{s}'
    return f'Form::Just(Terminal::{s[1]})' if s[0] == 'Just' else f'Form::Worded(PlaceWord::{s[1].capitalize()})'
def forms(l): return array([form(s) for s in l])
def taking(h, inner):
    if h in TAKING: return f'Taking::{TAKING[h]}'
    return call('Taking::' + ('Opens' if h == 'L' else 'OperatorOpens'), [forms(inner)])
def values(s):   # the rows of a form
    out, rows = [], list(EXP[s])
    while rows:
        kind, x, n, h, inner, more = rows.pop(0)
        if kind == 'on': out.append(call('Row::On', [f'Terminal::{x}', taking(h, inner), forms(more)]))
        elif kind == 'spelt': out.append(call('Row::Spelt', [f'PlaceWord::{n.capitalize()}', forms(more)]))
        else:
            _, _, _, h2, inner2, more2 = rows.pop(0)
            out.append(call('Row::Before', [f'Terminal::{x}', f'Terminal::{n}', taking(h, inner), forms(more), taking(h2, inner2), forms(more2)]))
    return out
def table(name, part, what):
    o = [f'// The rows of {what}.', 'use crate::form::{Form, PlaceWord, Row, Taking};', 'use utd_syntax::Terminal;', '']
    if not any('PlaceWord::' in files.on_one_line(x) for s in part for x in values(s)): o[1] = 'use crate::form::{Form, Row, Taking};'
    for s in part:
        r = values(s)
        o += files.table_lines(f'pub static {snake(s).upper()}: [Row; {len(r)}] =', r) + ['']
    write(f'src/{name}.rt', '\n'.join(o))
table('primary_rows', PRIMARY_PART, 'primaries and their parts')
table('operator_rows', OPERATOR_PART, 'products, sums and comparisons')
table('scalar_rows', SCALAR_PART, 'scalars')
table('relation_rows', RELATION_PART, 'relations and their parts')
table('statement_rows', STATEMENT_PART, 'statements and their parts')
MODULE = {**{s: 'operator_rows' for s in OPERATOR_PART}, **{s: 'primary_rows' for s in PRIMARY_PART}, **{s: 'scalar_rows' for s in SCALAR_PART}, **{s: 'relation_rows' for s in RELATION_PART}, **{s: 'statement_rows' for s in STATEMENT_PART}}
o = ['''// The forms of the grammar, and what a token does where one may stand.
use utd_syntax::Terminal;

/// The words that are reserved at their places alone.
#[derive(Clone, Copy)]
pub enum PlaceWord {''']
o += [f'    {w.capitalize()},' for w in CONTEXT]
o += ['''}

/// A form that may stand at a place, or the rest of one that has begun; a fixed token; a word that is reserved there.
#[derive(Clone, Copy)]
pub enum Form {''']
o += [f'    {s},' for s in TABLE]
o += ['''    Just(Terminal),
    Worded(PlaceWord),
}

/// How a token is taken: it counts as an operator; it is a comma; it is an integer behind its `-`; it is the text of a
/// date, or of a moment; it opens a level, which ends behind these forms; or it is an operator that opens one.
#[derive(Clone, Copy)]
pub enum Taking {
    Plain,
    Operator,
    Separator,
    Negated,
    Dated,
    Timed,
    Opens(&'static [Form]),
    OperatorOpens(&'static [Form]),
}

/// This token is taken so, and these forms follow; the name that is spelled so is; or it depends on the token behind: so
/// before that one, and so before any other.
#[derive(Clone, Copy)]
pub enum Row {
    On(Terminal, Taking, &'static [Form]),
    Spelt(PlaceWord, &'static [Form]),
    Before(Terminal, Terminal, Taking, &'static [Form], Taking, &'static [Form]),
}

/// What a token does where a form may stand: it cannot stand there; the form ends before it; or it is taken, and these
/// forms follow.
#[derive(Clone, Copy)]
pub enum Turn {
    Never,
    Ends,
    Takes(Taking, &'static [Form]),
}''']
write('src/form.rt', '\n'.join(o) + '\n')
o = ['''// For each form, the tokens that may stand next.
ghost use Rattle.std.specs.Prelude.{◌≡◌};
ghost use Rattle.utd_syntax.specs.Table as table;
ghost use Rattle.utd_parser.specs.Forms.{form_of, rows_of};

use crate::form::{Form, Row};
use crate::{operator_rows, primary_rows, relation_rows, scalar_rows, statement_rows};

/// The rows of a form; a single token has none here.
pub fn rows_at(form: Form) -> &'static [Row]
    ensures { rows_of result.now ≡ listed_rows form }
{
    match form {''']
for s in TABLE: o.append(f'        Form::{s} => &{MODULE[s]}::{snake(s).upper()},')
o += ['''        Form::Just(_) => &[],
        Form::Worded(_) => &[],
    }
}

/// The form may end before a token that none of its rows takes.
pub fn may_end(form: Form) -> bool
    ensures { result ≡ table.may_end (form_of form) }
{
    match form {''']
o.append('        ' + '\n        | '.join(f'Form::{s}' for s in TABLE if may_end(s)) + ' => true,')
o += ['        _ => false,', '    }', '}']
write('src/listed.rt', '\n'.join(o).replace('table as table', 'Table as table').replace('{form_of, rows_of}', '{form_of, listed_rows, rows_of}') + '\n')
P = 'Rattle.utd_parser.specs.declared.form'
o = ['''-- The forms of the parser as those of the table.
use Rattle.std.specs.Prelude.{ℕ, List, [], ◌∷◌}
use Rattle.utd_syntax.specs.Table as table
use Rattle.utd_syntax.specs.Written.{''' + ', '.join(word_name(w) for w in CONTEXT) + '}',
f'use {P}.PlaceWord.{{PlaceWord}}', f'use {P}.PlaceWord.TheVariants as words', f'use {P}.Form.{{Form}}', f'use {P}.Form.TheVariants as forms',
f'use {P}.Taking.{{Taking}}', f'use {P}.Taking.TheVariants as takings', f'use {P}.Row.{{Row}}', f'use {P}.Row.TheVariants as lines', f'use {P}.Turn.{{Turn}}', f'use {P}.Turn.TheVariants as turns', '',
'-- how a word that is reserved at its place is spelled', 'abbrev pub spelled_as : PlaceWord → List ℕ']
o += [f'spelled_as words.{w.capitalize()} = {word_name(w)}' for w in CONTEXT]
o += ['', 'abbrev pub form_of : Form → table.Symbol'] + [f'form_of forms.{s} = table.{s}' for s in TABLE]
o += ['form_of (forms.Just x) = table.Just x', 'form_of (forms.Worded w) = table.Worded (spelled_as w)', '']
o += ['''abbrev pub forms_of : List Form → List table.Symbol
forms_of [] = []
forms_of (f ∷ fs) = form_of f ∷ forms_of fs

abbrev pub taking_of : Taking → table.Taking
taking_of takings.Plain = table.Plain
taking_of takings.Operator = table.Operator
taking_of takings.Separator = table.Separator
taking_of takings.Negated = table.Negated
taking_of takings.Dated = table.Dated
taking_of takings.Timed = table.Timed
taking_of (takings.Opens inner) = table.Opens (forms_of inner.now)
taking_of (takings.OperatorOpens inner) = table.OperatorOpens (forms_of inner.now)

abbrev pub row_of : Row → table.Row
row_of (lines.On x how next) = table.on x (taking_of how) (forms_of next.now)
row_of (lines.Spelt w next) = table.spelt (spelled_as w) (forms_of next.now)
row_of (lines.Before x y how next how' next') = table.before x y (taking_of how) (forms_of next.now) (taking_of how') (forms_of next'.now)

abbrev pub rows_of : List Row → List table.Row
rows_of [] = []
rows_of (r ∷ rs) = row_of r ∷ rows_of rs

-- the rows of a form; a single token has none in the list
abbrev pub listed_rows : Form → List table.Row
listed_rows (forms.Just x) = []
listed_rows (forms.Worded w) = []
listed_rows f = table.rows (form_of f)

abbrev pub turn_of : Turn → table.Turn
turn_of turns.Never = table.Never
turn_of turns.Ends = table.Ends
turn_of (turns.Takes how next) = table.Takes (taking_of how) (forms_of next.now)''']
write('specs/Forms.antt', '\n'.join(o) + '\n')
