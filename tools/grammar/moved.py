# A tree whose places are moved, that it is written as the tree is, and that it is the tree where no place is moved.
from trees import *
LAWS = 'Rattle.place_laws'
write = files.writer('place_laws')
def stem(typ): return snake(typ[:-1] if typ.endswith('P') else typ)
def is_tree(typ): return typ == 'Word' or typ in TYPES
def item_type(typ): return typ[5:] if typ.startswith('List ') and is_tree(typ[5:]) else None
def shifted(lines): return ['  ' + line if line else line for line in lines]
def by_blocks(of_form, mutual, alone=''):
    """what is said of each form, in order; that of the scalars, and that of the relations, is mutual"""
    lines, left = [], list(FORMS)
    while left:
        block = SCALARS if left[0] in SCALARS else RELATIONS if left[0] in RELATIONS else left[:1]
        if len(block) > 1: lines += [mutual] + shifted(sum((of_form(n, '') for n in block), []))
        else: lines += of_form(block[0], alone)
        left = left[len(block):]
    return lines
MOVED_USE = f'use {LAWS}.specs.Moved.{{moved_word, ' + ', '.join(f'moved_{stem(x)}' for x in dict.fromkeys(TYPES)) + '}'
# ---------------------------------------------------------------- Moved
def moved(v, typ):
    """the argument, moved by g"""
    if typ == 'Place': return f'(g {v})'
    if item_type(typ): return f'(map (moved_{stem(item_type(typ))} g) {v})'
    return f'(moved_{stem(typ)} g {v})' if is_tree(typ) else v
def moved_form(n, ab):
    typ = FORMS[n]['type']
    if typ not in TYPES: return []
    lines = [f'{ab}pub moved_{stem(typ)} : (Place → Place) → {typ} → {typ}']
    for con, parts in FORMS[n]['alternatives']:
        lines.append(f'moved_{stem(typ)} g {pattern(con, parts, {})} = ' + ' '.join([con] + [moved(v, t) for v, t in args_of(parts)]))
    return lines + ['']
o = ['-- A syntax tree whose places are moved: it has all else that the tree has.', '-- moved_word, moved_point, .., moved_statement: a function for each type of trees.',
 'use Rattle.std.specs.Prelude.{List, map}', PLACE, PLAIN_USE, '', 'abbrev pub moved_word : (Place → Place) → Word → Word', 'moved_word g n = word (g n.place) n.bytes', '']
write('specs/Moved.antt', o + by_blocks(moved_form, 'abbrev mutual', 'abbrev '))
# ---------------------------------------------------------------- MovedMarks
def part_marks(p):
    if p[0] == 'op': return f'one (at ({p[1]} {p[2]}) {p[3]})' if p[3] else f'one (fixed ({p[1]} {p[2]}))'
    return f'one ({mark(p)})' if is_token(p) else f'{p[1]}-marks {p[2]}'
def marks_of(parts): return ' ▸ '.join(map(part_marks, parts)) if parts else 'none'
def marks_head(n, typ): return f'pub {n}-marks : (x : {typ}) → AreMoved (of_{n} {moved("x", typ)}) (of_{n} x)'
def marks_form(n, ab):
    if n == 'name': return []
    lines = [marks_head(n, FORMS[n]['type'])]
    for con, parts in FORMS[n]['alternatives']: lines.append(f'{n}-marks {pattern(con, parts, {})} = {marks_of(parts)}')
    lines.append('')
    for l, (typ, item, more) in LISTS.items():
        if more == n: lines += [marks_head(l, typ), f'{l}-marks [] = none', f'{l}-marks (x ∷ xs) = ' + marks_of([('name', 'x') if item == 'name' else ('f', item, 'x'), ('f', more, 'xs')]), '']
    return lines
o = ['-- A moved tree is written as the tree is, with the places moved.', '-- AreMoved: marks and the same marks, moved. point-marks, scalar-marks, .., statement-marks: those of each form.',
 'use Rattle.std.proofs.Common.{◌≡◌, List, [], ◌∷◌, ◌++◌, map, refl, sym, ◌∙◌}', 'use Rattle.std.proofs.lemmas.List.{map-append}', PLACE, TERM, TV, PLAIN_USE,
 f'use {CR}.specs.Written.{{Mark, fixed, at, spelled, worded, apart, ' + ', '.join([word_name(w) for w in CONTEXT] + list(CHOICES) + OFS) + '}', MOVED_USE, f'use {LAWS}.specs.MovedPieces.{{moved_mark}}', '',
'''module _ (g : Place → Place) where
  -- the first are the second, moved
  pub record AreMoved (a b : List Mark) : Type 0 where
    pub same : a ≡ map (moved_mark g) b

  none : AreMoved [] []
  none = record { same = refl }

  one : (m : Mark) → AreMoved (moved_mark g m ∷ []) (m ∷ [])
  one m = record { same = refl }

  -- and then
  infixl 4 ◌▸◌
  ◌▸◌ : {a b c d : List Mark} → AreMoved a b → AreMoved c d → AreMoved (a ++ c) (b ++ d)
  ◌▸◌ {a} {b} {c} {d} e h = record { same = (λ j. e.same j ++ h.same j) ∙ sym (map-append (moved_mark g) b d) }
''']
write('proofs/MovedMarks.antt', o + shifted(by_blocks(marks_form, 'mutual')))
# ---------------------------------------------------------------- SameTrees
def same(v, typ):
    """the argument at the point j of the way"""
    if item_type(typ): return f'(each-same _ {stem(item_type(typ))}-same {v} j)'
    return f'({stem(typ)}-same {v} j)' if typ in TYPES else v
def same_form(n, ab):
    typ = FORMS[n]['type']
    if typ not in TYPES: return []
    lines = [f'pub {stem(typ)}-same : (x : {typ}) → moved_{stem(typ)} (λ p. p) x ≡ x']
    for con, parts in FORMS[n]['alternatives']:
        args = args_of(parts); ways = [same(v, t) for v, t in args]
        lines.append(f'{stem(typ)}-same {pattern(con, parts, {})} = ' + ('refl' if ways == [v for v, _ in args] else 'λ j. ' + ' '.join([con] + ways)))
    return lines + ['']
o = ['-- A tree of which no place is moved is itself.', '-- word-same, point-same, .., statement-same: an equation for each type of trees. each-same: that of a list.',
 'use Rattle.std.proofs.Common.{◌≡◌, List, [], ◌∷◌, map, refl}', PLAIN_USE, MOVED_USE, '',
 'pub each-same : {A : Type 0} (g : A → A) → ((x : A) → g x ≡ x) → (xs : List A) → map g xs ≡ xs', 'each-same g e [] = refl', 'each-same g e (x ∷ xs) = λ j. e x j ∷ each-same g e xs j', '',
 'pub word-same : (x : Word) → moved_word (λ p. p) x ≡ x', 'word-same x = refl', '']
write('proofs/SameTrees.antt', o + by_blocks(same_form, 'mutual'))
