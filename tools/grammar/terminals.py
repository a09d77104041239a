# How the terminals are spelled.
from refused import *
# ---------------------------------------------------------------- Terminals
SP = {}
for w, s in WORDS: SP[w] = s
for t, s in SYMBOLS: SP[t] = s
SP['Name'] = 'X'; SP['Digits'] = '0'; SP['Quoted'] = ''; SP['Finish'] = ''
def codes(s): return ' ∷ '.join([str(ord(c)) for c in s] + ['[]'])
o = ['-- How the terminals are spelled.', 'use Rattle.std.specs.Prelude.{◌≡◌, ℕ, List, [], ◌∷◌, Bool, true, false, ◌&&◌, ◌||◌, not, ◌==◌, nat_le, IsTrue, if◌then◌else◌}', TERM, TV, f'use {CR}.specs.Pieces.{{Piece}}', f'use {CR}.specs.Table.{{same, same_bytes}}', f'use {CR}.specs.Literals.{{is_digit, are_digits}}', '',
 '-- a reserved word and a symbol have one spelling; of a name, an integer and a text this is one', 'abbrev pub spelling : Terminal → List ℕ']
o += [f'spelling t.{t} = {codes(SP[t])}' for t in TERMINALS] + ['']
o += ['abbrev pub reserved : List Terminal', 'reserved = ' + ' ∷ '.join([f't.{w}' for w, _ in WORDS] + ['[]']), '', 'abbrev pub symbols : List Terminal', 'symbols = ' + ' ∷ '.join([f't.{x}' for x, _ in SYMBOLS] + ['[]']), '']
o += ['''-- the one of these that is spelled so, or this other
abbrev pub spelled_among : List Terminal → Terminal → List ℕ → Terminal
spelled_among [] other b = other
spelled_among (x ∷ xs) other b = if same_bytes (spelling x) b then x else spelled_among xs other b

-- what a word is, and what a symbol is
abbrev pub word_terminal : List ℕ → Terminal
word_terminal b = spelled_among reserved t.Name b

abbrev pub symbol_terminal : List ℕ → Terminal
symbol_terminal b = spelled_among symbols t.Finish b

abbrev pub is_letter : ℕ → Bool
is_letter c = (nat_le 65 c && nat_le c 90) || (nat_le 97 c && nat_le c 122) || (c == 95)

abbrev pub are_letters : List ℕ → Bool
are_letters [] = true
are_letters (c ∷ cs) = (is_letter c || is_digit c) && are_letters cs

-- a word of ASCII letters, digits and "_" that does not begin with a digit
abbrev pub is_plain_word : List ℕ → Bool
is_plain_word [] = false
is_plain_word (c ∷ cs) = is_letter c && are_letters cs

-- there is such a token: a reserved word or a symbol spelled so, a name of ASCII, an integer, or a text
abbrev pub is_token : Terminal → List ℕ → Bool
is_token t.Name b = is_plain_word b && same (word_terminal b) t.Name
is_token t.Digits [] = false
is_token t.Digits b = are_digits b
is_token t.Quoted b = true
is_token t.Finish b = false
is_token x b = same_bytes (spelling x) b

abbrev pub AreTokens : List Piece → Type 0
AreTokens [] = Unit {0}
AreTokens (p ∷ ps) = (is_token p.terminal p.bytes ≡ true) × AreTokens ps''']
write('specs/Terminals.antt', '\n'.join(o) + '\n')
