"""Tries of the parts, by small texts."""
from functions import form_of, functions_of
from limits import numbers_in
from statements import lemma_forms


def body(text):
    [(_, _, head, lines)] = functions_of(text)
    return form_of(head, lines)


def lemmas(text, path='proofs/A.antt'):
    return {name: form for form, _, name in lemma_forms(path, text)}


ONE = '''pub fn first(list: &[usize], sought: usize) -> usize
    ensures { result ≤ length list.now }
{
    // where it stands
    for (at, item) in list.iter().enumerate() {
        if *item == sought {
            return at;
        }
    }
    list.len()
}
'''
OTHER = '''fn place(items: &[usize], x: usize) -> usize {
    for (i, it) in items.iter().enumerate() {
        if *it == x { return i; }
    }
    items.len()
}
'''

LEMMAS = '''use Rattle.std.proofs.Common.{◌≡◌, List, length}
use Rattle.low.specs.Words.{Row, IsShort}

-- a comment
pub one : {X : Type 0} (xs : List X) (n : ℕ) → length xs ≡ n → IsShort xs
one xs n e = e

two : {Y : Type 0} → (ys : List Y) → (m : ℕ)
    → length ys ≡ m → IsShort ys
two ys m e = e

three : (xs : List Row) → IsShort xs
three xs = tt

number : (n : ℕ) → ℕ
number n = n

module _ {X : Type 0} (xs : List X) (short : IsShort xs) where
  free : (b : Bool) → b ≡ b
  free b = refl

  held : IsShort xs
  held = short

  kept : (n : ℕ) → IsShort xs
  unfolding IsShort
  kept n = held
'''


def run():
    assert body(ONE) == body(OTHER)
    assert body(ONE) != body(OTHER.replace('i;', 'i + 1;'))
    assert body('fn one() -> usize {\n    1\n}\n') is None
    found = lemmas(LEMMAS)
    assert found['one'] == found['two'] != found['three']
    assert 'number' not in found
    # a premise of the module counts where the proof says it, by itself or by another lemma
    assert 'low.specs.Words.IsShort' not in found['free']
    assert found['held'].count('low.specs.Words.IsShort') == 2 and found['kept'].count('low.specs.Words.IsShort') == 2
    # a word of another crate is another word
    assert lemmas(LEMMAS.replace('Rattle.low', 'Rattle.high'))['three'] != found['three']
    assert numbers_in('size ≤ 64, 100_000 < n, w64, 2 ^ 16') == ({64, 100000, 2, 16}, {64})
    print('twice: its parts do what they say')
    return 0
