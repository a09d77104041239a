"""Ways to break one tuple of a literal: each takes the source of chance and the tuples, lists of attributes with their values, and changes one of them."""
import re

TOO_LARGE = ['9223372036854775808', '-9223372036854775809', '99999999999999999999']
EMPTY = ['[5:4]', '(5:5]', '[5:5)', "[DATE '2012-01-02':DATE '2012-01-01']", '(SIZE.S:SIZE.S]']
OTHERS = ['1', "'x'", 'TRUE', "DATE '2012-02-29'", "MOMENT '2012-02-29T23:59:59'", '[1:2]', 'SIZE.M', 'RELATION {}', '1 + 1', 'N']
WRONG = ["DATE '2011-02-29'", "MOMENT '2012-01-01T24:00:00'", "DATE '2012-1-1'", 'SIZE.X', '[1:]', '- -1', "'"]


def with_value(chance, tuples, changed):
    """Changes the value of one attribute of one tuple."""
    one = chance.choice(tuples)
    at = chance.randrange(len(one))
    attribute, value = one[at]
    one[at] = (attribute, changed(value))


def lose_quote(chance, tuples):
    with_value(chance, tuples, lambda value: value.replace("'", '', 1))


def change_sign(chance, tuples):
    """A sign before a value that has none, or none where one is, or two."""
    with_value(chance, tuples, lambda value: value[1:] if value.startswith('-') else chance.choice(['-', '+', '- ', '--']) + value)


def exceed(chance, tuples):
    """A number that is too large, in place of one of a value."""
    with_value(chance, tuples, lambda value: re.sub('-?[0-9]+', chance.choice(TOO_LARGE), value, count=1))


def exchange(values):
    """One of these values in place of another."""
    def broken(chance, tuples):
        with_value(chance, tuples, lambda _: chance.choice(values))
    return broken


def reorder(chance, tuples):
    """Another order of names in one tuple than in those before it."""
    chance.shuffle(chance.choice(tuples))


def rename(chance, tuples):
    """A name that no other tuple has, or that this one has already."""
    one = chance.choice(tuples)
    at = chance.randrange(len(one))
    one[at] = (chance.choice(['A', 'N', 'NONE', 'TRUE', 'a']), one[at][1])


def lose_attribute(chance, tuples):
    one = chance.choice(tuples)
    del one[chance.randrange(len(one))]


def repeat_attribute(chance, tuples):
    one = chance.choice(tuples)
    one.append(chance.choice(one))


def repeat_tuple(chance, tuples):
    """A tuple that stands twice, which is no fault."""
    tuples.append(list(chance.choice(tuples)))


BREAKS = [lose_quote, change_sign, exceed, exchange(EMPTY), exchange(OTHERS), exchange(WRONG), reorder, rename, lose_attribute, repeat_attribute, repeat_tuple]
