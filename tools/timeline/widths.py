"""How wide texts are, in characters of a font in which all are equally wide, and texts cut to a width."""
import unicodedata


def characters(text):
    """How many characters wide a text is: two for a wide one of East Asia, none for one that is put on another."""
    return sum(0 if unicodedata.category(character) in ('Mn', 'Me', 'Cf') else 2 if unicodedata.east_asian_width(character) in 'WF' else 1
               for character in text)


def cut(text, most):
    """A text in so many characters, the last of them an ellipsis where it has more."""
    if characters(text) <= most:
        return text
    while characters(text) > most - 1:
        text = text[:-1]
    return text + '…'


def wrapped(text, most):
    """The lines of a text, cut between words, or within one that is too long."""
    lines = ['']
    for word in text.split():
        word = cut(word, most)
        if lines[-1] and characters(f'{lines[-1]} {word}') > most:
            lines.append(word)
        else:
            lines[-1] = f'{lines[-1]} {word}'.strip()
    return lines
