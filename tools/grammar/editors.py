"""Highlighting for editors: editors/vim for Vim, editors/textmate for editors that read TextMate grammars.

The words and what kind they are of come from the vocabulary and the forms: so a word that the language gets is highlighted from then on.
"""
import json
import re

import files
from forms import CHOICES, CONTEXT, FORMS, RESERVED, SYMBOLS, WORDS

SPELLING = dict(WORDS + SYMBOLS)


def told(part):
    """A part of an alternative: a word or symbol as it is spelled, `~AT` for a word that is reserved there, else what kind it is of."""
    if part[0] in ('at', 'fx', 'lex'):
        return SPELLING.get(part[1], part[1])
    if part[0] in ('word', 'wordat'):
        return f'~{part[1]}'
    return 'name' if part[0] == 'name' else part[1]


def alternatives(*forms):
    """What the alternatives of these forms are made of."""
    return [[told(part) for part in parts] for form in forms for _, parts in FORMS[form]['alternatives']]


def of_choices(*names):
    """The words and symbols of these choices."""
    return {SPELLING[terminal] for name in names for _, terminal in CHOICES[name][1]}


def kinds_of_words():
    """Kind -> its words in their order; every reserved word is of one kind."""
    types = {part for parts in alternatives('kind', 'point') for part in parts}
    named = [
        ('Type', types),
        ('Constant', {'TRUE', 'FALSE'}),
        ('Statement', {parts[0] for parts in alternatives('statement', 'item')} - types),
        ('Test', of_choices('comparison') | {'NOT', 'AND', 'OR'}),
        ('Operator', of_choices('infix_word', 'pack_word') | {parts[0] for parts in alternatives('extend', 'summarize')}),
        ('Function', of_choices('extreme', 'function', 'aggregate_word', 'emptiness')),
    ]
    kinds, left = {}, list(RESERVED)
    for kind, words in named:
        kinds[kind] = [word for word in left if word in words]
        left = [word for word in left if word not in words]
    kinds['Word'] = left
    return kinds


def places():
    """Word that is reserved at its place alone -> ('behind', the word before the name that it follows) or ('before', what follows it)."""
    found = {}
    for parts in alternatives(*FORMS):
        for at, part in enumerate(parts):
            if part.startswith('~'):
                is_behind = at == 2 and parts[1] == 'name' and parts[0] in RESERVED
                found[part[1:]] = ('behind', parts[0]) if is_behind else ('before', parts[at + 1:at + 3])
    assert sorted(found) == sorted(CONTEXT)
    return found


# what may follow a word that is reserved at its place: its pattern for both kinds of editors
FOLLOWS = {
    'name': {'vim': r'\%%(\%%(%s\)\>\)\@!\k\+' % r'\|'.join(RESERVED), 'textmate': r'(?!(?:%s)\b)\w+' % '|'.join(RESERVED)},
    'point': {'vim': r'\k\+', 'textmate': r'\w+'},
    'paren_name': {'vim': '(', 'textmate': r'\('},
    ';': {'vim': ';', 'textmate': ';'},
    '(': {'vim': '(', 'textmate': r'\('},
    'kept': {'vim': r'\%(USING\|PACK\)\>', 'textmate': r'(?:USING|PACK)\b'},
    **{f'~{word}': {'vim': rf'\<{word}\>', 'textmate': rf'\b{word}\b'} for word in CONTEXT},
}


def following(parts, editor):
    space = r'\_s*' if editor == 'vim' else r'\s*'
    return space.join(FOLLOWS[part][editor] for part in parts)


# ---------------------------------------------------------------- Vim

VIM_LINKS = [
    ('Statement', 'Statement'), ('Word', 'Keyword'), ('Type', 'Type'), ('Constant', 'Boolean'), ('Test', 'Operator'), ('Operator', 'Operator'),
    ('Function', 'Function'), ('Place', 'Keyword'), ('Symbol', 'Operator'), ('Number', 'Number'), ('Text', 'String'), ('Quote', 'SpecialChar'),
    ('Comment', 'Comment'),
]


def vim_places():
    lines = []
    for word, (how, what) in places().items():
        if how == 'before':
            lines.append(rf'syntax match utdPlace /\<{word}\>\ze\_s\+{following(what, "vim")}/')
        else:
            name = f'utd{what.capitalize()}Name'
            lines += [
                f'syntax keyword utdStatement {what} nextgroup={name} skipwhite skipempty',
                rf'syntax match {name} /\k\+/ contained nextgroup=utd{word.capitalize()} skipwhite skipempty',
                f'syntax keyword utd{word.capitalize()} {word} contained',
                f'highlight default link utd{word.capitalize()} utdPlace',
            ]
    return lines


def vim_syntax():
    behind = {what for how, what in places().values() if how == 'behind'}
    symbols = sorted((symbol for _, symbol in SYMBOLS if symbol not in '()[]{},;.'), key=len, reverse=True)
    lines = [
        '" Scripts of utd.',
        "if exists('b:current_syntax')",
        '  finish',
        'endif',
        '',
        'syntax case match',
        'syntax iskeyword @,48-57,_,192-255',
        '',
    ]
    for kind, words in kinds_of_words().items():
        lines.append(f'syntax keyword utd{kind} {" ".join(word for word in words if word not in behind)}')
    lines += ['', '" words that are reserved at their places alone', *vim_places(), '']
    lines.append('syntax match utdSymbol /' + r'\|'.join(re.sub(r'[*/]', r'\\\g<0>', symbol) for symbol in symbols) + '/')
    lines += [
        r'syntax match utdNumber /\<\d\+/',
        "syntax match utdQuote /''/ contained",
        "syntax region utdText matchgroup=utdText start=/'/ skip=/''/ end=/'/ contains=utdQuote",
        'syntax match utdComment +//.*$+ contains=@Spell',
        r'syntax region utdComment start=+/\*+ end=+\*/+ contains=@Spell',
        '',
    ]
    lines += [f'highlight default link utd{kind} {group}' for kind, group in VIM_LINKS]
    return '\n'.join([*lines, '', "let b:current_syntax = 'utd'"])


VIM_DETECT = '''" Scripts of utd end in .td, which Vim takes for another language.
autocmd BufNewFile,BufRead *.td set filetype=utd'''

VIM_PLUGIN = '''" How a script of utd is edited.
if exists('b:did_ftplugin')
  finish
endif
let b:did_ftplugin = 1

setlocal commentstring=//\\ %s comments=s1:/*,mb:*,ex:*/,://
setlocal expandtab shiftwidth=2 softtabstop=2

" An interval may begin with a square bracket and end with a round one, so the matchit plugin takes both kinds for one, and Vim itself pairs braces alone.
setlocal matchpairs={:}
let b:match_words = '[[(]:[])]'
let b:match_skip = 's:^utd\\(Comment\\|Text\\|Quote\\)$'

let b:undo_ftplugin = 'setlocal commentstring< comments< expandtab< shiftwidth< softtabstop< matchpairs< | unlet! b:match_words b:match_skip\''''


# ---------------------------------------------------------------- TextMate

SCOPES = {
    'Statement': 'keyword.control', 'Word': 'keyword.other', 'Type': 'storage.type', 'Constant': 'constant.language',
    'Test': 'keyword.operator.word', 'Operator': 'keyword.operator.word', 'Function': 'support.function', 'Place': 'keyword.other',
}


def scope(kind):
    return f'{SCOPES[kind]}.utd'


def textmate_places():
    found = []
    for word, (how, what) in places().items():
        if how == 'before':
            found.append({'name': scope('Place'), 'match': rf'\b{word}\b(?=\s+{following(what, "textmate")})'})
        else:
            captures = {'1': {'name': scope('Statement')}, '2': {'name': scope('Place')}}
            found.append({'match': rf'\b({what})\s+\w+\s+({word})\b', 'captures': captures})
    return found


def textmate():
    symbols = sorted((symbol for _, symbol in SYMBOLS if symbol not in '()[]{},;.'), key=len, reverse=True)
    patterns = [
        {'name': 'comment.block.utd', 'begin': r'/\*', 'end': r'\*/'},
        {'name': 'comment.line.double-slash.utd', 'match': '//.*$'},
        {
            'name': 'string.quoted.single.utd', 'begin': "'", 'end': "'(?!')",
            'patterns': [{'name': 'constant.character.escape.utd', 'match': "''"}],
        },
        *textmate_places(),
        *({'name': scope(kind), 'match': r'\b(?:%s)\b' % '|'.join(words)} for kind, words in kinds_of_words().items()),
        {'name': 'constant.numeric.integer.utd', 'match': r'\b[0-9]+'},
        {'name': 'keyword.operator.utd', 'match': '|'.join(map(re.escape, symbols))},
    ]
    return {'comment': files.HEAD, 'name': 'utd', 'scopeName': 'source.utd', 'fileTypes': ['td'], 'patterns': patterns}


LANGUAGE_CONFIGURATION = {
    'comments': {'lineComment': '//', 'blockComment': ['/*', '*/']},
    'brackets': [['{', '}'], ['[', ']'], ['(', ')']],
    # an interval may begin with a square bracket and end with a round one, so these are not coloured in pairs
    'colorizedBracketPairs': [['{', '}']],
    'autoClosingPairs': [['{', '}'], ['[', ']'], ['(', ')'], ["'", "'"]],
    'surroundingPairs': [['{', '}'], ['[', ']'], ['(', ')'], ["'", "'"]],
}
PACKAGE = {
    'comment': files.HEAD,
    'name': 'utd', 'displayName': 'utd', 'description': 'Highlighting of scripts of utd', 'version': '1.0.0', 'publisher': 'utd',
    'engines': {'vscode': '^1.60.0'},
    'contributes': {
        'languages': [{'id': 'utd', 'aliases': ['utd'], 'extensions': ['.td'], 'configuration': './language-configuration.json'}],
        'grammars': [{'language': 'utd', 'scopeName': 'source.utd', 'path': './utd.tmLanguage.json'}],
    },
}


def lacking(text):
    """The words of the language that a text does not have; those that may not follow a word do not count."""
    for bar in ('|', r'\|'):
        text = text.replace(bar.join(RESERVED), '')
    return sorted({*RESERVED, *CONTEXT} - set(re.findall(r'[A-Z_]+', text)))


def write(path, text):
    files.APART[f'editors/{path}'] = text.rstrip('\n') + '\n'


SYNTAX, GRAMMAR = vim_syntax(), json.dumps(textmate(), indent=2)
for place, text in (('Vim', SYNTAX), ('TextMate', GRAMMAR)):
    assert not lacking(text), f'the highlighting for {place} lacks {" ".join(lacking(text))}'
write('vim/syntax/utd.vim', SYNTAX)
write('vim/ftdetect/utd.vim', VIM_DETECT)
write('vim/ftplugin/utd.vim', VIM_PLUGIN)
write('textmate/utd.tmLanguage.json', GRAMMAR)
write('textmate/language-configuration.json', json.dumps(LANGUAGE_CONFIGURATION, indent=2))
write('textmate/package.json', json.dumps(PACKAGE, indent=2))
