# The description read: parts of the alternatives, rows of the table, what may stand open behind a form, and how each
# form is completed.
import re
from table import *
CR = 'Rattle.utd_syntax'
def snake(s): return re.sub(r'(?<!^)([A-Z])', r'_\1', s).lower()
PLURAL = {'comparison':'comparisons','sum_word':'sum_words','product_word':'product_words','begin_bracket':'begin_brackets','end_bracket':'end_brackets','extreme':'extremes','function':'functions','pair_function':'pair_functions','infix_word':'infixes','pack_word':'pack_words','aggregate_word':'aggregate_words','relation_comparison':'relation_comparisons','emptiness':'emptinesses'}

# ---------------------------------------------------------------- reading the description
def parse_parts(text):
    out = []
    for w in text.split():
        m = re.match(r'^-!(\w+)@(\w+)$', w)
        if w == '-!Digits@p': out.append(('apart','Dash','p','Digits')); continue
        m = re.match(r'^~(\w+)@(\w+)$', w)
        if m: out.append(('wordat', m[1], m[2])); continue
        m = re.match(r'^~(\w+)$', w)
        if m: out.append(('word', m[1])); continue
        m = re.match(r'^(\w+)@(\w+)=(\w+)$', w)
        if m: out.append(('lex', m[1], m[2], m[3])); continue
        m = re.match(r'^(\w+)@(\w+)$', w)
        if m and m[1] in TERMINALS: out.append(('at', m[1], m[2])); continue
        m = re.match(r'^(\w+):%(\w+)@(\w+)$', w)
        if m: out.append(('op', m[2], m[1], m[3])); continue
        m = re.match(r'^(\w+):%(\w+)$', w)
        if m: out.append(('op', m[2], m[1], None)); continue
        m = re.match(r'^(\w+):\*(\w+)$', w)
        if m: out.append(('list', m[2], m[1])); continue
        m = re.match(r'^(\w+):!(\w+)$', w)
        if m: out.append(('open', m[2], m[1])); continue
        m = re.match(r'^(\w+):\^(\w+)$', w)
        if m: out.append(('group', m[2], m[1])); continue
        m = re.match(r'^(\w+):name$', w)
        if m: out.append(('name', m[1])); continue
        m = re.match(r'^(\w+):(\w+)$', w)
        if m: out.append(('f', m[2], m[1])); continue
        if w in TERMINAL_OF: out.append(('fx', TERMINAL_OF[w])); continue
        raise Exception(w)
    return out
for f in FORMS.values(): f['alternatives'] = [(c, parse_parts(t)) for c, t in f['alternatives']]
def args_of(parts):   # (variable, type)
    a = []
    for p in parts:
        k = p[0]
        if k == 'at': a.append((p[2], 'Place'))
        elif k == 'name': a.append((p[1], 'Word'))
        elif k == 'lex': a += [(p[2], 'Place'), (p[3], 'List ℕ')]
        elif k == 'apart': a.append((p[2], 'Place'))
        elif k == 'wordat': a.append((p[2], 'Place'))
        elif k == 'op': a += ([(p[3], 'Place')] if p[3] else []) + [(p[2], CHOICE_TYPES[p[1]])]
        elif k in ('f','open','group'): a.append((p[2], FORMS[p[1]]['type']))
        elif k == 'list': a.append((p[2], LISTS[p[1]][0]))
    return a
def paren(s): return s if ' ' not in s or (s.startswith('(') and s.endswith(')')) else f'({s})'
def expr1(p):
    k = p[0]
    if k == 'at': return f'placed t.{p[1]} {p[2]}'
    if k == 'fx': return f'token t.{p[1]}'
    if k == 'name': return f'word_of {p[1]}'
    if k == 'lex': return f'lexeme t.{p[1]} {p[2]} {p[3]}'
    if k == 'apart': return f'negation {p[2]}'
    if k == 'word': return f'contextual {word_name(p[1])}'
    if k == 'wordat': return f'lexeme t.Name {p[2]} {word_name(p[1])}'
    if k == 'op': return (f'placed ({p[1]} {p[2]}) {p[3]}' if p[3] else f'token ({p[1]} {p[2]})')
    if k in ('f','open','group'): return f'of_{p[1]} {paren(p[2])}'
    if k == 'list': return f'of_{p[1]} {paren(p[2])}'
def expr(parts): return ' ++ '.join(expr1(p) for p in parts) if parts else '[]'
def mark(p):
    k = p[0]
    if k == 'at': return f'at t.{p[1]} {p[2]}'
    if k == 'fx': return f'fixed t.{p[1]}'
    if k == 'name': return f'spelled t.Name {paren(p[1])}.place {paren(p[1])}.bytes'
    if k == 'lex': return f'spelled t.{p[1]} {p[2]} {p[3]}'
    if k == 'apart': return f'apart t.Dash {p[2]} t.Digits'
    if k == 'word': return f'worded {word_name(p[1])}'
    if k == 'wordat': return f'spelled t.Name {p[2]} {word_name(p[1])}'
def is_token(p): return p[0] in ('at','fx','name','lex','apart','word','wordat')
def head_terminal(p): return 'Name' if p[0] in ('name','word','wordat') else p[1]

# expansion of an alternative into patterns whose leading tokens are known
counter = 0
def fresh(v):
    global counter; counter += 1; return f'{v}{counter}'
def rename(p, ren):
    return tuple(ren.get(x, x) if i else x for i, x in enumerate(p)) if p[0] not in ('at','fx','lex') else (p[0], p[1]) + tuple(ren.get(x, x) for x in p[2:])
def item_case(form):   # the one alternative of an item form, with fresh variables: (pattern, parts)
    con, parts = FORMS[form]['alternatives'][0]
    if form == 'name':
        n = fresh('n'); return n, [('name', n)]
    ren = {v: fresh(v) for v, _ in args_of(parts)}
    ps = [rename(p, ren) for p in parts]
    pat = f'({con} ' + ' '.join(v for v, _ in args_of(ps)) + ')'
    return pat, ps
def expand(parts):   # list of (substitution of variables by patterns, items)
    if not parts: return [({}, [])]
    p, rest = parts[0], parts[1:]
    tails = expand(rest)
    out = []
    if p[0] == 'op':
        for v, term in CHOICES[p[1]][1]:
            tok = ('at', term, p[3]) if p[3] else ('fx', term)
            for s, items in tails: out.append(({p[2]: f'{PLURAL[p[1]]}.{v}', **s}, [tok] + items))
        return out
    if p[0] == 'list':
        typ, item, mf = LISTS[p[1]]
        for s, items in tails: out.append(({p[2]: '[]', **s}, items))
        pat, ps = item_case(item); xs = fresh('xs')
        for s, items in tails: out.append(({p[2]: f'({pat} ∷ {xs})', **s}, ps + [('f', mf, xs)] + items))
        return out
    if p[0] == 'open':
        for con, inner in FORMS[p[1]]['alternatives']:
            ren = {v: fresh(v) for v, _ in args_of(inner)}
            inner2 = [rename(q, ren) for q in inner]
            for s2, it in expand(inner2):
                pat = '(' + ' '.join([con] + [s2.get(v, v) for v, _ in args_of(inner2)]) + ')'
                for s, items in tails: out.append(({p[2]: pat, **s}, it + items))
        return out
    if p[0] == 'group':
        for con, inner in FORMS[p[1]]['alternatives']:
            ren = {v: fresh(v) for v, _ in args_of(inner)}
            inner2 = [rename(q, ren) for q in inner]
            for s2, it in expand(inner2):
                pat = '(' + ' '.join([con] + [s2.get(v, v) for v, _ in args_of(inner2)]) + ')'
                for s, items in tails: out.append(({p[2]: pat, **s}, [('g', it, f'of_{p[1]} {pat}')] + items))
        return out
    for s, items in tails: out.append((s, [p] + items))
    return out
def pattern(con, parts, sub):
    a = [sub.get(v, v) for v, _ in args_of(parts)]
    if con is None: return a[0]
    if con == '[]': return '[]'
    if con == '∷': return f'({a[0]} ∷ {a[1]})'
    return f'({con} {" ".join(a)})' if a else con
for f in FORMS.values():
    f['cases'] = []
    for con, parts in f['alternatives']:
        counter = 0
        for sub, items in expand(parts): f['cases'].append((con, pattern(con, parts, sub), items, parts))

# ---------------------------------------------------------------- the table
def sym(s): return s if isinstance(s, str) else (f'Just t.{s[1]}' if s[0] == 'Just' else f'Worded {word_name(s[1])}')
def symlist(l): return ' ∷ '.join([sym(s) for s in l] + ['[]']) if l else '[]'
OWN = ('on', 'spelt', 'before')   # the kinds of rows that are of the symbol itself
def rows_of(s):   # expanded: (kind, terminal, next or how the name is spelled, how, inner, more)
    out = []
    for r in TABLE[s]['rows']:
        if r[0] == 'on': out.append(('on', r[1], None, r[2], r[3] or [], r[4]))
        elif r[0] == 'spelt': out.append(('spelt', 'Name', r[1], r[2], [], r[4]))
        elif r[0] == 'before':
            out.append(('first', r[1], r[2], r[3][0], (r[3][1] or []), r[3][2])); out.append(('second', r[1], r[2], r[4][0], (r[4][1] or []), r[4][2]))
        elif r[0] == 'over': out += rows_of(r[1])
        else: out += [(k, x, n, h, i, m + [r[2]]) for k, x, n, h, i, m in rows_of(r[1])]
    return out
EXP = {s: rows_of(s) for s in TABLE}
for s in TABLE:   # LL(1): the first row that fits is taken, so a name that is spelled so stands before any name
    keys = [r[1] for r in EXP[s] if r[0] not in ('second', 'spelt')]
    assert len(keys) == len(set(keys)), (s, keys)
    names = [r[0] for r in EXP[s] if r[1] == 'Name']
    assert 'spelt' not in names[1:] and (names[:1] != ['spelt'] or names[1:] in ([], ['on'])), (s, names)
def may_end(s): return isinstance(s, str) and TABLE[s]['ends'] is not None
ORDER = ['MoreConstraints'] + [f['symbol'] for f in FORMS.values() if f['symbol'] and f['symbol'].startswith('More') and f['symbol'] != 'MoreConstraints'] + ['MaybePortion','MaybeWhere','MoreInfix','MorePostfix','MoreOr','MoreAnd','MoreCmp','MoreSum','MoreProd','AfterName']
TRAIL = {s: set() for s in TABLE}
def trail(s): return TRAIL[s] if isinstance(s, str) else set()
grown = True
while grown:
    grown = False
    for s in TABLE:
        new = set(TRAIL[s]) | ({s} if may_end(s) else set())
        for _, _, _, _, inn, m in EXP[s]:
            for group in ([m] if m else [inn]):
                for f in reversed(group):
                    new |= trail(f)
                    if not may_end(f): break
        if new != TRAIL[s]: TRAIL[s] = new; grown = True
for s in TABLE:
    for x in TRAIL[s]: assert x in ORDER, x
def calm(s): return tuple(sorted(trail(s), key=ORDER.index))
ENDING = {'ThePrimary': [('True', [])]}
def ending(s):
    if not isinstance(s, str): return [(s[1] if s[0] == 'Just' else 'Name', [] if s[0] == 'Just' else word_name(s[1]))]
    return ENDING.get(s)
grown = True
while grown:
    grown = False
    for s in TABLE:
        best = ENDING.get(s)
        if may_end(s): cands = [[]]
        else:
            cands = []
            for k, x, n, h, inn, m in EXP[s]:
                if k == 'second' and x == 'Dash': continue
                if k in ('first', 'spelt'): continue
                if x in ('Digits','Quoted','Date','Moment','Name') and any(r[1] == 'True' for r in EXP[s]): continue
                es = [ending(f) for f in inn + m]
                if all(e is not None for e in es): cands.append([(x, [])] + sum(es, []))
        for c in cands:
            if best is None or len(c) < len(best): best = c
        if s != 'ThePrimary' and best is not None and best != ENDING.get(s): ENDING[s] = best; grown = True
for s in TABLE: assert s in ENDING, s
# the calm lists get names
CALMS = {}
def calm_name(l):
    if not l: return None
    if l not in CALMS:
        if len(l) > 1: calm_name(l[1:])
        CALMS[l] = f'Calm{len(CALMS) + 1}'
    return CALMS[l]
for s in TABLE: calm_name(calm(s))
def refls(l): return 'refl' if len(l) == 1 else ('tt' if not l else f'(refl, {refls(l[1:])})')
def project(c, L, S):
    if not S: return 'tt'
    for i in range(len(L)):
        if L[i:] == S: return c + '.1' * i
    def comp(m):
        i = L.index(m); return c + '.1' * i + ('' if i == len(L) - 1 else '.0')
    return comp(S[0]) if len(S) == 1 else f'({comp(S[0])}, {project(c, L, S[1:])})'
# links: F -> (G, extra symbol or None, make)
LINKS = {}
for name, f in FORMS.items():
    if not f['symbol']: continue
    for r in TABLE[f['symbol']]['rows']:
        if r[0] in ('over', 'then'):
            g = [n for n, ff in FORMS.items() if ff['symbol'] == r[1]][0]
            LINKS[(name, g)] = (r[1], r[2] if r[0] == 'then' else None, r[-1])
def vs(e, v):
    return re.sub(r'\$(\d+)', lambda m: v + '.1' * int(m[1]) + '.0', e)
FSYM = {f['symbol']: n for n, f in FORMS.items() if f['symbol']}
def tail_of(form):   # left recursion: the rest that stays open
    for con, pat, items, parts in FORMS[form]['cases']:
        if items and items[0][0] == 'f' and items[0][1] == form:
            r = [x for x in TABLE[FORMS[form]['symbol']]['rows'] if x[0] == 'then']
            return r[0][2]
    return None
TAIL = {n: (tail_of(n) if FORMS[n]['symbol'] else None) for n in FORMS}
def open_calm(form):
    c = calm(FORMS[form]['symbol'])
    if TAIL[form]: assert c[0] == TAIL[form], (form, c); return c[1:]
    return c
def nullable(form): return any(not items for _, _, items, _ in FORMS[form]['cases'])
