# What the trees of the crate are as plain data. Run this one: it runs the others.
from terminals import *
# Rust types: form -> (module, type)
R = {'name':('word','Word'),'point':('scalar','PointName'),'scalar':('scalar','Scalar'),'conj':('scalar','Conjunction'),'neg':('scalar','Negation'),'cmp':('scalar','Comparison'),'sum':('scalar','Sum'),'prod':('scalar','Product'),'sign':('scalar','Sign'),'primary':('scalar','Primary'),
 'kind':('parts','Kind'),'attribute':('parts','Attribute'),'heading':('parts','Heading'),'names':('parts','Names'),'list':('parts','NameList'),'some_names':('parts','SomeNames'),'element':('parts','Element'),'elements':('parts','Elements'),'some_elements':('parts','SomeElements'),'tuple':('parts','Tuple'),'literal':('parts','Literal'),'set_item':('parts','SetItem'),'sets':('parts','Sets'),
 'aggregate_form':('parts','AggregateForm'),'aggregate':('parts','Aggregate'),'aggregates':('parts','Aggregates'),'renaming':('parts','Renaming'),'renamings':('parts','Renamings'),'portion':('parts','Portion'),'maybe_portion':('parts','MaybePortion'),'condition':('parts','Condition'),'projection':('parts','Projection'),
 'rel':('relation','Rel'),'terms':('relation','Terms'),'term':('relation','Term'),'rel_primary':('relation','RelPrimary'),'operand':('relation','Operand'),'extend':('relation','Extend'),'summarize':('relation','Summarize'),'using':('relation','Using'),'using_part':('relation','UsingPart'),
 'key':('statement','Key'),'foreign':('statement','Foreign'),'used_constraint':('statement','UsedConstraint'),'constraint':('statement','Constraint'),'kept':('statement','Kept'),'var_form':('statement','VarForm'),'comparison':('statement','Relate'),'test':('statement','Test'),'used_deletion':('statement','UsedDeletion'),'used_item':('statement','UsedItem'),'deletion':('statement','Deletion'),'item':('statement','Item'),'assign':('statement','Assignment'),'statement':('statement','Statement')}
VARIANT = {  # plain constructor -> Rust variant, where the names differ
 'IntegerType':'Integer','DateType':'Date','MomentType':'Moment','NamedType':'Named','OneConj':'One','OneNeg':'One','OneCmp':'One','OneSum':'One','OneProd':'One','OneSign':'One','OnePrimary':'One',
 'IntegerLiteral':'Integer','TextLiteral':'Text','DateLiteral':'Date','MomentLiteral':'Moment','TrueLiteral':'True','FalseLiteral':'False','AttributeName':'Attribute',
 'BooleanKind':'Boolean','CharKind':'Char','PointKind':'Point','IntervalKind':'Interval','CountRows':'Count','AggregateOf':'Of','NoPortion':'None','OfPortion':'Of','NoCondition':'None',
 'OfUsing':'Using','OfTerms':'Terms','OneTerm':'One','OneRelPrimary':'One','Filter':'Where','OfExtend':'Extend','OfSummarize':'Summarize','OfOperand':'Operand','OfLiteral':'Literal','ParenRel':'Paren','PackOn':'Pack','Extend':'Of','Summarize':'Of','Using':'Of',
 'UsingExtend':'Extend','UsingSummarize':'Summarize','UsingInfix':'Infix','UsingNotMatching':'NotMatching','UsingProject':'Project','UsingFilter':'Where',
 'UsedKey':'Key','UsedForeign':'Foreign','KeyOf':'Key','ForeignOf':'Foreign','UsingConstraint':'Using','KeptInfix':'Infix','KeptNotMatching':'NotMatching','KeptProject':'Project','KeptPack':'Pack','BaseRelvar':'Relation','View':'Virtual','UsingTest':'Using','OfComparison':'Relate',
 'UsedDeleteWhere':'Where','UsedDeleteRows':'Rows','UsedInsert':'Insert','UsedDelete':'Delete','UsedUpdate':'Update','DeleteWhere':'Where','DeletePortion':'Portion','DeleteRows':'Rows','SetRelvar':'Set','UsingItem':'Using',
 'DeclareOrdinal':'Ordinal','DeclareRelvar':'Var','DeclareHistory':'History','Assignment':'Assign'}
FIELDS = {  # structs: the fields in the order of the plain constructor
 'Attribute':['name','kind'],'Heading':['place','attributes'],'Names':['place','names'],'NameList':['place','names'],'SomeNames':['place','first','more'],'Element':['name','scalar'],'Elements':['place','elements'],'SomeElements':['place','first','more'],
 'Tuple':['place','elements'],'SetItem':['name','scalar'],'Sets':['place','first','more'],'Aggregate':['name','form'],'Aggregates':['place','first','more'],'Renaming':['old','new'],'Renamings':['place','first','more'],'Portion':['place','elements'],
 'Key':['place','names'],'Foreign':['place','names','relvar'],'Comparison':['left','place','word','right'],'Assign':['first','more']}
LISTTYPE = {'Word':('word','Words','name'),'AttributeP':('parts','Attributes','attribute'),'ElementP':('parts','ElementList','element'),'TupleP':('parts','Tuples','tuple'),'SetItemP':('parts','SetItems','set_item'),'AggregateP':('parts','AggregateList','aggregate'),'RenamingP':('parts','RenamingList','renaming'),'ConstraintP':('statement','Constraints','constraint'),'ItemP':('statement','Items','item')}
INCYCLE = {}   # (form, argument type) boxed inside the cycle
def al(form): return 'rust_' + form
o = ['-- The plain tree of a tree: without where its parts lie in memory.', 'use Rattle.std.specs.Prelude.{ℕ, List, [], ◌∷◌}', PLACE]
for c in CHOICES: o.append(f'use {CR}.specs.declared.words.{CHOICE_TYPES[c]}.{{{CHOICE_TYPES[c]}}}')
for f, (m, ty) in R.items():
    o.append(f'use {CR}.specs.declared.{m}.{ty}.{{{ty} as {ty}Tree}}')
    if f in FORMS and f not in ('name',) and not (len(FORMS[f]['alternatives']) == 1 and FORMS[f]['alternatives'][0][0] in FIELDS): o.append(f'use {CR}.specs.declared.{m}.{ty}.TheVariants as {al(f)}')
for k, (m, ty, it) in LISTTYPE.items(): o.append(f'use {CR}.specs.declared.{m}.{ty}.{{{ty} as {ty}Tree}}')
o.append(f'use {CR}.specs.declared.statement.History.{{History as HistoryTree}}')
o += [f'use {CR}.specs.Plain.{{Word, ' + ', '.join(dict.fromkeys(TYPES)) + '}', f'use {CR}.specs.Plain as plain', '',
 'abbrev pub read_name : WordTree → Word', 'read_name n = record { place = n.place; bytes = n.bytes.list.items }', '']
TYFORM = {FORMS[f]['type']: f for f in FORMS if f in R}
def conv(ty, e, boxed):
    """the plain value of an argument of that plain type"""
    if ty == 'Place' or ty in CHOICE_TYPES.values(): return e
    if ty == 'List ℕ': return f'{e}.list.items'
    if ty.startswith('List '): return f'(read_{LISTTYPE[ty[5:]][2]}_list {e}.list.items)'
    f = TYFORM[ty]
    return f'(read_{f} {e}.value)' if boxed else f'(read_{f} {e})'
def boxed_out(form, ty):   # outside the cycles scalars and relations are boxed
    return (ty == 'ScalarP' and form not in SCALARS) or (ty == 'RelP' and form not in RELATIONS)
def in_box(form, ty, i, con):   # a box of the type's own cycle
    if form in SCALARS: return (ty == FORMS[form]['type']) or (ty == 'ScalarP')
    if form in RELATIONS: return ty == 'RelP' or (ty == FORMS[form]['type'])
    return False
def read_form(n, ind='', ab='abbrev '):
    f = FORMS[n]; m, ty = R[n]
    r = [f'{ind}{ab}pub read_{n} : {ty}Tree → {f["type"]}']
    for con, parts in f['alternatives']:
        a = args_of(parts)
        if con in FIELDS and len(f['alternatives']) == 1:
            args = [conv(t, f'x.{fld}', boxed_out(n, t)) for (v, t), fld in zip(a, FIELDS[con])]
            r.append(f'{ind}read_{n} x = plain.{con} ' + ' '.join(args)); continue
        if con == 'DeclareHistory':
            r.append(f'{ind}read_{n} ({al(n)}.History h) = plain.DeclareHistory h.place (read_name h.view) (read_heading h.heading) (read_key h.key) (read_name h.since) (read_name h.since_attribute) (read_name h.during) (read_name h.during_attribute) (read_point h.point)'); continue
        pats = []; args = []; prime = ''
        for i, (v, t) in enumerate(a):
            if in_box(n, t, i, con): prime = "'"; pats += [f'at{i}', f'v{i}']; args.append(conv(t, f'v{i}', False))
            else: pats.append(f'v{i}'); args.append(conv(t, f'v{i}', boxed_out(n, t)))
        var = f'{al(n)}.{VARIANT.get(con, con)}{prime}'
        lhs = f'({var} {" ".join(pats)})' if pats else var
        r.append(f'{ind}read_{n} {lhs} = plain.{con}' + (' ' + ' '.join(args) if args else ''))
    return r + ['']
def read_list(item):
    k = [k for k, v in LISTTYPE.items() if v[2] == item][0]; m, ty = R[item]
    return [f'abbrev pub read_{item}_list : List {ty}Tree → List {k}', f'read_{item}_list [] = []', f'read_{item}_list (x ∷ xs) = read_{item} x ∷ read_{item}_list xs', '']
o += read_list('name')
i = 0; order = [n for n in FORMS if n in R and n != 'name']
lists = {v[2] for v in LISTTYPE.values()}
while i < len(order):
    n = order[i]
    if n in SCALARS or n in RELATIONS:
        blk = SCALARS if n in SCALARS else RELATIONS
        o.append('abbrev mutual')
        for b in blk: o += read_form(b, '  ', '')
        i += len(blk); continue
    o += read_form(n)
    if n in lists: o += read_list(n)
    i += 1
write('specs/Read.antt', '\n'.join(o))
