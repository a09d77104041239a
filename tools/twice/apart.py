"""What stands twice for a reason: the (path, name) of each place -> why. Each goes when the lower crate is next opened."""

LOWER = 'the crate below keeps it to itself, and nearly all others stand on that crate'

APART = {
    frozenset({('crates/plain_rows/src/ordinals.rt', 'ordinal_of'), ('crates/scalar_typing/src/names.rt', 'ordinal_of')}): LOWER,
    frozenset({('crates/plain_rows/src/ordinals.rt', 'value_of'), ('crates/scalar_typing/src/names.rt', 'value_of')}): LOWER,
    frozenset({('crates/u_constraints/src/near.rt', 'is_sought'), ('crates/relation_core/src/found.rt', 'is_sought')}): LOWER,
    frozenset({('crates/constant_laws/proofs/MeantInsertions.antt', 'positions-kept'), ('crates/eval_using/proofs/ListLemmas.antt', 'positions_back')}):
        'neither stands on the other; its place is meaning_core, on which nearly all others stand',
    frozenset({('crates/cell_boxes/src/later.rt', 'push_range'), ('crates/u_join/src/sweeping.rt', 'push_range')}): LOWER,
    frozenset({('crates/cell_boxes/src/later.rt', 'push_turned'), ('crates/u_join/src/sweeping.rt', 'push_turned')}): LOWER,
    frozenset({('crates/scalar_core/proofs/PointLemmas.antt', 'same_line-self'), ('crates/u_join/proofs/MadeLemmas.antt', 'same_line-self')}):
        'u_join does not stand on scalar_core; its place is value_core, on which nearly all others stand',
    frozenset({('crates/relation_core/src/parts.rt', 'parts'), ('crates/u_row/src/projection.rt', 'all_parts')}): LOWER,
    frozenset({('crates/relation_core/src/numbers.rt', 'bytes_hash'), ('crates/u_constraints/src/marks.rt', 'bytes_hash')}): LOWER,
    frozenset({('crates/since_during/proofs/PlaceLemmas.antt', 'each-from'), ('crates/u_set/proofs/TimeLemmas.antt', 'each_from')}):
        'neither stands on the other; its place is base_core, on which all others stand',
    frozenset({('crates/value_core/src/relation.rt', 'are_behind'), ('crates/row_removal/src/removal.rt', 'are_behind')}): LOWER,
    frozenset({('crates/cell_packing/proofs/Exists.antt', 'gap'), ('crates/u_summarize/proofs/PointCellLemmas.antt', 'number_from')}): LOWER,
    frozenset({('crates/scalar_core/proofs/SweepLemmas.antt', 'span_again'), ('crates/eval_using/proofs/MovedLemmas.antt', 'span_again')}): LOWER,
    frozenset({('crates/u_set/proofs/TimeLemmas.antt', 'values_within'), ('crates/u_constraints/proofs/GrownKeyLemmas.antt', 'parts_agree')}):
        'the one is of a module over positions; their place is relation_core, on which nearly all others stand',
    frozenset({('crates/u_constraints/proofs/HistoryLemmas.antt', 'any_in'), ('crates/u_join/proofs/SameHeadingLemmas.antt', 'any_same')}):
        'neither stands on the other; its place is base_core, on which all others stand',
    frozenset({('crates/kept_views/proofs/HeadingLemmas.antt', n) for n in ('first', 'second', 'up')} | {('crates/u_join/proofs/SameHeadingLemmas.antt', 'first')}):
        'each is of a module over one operand or two',
    frozenset({('crates/kept_views/proofs/GroupLemmas.antt', 'rows_long'), ('crates/u_constraints/proofs/SearchLemmas.antt', 'long_rows')}): LOWER,
    frozenset({('crates/eval_using/proofs/SpotLemmas.antt', 'if_ok'), ('crates/assign_core/proofs/ExchangeLemmas.antt', 'if_ok_weaker')}):
        'the arguments come in another order; the upper one goes when assign_core is next opened',
    frozenset({('crates/meaning_core/proofs/GroupFits.antt', 'then_some'), ('crates/row_typing_laws/proofs/Parts.antt', 'parts-of')}): LOWER,
    **{frozenset({('crates/log_times/proofs/TurnLemmas.antt', n), ('crates/log_turns/proofs/ExchangeLemmas.antt', n)}): LOWER
       for n in ('has_not', 'not_In', 'exchanged_ascends', 'In_exchanged')},
    **{frozenset({('crates/log_turns/proofs/ExchangeLemmas.antt', here), ('crates/u_constraints/proofs/GrowthLemmas.antt', there)}):
       'neither stands on the other; their place is relation_core, on which nearly all others stand'
       for here, there in (('In_united', 'In-united'), ('In_subtracted', 'In-subtracted'), ('fewer_left', 'fewer_left'), ('all_left', 'all_left'))},
    frozenset({('crates/log_turns/proofs/TurnedLemmas.antt', 'refused_more'), ('crates/change_rows/proofs/InsertionLemmas.antt', 'smaller_refused')}):
        'neither stands on the other; its place is relation_core, on which nearly all others stand',
    frozenset({('crates/u_constraints/proofs/HistoryLemmas.antt', 'parts_length'), ('crates/log_laws/proofs/RowLengths.antt', 'long-part')}): LOWER,
    frozenset({('crates/assign_core/proofs/LogLemmas.antt', 'unbroken'), ('crates/dump_laws/proofs/AssignedLaws.antt', 'none-broken')}):
        'the crate below keeps it to itself; the upper one goes when assign_core is next opened',
    frozenset({('crates/assign_core/proofs/LogLemmas.antt', 'and-false'), ('crates/constant_texts/proofs/QuietLemmas.antt', 'never')}):
        'neither stands on the other; its place is base_core, on which all others stand',
    **{frozenset({('crates/relvar_logs/proofs/NextLemmas.antt', lower), (f'crates/assign_core/proofs/{upper[0]}.antt', upper[1])}):
       'the upper one goes when assign_core is next opened'
       for lower, upper in (('turned-name', ('NameLemmas', 'turned')), ('change_first', ('TouchLemmas', 'found_change')), ('change_none', ('TouchLemmas', 'absent_change')))},
    frozenset({('crates/relvar_logs/proofs/OpeningLemmas.antt', 'distinct-later'), ('crates/assign_core/proofs/NameLemmas.antt', 'distinct_later'),
               ('crates/stored_views/proofs/WithoutLemmas.antt', 'distinct_behind')}):
        'the crate below keeps it to itself; the upper ones go when relvar_logs is next opened',
    **{frozenset({(f'crates/stored_views/proofs/{lower[0]}.antt', lower[1]), (f'crates/assign_core/proofs/{upper[0]}.antt', upper[1])}):
       'the upper one goes when assign_core is next opened'
       for lower, upper in ((('TouchLemmas', 'no-change'), ('DifferenceLemmas', 'nothing')), (('WithoutLemmas', 'none_left'), ('StepLemmas', 'left-none')))},
    frozenset({('crates/algebra_core/proofs/StoredLemmas.antt', 'or_none'), ('crates/typing_laws/proofs/SaidNames.antt', 'or-nothing')}):
        'neither stands on the other; its place is base_core, on which all others stand',
    frozenset({('crates/stored_views/proofs/TouchLemmas.antt', 'neither'), ('crates/meaning_laws/proofs/EachAlike.antt', 'names-or')}):
        'neither stands on the other; its place is meaning_core, on which nearly all others stand',
    frozenset({('crates/declaration_typing/proofs/LogLaws.antt', 'base-declared'), ('crates/update_core/proofs/NameLemmas.antt', 'base-declared')}):
        'neither stands on the other; its place is meaning_core, on which nearly all others stand',
    frozenset({('crates/meaning_core/proofs/ElsewhereLemmas.antt', 'each-append'), ('crates/meaning_laws/proofs/EntriesFound.antt', 'each-append')}):
        'the one is of a module with a second parameter; the upper one goes when meaning_laws is next opened',
    frozenset({('crates/relvar_logs/proofs/CountLemmas.antt', 'left-less'), ('crates/stored_views/proofs/CountLemmas.antt', 'left-less')}): LOWER,
    frozenset({('crates/relvar_logs/proofs/CountLemmas.antt', 'left-none'), ('crates/stored_views/proofs/CountLemmas.antt', 'left-none')}): LOWER,
    frozenset({('crates/relvar_logs/proofs/CountLemmas.antt', 'left-all'), ('crates/stored_views/proofs/CountLemmas.antt', 'left-all')}): LOWER,
    frozenset({('crates/meaning_laws/proofs/ApartLemmas.antt', 'names-fewer'), ('crates/stored_views/proofs/OperandLemmas.antt', 'names_fewer')}):
        'neither stands on the other; its place is meaning_core, on which nearly all others stand',
    frozenset({('crates/assign_core/proofs/AdditionLemmas.antt', 'limited_over'), ('crates/stored_views/proofs/MadeLemmas.antt', 'limited_many')}):
        'neither stands on the other; its place is meaning_core, on which nearly all others stand',
}
