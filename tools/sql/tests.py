"""Tests of tools/sql that need no PostgreSQL: python3 tools/sql/tests.py

They say nothing where all is right, and name what is not and end with status 1 where something is wrong. What the SQL answers `python3 tools/sql --check` tries.
"""
import os
import re
import sys

sys.dont_write_bytecode = True

import statements  # noqa: E402
import syntax  # noqa: E402
from grammar import FORMS  # noqa: E402
from points import USING  # noqa: E402
from relations import RELATIONS  # noqa: E402
from scalars import SCALARS  # noqa: E402

ROOT = os.path.dirname(os.path.dirname(os.path.dirname(os.path.abspath(__file__))))
# the forms of the grammar whose alternatives a table has, each by a function
TABLES = {
    'scalar conj neg cmp sum prod sign primary': SCALARS,
    'rel terms term rel_primary operand extend summarize literal': RELATIONS,
    'using': RELATIONS,
    'using_part': USING,
    'item': statements.ITEMS,
    'statement': statements.STATEMENTS,
    'kept': statements.KEPT,
}

START = '''
TYPE SIZE ORDINAL {S, M, L};
VAR R RELATION {K INTEGER, T CHAR, D INTERVAL(DATE)} KEY {K};
VAR S RELATION {K INTEGER, D INTERVAL(DATE), Z INTERVAL(SIZE)};
'''

# a statement behind these, and what its SQL has, or the code that refuses it
CASES = [
    ('PRINT R WHERE T < \'a\';', '"T" COLLATE "C" < \'a\'::text COLLATE "C"'),
    ('PRINT R WHERE [DATE \'2023-01-01\':DATE \'2023-01-31\'] = D;', "daterange '[2023-01-01,2023-02-01)' = \"D\""),
    ('PRINT PACK S ON (D);', 'unnest(range_agg("D")) AS "D"'),
    ('PRINT PACK R ON (D);', 'SELECT t."D", t."K", t."T"\nFROM "R" t\nORDER BY'),
    ('PRINT RELATION {TUPLE {N [1:LAST(INTEGER)]}};', "int8range '[1,)'"),
    ('INSERT R RELATION {TUPLE {K 1, T \'it\'\'s\', D [DATE \'9999-12-31\':LAST(DATE)]}};', "daterange '[9999-12-31,10000-01-01)'"),
    ('PRINT RELATION {TUPLE {N [MOMENT \'2023-01-01T22:00:00\':MOMENT \'2023-01-02T05:59:59\']}};', "tsrange '[2023-01-01 22:00:00,2023-01-02 06:00:00)'"),
    ('PRINT RELATION {TUPLE {N [FIRST(MOMENT):LAST(MOMENT)]}};', "tsrange '[0001-01-01 00:00:00,10000-01-01 00:00:00)'"),
    ('VAR T RELATION {M MOMENT, D INTERVAL(MOMENT)};', '"M" timestamp NOT NULL,\n  "D" tsrange NOT NULL'),
    ('PRINT RELATION {TUPLE {N MOMENT \'2023-01-01T22:00:60\'}};', 'E06'),
    ('PRINT RELATION {TUPLE {N MOMENT \'2023-01-01 22:00:00\'}};', 'E06'),
    ('PRINT RELATION {TUPLE {N DATE \'2023-01-01\' = MOMENT \'2023-01-01T00:00:00\'}};', 'E12'),
    ('UPDATE R WHERE K = 1 : {T := \'\'};', 'UPDATE "R" SET "T" = \'\'::text\nWHERE "K" = 1::int8;'),
    ('UPDATE R : {K := 1};', 'CREATE TEMPORARY TABLE "the new value 1" ON COMMIT DROP AS'),
    ('PRINT R WHERE K <> 0 AND 1 / K = 1;', 'CASE WHEN "K" <> 0::int8 THEN'),
    ('PRINT S {Z};', 'n.number = lower(t."Z")'),
    ('CONSTRAINT C IS_EMPTY(R WHERE K < 0);', 'CREATE CONSTRAINT TRIGGER "C constraint" AFTER INSERT OR UPDATE OR DELETE ON "R"'),
    ('CONSTRAINT R IS_EMPTY(R);', 'E11'),
    ('CONSTRAINT C IS_EMPTY(R); DROP VAR R;', 'E21'),
    ('CONSTRAINT C IS_EMPTY(R); DROP CONSTRAINT C;', 'DROP FUNCTION "C constraint" CASCADE;'),
    ('DROP CONSTRAINT R;', 'E10'),
    ('HISTORY H {K INTEGER} KEY {K} SINCE B (P) DURING E (I) OVER DATE; DROP VAR B;', 'E21'),
    ('HISTORY H {K INTEGER} KEY {K} SINCE B (P) DURING E (I) OVER DATE; DROP VAR H;', 'DROP VIEW "H";\nDROP TABLE "E";'),
    ('PRINT Q;', 'E10'),
    ('PRINT R WHERE A = 1;', 'E14'),
    ('PRINT USING (D): R WHERE COUNT(D) = 1;', 'E18'),
    ('PRINT R UNION S;', 'E13'),
    ('PRINT PACK R ON (K);', 'E16'),
    ('DROP VAR Q;', 'E10'),
    ('PRINT R', 'E04'),
    ('PRINT R; /* PRINT R;', 'E04'),
    ("PRINT R; PRINT 'a; PRINT R;", 'E04'),
    ('SELECT 1;', 'E01'),
    ('LOG L OF R (N);', 'E01'),
    ('LOG L OF R (N); PRINT L;', 'E01'),
    ('LOG L OF R (N); VAR V VIRTUAL (L {K});', 'E01'),
    ('LOG L OF R (N); VAR L RELATION {A INTEGER};', 'E11'),
    ('LOG L OF R (N); LOG M OF L (N);', 'E20'),
    ('LOG L OF R (N); DELETE L WHERE TRUE;', 'E20'),
    ('LOG L OF R (N); DROP VAR R;', 'E21'),
    ('LOG L OF R (N); DROP VAR L; DROP VAR R;', 'DROP TABLE "R";'),
    ('LOG L OF Q (N);', 'E10'),
    ('LOG L OF R (K);', 'E15'),
    ('HISTORY H {K INTEGER} KEY {K} SINCE B (P) DURING E (I) OVER DATE; LOG L OF E (N); DROP VAR H;', 'E21'),
    ('LOG := R;', 'E10'),
    ('VAR LOG RELATION {A INTEGER} KEY {A}; LOG := RELATION {TUPLE {A 1}};', 'INSERT INTO "LOG" ("A")'),
    ('VAR V KEPT (PACK R ON (D));', 'CREATE VIEW "V" AS\nSELECT "D", "K", "T" FROM "R";'),
    ('VAR V KEPT (USING (D): S {K, D});', 'unnest(range_agg("D")) AS "D"'),
    ('VAR V KEPT (USING (D): S JOIN R); PRINT V;', 'FROM "V" t\nORDER BY'),
    ('VAR V KEPT (USING (D): S NOT MATCHING R); S := S MINUS S, S := (V JOIN S) {K, D, Z};', 'FROM "the new value 1"'),
    ('VAR V KEPT (PACK V ON (D));', 'E10'),
    ('VAR V KEPT (PACK S ON (D)); VAR W KEPT (PACK V ON (D));', 'E20'),
    ('VAR V VIRTUAL (S); VAR W KEPT (USING (A): V MINUS Q);', 'E20'),
    ('LOG L OF R (N); VAR V KEPT (USING (A): Q MINUS L);', 'E10'),
    ('LOG L OF R (N); VAR V KEPT (USING (A): L {A});', 'E20'),
    ('VAR S KEPT (PACK Q ON (D));', 'E11'),
    ('VAR V KEPT (USING (D): R MINUS S);', 'E13'),
    ('VAR V KEPT (USING (D): S {K});', 'E19'),
    ('VAR V KEPT (PACK S ON (D)); DROP VAR S;', 'E21'),
    ('VAR V KEPT (PACK S ON (D)); DROP VAR V; DROP VAR S;', 'DROP TABLE "S";'),
    ('VAR V KEPT (PACK S ON (D)); INSERT V S;', 'E20'),
    ('VAR V KEPT (PACK (S) ON (D));', 'E01'),
    ('VAR xmin RELATION {xmin INTEGER};', 'SQL'),
]


def lacking():
    """The alternatives of the grammar for which a table has no function."""
    found = []
    for forms, table in TABLES.items():
        for form in forms.split():
            constructors = {constructor for constructor, _ in FORMS[form]['alternatives']} - syntax.RANKS
            found += [f'{form}: there is no function for {constructor}' for constructor in sorted(constructors - table.keys())]
    return found


def wrong():
    """The cases that come out otherwise."""
    found = []
    for text, wanted in CASES:
        statement = list(statements.translated(START + text))[-1]
        if statement.refusal.code != wanted if statement.refusal else wanted not in statement.sql:
            found.append(f'{text}\n{statement.refusal or statement.sql}\nhas no {wanted}')
    return found


def untold():
    """The example of docs/to-sql.md, where the SQL is another one."""
    with open(f'{ROOT}/docs/to-sql.md', encoding='utf-8') as file:
        example = file.read().partition('\n## An example\n')[2]
    script = re.search(r'^```\n(.*?)^```$', example, re.S | re.M)[1]
    told = re.search(r'^```sql\n(.*?)^```$', example, re.S | re.M)[1]
    found = '\n\n'.join(f'-- statement {statement.number}\n{statement.sql}' for statement in statements.translated(script))
    return [] if found == told.rstrip('\n') else ['docs/to-sql.md: the SQL of the example is another one']


def main():
    found = lacking() + wrong() + untold()
    for fault in found:
        print(fault)
    return 1 if found else 0


sys.exit(main())
