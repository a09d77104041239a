// Permits for zones of a site: each holds for some zones and some days. Both are intervals, so a permit is a rectangle.

TYPE FLOOR ORDINAL {BASEMENT, GROUND, FIRST_FLOOR, SECOND_FLOOR, ROOF};

VAR PERMITS RELATION {WHO CHAR, FLOORS INTERVAL(FLOOR), HOLDS INTERVAL(DATE)};
VAR BLOCKED RELATION {FLOORS INTERVAL(FLOOR), HOLDS INTERVAL(DATE)};

INSERT PERMITS RELATION {
  TUPLE {WHO 'Ada',   FLOORS [FLOOR.BASEMENT:FLOOR.GROUND],         HOLDS [DATE '2012-05-01':DATE '2012-05-31']},
  TUPLE {WHO 'Ada',   FLOORS [FLOOR.FIRST_FLOOR:FLOOR.FIRST_FLOOR], HOLDS [DATE '2012-05-01':DATE '2012-05-31']},
  TUPLE {WHO 'Ada',   FLOORS [FLOOR.BASEMENT:FLOOR.FIRST_FLOOR],    HOLDS [DATE '2012-05-20':DATE '2012-06-10']},
  TUPLE {WHO 'Grace', FLOORS [FLOOR.GROUND:LAST(FLOOR)],            HOLDS [DATE '2012-05-10':DATE '2012-05-12']}
};

/* The same permits in the fewest rows. */
PRINT PACK PERMITS ON (FLOORS, HOLDS);

/* The first floor is closed for a while, the roof all year. */
INSERT BLOCKED RELATION {
  TUPLE {FLOORS [FLOOR.FIRST_FLOOR:FLOOR.FIRST_FLOOR], HOLDS [DATE '2012-05-11':DATE '2012-05-20']},
  TUPLE {FLOORS [FLOOR.ROOF:FLOOR.ROOF], HOLDS [DATE '2012-01-01':DATE '2012-12-31']}
};

/* Where and when may they enter? By floors and then days, and by days and then floors. */
PRINT USING (FLOORS, HOLDS): PERMITS MINUS (PERMITS {WHO} JOIN BLOCKED);
PRINT USING (HOLDS, FLOORS): PERMITS MINUS (PERMITS {WHO} JOIN BLOCKED);

/* Nobody may be where it is blocked; these would be. */
PRINT USING (FLOORS, HOLDS): PERMITS INTERSECT (PERMITS {WHO} JOIN BLOCKED);

/* Who may be on the ground floor, day by day? */
PRINT UNPACK (PERMITS WHERE FLOOR.GROUND IN FLOORS AND WHO = 'Grace') {WHO, HOLDS} ON (HOLDS);

/* On which days is there a permit for some floor at all? */
PRINT PACK PERMITS {HOLDS} ON (HOLDS);

/* A permit that is there already, cut in two, changes nothing .. */
ASK USING (HOLDS, FLOORS): PERMITS = (PERMITS UNION RELATION {TUPLE {WHO 'Grace', FLOORS [FLOOR.GROUND:FLOOR.GROUND], HOLDS [DATE '2012-05-11':DATE '2012-05-12']}});

/* .. though the relation is another one. */
ASK PERMITS = (PERMITS UNION RELATION {TUPLE {WHO 'Grace', FLOORS [FLOOR.GROUND:FLOOR.GROUND], HOLDS [DATE '2012-05-11':DATE '2012-05-12']}});

/* All days from then on, one by one, are too many. */
PRINT UNPACK EXTEND BLOCKED : {HOLDS := [BEGIN(HOLDS):LAST(DATE)]} ON (HOLDS);
