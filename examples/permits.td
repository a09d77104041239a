// Permits to enter a site, and visits. A permit holds for an interval of days.

/* Everybody who has a permit from either office, with the areas. */
PRINT RELATION {
  TUPLE {WHO 'Ada',   AREA 1, HOLDS [DATE '2012-01-10':DATE '2012-02-20']},
  TUPLE {WHO 'Grace', AREA 2, HOLDS [DATE '2012-02-01':DATE '2012-02-29']}
} UNION RELATION {
  TUPLE {WHO 'Grace', AREA 2, HOLDS [DATE '2012-02-01':DATE '2012-03-01')},
  TUPLE {WHO 'Zoë',   AREA 1, HOLDS [DATE '2012-02-15':DATE '2012-02-15']}
};

/* Visits by people who have no permit at all. */
PRINT RELATION {
  TUPLE {WHO 'Ada',  DAY DATE '2012-02-20'},
  TUPLE {WHO 'Kurt', DAY DATE '2012-02-21'}
} NOT MATCHING RELATION {
  TUPLE {WHO 'Ada',   AREA 1, HOLDS [DATE '2012-01-10':DATE '2012-02-20']},
  TUPLE {WHO 'Grace', AREA 2, HOLDS [DATE '2012-02-01':DATE '2012-02-29']}
};

/* Was every visit on a day for which its permit holds? */
ASK (
  RELATION {
    TUPLE {WHO 'Ada',   DAY DATE '2012-02-20'},
    TUPLE {WHO 'Grace', DAY DATE '2012-03-01'}
  }
) <= (
  (RELATION {
    TUPLE {WHO 'Ada',   DAY DATE '2012-02-20'},
    TUPLE {WHO 'Grace', DAY DATE '2012-03-01'}
  } JOIN RELATION {
    TUPLE {WHO 'Ada',   AREA 1, HOLDS [DATE '2012-01-10':DATE '2012-02-20']},
    TUPLE {WHO 'Grace', AREA 2, HOLDS [DATE '2012-02-01':DATE '2012-02-29']}
  }) WHERE DAY IN HOLDS {WHO, DAY}
);

/* For each area: how many permits, and over which days do they reach? */
PRINT (EXTEND (
  SUMMARIZE RELATION {
    TUPLE {WHO 'Ada',   AREA 1, HOLDS [DATE '2012-01-10':DATE '2012-02-20']},
    TUPLE {WHO 'Zoë',   AREA 1, HOLDS [DATE '2012-02-15':DATE '2012-02-15']},
    TUPLE {WHO 'Grace', AREA 2, HOLDS [DATE '2012-02-01':DATE '2012-02-29']}
  } BY {AREA} : {PERMITS := COUNT(), EARLIEST := MIN(BEGIN(HOLDS)), LATEST := MAX(END(HOLDS))}
) : {REACH := [EARLIEST:LATEST]}) {AREA, PERMITS, REACH};

/* Permits that are extended by a month: the two intervals come together where they meet. */
PRINT EXTEND RELATION {
  TUPLE {WHO 'Grace', HOLDS [DATE '2012-02-01':DATE '2012-02-29']}
} : {HOLDS := UNION(HOLDS, [DATE '2012-03-01':DATE '2012-03-31'])};

/* With a gap between them they are not one interval. */
PRINT EXTEND RELATION {
  TUPLE {WHO 'Ada', HOLDS [DATE '2012-01-10':DATE '2012-02-20']}
} : {HOLDS := UNION(HOLDS, [DATE '2012-03-01':DATE '2012-03-31'])};

/* One list cannot be taken from another that has further attributes. */
PRINT RELATION {TUPLE {WHO 'Ada', AREA 1}} MINUS RELATION {TUPLE {WHO 'Ada'}};

/* On which days was there a permit at all? */
PRINT PACK RELATION {
  TUPLE {WHO 'Ada',   AREA 1, HOLDS [DATE '2012-01-10':DATE '2012-02-20']},
  TUPLE {WHO 'Grace', AREA 2, HOLDS [DATE '2012-02-01':DATE '2012-02-29']},
  TUPLE {WHO 'Kurt',  AREA 2, HOLDS [DATE '2012-03-02':DATE '2012-03-10']}
} {HOLDS} ON (HOLDS);

/* Ada gives her permit back for ten days. */
PRINT USING (HOLDS): RELATION {TUPLE {WHO 'Ada', AREA 1, HOLDS [DATE '2012-01-10':DATE '2012-02-20']}}
  MINUS RELATION {TUPLE {WHO 'Ada', AREA 1, HOLDS [DATE '2012-02-01':DATE '2012-02-10']}};
