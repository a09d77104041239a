// Rules of a clinic that no key can tell: each is one test over several relvars, and is asked after every statement that changes one of them.
VAR WARDS RELATION {WARD CHAR, BEDS INTEGER} KEY {WARD};
VAR STAYS RELATION {PATIENT CHAR, WARD CHAR, STAY INTERVAL(DATE)}
  USING (STAY): KEY {PATIENT, STAY}
  FOREIGN KEY {WARD} REFERENCES WARDS;
VAR DUTY RELATION {NURSE CHAR, WARD CHAR, STAY INTERVAL(DATE)} USING (STAY): KEY {NURSE, STAY};

// At no time has a ward more patients than beds.
VAR FULL VIRTUAL (USING (STAY): SUMMARIZE STAYS BY {WARD, STAY} : {PATIENTS := COUNT()});
CONSTRAINT A_BED_FOR_EACH IS_EMPTY((FULL JOIN WARDS) WHERE PATIENTS > BEDS);
// Nobody lies in a ward on a day on which no nurse serves there.
CONSTRAINT NEVER_ALONE IS_EMPTY(USING (STAY): STAYS NOT MATCHING (DUTY {WARD, STAY}));

INSERT WARDS RELATION {TUPLE {WARD 'east', BEDS 2}, TUPLE {WARD 'west', BEDS 1}};
INSERT STAYS RELATION {TUPLE {PATIENT 'Ada', WARD 'east', STAY [DATE '2023-02-01':DATE '2023-02-10']}};
INSERT DUTY RELATION {
  TUPLE {NURSE 'Grace', WARD 'east', STAY [DATE '2023-01-01':DATE '2023-02-28']},
  TUPLE {NURSE 'Mary',  WARD 'west', STAY [DATE '2023-02-05':DATE '2023-02-28']}
};
INSERT STAYS RELATION {
  TUPLE {PATIENT 'Ada',  WARD 'east', STAY [DATE '2023-02-01':DATE '2023-02-10']},
  TUPLE {PATIENT 'Alan', WARD 'east', STAY [DATE '2023-02-08':DATE '2023-02-20']}
};
PRINT FULL;

// A third patient in the east ward, from the day on which the first one leaves: refused. A day later there is a bed.
INSERT STAYS RELATION {TUPLE {PATIENT 'Zoe', WARD 'east', STAY [DATE '2023-02-10':DATE '2023-02-14']}};
INSERT STAYS RELATION {TUPLE {PATIENT 'Zoe', WARD 'east', STAY [DATE '2023-02-11':DATE '2023-02-14']}};
// The west ward has no nurse yet, then it has.
INSERT STAYS RELATION {TUPLE {PATIENT 'Emmy', WARD 'west', STAY [DATE '2023-02-04':DATE '2023-02-06']}};
INSERT STAYS RELATION {TUPLE {PATIENT 'Emmy', WARD 'west', STAY [DATE '2023-02-05':DATE '2023-02-06']}};
// The nurse of the east ward may not go while somebody lies there. Where another takes over in the same statement, she may.
DELETE DUTY PORTION {STAY [DATE '2023-02-13':DATE '2023-02-28']} WHERE NURSE = 'Grace';
DELETE DUTY PORTION {STAY [DATE '2023-02-13':DATE '2023-02-28']} WHERE NURSE = 'Grace',
INSERT DUTY RELATION {TUPLE {NURSE 'Joan', WARD 'east', STAY [DATE '2023-02-13':DATE '2023-02-28']}};
// Beds are taken away where they are not needed, and not where they are.
UPDATE WARDS: {BEDS := 1};
UPDATE WARDS WHERE WARD = 'east': {BEDS := 1}, DELETE STAYS PORTION {STAY [DATE '2023-02-08':DATE '2023-02-14']} WHERE PATIENT = 'Alan';
PRINT WARDS;
PRINT STAYS;
PRINT DUTY;

// A rule has to hold when it is declared, and what a rule names stays while it is there.
CONSTRAINT ALL_WARDS_ARE_USED (STAYS {WARD}) = (WARDS {WARD});
CONSTRAINT NOBODY_STAYS_LONG IS_EMPTY(STAYS WHERE COUNT(STAY) > 7);
DROP VAR DUTY;
DROP CONSTRAINT NEVER_ALONE;
DROP VAR DUTY;
DELETE STAYS WHERE WARD = 'west';
