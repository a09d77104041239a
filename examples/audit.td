// Days of illness, as they were reported and corrected, and what was known of them when wages were paid.

VAR ILLNESS RELATION {PERSON CHAR, CAUSE CHAR, DAYS INTERVAL(DATE)} USING (DAYS): KEY {PERSON, DAYS};

/* The log writes down by itself after which statements a row stood in ILLNESS. */
LOG REPORTED OF ILLNESS (KNOWN);

/* What is reported on one day is one statement, which tells its own number and the day. */
VAR REPORTS RELATION {DAY DATE, N INTEGER} KEY {DAY} KEY {N};

/* Statement 4, on 3 February: Ada was ill for the last days of January. */
INSERT ILLNESS RELATION {TUPLE {PERSON 'Ada', CAUSE 'flu', DAYS [DATE '2023-01-26':DATE '2023-01-31']}},
INSERT REPORTS RELATION {TUPLE {DAY DATE '2023-02-03', N 4}};

/* Statement 5, on 10 February: Grace too; and Ada until 4 February. */
USING (DAYS): INSERT ILLNESS RELATION {
  TUPLE {PERSON 'Grace', CAUSE 'fall', DAYS [DATE '2023-01-30':DATE '2023-02-10']},
  TUPLE {PERSON 'Ada',   CAUSE 'flu',  DAYS [DATE '2023-02-01':DATE '2023-02-04']}
},
INSERT REPORTS RELATION {TUPLE {DAY DATE '2023-02-10', N 5}};

/* A report that says two things of one day is refused. It has no number, and the log knows nothing of it. */
INSERT ILLNESS RELATION {TUPLE {PERSON 'Ada', CAUSE 'fall', DAYS [DATE '2023-02-04':DATE '2023-02-07']}},
INSERT REPORTS RELATION {TUPLE {DAY DATE '2023-02-17', N 6}};

/* Statement 6, on 24 February: Ada was at work on 26 January. */
DELETE ILLNESS PORTION {DAYS [DATE '2023-01-26':DATE '2023-01-26']} WHERE PERSON = 'Ada',
INSERT REPORTS RELATION {TUPLE {DAY DATE '2023-02-24', N 6}};

/* What is known now, and what was known after which statements? */
PRINT ILLNESS;
PRINT REPORTED;

/* Wages of January were paid by what was known on 10 February. For which days of January was each person ill, as one knew then? */
VAR BELIEVED VIRTUAL (((REPORTED JOIN REPORTS) WHERE N IN KNOWN) {DAY, PERSON, DAYS});
VAR JANUARY VIRTUAL (USING (DAYS): BELIEVED JOIN RELATION {TUPLE {DAYS [DATE '2023-01-01':DATE '2023-01-31']}});
PRINT (JANUARY WHERE DAY = DATE '2023-02-10') {PERSON, DAYS};

/* How many days of January was that, by each report? */
PRINT SUMMARIZE (EXTEND JANUARY : {NUMBER := COUNT(DAYS)}) BY {DAY, PERSON} : {NUMBER := SUM(NUMBER)};

/* Which days have been taken back, after which statements were they believed, and which came late? */
PRINT USING (DAYS): (REPORTED {PERSON, DAYS, KNOWN}) NOT MATCHING ILLNESS;
PRINT USING (DAYS): ILLNESS NOT MATCHING (REPORTED WHERE 4 IN KNOWN);

/* For which days, and after which statements, was each person known to be ill, whatever the cause? */
PRINT USING (DAYS, KNOWN): REPORTED {PERSON, DAYS, KNOWN};

/* Nobody writes what was known, .. */
INSERT REPORTED RELATION {TUPLE {PERSON 'Ada', CAUSE 'flu', DAYS [DATE '2023-02-05':DATE '2023-02-05'], KNOWN [4:6]}};
UPDATE REPORTED : {CAUSE := 'flu'};

/* .. no rule forbids what was believed once, .. */
CONSTRAINT NO_FALLS IS_EMPTY(REPORTED WHERE CAUSE = 'fall');

/* .. and ILLNESS stays as long as its log. */
DROP VAR ILLNESS;

/* A cause that was wrong from the beginning: the log has both. */
UPDATE ILLNESS WHERE PERSON = 'Grace' : {CAUSE := 'sprain'};
PRINT REPORTED WHERE PERSON = 'Grace';
