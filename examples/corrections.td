// Fees of contracts and floors of permits, and what was found to be wrong afterwards.

VAR FEES RELATION {CONTRACT INTEGER, CENTS INTEGER, DURING INTERVAL(DATE)} USING (DURING): KEY {CONTRACT, DURING};

INSERT FEES RELATION {
  TUPLE {CONTRACT 7, CENTS 1900, DURING [DATE '2011-07-01':DATE '2012-12-31']},
  TUPLE {CONTRACT 9, CENTS 2900, DURING [DATE '2012-03-01':DATE '2012-08-31']},
  TUPLE {CONTRACT 9, CENTS 2500, DURING [DATE '2012-09-01':DATE '2012-12-31']}
};

/* From April to June 2012 contract 7 had a reduced fee: three rows come of one. */
UPDATE FEES PORTION {DURING [DATE '2012-04-01':DATE '2012-06-30']} WHERE CONTRACT = 7 : {CENTS := 1500};
PRINT FEES;

/* The reduction went to August: rows that meet with one fee are one row. */
UPDATE FEES PORTION {DURING [DATE '2012-07-01':DATE '2012-08-31']} WHERE CONTRACT = 7 : {CENTS := 1500};
PRINT FEES WHERE CONTRACT = 7;

/* Both contracts were suspended for the first days of June. */
DELETE FEES PORTION {DURING [DATE '2012-06-01':DATE '2012-06-10']};

/* In November and December all fees of 2000 and more were a tenth less. */
UPDATE FEES PORTION {DURING [DATE '2012-11-01':DATE '2012-12-31']} WHERE CENTS >= 2000 : {CENTS := CENTS - CENTS / 10};
PRINT FEES;

/* Nothing is known of days on which there was no contract: a portion of these changes nothing. */
UPDATE FEES PORTION {DURING [DATE '2013-01-01':DATE '2013-12-31']} : {CENTS := 0};
ASK IS_EMPTY(FEES WHERE CENTS = 0);

/* A condition is asked of single days, so this corrects October alone .. */
USING (DURING): UPDATE FEES WHERE CONTRACT = 9 AND DURING INCLUDED_IN [DATE '2012-10-01':DATE '2012-10-31'] : {CENTS := 2700};
PRINT FEES WHERE CONTRACT = 9;

/* .. and this is refused, since no day is long. */
USING (DURING): UPDATE FEES WHERE COUNT(DURING) > 30 : {CENTS := 0};

/* The days of a row are not set: they are those at which it is changed. */
UPDATE FEES PORTION {DURING [DATE '2012-10-01':DATE '2012-10-31']} : {DURING := [DATE '2012-01-01':DATE '2012-01-31']};

/* A correction that would say two things of one day is refused: contract 7 has a fee of its own. */
UPDATE FEES PORTION {DURING [DATE '2012-10-01':DATE '2012-10-31']} WHERE CONTRACT = 9 : {CONTRACT := 7};

/* For days on which contract 7 had none, it is not. */
UPDATE FEES PORTION {DURING [DATE '2012-10-01':DATE '2012-10-31']} WHERE CONTRACT = 9 : {CONTRACT := 11};
PRINT FEES;

/* Floors and days are corrected together: a hole in a rectangle. */
VAR PERMITS RELATION {PERMIT INTEGER, AREA CHAR, FLOORS INTERVAL(INTEGER), DAYS INTERVAL(DATE)}
  USING (FLOORS, DAYS): KEY {PERMIT, FLOORS, DAYS};
INSERT PERMITS RELATION {TUPLE {PERMIT 1, AREA 'north', FLOORS [1:6], DAYS [DATE '2012-05-01':DATE '2012-05-31']}};
UPDATE PERMITS PORTION {FLOORS [3:4], DAYS [DATE '2012-05-10':DATE '2012-05-20']} : {AREA := 'south'};
PRINT PERMITS;
DELETE PERMITS PORTION {FLOORS [1:9], DAYS [DATE '2012-05-01':DATE '2012-05-15']} WHERE AREA = 'north';
PRINT PERMITS;
