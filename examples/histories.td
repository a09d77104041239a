// A register of contracts: those that run, with the day since when, and those that ended, with the days for which they ran.

HISTORY CONTRACTS {CONTRACT INTEGER, CUSTOMER CHAR, TARIFF CHAR} KEY {CONTRACT}
  SINCE RUNNING (BEGAN)
  DURING ENDED (IN_FORCE)
  OVER DATE;

INSERT RUNNING RELATION {
  TUPLE {CONTRACT 7, CUSTOMER 'Ada',   TARIFF 'basic', BEGAN DATE '2011-07-01'},
  TUPLE {CONTRACT 8, CUSTOMER 'Grace', TARIFF 'basic', BEGAN DATE '2012-01-01'},
  TUPLE {CONTRACT 9, CUSTOMER 'Zoë',   TARIFF 'plus',  BEGAN DATE '2012-03-15'}
};

/* Contract 8 was on trial for a month before; it is known how long that went. */
INSERT ENDED RELATION {TUPLE {CONTRACT 8, CUSTOMER 'Grace', TARIFF 'trial', IN_FORCE [DATE '2011-12-01':DATE '2011-12-31']}};

/* Both together: what runs has no end yet, so it goes up to the last day there is. */
PRINT CONTRACTS;

/* What held on some day? */
PRINT (CONTRACTS WHERE DATE '2011-12-24' IN IN_FORCE) {CONTRACT, TARIFF};

/* Contract 7 ends with June .. */
TERMINATE CONTRACTS AT DATE '2012-06-30' WHERE CONTRACT = 7;

/* .. and contract 9 changes its tariff: the one ends, and the other begins on the day after. */
TERMINATE CONTRACTS AT DATE '2012-09-30' WHERE CONTRACT = 9,
INSERT RUNNING RELATION {TUPLE {CONTRACT 9, CUSTOMER 'Zoë', TARIFF 'basic', BEGAN DATE '2012-10-01'}};

PRINT RUNNING;
PRINT ENDED;
PRINT CONTRACTS {CONTRACT, TARIFF, IN_FORCE};

/* No contract ends before it began; */
TERMINATE CONTRACTS AT DATE '2011-12-31' WHERE CONTRACT = 8;

/* none has ended for a day on which it runs; */
INSERT ENDED RELATION {TUPLE {CONTRACT 8, CUSTOMER 'Grace', TARIFF 'plus', IN_FORCE [DATE '2012-02-01':DATE '2012-02-29']}};

/* what runs is not said to begin on the day after it ended, when nothing has changed; */
INSERT RUNNING RELATION {TUPLE {CONTRACT 7, CUSTOMER 'Ada', TARIFF 'basic', BEGAN DATE '2012-07-01'}};

/* and the two together are not written to. */
INSERT CONTRACTS ENDED;

/* Contract 7 began again later, which leaves a gap. */
INSERT RUNNING RELATION {TUPLE {CONTRACT 7, CUSTOMER 'Ada', TARIFF 'basic', BEGAN DATE '2012-08-01'}};

/* For which days has each customer had a contract, and how many contracts were in force at each time? */
PRINT USING (IN_FORCE): CONTRACTS {CUSTOMER, IN_FORCE};
PRINT USING (IN_FORCE): SUMMARIZE CONTRACTS BY {IN_FORCE} : {NUMBER := COUNT()};

/* The trial of contract 8 took a week less, as was found out. */
DELETE ENDED PORTION {IN_FORCE [DATE '2011-12-01':DATE '2011-12-07']} WHERE CONTRACT = 8;

/* Everything ends with the year 2013. */
TERMINATE CONTRACTS AT DATE '2013-12-31';
ASK IS_EMPTY(RUNNING);
PRINT CONTRACTS;
