// Prices of a shop, the days for which they hold, and what was bought.
// Each question has its relations written out.

/* What does each article cost on 15 April 2012? */
PRINT (RELATION {
  TUPLE {ARTICLE 'tea',    CENTS 450, VALID [DATE '2012-01-01':DATE '2012-03-31']},
  TUPLE {ARTICLE 'tea',    CENTS 480, VALID [DATE '2012-04-01':DATE '2012-12-31']},
  TUPLE {ARTICLE 'coffee', CENTS 620, VALID [DATE '2012-01-01':DATE '2012-12-31']}
} WHERE DATE '2012-04-15' IN VALID) {ARTICLE, CENTS};

/* What has each customer to pay? Every piece has the price of the day on which it was bought. */
PRINT SUMMARIZE (
  EXTEND (
    RELATION {
      TUPLE {CUSTOMER 'Ada',   ARTICLE 'tea',    BOUGHT DATE '2012-03-31', PIECES 2},
      TUPLE {CUSTOMER 'Ada',   ARTICLE 'tea',    BOUGHT DATE '2012-04-01', PIECES 1},
      TUPLE {CUSTOMER 'Grace', ARTICLE 'coffee', BOUGHT DATE '2012-02-29', PIECES 3}
    } JOIN RELATION {
      TUPLE {ARTICLE 'tea',    CENTS 450, VALID [DATE '2012-01-01':DATE '2012-03-31']},
      TUPLE {ARTICLE 'tea',    CENTS 480, VALID [DATE '2012-04-01':DATE '2012-12-31']},
      TUPLE {ARTICLE 'coffee', CENTS 620, VALID [DATE '2012-01-01':DATE '2012-12-31']}
    }
  ) WHERE BOUGHT IN VALID : {COST := PIECES * CENTS}
) BY {CUSTOMER} : {TO_PAY := SUM(COST), FIRST_DAY := MIN(BOUGHT), LINES := COUNT()};

/* Which price came directly after which, and for how many days does it hold? */
PRINT (EXTEND (
  RELATION {
    TUPLE {CENTS 450, VALID [DATE '2012-01-01':DATE '2012-03-31']},
    TUPLE {CENTS 480, VALID [DATE '2012-04-01':DATE '2012-12-31']},
    TUPLE {CENTS 500, VALID [DATE '2013-02-01':DATE '2013-12-31']}
  } JOIN (RELATION {
    TUPLE {CENTS 450, VALID [DATE '2012-01-01':DATE '2012-03-31']},
    TUPLE {CENTS 480, VALID [DATE '2012-04-01':DATE '2012-12-31']},
    TUPLE {CENTS 500, VALID [DATE '2013-02-01':DATE '2013-12-31']}
  } RENAME {CENTS AS NEW_CENTS, VALID AS NEW_VALID})
) WHERE VALID MEETS NEW_VALID AND VALID BEFORE NEW_VALID : {DAYS := COUNT(NEW_VALID), RISE := NEW_CENTS - CENTS}) {ALL BUT VALID};

/* Does the price of the year hold on some day of the sale? */
ASK IS_NOT_EMPTY((
  RELATION {TUPLE {ARTICLE 'tea', VALID [DATE '2012-04-01':DATE '2012-12-31']}}
  JOIN RELATION {TUPLE {ARTICLE 'tea', SALE [DATE '2012-12-24':DATE '2013-01-06']}}
) WHERE VALID OVERLAPS SALE);

/* A price that ends before it begins is refused at its bracket .. */
PRINT RELATION {TUPLE {ARTICLE 'salt', VALID [DATE '2012-04-01':DATE '2012-03-31']}};

/* .. a price for no pieces at its division .. */
PRINT EXTEND RELATION {TUPLE {CENTS 450, PIECES 5}, TUPLE {CENTS 90, PIECES 0}} : {EACH := CENTS / PIECES};

/* .. and a name that no attribute has where it stands. */
PRINT RELATION {TUPLE {ARTICLE 'tea', CENTS 450}} WHERE PRICE > 400;
