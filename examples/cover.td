// Policies of two persons, and the days for which they hold.
VAR POLICIES RELATION {PERSON CHAR, POLICY INTEGER, VALID INTERVAL(DATE)} KEY {POLICY, VALID};

INSERT POLICIES RELATION {
  TUPLE {PERSON 'Ada',   POLICY 101, VALID [DATE '2023-01-01':DATE '2023-06-30']},
  TUPLE {PERSON 'Ada',   POLICY 102, VALID [DATE '2023-06-15':DATE '2023-12-31']},
  TUPLE {PERSON 'Grace', POLICY 103, VALID [DATE '2023-03-01':DATE '2023-05-31']},
  TUPLE {PERSON 'Grace', POLICY 104, VALID [DATE '2023-06-02':DATE '2023-10-31']}
};

// For which days was each of them covered? Policies that overlap or follow one another come together.
PRINT USING (VALID): POLICIES {PERSON, VALID};

// For which days of the year was each of them not covered?
PRINT USING (VALID): (EXTEND (POLICIES {PERSON}) : {VALID := [DATE '2023-01-01':DATE '2023-12-31']}) NOT MATCHING POLICIES;

// How many policies held at each time?
PRINT USING (VALID): SUMMARIZE POLICIES BY {VALID} : {NUMBER := COUNT()};

// Grace paid nothing for August, as was found out: for these days the policy did not hold.
DELETE POLICIES PORTION {VALID [DATE '2023-08-01':DATE '2023-08-31']} WHERE POLICY = 104;
PRINT POLICIES WHERE PERSON = 'Grace';
