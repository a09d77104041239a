-- The SQL of PostgreSQL of from-sql.md, with its tables and rows: psql -f docs/from-sql.sql
-- Behind each query stands what PostgreSQL 15 answers, as utd prints tables. python3 tools/from-sql runs all of it and compares.

CREATE EXTENSION IF NOT EXISTS btree_gist;

-- Dictionary

CREATE SCHEMA dictionary;
SET search_path TO dictionary, public;

CREATE TABLE customers (customer integer PRIMARY KEY, name text NOT NULL);
CREATE TABLE orders (no integer PRIMARY KEY, customer integer NOT NULL REFERENCES customers, article text NOT NULL, cents integer NOT NULL, ordered date NOT NULL);
INSERT INTO customers VALUES (7, 'Lovelace'), (8, 'Hopper'), (9, 'Turing');
INSERT INTO orders VALUES
  (1, 7, 'tea', 450, DATE '2023-05-01'),
  (2, 7, 'salt', 90, DATE '2023-05-08'),
  (3, 8, 'tea', 450, DATE '2023-05-08');

SELECT DISTINCT article FROM orders WHERE cents > 100;
-- as here
-- | ARTICLE |
-- | 'tea'   |
-- rows: 1

SELECT no, cents AS price FROM orders;
-- as here
-- | NO | PRICE |
-- | 1  | 450   |
-- | 2  | 90    |
-- | 3  | 450   |
-- rows: 3

SELECT no, cents * 2 AS doubled FROM orders;
-- as here
-- | DOUBLED | NO |
-- | 180     | 2  |
-- | 900     | 1  |
-- | 900     | 3  |
-- rows: 3

SELECT no FROM orders WHERE cents BETWEEN 100 AND 500;
-- as here
-- | NO |
-- | 1  |
-- | 3  |
-- rows: 2

SELECT no, article FROM orders WHERE no IN (1, 3);
-- as here
-- | ARTICLE | NO |
-- | 'tea'   | 1  |
-- | 'tea'   | 3  |
-- rows: 2

SELECT customer, name, no FROM customers JOIN orders USING (customer);
-- as here
-- | CUSTOMER | NAME       | NO |
-- | 7        | 'Lovelace' | 1  |
-- | 7        | 'Lovelace' | 2  |
-- | 8        | 'Hopper'   | 3  |
-- rows: 3

SELECT * FROM customers c WHERE EXISTS (SELECT FROM orders o WHERE o.customer = c.customer);
-- as here
-- | CUSTOMER | NAME       |
-- | 7        | 'Lovelace' |
-- | 8        | 'Hopper'   |
-- rows: 2

SELECT * FROM customers c WHERE NOT EXISTS (SELECT FROM orders o WHERE o.customer = c.customer);
-- as here
-- | CUSTOMER | NAME     |
-- | 9        | 'Turing' |
-- rows: 1

SELECT customer, name, coalesce(no, 0) AS no FROM customers LEFT JOIN orders USING (customer);
-- as here
-- | CUSTOMER | NAME       | NO |
-- | 7        | 'Lovelace' | 1  |
-- | 7        | 'Lovelace' | 2  |
-- | 8        | 'Hopper'   | 3  |
-- | 9        | 'Turing'   | 0  |
-- rows: 4

SELECT customer, count(*) AS n FROM orders GROUP BY customer HAVING count(*) > 1;
-- as here
-- | CUSTOMER | N |
-- | 7        | 2 |
-- rows: 1

SELECT count(DISTINCT article) AS n FROM orders;
-- as here
-- | N |
-- | 2 |
-- rows: 1

SELECT customer, trunc(avg(cents)) AS mean FROM orders GROUP BY customer;
-- as here
-- | CUSTOMER | MEAN |
-- | 7        | 270  |
-- | 8        | 450  |
-- rows: 2

CREATE VIEW dear AS SELECT * FROM orders WHERE cents > 900;

SELECT count(*) AS n FROM dear;
-- as here
-- | N |
-- | 0 |
-- rows: 1

SELECT no, cents FROM orders ORDER BY cents DESC FETCH FIRST ROW WITH TIES;
-- as here
-- | CENTS | NO |
-- | 450   | 1  |
-- | 450   | 3  |
-- rows: 2

SELECT customer FROM customers EXCEPT SELECT customer FROM orders;
-- as here
-- | CUSTOMER |
-- | 9        |
-- rows: 1

SELECT customer FROM customers INTERSECT SELECT customer FROM orders;
-- as here
-- | CUSTOMER |
-- | 7        |
-- | 8        |
-- rows: 2

SELECT no, CASE WHEN cents > 100 THEN 'dear' ELSE 'cheap' END AS class FROM orders;
-- as here
-- | CLASS   | NO |
-- | 'cheap' | 2  |
-- | 'dear'  | 1  |
-- | 'dear'  | 3  |
-- rows: 3

SELECT no, ordered + 1 AS due FROM orders;
-- as here
-- | DUE        | NO |
-- | 2023-05-02 | 1  |
-- | 2023-05-09 | 2  |
-- | 2023-05-09 | 3  |
-- rows: 3

SELECT DATE '2023-05-08' - DATE '2023-05-01' AS days;
-- as here
-- | DAYS |
-- | 7    |
-- rows: 1

SELECT NOT EXISTS (SELECT FROM orders WHERE cents < 0) AS answer;
-- other than here: ASK writes the value alone
-- | ANSWER |
-- | TRUE   |
-- rows: 1

UPDATE orders SET cents = cents + 10 WHERE no = 1;

DELETE FROM orders WHERE no = 2;

SELECT no, cents FROM orders;
-- as here
-- | CENTS | NO |
-- | 450   | 3  |
-- | 460   | 1  |
-- rows: 2

DELETE FROM orders;

SELECT no, cents FROM orders;
-- as here
-- | CENTS | NO |
-- rows: 0

-- PostgreSQL: ranges. Merge and gaps

CREATE SCHEMA merge;
SET search_path TO merge, public;

CREATE TABLE cover (person text, policy integer PRIMARY KEY, valid daterange NOT NULL);
INSERT INTO cover VALUES
  ('Ada', 101, '[2023-01-01,2023-06-30]'),
  ('Ada', 102, '[2023-06-15,2023-12-31]'),
  ('Grace', 104, '[2023-03-01,2023-05-31]'),
  ('Grace', 105, '[2023-06-02,2023-12-31]');

SELECT person, unnest(range_agg(valid)) AS valid FROM cover GROUP BY person;
-- as here
-- | PERSON  | VALID                   |
-- | 'Ada'   | [2023-01-01:2023-12-31] |
-- | 'Grace' | [2023-03-01:2023-05-31] |
-- | 'Grace' | [2023-06-02:2023-12-31] |
-- rows: 3

SELECT person, unnest(datemultirange(daterange('2023-01-01', '2024-01-01')) - range_agg(valid)) AS valid
FROM cover GROUP BY person;
-- as here
-- | PERSON  | VALID                   |
-- | 'Grace' | [2023-01-01:2023-02-28] |
-- | 'Grace' | [2023-06-01:2023-06-01] |
-- rows: 2

-- No double booking

CREATE SCHEMA booking;
SET search_path TO booking, public;

CREATE TABLE bookings (
  room integer, guest text, nights daterange,
  EXCLUDE USING gist (room WITH =, nights WITH &&)
);

INSERT INTO bookings VALUES (1, 'Ada', '[2023-05-01,2023-05-08)');
INSERT INTO bookings VALUES (1, 'Alan', '[2023-05-08,2023-05-10)');

INSERT INTO bookings VALUES (1, 'Grace', '[2023-05-09,2023-05-12)');
-- refused: 23P01

SELECT * FROM bookings;
-- as here
-- | GUEST  | NIGHTS                  | ROOM |
-- | 'Ada'  | [2023-05-01:2023-05-07] | 1    |
-- | 'Alan' | [2023-05-08:2023-05-09] | 1    |
-- rows: 2

-- An empty range, no range and no room are let in.

INSERT INTO bookings VALUES (1, 'Grace', '[2023-05-12,2023-05-12)'), (1, 'Grace', NULL), (NULL, 'Grace', '[2023-05-01,2023-05-08)');

SELECT * FROM bookings;
-- other than here
-- | GUEST   | NIGHTS                  | ROOM |
-- | 'Ada'   | [2023-05-01:2023-05-07] | 1    |
-- | 'Alan'  | [2023-05-08:2023-05-09] | 1    |
-- | 'Grace' | NULL                    | 1    |
-- | 'Grace' | [2023-05-01:2023-05-07] | NULL |
-- | 'Grace' | empty                   | 1    |
-- rows: 5

-- Join of validity ranges

CREATE SCHEMA validity;
SET search_path TO validity, public;

CREATE TABLE prices (article text, cents integer, valid daterange);
CREATE TABLE suppliers (article text, firm text, valid daterange);
INSERT INTO prices VALUES ('tea', 450, '[2023-01-01,2023-04-01)'), ('tea', 480, '[2023-04-01,2024-01-01)');
INSERT INTO suppliers VALUES ('tea', 'Assam', '[2023-02-01,2023-07-01)'), ('tea', 'Nilgiri', '[2023-06-01,2023-11-01)');

SELECT article, cents, firm, p.valid * s.valid AS valid
FROM prices p JOIN suppliers s USING (article)
WHERE p.valid && s.valid;
-- as here
-- | ARTICLE | CENTS | FIRM      | VALID                   |
-- | 'tea'   | 450   | 'Assam'   | [2023-02-01:2023-03-31] |
-- | 'tea'   | 480   | 'Assam'   | [2023-04-01:2023-06-30] |
-- | 'tea'   | 480   | 'Nilgiri' | [2023-06-01:2023-10-31] |
-- rows: 3

-- The narrower query has three rows still, of which two overlap.

SELECT article, p.valid * s.valid AS valid
FROM prices p JOIN suppliers s USING (article)
WHERE p.valid && s.valid;
-- other than here
-- | ARTICLE | VALID                   |
-- | 'tea'   | [2023-02-01:2023-03-31] |
-- | 'tea'   | [2023-04-01:2023-06-30] |
-- | 'tea'   | [2023-06-01:2023-10-31] |
-- rows: 3

-- How many at each time

CREATE SCHEMA at_once;
SET search_path TO at_once, public;

CREATE TABLE calls (call integer PRIMARY KEY, minutes int4range NOT NULL);
INSERT INTO calls VALUES (1, '[0,15)'), (2, '[5,10)'), (3, '[10,25)'), (4, '[12,18)');

SELECT minute, sum(sum(step)) OVER (ORDER BY minute) AS number
FROM (SELECT lower(minutes) AS minute, 1 AS step FROM calls
      UNION ALL SELECT upper(minutes), -1 FROM calls) ends
GROUP BY minute
ORDER BY minute;
-- other than here
-- | MINUTE | NUMBER |
-- | 0      | 1      |
-- | 5      | 2      |
-- | 10     | 2      |
-- | 12     | 3      |
-- | 15     | 2      |
-- | 18     | 1      |
-- | 25     | 0      |
-- rows: 7

-- The value at a date

SET search_path TO validity, public;

SELECT cents FROM prices WHERE valid @> DATE '2023-04-15';
-- other than here
-- | CENTS |
-- | 480   |
-- rows: 1

-- Times of day

CREATE SCHEMA times_of_day;
SET search_path TO times_of_day, public;

CREATE TABLE shifts (name text, duty tsrange NOT NULL, EXCLUDE USING gist (name WITH =, duty WITH &&));
INSERT INTO shifts VALUES
  ('Ada', '[2023-05-06 14:00:00,2023-05-06 22:00:00)'), ('Ada', '[2023-05-06 22:00:00,2023-05-07 06:00:00)'),
  ('Grace', '[2023-05-07 05:45:00,2023-05-07 14:00:00)');

SELECT name, unnest(range_agg(duty)) AS duty FROM shifts GROUP BY name;
-- as here
-- | DUTY                                      | NAME    |
-- | [2023-05-06T14:00:00:2023-05-07T05:59:59] | 'Ada'   |
-- | [2023-05-07T05:45:00:2023-05-07T13:59:59] | 'Grace' |
-- rows: 2

SELECT name, duty, (extract(epoch FROM upper(duty) - lower(duty)) / 60)::integer AS minutes
FROM shifts
WHERE duty @> TIMESTAMP '2023-05-07 05:50:00';
-- as here
-- | DUTY                                      | MINUTES | NAME    |
-- | [2023-05-06T22:00:00:2023-05-07T05:59:59] | 480     | 'Ada'   |
-- | [2023-05-07T05:45:00:2023-05-07T13:59:59] | 495     | 'Grace' |
-- rows: 2

-- Between two seconds a range has other times, so these two do not meet.

SELECT tsrange('2023-05-06 08:00:00', '2023-05-06 08:59:59', '[]') -|- tsrange('2023-05-06 09:00:00', '2023-05-06 10:00:00') AS meets;
-- other than here
-- | MEETS |
-- | FALSE |
-- rows: 1

-- Gaps and islands by window functions. Runs of single days

CREATE SCHEMA runs;
SET search_path TO runs, public;

CREATE TABLE visits (member text, day date);
INSERT INTO visits VALUES
  ('Ada', '2023-02-27'), ('Ada', '2023-02-28'), ('Ada', '2023-02-28'), ('Ada', '2023-03-01'), ('Ada', '2023-03-04');

SELECT member, min(day) AS first_day, max(day) AS last_day, count(*) AS days
FROM (SELECT member, day, day - CAST(row_number() OVER (PARTITION BY member ORDER BY day) AS integer) AS island
      FROM visits) numbered
GROUP BY member, island;
-- other than here: one day stands twice, so there is an island too many
-- | DAYS | FIRST_DAY  | LAST_DAY   | MEMBER |
-- | 1    | 2023-03-04 | 2023-03-04 | 'Ada'  |
-- | 2    | 2023-02-27 | 2023-02-28 | 'Ada'  |
-- | 2    | 2023-02-28 | 2023-03-01 | 'Ada'  |
-- rows: 3

SELECT member, daterange(min(day), max(day), '[]') AS days, count(*) AS length
FROM (SELECT member, day, day - CAST(row_number() OVER (PARTITION BY member ORDER BY day) AS integer) AS island
      FROM (SELECT DISTINCT member, day FROM visits) once) numbered
GROUP BY member, island;
-- as here
-- | DAYS                    | LENGTH | MEMBER |
-- | [2023-02-27:2023-03-01] | 3      | 'Ada'  |
-- | [2023-03-04:2023-03-04] | 1      | 'Ada'  |
-- rows: 2

-- Ranges that overlap

CREATE SCHEMA islands;
SET search_path TO islands, public;

CREATE TABLE cover (person text, first_day date, last_day date);
INSERT INTO cover VALUES
  ('Ada', '2023-01-01', '2023-12-31'),
  ('Ada', '2023-02-01', '2023-02-28'),
  ('Ada', '2023-06-15', '2024-03-31'),
  ('Ada', '2024-04-01', '2024-05-31'),
  ('Grace', '2023-03-01', '2023-05-31'),
  ('Grace', '2023-06-02', '2023-12-31');

SELECT person, min(first_day) AS first_day, max(last_day) AS last_day
FROM (SELECT person, first_day, last_day, sum(begins) OVER (PARTITION BY person ORDER BY first_day, last_day) AS island
      FROM (SELECT person, first_day, last_day,
                   CASE WHEN first_day <= max(last_day) OVER (PARTITION BY person ORDER BY first_day, last_day
                                                              ROWS BETWEEN UNBOUNDED PRECEDING AND 1 PRECEDING) + 1
                        THEN 0 ELSE 1 END AS begins
            FROM cover) marked) numbered
GROUP BY person, island;
-- other than here: the same days, in two columns
-- | FIRST_DAY  | LAST_DAY   | PERSON  |
-- | 2023-01-01 | 2024-05-31 | 'Ada'   |
-- | 2023-03-01 | 2023-05-31 | 'Grace' |
-- | 2023-06-02 | 2023-12-31 | 'Grace' |
-- rows: 3

-- The same as ranges, by a view.

CREATE VIEW packed AS
SELECT person, min(first_day) AS first_day, max(last_day) AS last_day
FROM (SELECT person, first_day, last_day, sum(begins) OVER (PARTITION BY person ORDER BY first_day, last_day) AS island
      FROM (SELECT person, first_day, last_day,
                   CASE WHEN first_day <= max(last_day) OVER (PARTITION BY person ORDER BY first_day, last_day
                                                              ROWS BETWEEN UNBOUNDED PRECEDING AND 1 PRECEDING) + 1
                        THEN 0 ELSE 1 END AS begins
            FROM cover) marked) numbered
GROUP BY person, island;

SELECT person, daterange(first_day, last_day, '[]') AS valid FROM packed;
-- as here
-- | PERSON  | VALID                   |
-- | 'Ada'   | [2023-01-01:2024-05-31] |
-- | 'Grace' | [2023-03-01:2023-05-31] |
-- | 'Grace' | [2023-06-02:2023-12-31] |
-- rows: 3

-- By lag in place of the running maximum Ada has two rows that overlap.

SELECT person, min(first_day) AS first_day, max(last_day) AS last_day
FROM (SELECT person, first_day, last_day, sum(begins) OVER (PARTITION BY person ORDER BY first_day, last_day) AS island
      FROM (SELECT person, first_day, last_day,
                   CASE WHEN first_day <= lag(last_day) OVER (PARTITION BY person ORDER BY first_day, last_day) + 1
                        THEN 0 ELSE 1 END AS begins
            FROM cover) marked) numbered
GROUP BY person, island;
-- other than here
-- | FIRST_DAY  | LAST_DAY   | PERSON  |
-- | 2023-01-01 | 2023-12-31 | 'Ada'   |
-- | 2023-03-01 | 2023-05-31 | 'Grace' |
-- | 2023-06-02 | 2023-12-31 | 'Grace' |
-- | 2023-06-15 | 2024-05-31 | 'Ada'   |
-- rows: 4

-- What still runs, with NULL as its end, reaches nowhere: February is no part of its island, and the end of the island is known.

DELETE FROM cover;
INSERT INTO cover VALUES
  ('Ada', '2023-01-01', '2023-01-10'),
  ('Ada', '2023-01-05', NULL),
  ('Ada', '2023-01-08', '2023-01-12'),
  ('Ada', '2023-02-01', '2023-02-12');

SELECT * FROM packed;
-- other than here
-- | FIRST_DAY  | LAST_DAY   | PERSON |
-- | 2023-01-01 | 2023-01-12 | 'Ada'  |
-- | 2023-02-01 | 2023-02-12 | 'Ada'  |
-- rows: 2
