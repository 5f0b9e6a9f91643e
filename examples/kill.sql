-- Ending a running statement.
--
-- Session 1 runs the same SELECT twice. Session 2 kills what session 1 runs, while the first is on:
-- that one ends Interrupted and gives no rows. KILL QUERY ends a statement and no session, so the
-- second SELECT gives all of them.

CREATE TABLE orders (amount INT);
INSERT INTO orders VALUES (5), (1), (9), (2), (7);
QUANTUM 4;

SESSION 1;
SELECT amount FROM orders WHERE amount > 2;
SELECT amount FROM orders WHERE amount > 2;

SESSION 2;
KILL QUERY 1;

SCHEDULE 1 1 2 2 1;
