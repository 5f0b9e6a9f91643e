-- A request that runs out of turns.
--
-- Session 2 asks session 1, which takes no turn meanwhile. A request lasts two turns here, so it is
-- given up after two polls: the SHOW ends TimedOut, and session 1 gives its rows as if nobody had
-- asked.

CREATE TABLE orders (amount INT);
INSERT INTO orders VALUES (5), (1), (9), (2), (7);
QUANTUM 4;
TURNS 2;

SESSION 1;
SELECT amount FROM orders WHERE amount > 2;

SESSION 2;
SHOW ANALYZE FOR 1;

SCHEDULE 1 2 2 2 2 2 2;
