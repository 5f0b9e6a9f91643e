-- Waiting for a running statement.
--
-- Session 2 waits until session 1 has published 8 row steps, and asks only then. So the counters
-- that it is shown are of 8 steps or more. It looks in every other turn of its own; between two
-- looks it looks whether it was killed itself.

CREATE TABLE orders (amount INT);
INSERT INTO orders VALUES (5), (1), (9), (2), (7), (3), (8);
QUANTUM 4;

SESSION 1;
SELECT amount FROM orders WHERE amount > 2;

SESSION 2;
WAIT FOR 1 AT 8;
SHOW ANALYZE FOR 1;

SCHEDULE 1 2 2 1 2 2 1 2 2 2 2 2 1 2 2;
