-- Looking into a running statement.
--
-- Session 1 reads the amounts above 2, at most four row steps in a turn. Session 2 asks what it is
-- doing. It is shown the plan that runs, and what that has counted so far. The rows of session 1
-- are those that it would have had alone.

CREATE TABLE orders (amount INT);
INSERT INTO orders VALUES (5), (1), (9), (2), (7);
QUANTUM 4;

SESSION 1;
SELECT amount FROM orders WHERE amount > 2;

SESSION 2;
SHOW ANALYZE FOR 1;

-- who takes the first turns; then they go round by number until all are done
SCHEDULE 1 2 2 1 2 2 1;
