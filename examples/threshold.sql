-- The smallest script: a table, and one session with one SELECT.
--
-- Each line of the output is an entry of the session's journal: the statement begins, it ends with
-- two rows after six row steps (the table is opened, three rows are read, two are given out), and
-- the session closes.

CREATE TABLE t (a INT);
INSERT INTO t VALUES (1), (2), (3);

SESSION 1;
SELECT a FROM t WHERE a >= 2;
