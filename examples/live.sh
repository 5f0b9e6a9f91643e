#!/bin/sh
# Writes a script with a statement that runs for a while, and a session that watches it and ends it:
#
#   examples/live.sh | ./kamewhisk run
rows=$(seq 1000000)
cat <<END
CREATE TABLE t (a INT);
LOAD DATA t BYTES $((${#rows} + 1));
$rows

SESSION 1;
SELECT a FROM t WHERE a * 3 + 1 < a OR a * 5 + 1 < a OR a * 7 + 1 < a;

SESSION 2;
WAIT FOR 1 AT 100000;
SHOW ANALYZE FOR 1;
KILL QUERY 1;
END
