-- A comparison with NULL is neither TRUE nor FALSE, and WHERE keeps the rows for which it is TRUE.
CREATE TABLE readings (id INT, degrees INT, place VARCHAR(10));
INSERT INTO readings VALUES (1, 5, 'roof'), (2, NULL, 'cellar'), (3, 7, NULL);

SESSION 1;
-- 3 alone: of 2 it isn't known whether it differs from 5.
SELECT id FROM readings WHERE degrees <> 5;
-- None: what isn't known stays so when it is denied.
SELECT id FROM readings WHERE NOT (degrees = NULL);
-- None again: 7 is not 5, but might be NULL.
SELECT id FROM readings WHERE degrees NOT IN (5, NULL);
-- IS NULL asks for it, and so does <=>, which counts NULL as equal to NULL.
SELECT id FROM readings WHERE degrees IS NULL;
SELECT id FROM readings WHERE degrees <=> NULL OR place <=> NULL;
-- Arithmetic with NULL is NULL.
SELECT id, degrees + 1 AS warmer FROM readings;
