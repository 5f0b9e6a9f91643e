-- Rows by CSV: a block of so many bytes stands behind LOAD DATA. \N is NULL, an empty field is an empty text.
CREATE TABLE people (id INT, name VARCHAR(20), born INT);
LOAD DATA people BYTES 66;
1,Ann,1990
2,"Bob, the ""builder""",1985
3,\N,2001
4,,\N
5,Zoë,1

SESSION 1;
SELECT name FROM people WHERE born < 2000;
SELECT id FROM people WHERE name IS NULL OR name = '';
SELECT name, 2020 - born AS years FROM people WHERE born BETWEEN 1980 AND 2010;
SELECT * FROM people WHERE id = 4;
