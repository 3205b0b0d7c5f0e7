-- psql: with the variable key, and the variable client, which is another psql. Each step is told in a line.
INSERT INTO notes (id, body) VALUES (:key, 'o''ne'), (:key + 1, NULL);
SELECT body FROM notes WHERE id = :key;
UPDATE notes SET body = 'two' WHERE id = :key;
SELECT body FROM notes WHERE id = :key;
DELETE FROM notes WHERE id = :key + 1;
INSERT INTO notes (id, body) VALUES (:key, 'again');
SELEC 1;
BEGIN;
SELECT nothing FROM notes;
SELECT 1;
ROLLBACK;
BEGIN;
SELECT v FROM accounts WHERE id = 1;
\! $OTHER -q -c "UPDATE accounts SET v = v + 1 WHERE id = 1"
UPDATE accounts SET v = v + 1 WHERE id = 1;
ROLLBACK;
SELECT count(*) FROM notes WHERE id = :key;
