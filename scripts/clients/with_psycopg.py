"""psycopg2 and psycopg 3: with_psycopg.py DRIVER PORT KEY, of which DRIVER is psycopg2 or psycopg. Each step is told in a line."""
import importlib
import sys

driver, port, key = importlib.import_module(sys.argv[1]), int(sys.argv[2]), int(sys.argv[3])
# (psycopg 3 has the client put values into the text where it is told so, as psycopg2 does)
ways = {"cursor_factory": driver.ClientCursor} if hasattr(driver, "ClientCursor") else {}


def connect():
    return driver.connect(host="127.0.0.1", port=port, user="pool", dbname="pool", **ways)


def code_of(cursor, text, values=()):
    try:
        cursor.execute(text, values)
        return "none"
    except driver.Error as fault:
        return fault.sqlstate if hasattr(fault, "sqlstate") else fault.pgcode


one = connect()
cursor = one.cursor()
cursor.execute("INSERT INTO notes (id, body) VALUES (%s, %s), (%s, %s)", (key, "o'ne", key + 1, None))
print("insert", cursor.rowcount)
one.commit()
cursor.execute("SELECT body FROM notes WHERE id = %s", (key,))
print("read", cursor.fetchone()[0])
cursor.execute("UPDATE notes SET body = %s WHERE id = %s", ("two", key))
print("update", cursor.rowcount)
cursor.execute("SELECT body FROM notes WHERE id = %s", (key,))
print("read", cursor.fetchone()[0])
cursor.execute("DELETE FROM notes WHERE id = %s", (key + 1,))
print("delete", cursor.rowcount)
one.commit()
print("duplicate", code_of(cursor, "INSERT INTO notes (id, body) VALUES (%s, 'again')", (key,)))
one.rollback()
print("syntax", code_of(cursor, "SELEC 1"))
one.rollback()
print("no column", code_of(cursor, "SELECT nothing FROM notes"))
print("failed block", code_of(cursor, "SELECT 1"))
one.rollback()
cursor.execute("SELECT v FROM accounts WHERE id = 1")
two = connect()
two.cursor().execute("UPDATE accounts SET v = v + 1 WHERE id = 1")
two.commit()
print("late", code_of(cursor, "UPDATE accounts SET v = v + 1 WHERE id = 1"))
one.rollback()
cursor.execute("SELECT count(*) FROM notes WHERE id = %s", (key,))
print("left", cursor.fetchone()[0])
one.close()
two.close()
