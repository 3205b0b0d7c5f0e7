// node-pg: node_pg.js PORT KEY. Each step is told in a line.
const { Client } = require("pg");

const [port, key] = process.argv.slice(2).map(Number);

async function connect() {
  const client = new Client({ host: "127.0.0.1", port, user: "pool", database: "pool" });
  await client.connect();
  return client;
}

async function codeOf(client, text, values) {
  try {
    await client.query(text, values);
    return "none";
  } catch (fault) {
    return fault.code;
  }
}

async function main() {
  const one = await connect();
  const body = async () => (await one.query("SELECT body FROM notes WHERE id = $1", [key])).rows[0].body;
  const made = await one.query("INSERT INTO notes (id, body) VALUES ($1, $2), ($3, $4)", [key, "o'ne", key + 1, null]);
  console.log("insert", made.rowCount);
  console.log("read", await body());
  console.log("update", (await one.query("UPDATE notes SET body = $1 WHERE id = $2", ["two", key])).rowCount);
  console.log("read", await body());
  console.log("delete", (await one.query("DELETE FROM notes WHERE id = $1", [key + 1])).rowCount);
  console.log("duplicate", await codeOf(one, "INSERT INTO notes (id, body) VALUES ($1, 'again')", [key]));
  console.log("syntax", await codeOf(one, "SELEC 1"));
  await one.query("BEGIN");
  console.log("no column", await codeOf(one, "SELECT nothing FROM notes"));
  console.log("failed block", await codeOf(one, "SELECT 1"));
  await one.query("ROLLBACK");
  await one.query("BEGIN");
  await one.query("SELECT v FROM accounts WHERE id = 1");
  const two = await connect();
  await two.query("UPDATE accounts SET v = v + 1 WHERE id = 1");
  console.log("late", await codeOf(one, "UPDATE accounts SET v = v + 1 WHERE id = 1"));
  await one.query("ROLLBACK");
  console.log("left", (await one.query("SELECT count(*) FROM notes WHERE id = $1", [key])).rows[0].count);
  await one.end();
  await two.end();
}

main().catch((fault) => {
  console.log("fault", fault.message);
  process.exit(1);
});
