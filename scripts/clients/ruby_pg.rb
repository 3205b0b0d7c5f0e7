# ruby-pg: ruby_pg.rb PORT KEY. Each step is told in a line.
require "pg"

port, key = ARGV.map(&:to_i)
$stdout.sync = true

def connect(port) = PG.connect(host: "127.0.0.1", port: port, user: "pool", dbname: "pool")

def code_of(client, text, values = [])
  client.exec_params(text, values)
  "none"
rescue PG::Error => fault
  fault.result.error_field(PG::PG_DIAG_SQLSTATE)
end

one = connect(port)
made = one.exec_params("INSERT INTO notes (id, body) VALUES ($1, $2), ($3, $4)", [key, "o'ne", key + 1, nil])
puts "insert #{made.cmd_tuples}"
puts "read #{one.exec_params("SELECT body FROM notes WHERE id = $1", [key])[0]["body"]}"
puts "update #{one.exec_params("UPDATE notes SET body = $1 WHERE id = $2", ["two", key]).cmd_tuples}"
puts "read #{one.exec_params("SELECT body FROM notes WHERE id = $1", [key])[0]["body"]}"
puts "delete #{one.exec_params("DELETE FROM notes WHERE id = $1", [key + 1]).cmd_tuples}"
puts "duplicate #{code_of(one, "INSERT INTO notes (id, body) VALUES ($1, 'again')", [key])}"
puts "syntax #{code_of(one, "SELEC 1")}"
one.exec("BEGIN")
puts "no column #{code_of(one, "SELECT nothing FROM notes")}"
puts "failed block #{code_of(one, "SELECT 1")}"
one.exec("ROLLBACK")
one.exec("BEGIN")
one.exec("SELECT v FROM accounts WHERE id = 1")
two = connect(port)
two.exec("UPDATE accounts SET v = v + 1 WHERE id = 1")
puts "late #{code_of(one, "UPDATE accounts SET v = v + 1 WHERE id = 1")}"
one.exec("ROLLBACK")
puts "left #{one.exec_params("SELECT count(*) FROM notes WHERE id = $1", [key])[0]["count"]}"
one.close
two.close
