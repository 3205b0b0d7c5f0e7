// JDBC: Jdbc PORT KEY. Each step is told in a line.
import java.sql.Connection;
import java.sql.DriverManager;
import java.sql.PreparedStatement;
import java.sql.ResultSet;
import java.sql.SQLException;
import java.sql.Statement;

public class Jdbc {
    // The first two leave out what the driver would send of itself at its start. By the third a string has no type of its own.
    static final String GIVEN = "?assumeMinServerVersion=9.6&ApplicationName=x&stringtype=unspecified";

    static Connection connect(String port) throws SQLException {
        return DriverManager.getConnection("jdbc:postgresql://127.0.0.1:" + port + "/pool" + GIVEN, "pool", "");
    }

    static String codeOf(Connection one, String text) throws SQLException {
        try (Statement statement = one.createStatement()) {
            statement.execute(text);
            return "none";
        } catch (SQLException fault) {
            return fault.getSQLState();
        }
    }

    static String first(Connection one, String text, int key) throws SQLException {
        try (PreparedStatement statement = one.prepareStatement(text)) {
            statement.setInt(1, key);
            ResultSet rows = statement.executeQuery();
            rows.next();
            return rows.getString(1);
        }
    }

    public static void main(String[] words) throws SQLException {
        int key = Integer.parseInt(words[1]);
        Connection one = connect(words[0]);
        PreparedStatement insert = one.prepareStatement("INSERT INTO notes (id, body) VALUES (?, ?), (?, ?)");
        insert.setInt(1, key);
        insert.setString(2, "o'ne");
        insert.setInt(3, key + 1);
        insert.setString(4, null);
        System.out.println("insert " + insert.executeUpdate());
        System.out.println("read " + first(one, "SELECT body FROM notes WHERE id = ?", key));
        PreparedStatement update = one.prepareStatement("UPDATE notes SET body = ? WHERE id = ?");
        update.setString(1, "two");
        update.setInt(2, key);
        System.out.println("update " + update.executeUpdate());
        // from the fifth use on the statement has a name, and its results are binary
        for (int times = 0; times < 7; times++) {
            first(one, "SELECT id FROM notes WHERE id = ?", key);
        }
        System.out.println("read " + first(one, "SELECT body FROM notes WHERE id = ?", key));
        PreparedStatement delete = one.prepareStatement("DELETE FROM notes WHERE id = ?");
        delete.setInt(1, key + 1);
        System.out.println("delete " + delete.executeUpdate());
        System.out.println("duplicate " + codeOf(one, "INSERT INTO notes (id, body) VALUES (" + key + ", 'again')"));
        System.out.println("syntax " + codeOf(one, "SELEC 1"));
        one.setAutoCommit(false);
        System.out.println("no column " + codeOf(one, "SELECT nothing FROM notes"));
        System.out.println("failed block " + codeOf(one, "SELECT 1"));
        one.rollback();
        codeOf(one, "SELECT v FROM accounts WHERE id = 1");
        Connection two = connect(words[0]);
        codeOf(two, "UPDATE accounts SET v = v + 1 WHERE id = 1");
        System.out.println("late " + codeOf(one, "UPDATE accounts SET v = v + 1 WHERE id = 1"));
        one.rollback();
        System.out.println("left " + first(one, "SELECT count(*) FROM notes WHERE id = ?", key));
        one.commit();
        one.close();
        two.close();
    }
}
