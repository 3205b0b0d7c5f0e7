// JDBC: Login PORT USER PASSWORD DATABASE. Tells the value of the account 2, or the code by which it is not let in.
import java.sql.Connection;
import java.sql.DriverManager;
import java.sql.ResultSet;
import java.sql.SQLException;

public class Login {
    // These leave out what the driver would send of itself at its start.
    static final String GIVEN = "?assumeMinServerVersion=9.6&ApplicationName=x";

    public static void main(String[] words) {
        String url = "jdbc:postgresql://127.0.0.1:" + words[0] + "/" + words[3] + GIVEN;
        try (Connection one = DriverManager.getConnection(url, words[1], words[2])) {
            ResultSet rows = one.createStatement().executeQuery("SELECT v FROM accounts WHERE id = 2");
            rows.next();
            System.out.println(rows.getInt(1));
        } catch (SQLException fault) {
            System.out.println(fault.getSQLState());
        }
    }
}
