//! `desk asrun --sqlite`: the list as SQL, handed to the program sqlite3. Nothing is linked for it.

use crate::json::{Table, Value};
use std::io::Write;
use std::process::{Command, Stdio};

/// What a column holds.
fn kind(column: &str) -> &'static str {
    match column {
        "connection" | "session" | "event" | "ticks" | "result" => "INTEGER",
        "length_s" | "on_air_s" => "REAL",
        _ => "TEXT",
    }
}

/// A value in a column of this kind.
fn literal(value: &Value, kind: &str) -> String {
    match value {
        Value::None => "NULL".to_string(),
        value if kind == "TEXT" => format!("'{}'", value.plain().replace('\'', "''")),
        value => value.plain(),
    }
}

/// The list as SQL: the table `asrun` is made if it is not there, and the rows are added, all or none.
pub fn sql(list: &Table) -> String {
    let columns = list
        .columns
        .iter()
        .map(|name| format!("{name} {}", kind(name)));
    let columns: Vec<String> = columns.collect();
    let mut text = format!(
        "BEGIN;\nCREATE TABLE IF NOT EXISTS asrun ({});\n",
        columns.join(", ")
    );
    for row in &list.rows {
        let values = row.iter().zip(list.columns);
        let values: Vec<String> = values.map(|(v, name)| literal(v, kind(name))).collect();
        let names = list.columns.join(", ");
        text += &format!(
            "INSERT INTO asrun ({names}) VALUES ({});\n",
            values.join(", ")
        );
    }
    text + "COMMIT;\n"
}

/// Adds the list to a database. Gives the number of rows.
pub fn handed(path: &str, list: &Table) -> Result<usize, String> {
    // a name of a file, whatever it begins with
    let file = if path.starts_with('-') {
        format!("./{path}")
    } else {
        path.to_string()
    };
    let child = Command::new("sqlite3")
        .args(["-batch", "-bail", &file])
        .stdin(Stdio::piped())
        .stdout(Stdio::null())
        .stderr(Stdio::piped())
        .spawn();
    let mut child = child.map_err(|e| format!("sqlite3: {e}: Debian's package sqlite3 has it"))?;
    if let Some(mut to) = child.stdin.take() {
        // its status says what became of it
        let _ = to.write_all(sql(list).as_bytes());
    }
    let done = child
        .wait_with_output()
        .map_err(|e| format!("sqlite3: {e}"))?;
    if done.status.success() {
        return Ok(list.rows.len());
    }
    let said = String::from_utf8_lossy(&done.stderr);
    let first = said.lines().next().unwrap_or("it failed").to_string();
    Err(format!("{path}: sqlite3: {first}"))
}

#[cfg(test)]
mod tests {
    use super::*;

    #[test]
    fn rows_as_sql() {
        let table = Table {
            columns: &["started", "session", "length_s", "outcome"],
            rows: vec![vec![
                Value::None,
                Value::number(7u32),
                Value::text("30.000000"),
                Value::text("its prior's end"),
            ]],
        };
        let expected = "BEGIN;\n\
            CREATE TABLE IF NOT EXISTS asrun (started TEXT, session INTEGER, length_s REAL, outcome TEXT);\n\
            INSERT INTO asrun (started, session, length_s, outcome) VALUES (NULL, 7, 30.000000, 'its prior''s end');\n\
            COMMIT;\n";
        assert_eq!(sql(&table), expected);
    }
}
