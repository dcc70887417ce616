//! Values, and tables of them as JSON and CSV.

use std::fmt::Write as _;
use std::io;

#[derive(Clone, Debug, PartialEq, Eq)]
pub enum Value {
    None,
    Number(u64),
    Text(String),
    List(Vec<Value>),
    Fields(Vec<(String, Value)>),
}

impl Value {
    pub fn text(text: impl Into<String>) -> Value {
        Value::Text(text.into())
    }

    pub fn number(number: impl Into<u64>) -> Value {
        Value::Number(number.into())
    }

    /// For people and for a cell of a table: nothing for none, `name=value` for fields.
    pub fn plain(&self) -> String {
        match self {
            Value::None => String::new(),
            Value::Number(number) => number.to_string(),
            Value::Text(text) => text.clone(),
            Value::List(list) => {
                let parts: Vec<String> = list.iter().map(Value::plain).collect();
                parts.join(" ")
            }
            Value::Fields(fields) => {
                let part = |(name, value): &(String, Value)| format!("{name}={}", value.plain());
                let parts: Vec<String> = fields.iter().map(part).collect();
                parts.join(" ")
            }
        }
    }

    pub fn json(&self, to: &mut String) {
        match self {
            Value::None => to.push_str("null"),
            Value::Number(number) => to.push_str(&number.to_string()),
            Value::Text(text) => quoted(text, to),
            Value::List(list) => {
                to.push('[');
                for (place, value) in list.iter().enumerate() {
                    to.push_str(if place > 0 { ", " } else { "" });
                    value.json(to);
                }
                to.push(']');
            }
            Value::Fields(fields) => {
                to.push('{');
                for (place, (name, value)) in fields.iter().enumerate() {
                    to.push_str(if place > 0 { ", " } else { "" });
                    quoted(name, to);
                    to.push_str(": ");
                    value.json(to);
                }
                to.push('}');
            }
        }
    }
}

impl<T: Into<Value>> From<Option<T>> for Value {
    fn from(value: Option<T>) -> Value {
        value.map_or(Value::None, Into::into)
    }
}

impl From<String> for Value {
    fn from(text: String) -> Value {
        Value::Text(text)
    }
}

impl From<u64> for Value {
    fn from(number: u64) -> Value {
        Value::Number(number)
    }
}

impl From<u32> for Value {
    fn from(number: u32) -> Value {
        Value::Number(number.into())
    }
}

fn quoted(text: &str, to: &mut String) {
    to.push('"');
    for c in text.chars() {
        match c {
            '"' => to.push_str("\\\""),
            '\\' => to.push_str("\\\\"),
            '\n' => to.push_str("\\n"),
            // Unlike a control character's code, "<" may stand in JSON; a page may not have it.
            '<' | '\0'..='\u{1F}' | '\u{7F}' => {
                let _ = write!(to, "\\u{:04x}", u32::from(c));
            }
            _ => to.push(c),
        }
    }
    to.push('"');
}

/// Rows of values under names.
pub struct Table {
    pub columns: &'static [&'static str],
    pub rows: Vec<Vec<Value>>,
}

impl Table {
    pub fn text(&self, form: Form) -> String {
        let mut bytes = Vec::new();
        let _ = self.write(form, &mut bytes);
        String::from_utf8(bytes).unwrap_or_default()
    }

    pub fn write(&self, form: Form, to: &mut dyn io::Write) -> io::Result<()> {
        let mut rows = Rows::begin(self.columns, form, to)?;
        for row in &self.rows {
            rows.row(row)?;
        }
        rows.end()
    }
}

/// How rows are written.
#[derive(Clone, Copy, PartialEq, Eq)]
pub enum Form {
    /// A list of objects, one to a line.
    Json,
    /// RFC 4180, with a line of names.
    Csv,
}

/// Rows that are written as they come.
pub struct Rows<'w> {
    columns: &'static [&'static str],
    form: Form,
    to: &'w mut dyn io::Write,
    count: usize,
}

impl<'w> Rows<'w> {
    pub fn begin(
        columns: &'static [&'static str],
        form: Form,
        to: &'w mut dyn io::Write,
    ) -> io::Result<Rows<'w>> {
        match form {
            Form::Json => write!(to, "[")?,
            Form::Csv => write!(to, "{}\r\n", columns.join(","))?,
        }
        let count = 0;
        Ok(Rows {
            columns,
            form,
            to,
            count,
        })
    }

    pub fn row(&mut self, row: &[Value]) -> io::Result<()> {
        self.count += 1;
        if self.form == Form::Csv {
            let cells: Vec<String> = row.iter().map(|v| cell(&v.plain())).collect();
            return write!(self.to, "{}\r\n", cells.join(","));
        }
        let mut text = if self.count > 1 { ",\n " } else { "\n " }.to_string();
        let names = self.columns.iter().map(|name| (*name).to_string());
        Value::Fields(names.zip(row.iter().cloned()).collect()).json(&mut text);
        self.to.write_all(text.as_bytes())
    }

    pub fn end(self) -> io::Result<()> {
        match self.form {
            Form::Json => self.to.write_all(b"\n]\n"),
            Form::Csv => Ok(()),
        }
    }
}

fn cell(text: &str) -> String {
    if text.contains([',', '"', '\r', '\n']) {
        return format!("\"{}\"", text.replace('"', "\"\""));
    }
    text.to_string()
}

#[cfg(test)]
mod tests {
    use super::*;

    #[test]
    fn a_table_as_json_and_csv() {
        let fields = Value::Fields(vec![("a".to_string(), Value::number(7u32))]);
        let list = Value::List(vec![Value::number(1u32), Value::None]);
        let table = Table {
            columns: &["x", "y"],
            rows: vec![
                vec![Value::text("a \"b\", <\u{1}"), fields],
                vec![list, Value::None],
            ],
        };
        let json = "[\n {\"x\": \"a \\\"b\\\", \\u003c\\u0001\", \"y\": {\"a\": 7}},\n \
                    {\"x\": [1, null], \"y\": null}\n]\n";
        assert_eq!(table.text(Form::Json), json);
        assert_eq!(
            table.text(Form::Csv),
            "x,y\r\n\"a \"\"b\"\", <\u{1}\",a=7\r\n1 ,\r\n"
        );
    }
}
