//! JSON, as far as it is written here.

use std::fmt;

/// A JSON value; an object keeps the order of its fields.
#[derive(Debug, Clone, PartialEq, Eq)]
pub enum Json {
    Bool(bool),
    Number(usize),
    Text(String),
    List(Vec<Json>),
    Object(Vec<(String, Json)>),
}

impl Json {
    /// A text of anything that can be shown.
    pub fn text(shown: impl ToString) -> Json {
        Json::Text(shown.to_string())
    }

    /// A list of texts.
    pub fn texts(shown: impl IntoIterator<Item = impl ToString>) -> Json {
        Json::List(shown.into_iter().map(Json::text).collect())
    }
}

impl fmt::Display for Json {
    /// In one line.
    ///
    /// ```
    /// # use unloop::json::Json;
    /// let object = Json::Object(vec![("a\"\n".to_string(), Json::List(vec![Json::Number(7), Json::text("é\u{1}")]))]);
    /// assert_eq!(object.to_string(), "{\"a\\\"\\n\":[7,\"é\\u0001\"]}");
    /// ```
    fn fmt(&self, f: &mut fmt::Formatter<'_>) -> fmt::Result {
        match self {
            Json::Bool(value) => write!(f, "{value}"),
            Json::Number(value) => write!(f, "{value}"),
            Json::Text(text) => write!(f, "\"{}\"", escaped(text)),
            Json::List(values) => {
                let values: Vec<String> = values.iter().map(Json::to_string).collect();
                write!(f, "[{}]", values.join(","))
            }
            Json::Object(fields) => {
                let fields = fields
                    .iter()
                    .map(|(name, value)| format!("\"{}\":{value}", escaped(name)));
                write!(f, "{{{}}}", fields.collect::<Vec<_>>().join(","))
            }
        }
    }
}

fn escaped(text: &str) -> String {
    let mut written = String::with_capacity(text.len());
    for character in text.chars() {
        match character {
            '"' | '\\' => written.extend(['\\', character]),
            '\n' => written += "\\n",
            control if control.is_control() => written += &format!("\\u{:04x}", control as u32),
            other => written.push(other),
        }
    }
    written
}
