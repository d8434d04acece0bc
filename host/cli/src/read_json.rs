//! Reads a JSON document, such as one that was written with --json.
use crate::json::Value;
use std::fmt;

/// No document of ours is nested as deep.
const DEEPEST: usize = 32;

#[derive(Clone, Debug, PartialEq)]
pub enum Json {
    Null,
    Bool(bool),
    /// As it is written, so that none is rounded.
    Number(String),
    Text(String),
    List(Vec<Json>),
    Object(Vec<(String, Json)>),
}

impl Json {
    /// The one document in a text.
    pub fn read(text: &str) -> Option<Json> {
        let mut rest = text;
        let value = value(&mut rest, DEEPEST)?;
        rest.trim_start_matches(BLANKS).is_empty().then_some(value)
    }

    /// The value of a key, which an object has once.
    pub fn get(&self, key: &str) -> Option<&Json> {
        let Json::Object(fields) = self else { return None };
        let mut all = fields.iter().filter(|(own, _)| own == key).map(|(_, value)| value);
        all.next().filter(|_| all.next().is_none())
    }

    /// A number from 0 to 2^64 - 1.
    pub fn number(&self) -> Option<u64> {
        let Json::Number(digits) = self else { return None };
        digits.parse().ok()
    }

    pub fn list(&self) -> Option<&[Json]> {
        let Json::List(items) = self else { return None };
        Some(items)
    }

    pub fn text(&self) -> Option<&str> {
        let Json::Text(text) = self else { return None };
        Some(text)
    }
}

/// As it is written without blanks.
impl fmt::Display for Json {
    fn fmt(&self, f: &mut fmt::Formatter<'_>) -> fmt::Result {
        let text = |text: &String| Value::from(text.clone()).to_string();
        match self {
            Json::Null => f.write_str("null"),
            Json::Bool(value) => value.fmt(f),
            Json::Number(digits) => f.write_str(digits),
            Json::Text(words) => f.write_str(&text(words)),
            Json::List(items) => {
                let items: Vec<String> = items.iter().map(Json::to_string).collect();
                write!(f, "[{}]", items.join(","))
            }
            Json::Object(fields) => {
                let fields: Vec<String> = fields.iter().map(|(key, value)| format!("{}:{value}", text(key))).collect();
                write!(f, "{{{}}}", fields.join(","))
            }
        }
    }
}

const BLANKS: [char; 4] = [' ', '\t', '\n', '\r'];

/// Takes a mark, and the blanks before it.
fn mark(rest: &mut &str, wanted: &str) -> Option<()> {
    *rest = rest.trim_start_matches(BLANKS).strip_prefix(wanted)?;
    Some(())
}

fn value(rest: &mut &str, deep: usize) -> Option<Json> {
    let deep = deep.checked_sub(1)?;
    *rest = rest.trim_start_matches(BLANKS);
    match rest.chars().next()? {
        '{' => items(rest, ("{", "}"), |rest| {
            let key = string(rest)?;
            mark(rest, ":")?;
            Some((key, value(rest, deep)?))
        })
        .map(Json::Object),
        '[' => items(rest, ("[", "]"), |rest| value(rest, deep)).map(Json::List),
        '"' => string(rest).map(Json::Text),
        'n' => mark(rest, "null").map(|()| Json::Null),
        't' => mark(rest, "true").map(|()| Json::Bool(true)),
        'f' => mark(rest, "false").map(|()| Json::Bool(false)),
        _ => number(rest),
    }
}

/// What stands between two marks, with commas.
fn items<T>(rest: &mut &str, (open, close): (&str, &str), item: impl Fn(&mut &str) -> Option<T>) -> Option<Vec<T>> {
    mark(rest, open)?;
    let mut all = Vec::new();
    if mark(rest, close).is_some() {
        return Some(all);
    }
    loop {
        all.push(item(rest)?);
        if mark(rest, ",").is_none() {
            mark(rest, close)?;
            return Some(all);
        }
    }
}

fn number(rest: &mut &str) -> Option<Json> {
    let end = rest.find(|c: char| !c.is_ascii_digit() && !"+-.eE".contains(c)).unwrap_or(rest.len());
    let (digits, after) = rest.split_at(end);
    digits.parse::<f64>().ok()?;
    *rest = after;
    Some(Json::Number(digits.into()))
}

fn string(rest: &mut &str) -> Option<String> {
    mark(rest, "\"")?;
    let mut text = String::new();
    loop {
        let c = next(rest)?;
        match c {
            '"' => return Some(text),
            '\\' => text.push(escape(rest)?),
            '\0'..='\x1f' => return None,
            c => text.push(c),
        }
    }
}

fn next(rest: &mut &str) -> Option<char> {
    let c = rest.chars().next()?;
    *rest = &rest[c.len_utf8()..];
    Some(c)
}

/// What stands after a backslash. Of two halves of a character both must be there.
fn escape(rest: &mut &str) -> Option<char> {
    Some(match next(rest)? {
        'b' => '\x08',
        'f' => '\x0c',
        'n' => '\n',
        'r' => '\r',
        't' => '\t',
        'u' => {
            let one = hex(rest)?;
            if !(0xd800..0xdc00).contains(&one) {
                return char::from_u32(one);
            }
            *rest = rest.strip_prefix("\\u")?;
            let two = hex(rest)?.checked_sub(0xdc00).filter(|two| *two < 0x400)?;
            return char::from_u32(0x10000 + ((one - 0xd800) << 10) + two);
        }
        c if "\"\\/".contains(c) => c,
        _ => return None,
    })
}

fn hex(rest: &mut &str) -> Option<u32> {
    let digits = rest.get(..4).filter(|digits| digits.bytes().all(|c| c.is_ascii_hexdigit()))?;
    *rest = &rest[4..];
    u32::from_str_radix(digits, 16).ok()
}

#[cfg(test)]
mod tests {
    use super::*;

    #[test]
    fn documents() {
        let text = "{\"a\":[1,-2.5e3,\"\\u000a\\\"\\\\é\",null,true,{}],\"b\":[],\"c\":18446744073709551615}";
        let read = Json::read(text).unwrap();
        assert_eq!(read.to_string(), text);
        assert_eq!(read.get("c").unwrap().number(), Some(u64::MAX));
        assert_eq!(Json::read(" [ 1 , 2 ]\n"), Json::read("[1,2]"));
        assert_eq!(Json::read("\"\\ud83d\\ude00\\n\\/\"").unwrap().text(), Some("😀\n/"));
        for wrong in ["", "{", "[1,]", "[1 2]", "{\"a\"}", "\"\\ud83d\"", "nul", "1 2", "{a:1}", "\"\n\"", "+", "-"] {
            assert_eq!(Json::read(wrong), None, "{wrong}");
        }
        assert_eq!(Json::read(&"[".repeat(100_000)), None);
        let twice = Json::read("{\"a\":1,\"a\":2}").unwrap();
        assert_eq!((twice.get("a"), Json::Number("18446744073709551616".into()).number()), (None, None));
    }
}
