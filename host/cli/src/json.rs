//! JSON documents, written as they are made: a list of a million pairs is never held as text.
use chaldoref::LeaveOut;
use std::ffi::OsStr;
use std::fmt;
use std::io::{self, Write};
use std::os::unix::ffi::OsStrExt;

/// Which keys documents have. It is another number where one is taken away or has another meaning.
const FORMAT: u32 = 1;

/// A value that is no object and no list.
pub enum Value {
    Null,
    Bool(bool),
    Number(i128),
    Seconds(f64),
    Text(String),
    /// Bytes, as a string of two hex digits each.
    Hex(Vec<u8>),
}

impl From<bool> for Value {
    fn from(value: bool) -> Value {
        Value::Bool(value)
    }
}

impl From<u32> for Value {
    fn from(value: u32) -> Value {
        Value::Number(value.into())
    }
}

impl From<u64> for Value {
    fn from(value: u64) -> Value {
        Value::Number(value.into())
    }
}

impl From<i64> for Value {
    fn from(value: i64) -> Value {
        Value::Number(value.into())
    }
}

impl From<String> for Value {
    fn from(value: String) -> Value {
        Value::Text(value)
    }
}

impl<T: Into<Value>> From<Option<T>> for Value {
    fn from(value: Option<T>) -> Value {
        value.map_or(Value::Null, Into::into)
    }
}

impl fmt::Display for Value {
    fn fmt(&self, f: &mut fmt::Formatter<'_>) -> fmt::Result {
        match self {
            Value::Null => f.write_str("null"),
            Value::Bool(value) => value.fmt(f),
            // Almost all are short ones, which are written faster.
            Value::Number(value) => match i64::try_from(*value) {
                Ok(short) => short.fmt(f),
                Err(_) => value.fmt(f),
            },
            Value::Seconds(value) => value.fmt(f),
            Value::Text(text) => quoted(text, f),
            Value::Hex(bytes) => hex(bytes, f),
        }
    }
}

/// A string with its marks; what JSON asks to be escaped is.
fn quoted(text: &str, f: &mut fmt::Formatter<'_>) -> fmt::Result {
    f.write_str("\"")?;
    // What needs no escape is written as one piece.
    let mut plain = 0;
    for (place, c) in text.char_indices().filter(|(_, c)| matches!(c, '"' | '\\' | '\0'..='\x1f')) {
        f.write_str(&text[plain..place])?;
        plain = place + 1;
        match c {
            '"' | '\\' => write!(f, "\\{c}")?,
            _ => write!(f, "\\u{:04x}", u32::from(c))?,
        }
    }
    f.write_str(&text[plain..])?;
    f.write_str("\"")
}

/// The digits are written as they are made, as lists are.
fn hex(bytes: &[u8], f: &mut fmt::Formatter<'_>) -> fmt::Result {
    f.write_str("\"")?;
    bytes.iter().try_for_each(|byte| write!(f, "{byte:02x}"))?;
    f.write_str("\"")
}

/// An object whose fields are being written.
pub struct Object<'w> {
    out: &'w mut dyn Write,
    empty: bool,
}

/// What a document is of: the file that was asked, if there is one, and what of it was not read.
#[derive(Clone, Copy, Default)]
pub struct Subject<'a> {
    pub file: Option<&'a OsStr>,
    pub left_out: &'a [LeaveOut],
    /// Whether some of the film lies in fragments, which are not read.
    pub fragmented: bool,
}

/// A document: one object, on a line of its own. The format comes first, and then what it is of.
pub fn document(
    out: &mut dyn Write,
    of: Subject,
    fields: impl FnOnce(&mut Object) -> io::Result<()>,
) -> io::Result<()> {
    object(out, |o| {
        o.put("format", FORMAT)?;
        if let Some(name) = of.file {
            o.name("file", name)?;
        }
        if !of.left_out.is_empty() {
            o.texts("left_out", &of.left_out.iter().map(LeaveOut::to_string).collect::<Vec<_>>())?;
        }
        if of.fragmented {
            o.put("fragmented", true)?;
        }
        fields(o)
    })?;
    out.write_all(b"\n")
}

fn object(out: &mut dyn Write, fields: impl FnOnce(&mut Object) -> io::Result<()>) -> io::Result<()> {
    out.write_all(b"{")?;
    fields(&mut Object { out, empty: true })?;
    out.write_all(b"}")
}

impl Object<'_> {
    /// A field. The object is handed back for the next one.
    pub fn put(&mut self, key: &str, value: impl Into<Value>) -> io::Result<&mut Self> {
        self.key(key)?;
        write!(self.out, "{}", value.into())?;
        Ok(self)
    }

    /// A field whose value is written already.
    pub fn raw(&mut self, key: &str, value: &str) -> io::Result<&mut Self> {
        self.key(key)?;
        self.out.write_all(value.as_bytes())?;
        Ok(self)
    }

    /// The name of a file. One that is no UTF-8 has its bytes too, under the key and `_hex`, so that it can be told apart.
    pub fn name(&mut self, key: &str, name: &OsStr) -> io::Result<&mut Self> {
        self.put(key, name.to_string_lossy().into_owned())?;
        match name.to_str() {
            Some(_) => Ok(self),
            None => self.put(&format!("{key}_hex"), Value::Hex(name.as_bytes().to_vec())),
        }
    }

    /// A time in units of a scale, and after it the same in seconds.
    pub fn time(&mut self, key: &str, units: impl Into<i128>, scale: impl Into<u64>) -> io::Result<&mut Self> {
        let units = units.into();
        let seconds = Value::Seconds(units as f64 / scale.into() as f64);
        self.put(key, Value::Number(units))?.put_seconds(key, seconds)
    }

    /// A time that is not there.
    pub fn no_time(&mut self, key: &str) -> io::Result<&mut Self> {
        self.put(key, Value::Null)?.put_seconds(key, Value::Null)
    }

    /// The seconds of a time, under its key and `_seconds`.
    fn put_seconds(&mut self, key: &str, seconds: Value) -> io::Result<&mut Self> {
        self.out.write_all(b",\"")?;
        self.out.write_all(key.as_bytes())?;
        write!(self.out, "_seconds\":{seconds}")?;
        Ok(self)
    }

    /// A field that is an object, or null where there is none.
    pub fn object<T>(
        &mut self,
        key: &str,
        item: Option<&T>,
        fields: impl Fn(&mut Object, &T) -> io::Result<()>,
    ) -> io::Result<&mut Self> {
        let Some(item) = item else { return self.put(key, Value::Null) };
        self.key(key)?;
        object(self.out, |object| fields(object, item))?;
        Ok(self)
    }

    /// A field that is a list of objects.
    pub fn list<T>(
        &mut self,
        key: &str,
        items: &[T],
        fields: impl Fn(&mut Object, &T) -> io::Result<()>,
    ) -> io::Result<&mut Self> {
        self.key(key)?;
        self.out.write_all(b"[")?;
        for (i, item) in items.iter().enumerate() {
            if i > 0 {
                self.out.write_all(b",")?;
            }
            object(self.out, |object| fields(object, item))?;
        }
        self.out.write_all(b"]")?;
        Ok(self)
    }

    /// A field that is a list of strings.
    pub fn texts(&mut self, key: &str, texts: &[String]) -> io::Result<&mut Self> {
        self.key(key)?;
        let texts: Vec<String> = texts.iter().map(|text| Value::from(text.clone()).to_string()).collect();
        write!(self.out, "[{}]", texts.join(","))?;
        Ok(self)
    }

    /// A field that is a list of names of files. Where one is no UTF-8, their bytes follow as another list.
    pub fn names(&mut self, key: &str, names: &[&OsStr]) -> io::Result<&mut Self> {
        self.texts(key, &names.iter().map(|name| name.to_string_lossy().into_owned()).collect::<Vec<_>>())?;
        if names.iter().all(|name| name.to_str().is_some()) {
            return Ok(self);
        }
        let hex = |name: &&OsStr| name.as_bytes().iter().map(|byte| format!("{byte:02x}")).collect::<String>();
        self.texts(&format!("{key}_hex"), &names.iter().map(hex).collect::<Vec<_>>())
    }

    fn key(&mut self, key: &str) -> io::Result<()> {
        self.out.write_all(if self.empty { b"\"" } else { b",\"" })?;
        self.empty = false;
        self.out.write_all(key.as_bytes())?;
        self.out.write_all(b"\":")
    }
}

#[cfg(test)]
mod tests {
    use super::*;
    use chaldoref::TrackId;

    fn written(fields: impl FnOnce(&mut Object) -> io::Result<()>) -> String {
        let mut out = Vec::new();
        document(&mut out, Subject::default(), fields).unwrap();
        String::from_utf8(out).unwrap()
    }

    #[test]
    fn documents() {
        assert_eq!(written(|_| Ok(())), "{\"format\":1}\n");
        let all = written(|o| {
            o.put("a", -1i64)?.put("b", u64::MAX)?.put("c", true)?.put("d", None::<u32>)?;
            o.list("e", &[1u32, 2], |o, n| o.put("n", *n).map(drop))?.list("f", &[(); 0], |_, _| Ok(()))?;
            o.object("g", Some(&3u32), |o, n| o.put("n", *n).map(drop))?.object("h", None::<&u32>, |_, _| Ok(()))?;
            Ok(())
        });
        assert_eq!(
            all,
            "{\"format\":1,\"a\":-1,\"b\":18446744073709551615,\"c\":true,\"d\":null,\"e\":[{\"n\":1},{\"n\":2}],\"f\":[],\
             \"g\":{\"n\":3},\"h\":null}\n"
        );
    }

    #[test]
    fn lists_of_strings() {
        let all = written(|o| {
            o.texts("a", &[])?.texts("b", &["c".into()])?.texts("d", &["e\"".into(), String::new()])?;
            Ok(())
        });
        assert_eq!(all, "{\"format\":1,\"a\":[],\"b\":[\"c\"],\"d\":[\"e\\\"\",\"\"]}\n");
    }

    #[test]
    fn times_have_seconds() {
        let all = written(|o| {
            o.time("a", 24u32, 600u32)?.time("b", -7i64, 600u32)?.time("c", u32::MAX, 1u32)?.no_time("d")?;
            o.time("e", 1u32, u32::MAX)?.time("f", 0u32, 3u32).map(drop)
        });
        assert_eq!(
            all,
            "{\"format\":1,\"a\":24,\"a_seconds\":0.04,\"b\":-7,\"b_seconds\":-0.011666666666666667,\
             \"c\":4294967295,\"c_seconds\":4294967295,\"d\":null,\"d_seconds\":null,\
             \"e\":1,\"e_seconds\":0.00000000023283064370807974,\"f\":0,\"f_seconds\":0}\n"
        );
    }

    fn written_of(of: Subject) -> String {
        let mut out = Vec::new();
        document(&mut out, of, |o| o.put("c", true).map(drop)).unwrap();
        String::from_utf8(out).unwrap()
    }

    #[test]
    fn documents_have_the_file() {
        let file = Some(OsStr::new("a \"b\""));
        let left_out = &[LeaveOut::Edits, LeaveOut::Track(TrackId(7))];
        assert_eq!(
            written_of(Subject { file, ..Subject::default() }),
            "{\"format\":1,\"file\":\"a \\\"b\\\"\",\"c\":true}\n"
        );
        assert_eq!(
            written_of(Subject { file: Some(OsStr::new("a")), left_out, fragmented: true }),
            "{\"format\":1,\"file\":\"a\",\"left_out\":[\"edits\",\"track=7\"],\"fragmented\":true,\"c\":true}\n"
        );
    }

    #[test]
    fn names_that_are_no_text_have_their_bytes() {
        let of =
            |name: &'static [u8]| written_of(Subject { file: Some(OsStr::from_bytes(name)), ..Subject::default() });
        assert_eq!(of(b"a\xff"), "{\"format\":1,\"file\":\"a\u{fffd}\",\"file_hex\":\"61ff\",\"c\":true}\n");
        assert_ne!(of(b"a\xff"), of(b"a\xfe"));
    }

    #[test]
    fn text_is_escaped() {
        let text = Value::from(String::from("a\"b\\c\n\0\u{7f}é"));
        assert_eq!(Value::Hex(vec![0, 0xd8]).to_string(), "\"00d8\"");
        assert_eq!(text.to_string(), "\"a\\\"b\\\\c\\u000a\\u0000\u{7f}é\"");
    }
}
