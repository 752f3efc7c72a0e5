//! As much JSON as the vectors use: objects, lists, strings without escapes, numbers from 0, null.

#[derive(Debug)]
pub enum Json {
    Null,
    Number(u64),
    Text(String),
    List(Vec<Json>),
    Object(Vec<(String, Json)>),
}

type Read<T> = Result<T, String>;

struct Reader<'a> {
    rest: &'a str,
}

impl<'a> Reader<'a> {
    /// Takes `mark` from the front, if it stands there.
    fn take(&mut self, mark: &str) -> bool {
        self.rest = self.rest.trim_start();
        match self.rest.strip_prefix(mark) {
            Some(rest) => {
                self.rest = rest;
                true
            }
            None => false,
        }
    }

    fn need(&mut self, mark: &str) -> Read<()> {
        if self.take(mark) { Ok(()) } else { Err(format!("no '{mark}' before: {:.40}", self.rest)) }
    }

    fn string(&mut self) -> Read<String> {
        let (text, rest) = self.rest.split_once('"').ok_or("a string without end")?;
        if text.contains('\\') {
            return Err("an escape in a string".to_string());
        }
        self.rest = rest;
        Ok(text.to_string())
    }

    fn number(&mut self) -> Read<Json> {
        let end = self.rest.find(|c: char| !c.is_ascii_digit()).unwrap_or(self.rest.len());
        let (digits, rest) = self.rest.split_at(end);
        self.rest = rest;
        digits.parse().map(Json::Number).map_err(|_| format!("no value before: {rest:.40}"))
    }

    /// What `one` reads, between commas, up to `end`.
    fn many<T>(&mut self, end: &str, one: impl Fn(&mut Self) -> Read<T>) -> Read<Vec<T>> {
        let mut all = Vec::new();
        if self.take(end) {
            return Ok(all);
        }
        loop {
            all.push(one(self)?);
            if self.take(end) {
                return Ok(all);
            }
            self.need(",")?;
        }
    }

    fn member(&mut self) -> Read<(String, Json)> {
        self.need("\"")?;
        let name = self.string()?;
        self.need(":")?;
        Ok((name, self.value()?))
    }

    fn value(&mut self) -> Read<Json> {
        if self.take("{") {
            self.many("}", Self::member).map(Json::Object)
        } else if self.take("[") {
            self.many("]", Self::value).map(Json::List)
        } else if self.take("\"") {
            self.string().map(Json::Text)
        } else if self.take("null") {
            Ok(Json::Null)
        } else {
            self.number()
        }
    }
}

impl Json {
    pub fn read(line: &str) -> Read<Json> {
        let mut reader = Reader { rest: line };
        let value = reader.value()?;
        if reader.rest.trim().is_empty() { Ok(value) } else { Err(format!("left over: {:.40}", reader.rest)) }
    }

    pub fn get(&self, name: &str) -> Option<&Json> {
        match self {
            Json::Object(members) => members.iter().find(|m| m.0 == name).map(|m| &m.1),
            _ => None,
        }
    }

    fn need(&self, name: &str) -> Read<&Json> {
        self.get(name).ok_or_else(|| format!("no member '{name}'"))
    }

    pub fn list(&self, name: &str) -> Read<&[Json]> {
        match self.need(name)? {
            Json::List(items) => Ok(items),
            _ => Err(format!("'{name}' is no list")),
        }
    }

    fn as_word(&self) -> Read<u32> {
        match self {
            Json::Number(n) => u32::try_from(*n).map_err(|_| format!("{n} is no u32")),
            other => Err(format!("{other:?} is no number")),
        }
    }

    pub fn word(&self, name: &str) -> Read<u32> {
        self.need(name)?.as_word()
    }

    pub fn words(&self, name: &str) -> Read<Vec<u32>> {
        self.list(name)?.iter().map(Json::as_word).collect()
    }

    /// Bytes in hexadecimal.
    pub fn bytes(&self, name: &str) -> Read<Vec<u8>> {
        let text = match self.need(name)? {
            Json::Text(text) => text,
            _ => return Err(format!("'{name}' is no string")),
        };
        let pairs = text.as_bytes().chunks_exact(2);
        if !pairs.remainder().is_empty() {
            return Err(format!("'{name}' has half a byte"));
        }
        let byte = |pair: &[u8]| std::str::from_utf8(pair).ok().and_then(|p| u8::from_str_radix(p, 16).ok());
        pairs.map(byte).collect::<Option<_>>().ok_or_else(|| format!("'{name}' is not hexadecimal"))
    }

    /// A number and an index or null.
    pub fn answer(&self, name: &str) -> Read<(u32, Option<u32>)> {
        match self.list(name)? {
            [number, Json::Null] => Ok((number.as_word()?, None)),
            [number, index] => Ok((number.as_word()?, Some(index.as_word()?))),
            _ => Err(format!("'{name}' is no answer")),
        }
    }
}
