//! A strict reader of JSON (RFC 8259), so that output which isn't JSON fails a test. Of numbers it takes
//! only those that the program has: whole ones from 0 up. A key that comes twice is refused too.

use std::ops::Index;

#[derive(Clone, Debug, PartialEq, Eq)]
pub enum Json {
    Null,
    Bool(bool),
    Number(u64),
    Text(String),
    List(Vec<Json>),
    Object(Vec<(String, Json)>),
}

impl Json {
    /// Reads one value and nothing else, but for white space around it.
    pub fn parse(text: &str) -> Result<Json, String> {
        let mut reader = Reader { rest: text };
        let value = reader.value();
        match value {
            Some(value) if reader.after_space().is_empty() => Ok(value),
            _ => Err(format!("no JSON from here on: {:?}", reader.rest)),
        }
    }

    pub fn get(&self, key: &str) -> Option<&Json> {
        let Json::Object(members) = self else {
            panic!("no object: {self:?}")
        };
        let found = members.iter().find(|(member, _)| member == key);
        found.map(|(_, value)| value)
    }

    pub fn keys(&self) -> Vec<&str> {
        let Json::Object(members) = self else {
            panic!("no object: {self:?}")
        };
        members.iter().map(|(key, _)| key.as_str()).collect()
    }

    pub fn number(&self) -> u64 {
        let Json::Number(number) = self else {
            panic!("no number: {self:?}")
        };
        *number
    }

    pub fn text(&self) -> &str {
        let Json::Text(text) = self else {
            panic!("no string: {self:?}")
        };
        text
    }

    pub fn list(&self) -> &[Json] {
        let Json::List(values) = self else {
            panic!("no list: {self:?}")
        };
        values
    }

    pub fn numbers(&self) -> Vec<u32> {
        let numbers = self.list().iter().map(Json::number);
        numbers.map(|number| number.try_into().unwrap()).collect()
    }
}

impl Index<&str> for Json {
    type Output = Json;

    fn index(&self, key: &str) -> &Json {
        self.get(key)
            .unwrap_or_else(|| panic!("no '{key}' in {self:?}"))
    }
}

struct Reader<'a> {
    rest: &'a str,
}

/// Each gives nothing where the text doesn't go on as it should.
impl Reader<'_> {
    fn after_space(&mut self) -> &str {
        self.rest = self.rest.trim_start_matches([' ', '\t', '\r', '\n']);
        self.rest
    }

    fn take(&mut self, token: &str) -> Option<()> {
        self.rest = self.rest.strip_prefix(token)?;
        Some(())
    }

    fn value(&mut self) -> Option<Json> {
        let literals = [
            ("null", Json::Null),
            ("true", Json::Bool(true)),
            ("false", Json::Bool(false)),
        ];
        match self.after_space().chars().next()? {
            '{' => self.members().map(Json::Object),
            '[' => self.sequence("[", "]", Reader::value).map(Json::List),
            '"' => self.string().map(Json::Text),
            '0'..='9' => self.whole_number().map(Json::Number),
            _ => literals
                .into_iter()
                .find_map(|(token, value)| self.take(token).map(|()| value)),
        }
    }

    fn members(&mut self) -> Option<Vec<(String, Json)>> {
        let members = self.sequence("{", "}", Reader::member)?;
        let mut keys: Vec<&String> = members.iter().map(|(key, _)| key).collect();
        keys.sort();
        let once = keys.is_sorted_by(|before, after| before < after);
        once.then_some(members)
    }

    fn member(&mut self) -> Option<(String, Json)> {
        self.after_space();
        let key = self.string()?;
        self.after_space();
        self.take(":")?;
        Some((key, self.value()?))
    }

    /// What stands between two brackets, with commas between.
    fn sequence<T>(
        &mut self,
        open: &str,
        close: &str,
        item: fn(&mut Self) -> Option<T>,
    ) -> Option<Vec<T>> {
        self.take(open)?;
        let mut items = Vec::new();
        if self.after_space().starts_with(close) {
            self.take(close)?;
            return Some(items);
        }
        loop {
            items.push(item(self)?);
            self.after_space();
            if self.take(close).is_some() {
                return Some(items);
            }
            self.take(",")?;
        }
    }

    fn whole_number(&mut self) -> Option<u64> {
        let len = self.rest.bytes().take_while(u8::is_ascii_digit).count();
        let (digits, rest) = self.rest.split_at(len);
        if rest.starts_with(['.', 'e', 'E']) || digits.len() > 1 && digits.starts_with('0') {
            return None;
        }
        self.rest = rest;
        digits.parse().ok()
    }

    fn string(&mut self) -> Option<String> {
        self.take("\"")?;
        let mut text = String::new();
        loop {
            match self.character()? {
                '"' => return Some(text),
                '\\' => text.push(self.escaped()?),
                '\0'..='\x1F' => return None,
                plain => text.push(plain),
            }
        }
    }

    fn character(&mut self) -> Option<char> {
        let mut characters = self.rest.chars();
        let first = characters.next();
        self.rest = characters.as_str();
        first
    }

    fn escaped(&mut self) -> Option<char> {
        match self.character()? {
            same @ ('"' | '\\' | '/') => Some(same),
            'b' => Some('\x08'),
            'f' => Some('\x0C'),
            'n' => Some('\n'),
            'r' => Some('\r'),
            't' => Some('\t'),
            'u' => self.by_number(),
            _ => None,
        }
    }

    /// Of two surrogates that belong together, one character.
    fn by_number(&mut self) -> Option<char> {
        let first = self.four_digits()?;
        if !(0xD800..0xDC00).contains(&first) {
            return char::from_u32(first);
        }
        self.take("\\u")?;
        let second = self.four_digits()?;
        let low = second.checked_sub(0xDC00).filter(|&low| low < 0x400)?;
        char::from_u32(0x10000 + ((first - 0xD800) << 10) + low)
    }

    fn four_digits(&mut self) -> Option<u32> {
        let digits = self.rest.get(..4)?;
        self.rest = &self.rest[4..];
        let hex = digits.bytes().all(|byte| byte.is_ascii_hexdigit());
        hex.then(|| u32::from_str_radix(digits, 16).unwrap())
    }
}
