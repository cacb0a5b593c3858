//! What a plain Rust program does for the same reports, for bench/run to compare with: it parses each line, looks up the rules that the
//! line concerns, and writes their calls. It keeps no journal, no records and no attributes, has no conditions, and refuses nothing.
//! `stock HOME LINES` reads a configuration of the form that bench/run writes: each automation has one trigger on a state, and calls of
//! services.
#![allow(dead_code)]

use std::collections::HashMap;
use std::fs::File;
use std::io::{BufRead, BufReader, Write};

enum Value {
    Null,
    Flag(bool),
    Number(f64),
    Text(String),
    List(Vec<Value>),
    Map(Vec<(String, Value)>),
}

/// A reader of JSON.
struct Reader<'a> {
    text: &'a [u8],
    at: usize,
}

impl Reader<'_> {
    fn blanks(&mut self) {
        while matches!(self.text.get(self.at), Some(b' ' | b'\t')) {
            self.at += 1;
        }
    }

    fn takes(&mut self, byte: u8) -> bool {
        self.blanks();
        let found = self.text.get(self.at) == Some(&byte);
        self.at += usize::from(found);
        found
    }

    fn word(&mut self, word: &str, value: Value) -> Option<Value> {
        let found = self.text[self.at..].starts_with(word.as_bytes());
        self.at += word.len();
        found.then_some(value)
    }

    fn value(&mut self) -> Option<Value> {
        self.blanks();
        match *self.text.get(self.at)? {
            b'{' => self.map(),
            b'[' => self.list(),
            b'"' => Some(Value::Text(self.string()?)),
            b'n' => self.word("null", Value::Null),
            b't' => self.word("true", Value::Flag(true)),
            b'f' => self.word("false", Value::Flag(false)),
            _ => self.number(),
        }
    }

    fn map(&mut self) -> Option<Value> {
        self.at += 1;
        let mut pairs = Vec::new();
        while !self.takes(b'}') {
            if !pairs.is_empty() && !self.takes(b',') {
                return None;
            }
            self.blanks();
            let key = self.string()?;
            if !self.takes(b':') {
                return None;
            }
            pairs.push((key, self.value()?));
        }
        Some(Value::Map(pairs))
    }

    fn list(&mut self) -> Option<Value> {
        self.at += 1;
        let mut items = Vec::new();
        while !self.takes(b']') {
            if !items.is_empty() && !self.takes(b',') {
                return None;
            }
            items.push(self.value()?);
        }
        Some(Value::List(items))
    }

    fn string(&mut self) -> Option<String> {
        if self.text.get(self.at) != Some(&b'"') {
            return None;
        }
        self.at += 1;
        let mut bytes = Vec::new();
        loop {
            let byte = *self.text.get(self.at)?;
            self.at += 1;
            match byte {
                b'"' => return String::from_utf8(bytes).ok(),
                b'\\' => {
                    let escaped = *self.text.get(self.at)?;
                    self.at += 1;
                    match escaped {
                        b'n' => bytes.push(b'\n'),
                        b't' => bytes.push(b'\t'),
                        b'r' => bytes.push(b'\r'),
                        b'b' => bytes.push(8),
                        b'f' => bytes.push(12),
                        b'u' => {
                            let digits = std::str::from_utf8(self.text.get(self.at..self.at + 4)?).ok()?;
                            self.at += 4;
                            let code = char::from_u32(u32::from_str_radix(digits, 16).ok()?)?;
                            bytes.extend_from_slice(code.encode_utf8(&mut [0; 4]).as_bytes());
                        }
                        other => bytes.push(other),
                    }
                }
                other => bytes.push(other),
            }
        }
    }

    fn number(&mut self) -> Option<Value> {
        let start = self.at;
        while matches!(self.text.get(self.at), Some(b'0'..=b'9' | b'+' | b'-' | b'.')) {
            self.at += 1;
        }
        let text = std::str::from_utf8(&self.text[start..self.at]).ok()?;
        Some(Value::Number(text.parse().ok()?))
    }
}

/// A string in double quotes, with its escapes.
fn write_string(out: &mut impl Write, text: &str) -> std::io::Result<()> {
    out.write_all(b"\"")?;
    for byte in text.bytes() {
        match byte {
            b'"' => out.write_all(b"\\\"")?,
            b'\\' => out.write_all(b"\\\\")?,
            b'\n' => out.write_all(b"\\n")?,
            b'\r' => out.write_all(b"\\r")?,
            b'\t' => out.write_all(b"\\t")?,
            0..=31 => write!(out, "\\u{byte:04x}")?,
            _ => out.write_all(&[byte])?,
        }
    }
    out.write_all(b"\"")
}

/// An automation.
#[derive(Default)]
struct Rule {
    name: String,
    /// The text that its entity has to take on.
    to: String,
    /// Each service with its target.
    calls: Vec<(String, String)>,
    runs: u64,
}

/// The automations, and which of them watch an entity.
#[derive(Default)]
struct Home {
    rules: Vec<Rule>,
    by_entity: HashMap<String, Vec<usize>>,
}

fn slug(alias: &str) -> String {
    alias.to_ascii_lowercase().replace(' ', "_")
}

fn read_home(text: &str) -> Home {
    let mut home = Home::default();
    let mut in_actions = false;
    for line in text.lines() {
        let Some((key, value)) = line.trim_start_matches([' ', '-']).split_once(": ") else {
            in_actions |= line.trim() == "actions:";
            continue;
        };
        let value = value.trim_matches('"').to_string();
        let index = home.rules.len().wrapping_sub(1);
        match key {
            "alias" => {
                in_actions = false;
                home.rules.push(Rule { name: slug(&value), ..Rule::default() });
            }
            "action" => home.rules[index].calls.push((value, String::new())),
            "entity_id" if in_actions => home.rules[index].calls.last_mut().expect("a call").1 = value,
            "entity_id" => home.by_entity.entry(value).or_default().push(index),
            "to" => home.rules[index].to = value,
            _ => {}
        }
    }
    home
}

fn run_rule(rule: &mut Rule, out: &mut impl Write) -> std::io::Result<()> {
    rule.runs += 1;
    for (index, (service, target)) in rule.calls.iter().enumerate() {
        out.write_all(b"{\"run\":")?;
        write_string(out, &rule.name)?;
        write!(out, ",\"number\":{},\"call\":{},\"service\":", rule.runs, index + 1)?;
        write_string(out, service)?;
        out.write_all(b",\"target\":[")?;
        write_string(out, target)?;
        out.write_all(b"],\"data\":{}}\n")?;
    }
    Ok(())
}

fn text_of(pairs: &mut [(String, Value)], key: &str) -> Option<String> {
    let pair = pairs.iter_mut().find(|pair| pair.0 == key)?;
    match std::mem::replace(&mut pair.1, Value::Null) {
        Value::Text(text) => Some(text),
        _ => None,
    }
}

fn main() -> std::io::Result<()> {
    let mut words = std::env::args().skip(1);
    let (Some(config), Some(lines)) = (words.next(), words.next()) else {
        panic!("stock HOME LINES");
    };
    let mut home = read_home(&std::fs::read_to_string(config)?);
    let mut states: HashMap<String, String> = HashMap::new();
    // standard output is flushed at each line, since a call has to reach its reader at once
    let mut out = std::io::stdout().lock();
    for line in BufReader::new(File::open(lines)?).lines() {
        let line = line?;
        let Some(Value::Map(mut pairs)) = (Reader { text: line.as_bytes(), at: 0 }).value() else {
            continue;
        };
        let (Some(entity), Some(text)) = (text_of(&mut pairs, "report"), text_of(&mut pairs, "state")) else {
            continue;
        };
        let moved = states.get(&entity) != Some(&text);
        for index in home.by_entity.get(&entity).into_iter().flatten() {
            let rule = &mut home.rules[*index];
            if moved && rule.to == text {
                run_rule(rule, &mut out)?;
            }
        }
        states.insert(entity, text);
    }
    out.flush()
}
