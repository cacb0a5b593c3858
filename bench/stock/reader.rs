//! What a plain Rust program takes to read the same lines, for bench/readers to compare with: it reads each line by `serde_json` into a
//! map, takes the command out of it with the checks of docs/FORMATS.md, and lets it go. It counts commands and refused lines.
#![allow(dead_code)]

use serde_json::{Map, Value};
use std::io::{BufRead, BufReader};

/// A line may have this many bytes.
const LINE_BYTES: usize = 65_536;

/// A state may have this many characters.
const STATE_CHARACTERS: usize = 255;

struct EntityId {
    text: String,
    /// The place of the dot.
    dot: usize,
}

enum Command {
    Report { entity: EntityId, text: String, attributes: Map<String, Value> },
    Gone { entity: EntityId },
    Event { kind: String, data: Map<String, Value> },
    Moment(i64),
    Switch { entity: EntityId, on: bool, stop: bool },
    Trigger { entity: EntityId, skip: bool },
    Restart,
}

fn is_name(text: &str) -> bool {
    !text.is_empty() && text.bytes().all(|b| matches!(b, b'a'..=b'z' | b'0'..=b'9' | b'_'))
}

fn text_of(map: &mut Map<String, Value>, key: &str) -> Option<String> {
    match map.get_mut(key)?.take() {
        Value::String(text) => Some(text),
        _ => None,
    }
}

/// A map, which may be missing.
fn map_of(map: &mut Map<String, Value>, key: &str) -> Option<Map<String, Value>> {
    match map.get_mut(key).map(Value::take) {
        None => Some(Map::new()),
        Some(Value::Object(found)) => Some(found),
        Some(_) => None,
    }
}

/// A flag, which may be missing.
fn flag_of(map: &Map<String, Value>, key: &str) -> Option<bool> {
    map.get(key).map_or(Some(true), Value::as_bool)
}

fn entity_of(text: String) -> Option<EntityId> {
    let (domain, object) = text.split_once('.')?;
    let dot = domain.len();
    (is_name(domain) && is_name(object)).then_some(EntityId { text, dot })
}

fn is_automation(entity: &EntityId) -> bool {
    &entity.text[..entity.dot] == "automation"
}

fn reported(map: &mut Map<String, Value>, key: &str) -> Option<EntityId> {
    entity_of(text_of(map, key)?).filter(|entity| !is_automation(entity))
}

fn automation(map: &mut Map<String, Value>, key: &str) -> Option<EntityId> {
    entity_of(text_of(map, key)?).filter(is_automation)
}

/// The milliseconds of `2024-05-01T20:00:00Z`, perhaps with a fraction.
fn moment(text: &str) -> Option<i64> {
    let number = |from: usize, to: usize| -> Option<i64> {
        let digits = text.get(from..to)?;
        digits.bytes().all(|b| b.is_ascii_digit()).then(|| digits.parse().ok())?
    };
    let bytes = text.as_bytes();
    let signs = [(4, b'-'), (7, b'-'), (10, b'T'), (13, b':'), (16, b':'), (bytes.len().checked_sub(1)?, b'Z')];
    if bytes.len() < 20 || signs.iter().any(|(at, sign)| bytes[*at] != *sign) {
        return None;
    }
    let (year, month, day) = (number(0, 4)?, number(5, 7)?, number(8, 10)?);
    let (hour, minute, second) = (number(11, 13)?, number(14, 16)?, number(17, 19)?);
    let leap = year % 4 == 0 && (year % 100 != 0 || year % 400 == 0);
    let days = match month {
        2 => 28 + i64::from(leap),
        4 | 6 | 9 | 11 => 30,
        1..=12 => 31,
        _ => return None,
    };
    if !(1970..3000).contains(&year) || !(1..=days).contains(&day) || hour > 23 || minute > 59 || second > 59 {
        return None;
    }
    let fraction = match bytes.len() {
        20 => 0,
        end @ 22..=24 if bytes[19] == b'.' => number(20, end - 1)? * [100, 10, 1][end - 22],
        _ => return None,
    };
    // days by years that begin in March
    let (year, month) = if month < 3 { (year - 1, month + 9) } else { (year, month - 3) };
    let days = year * 365 + year / 4 - year / 100 + year / 400 + (month * 153 + 2) / 5 + day - 719_469;
    Some((((days * 24 + hour) * 60 + minute) * 60 + second) * 1000 + fraction)
}

/// A key that names a command, and the keys that the command takes.
const TABLE: [&[&str]; 7] = [
    &["report", "state", "attributes"],
    &["gone"],
    &["event", "data"],
    &["moment"],
    &["switch", "to", "stop_actions"],
    &["trigger", "skip_condition"],
    &["restart"],
];

/// The command of the one key that names it, where the map has no further key.
fn command_of(map: &mut Map<String, Value>) -> Option<Command> {
    let mut named = map.keys().filter_map(|key| TABLE.iter().find(|keys| keys[0] == key));
    let keys = named.next()?;
    if named.next().is_some() || !map.keys().all(|key| keys.contains(&key.as_str())) {
        return None;
    }
    Some(match keys[0] {
        "report" => {
            let entity = reported(map, "report")?;
            let text = text_of(map, "state").filter(|text| text.chars().count() <= STATE_CHARACTERS)?;
            Command::Report { entity, text, attributes: map_of(map, "attributes")? }
        }
        "gone" => Command::Gone { entity: reported(map, "gone")? },
        "event" => Command::Event { kind: text_of(map, "event")?, data: map_of(map, "data")? },
        "moment" => Command::Moment(moment(map["moment"].as_str()?)?),
        "switch" => {
            let entity = automation(map, "switch")?;
            let on = match map.get("to")?.as_str()? {
                "on" => true,
                "off" => false,
                _ => return None,
            };
            Command::Switch { entity, on, stop: flag_of(map, "stop_actions")? }
        }
        "trigger" => Command::Trigger { entity: automation(map, "trigger")?, skip: flag_of(map, "skip_condition")? },
        _ => map["restart"].as_bool()?.then_some(Command::Restart)?,
    })
}

fn read(line: &[u8]) -> Option<Command> {
    if line.len() > LINE_BYTES {
        return None;
    }
    match serde_json::from_str(std::str::from_utf8(line).ok()?) {
        Ok(Value::Object(mut map)) => command_of(&mut map),
        _ => None,
    }
}

fn main() -> std::io::Result<()> {
    let mut file = BufReader::with_capacity(LINE_BYTES, std::io::stdin());
    let (mut line, mut commands, mut refused) = (Vec::new(), 0u64, 0u64);
    while file.read_until(b'\n', &mut line)? > 0 {
        let text = line.strip_suffix(b"\n").unwrap_or(&line);
        let text = text.strip_suffix(b"\r").unwrap_or(text);
        if !text.iter().all(|b| matches!(b, b' ' | b'\t')) {
            match read(text) {
                Some(command) => {
                    std::hint::black_box(&command);
                    commands += 1;
                }
                None => refused += 1,
            }
        }
        line.clear();
    }
    println!("{} lines, {refused} refused", commands + refused);
    Ok(())
}
