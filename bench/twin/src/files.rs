//! Reading of files that break no rule, in the plain form that is written by hand.
//!
//! Of CSV, for lines and plans: no field stands in double quotes. Of TOML: the keys of a stock file
//! are bare, each with an integer in decimal or with arrays of such integers, over one line or
//! several; no text that another key has holds `#`, a bracket or a line end.

use std::collections::HashMap;
use std::fs;

/// A gradient in tenths of a per mille, or a limit in km/h, between two points.
pub struct Zone {
    pub from: usize,
    pub to: usize,
    pub value: i64,
}

/// A line file: the line's length, its gradients by place, its limits in any order, and the
/// positions of its points by their names.
#[derive(Default)]
pub struct Line {
    pub length: usize,
    pub gradients: Vec<Zone>,
    pub limits: Vec<Zone>,
    pub points: HashMap<String, usize>,
}

/// A stop with its dwell in seconds, or a pass.
pub struct Call {
    pub at: usize,
    pub name: String,
    pub dwell: Option<i64>,
}

/// What an amount of time is counted by.
pub enum Kind {
    /// Tenths of a percent of the running time.
    Percent,
    /// Seconds for each 100 km.
    Per100Km,
    /// Seconds.
    Fixed,
}

/// A section between two points over which time is added.
pub struct Section {
    pub from: usize,
    pub to: usize,
    pub kind: Kind,
    pub amount: i64,
}

/// A plan file: the second of the day at which the train departs, the speeds in km/h at both ends
/// of the line, and the calls and the sections by place.
#[derive(Default)]
pub struct Plan {
    pub depart: i64,
    pub enter: usize,
    pub leave: usize,
    pub calls: Vec<Call>,
    pub sections: Vec<Section>,
}

/// A stock file: the integers of each key, without their brackets.
pub type Keys = HashMap<String, Vec<i64>>;

const KEYS: [&str; 7] = [
    "mass",
    "rotating",
    "length",
    "top",
    "effort",
    "resistance",
    "brake",
];

fn bytes_of(path: &str) -> Result<Vec<u8>, String> {
    fs::read(path).map_err(|fault| format!("{path}: {fault}"))
}

fn text_of(field: &[u8]) -> String {
    String::from_utf8_lossy(field).into_owned()
}

/// The fields of each record of a file that is no comment.
fn records(bytes: &[u8]) -> impl Iterator<Item = Vec<&[u8]>> {
    let bytes = bytes.strip_prefix(b"\xEF\xBB\xBF").unwrap_or(bytes);
    bytes
        .split(|&byte| byte == b'\n' || byte == b'\r')
        .filter(|record| !matches!(record.first(), None | Some(b'#')))
        .map(|record| record.split(|&byte| byte == b',').collect())
}

fn no_record(path: &str, fields: &[&[u8]]) -> String {
    format!("{path}: {} is no record", text_of(&fields.join(&b',')))
}

fn integer(field: &[u8]) -> Result<i64, String> {
    let text = String::from_utf8_lossy(field);
    text.parse().map_err(|_| format!("{text:?} is no integer"))
}

fn zone(fields: &[&[u8]]) -> Result<Zone, String> {
    let (from, to) = (integer(fields[1])?, integer(fields[2])?);
    Ok(Zone {
        from: from as usize,
        to: to as usize,
        value: integer(fields[3])?,
    })
}

pub fn read_line(path: &str) -> Result<Line, String> {
    let bytes = bytes_of(path)?;
    let mut line = Line::default();
    for fields in records(&bytes) {
        match (fields[0], fields.len()) {
            (b"line", 3) => line.length = integer(fields[2])? as usize,
            (b"gradient", 4) => line.gradients.push(zone(&fields)?),
            (b"limit", 4) => line.limits.push(zone(&fields)?),
            (b"point", 3) => {
                let at = integer(fields[1])? as usize;
                line.points.insert(text_of(fields[2]), at);
            }
            _ => return Err(no_record(path, &fields)),
        }
    }
    Ok(line)
}

fn call(line: &Line, name: &[u8], dwell: Option<i64>) -> Result<Call, String> {
    let name = text_of(name);
    match line.points.get(&name) {
        Some(&at) => Ok(Call { at, name, dwell }),
        None => Err(format!("{name:?} is no point")),
    }
}

fn section(fields: &[&[u8]]) -> Result<Section, String> {
    Ok(Section {
        from: integer(fields[1])? as usize,
        to: integer(fields[2])? as usize,
        kind: match fields[3] {
            b"percent" => Kind::Percent,
            b"per100km" => Kind::Per100Km,
            b"fixed" => Kind::Fixed,
            kind => return Err(format!("{:?} is no kind", text_of(kind))),
        },
        amount: integer(fields[4])?,
    })
}

pub fn read_plan(path: &str, line: &Line) -> Result<Plan, String> {
    let bytes = bytes_of(path)?;
    let mut plan = Plan::default();
    for fields in records(&bytes) {
        match (fields[0], fields.len()) {
            (b"depart", 2) => plan.depart = integer(fields[1])?,
            (b"enter", 2) => plan.enter = integer(fields[1])? as usize,
            (b"leave", 2) => plan.leave = integer(fields[1])? as usize,
            (b"stop", 3) => {
                let dwell = integer(fields[2])?;
                plan.calls.push(call(line, fields[1], Some(dwell))?);
            }
            (b"pass", 2) => plan.calls.push(call(line, fields[1], None)?),
            (b"allow", 5) => plan.sections.push(section(&fields)?),
            _ => return Err(no_record(path, &fields)),
        }
    }
    Ok(plan)
}

pub fn read_stock(path: &str) -> Result<Keys, String> {
    let bytes = bytes_of(path)?;
    let mut keys = Keys::new();
    let mut key = String::new();
    let mut depth = 0;
    for row in String::from_utf8_lossy(&bytes).lines() {
        let mut row = row.split('#').next().unwrap_or("").trim();
        if depth == 0 {
            if row.starts_with('[') {
                break; // the keys behind it are those of another table
            }
            if let Some((left, right)) = row.split_once('=') {
                key = left.trim().to_string();
                row = right;
            }
        }
        depth = depth + row.matches('[').count() - row.matches(']').count();
        if !KEYS.contains(&key.as_str()) {
            continue;
        }
        let values = keys.entry(key.clone()).or_default();
        for value in row
            .split(['[', ']', ',', ' ', '\t'])
            .filter(|value| !value.is_empty())
        {
            values.push(integer(value.replace('_', "").as_bytes())?);
        }
    }
    match KEYS.iter().find(|&&key| !keys.contains_key(key)) {
        Some(key) => Err(format!("{path}: {key} is missing")),
        None => Ok(keys),
    }
}
