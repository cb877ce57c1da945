//! Opening: the sections, the three headers, and for a refusal its number and place.
//! The numbers and what was read up to a place are the Rust's; which of several faulty groups comes first is 01's rule.
use std::fmt::Write as _;

use serde::Deserialize;
use serde::de::{self, MapAccess, Visitor};

use jbonsai::model::parser::ModelParseError;
use jbonsai::model::parser::header::de::{Deserializer, from_str};
use jbonsai::model::parser::header::deserialize_hashmap::MapDeserializer;
use jbonsai::model::parser::header::error::DeserializeError;
use jbonsai::model::parser::header::{Global, Position, PositionData, Stream, StreamData};
use jbonsai::model::parser::split_sections;

use crate::out::{esc, guard, list, offset, range};

pub struct Opened<'a> {
    pub global: Global,
    pub stream: Stream,
    pub position: Position,
    pub data: &'a [u8],
}

/// 01's number for a deserializer's error; an error in a group arrives as its text in `Message`.
pub fn number(e: &DeserializeError) -> u32 {
    use DeserializeError::*;
    match e {
        Eof => 3,
        ExpectedBool => 4,
        ExpectedInteger => 5,
        ExpectedArrayComma => 6,
        ExpectedMapColon => 7,
        ExpectedMapNewline => 8,
        TrailingCharacters => 11,
        Message(m) => {
            let plain = [Eof, ExpectedBool, ExpectedInteger, ExpectedArrayComma, ExpectedMapColon, ExpectedMapNewline];
            if let Some(e) = plain.iter().find(|e| e.to_string() == *m) {
                return number(e);
            }
            if ["missing field", "duplicate field", "invalid length"].iter().any(|t| m.starts_with(t)) { 9 } else { 99 }
        }
    }
}

/// The offset in `text` of the first byte not accepted, out of what the deserializer has left of it.
fn place(n: u32, text: &str, left: &str) -> usize {
    let read = &text[..text.len() - left.len()];
    match n {
        3 => text.len(),
        4 | 5 | 7 => read.len() - read.chars().next_back().map_or(0, char::len_utf8), // the refused character is already taken
        6 | 8 => read.len(),
        _ => 0,
    }
}

/// A value that is kept as it stands, up to the newline: how an unknown key's value is read.
struct Raw<'a>(&'a str);
impl<'de> Deserialize<'de> for Raw<'de> {
    fn deserialize<D: de::Deserializer<'de>>(d: D) -> Result<Self, D::Error> {
        struct V;
        impl<'de> Visitor<'de> for V {
            type Value = Raw<'de>;
            fn expecting(&self, f: &mut std::fmt::Formatter) -> std::fmt::Result {
                f.write_str("text")
            }
            fn visit_borrowed_str<E>(self, s: &'de str) -> Result<Raw<'de>, E> {
                Ok(Raw(s))
            }
        }
        d.deserialize_any(V)
    }
}

/// The lines of a section, as key and value.
struct Lines<'a>(Vec<(&'a str, &'a str)>);
impl<'de> Deserialize<'de> for Lines<'de> {
    fn deserialize<D: de::Deserializer<'de>>(d: D) -> Result<Self, D::Error> {
        struct V;
        impl<'de> Visitor<'de> for V {
            type Value = Lines<'de>;
            fn expecting(&self, f: &mut std::fmt::Formatter) -> std::fmt::Result {
                f.write_str("lines")
            }
            fn visit_map<A: MapAccess<'de>>(self, mut map: A) -> Result<Lines<'de>, A::Error> {
                let mut lines = Vec::new();
                while let Some((k, v)) = map.next_entry::<&str, Raw>()? {
                    lines.push((k, v.0));
                }
                Ok(Lines(lines))
            }
        }
        d.deserialize_map(V)
    }
}

/// A section's own fields, without its groups.
#[derive(Deserialize)]
struct NoFields {}
#[derive(Deserialize)]
#[serde(rename_all = "SCREAMING_SNAKE_CASE")]
#[allow(dead_code)]
struct Durations {
    duration_pdf: (usize, usize),
    duration_tree: (usize, usize),
}

type Rows<'a> = Vec<(&'a str, &'a str)>;

/// The groups by first appearance, each key as in the Rust's StrMapVisitor.
fn groups(text: &str) -> Vec<(&str, Rows<'_>)> {
    let lines = from_str::<Lines>(text).map_or(Vec::new(), |l| l.0);
    let mut all: Vec<(&str, Rows)> = Vec::new();
    for (key, value) in lines {
        if !key.ends_with(']') {
            continue;
        }
        let Some(start) = key.find('[') else { continue };
        let (field, name) = (&key[..start], &key[start + 1..key.len() - 1]);
        match all.iter_mut().find(|g| g.0 == name) {
            Some(g) => g.1.push((field, value)),
            None => all.push((name, vec![(field, value)])),
        }
    }
    all
}

/// How far a group's value is read by the kind that its field has.
fn left_of<'a>(field: &str, value: &'a str) -> &'a str {
    let mut d = Deserializer::from_str(value);
    match field {
        "VECTOR_LENGTH" | "NUM_WINDOWS" => drop(usize::deserialize(&mut d)),
        "IS_MSD" | "USE_GV" => drop(bool::deserialize(&mut d)),
        "OPTION" => drop(Vec::<String>::deserialize(&mut d)),
        "STREAM_WIN" => drop(Vec::<(usize, usize)>::deserialize(&mut d)),
        "STREAM_PDF" | "STREAM_TREE" => drop(<(usize, usize)>::deserialize(&mut d)),
        _ => drop(Option::<(usize, usize)>::deserialize(&mut d)),
    }
    d.input
}

/// The first faulty group's number, and its place in the section.
fn group_fault<'a, D: Deserialize<'a>>(text: &'a str) -> Option<(u32, usize)> {
    let read = |rows: &[(&'a str, &'a str)]| D::deserialize(&mut MapDeserializer::new(rows.to_vec())).err();
    for (_, rows) in groups(text) {
        let Some(e) = read(&rows) else { continue };
        let n = number(&e);
        if n == 9 {
            return Some((9, 0));
        }
        let missing = |e: DeserializeError| matches!(e, DeserializeError::Message(m) if m.starts_with("missing field"));
        let upto = (1..=rows.len()).find(|&k| read(&rows[..k]).is_some_and(|e| !missing(e)))?;
        let (field, value) = rows[upto - 1];
        return Some((n, offset(text.as_bytes(), value.as_bytes()) + place(n, value, left_of(field, value))));
    }
    None
}

/// One section: what it says, or the number and place (from the file's first byte) of what is wrong.
fn section<'a, T: Deserialize<'a>, Top: Deserialize<'a>, D: Deserialize<'a>>(file: &[u8], bytes: &'a [u8]) -> Result<T, String> {
    let start = offset(file, bytes);
    let text = std::str::from_utf8(bytes).map_err(|u| format!("OPEN 2 {}", start + u.valid_up_to()))?;
    let e = match guard(|| from_str::<T>(text)) {
        Ok(Ok(v)) => return Ok(v),
        Ok(Err(e)) => e,
        Err(p) => return Err(format!("OPEN panic {} {}", p.file, esc(p.text.as_bytes()))),
    };
    let mut d = Deserializer::from_str(text);
    let (n, at) = match Top::deserialize(&mut d) {
        Err(top) => {
            let n = number(&top);
            if n != number(&e) {
                return Err(format!("OPEN mismatch {top:?} {e:?}"));
            }
            (n, place(n, text, d.input))
        }
        Ok(_) => match group_fault::<D>(text) {
            Some(f) => f,
            None => return Err(format!("OPEN mismatch {e:?}")),
        },
    };
    Err(format!("OPEN {n} {}", if (3..=8).contains(&n) { start + at } else { 0 }))
}

fn read<'a>(file: &'a [u8], o: &mut String) -> Result<Opened<'a>, String> {
    let split = guard(|| split_sections::<&[u8], nom::error::Error<&[u8]>>(file).map_err(ModelParseError::from));
    let (g, s, p, data) = match split {
        Ok(Ok((_, parts))) => parts,
        Ok(Err(_)) => return Err("OPEN 1 0".into()),
        Err(p) => return Err(format!("OPEN panic {} {}", p.file, esc(p.text.as_bytes()))),
    };
    let global = section::<Global, Global, NoFields>(file, g)?;
    let stream = section::<Stream, NoFields, StreamData>(file, s)?;
    let position = section::<Position, Durations, PositionData>(file, p)?;
    o.push_str("OPEN 0 0\n");
    print_global(&global, o);
    let _ = writeln!(o, "DURATION_PDF {}\nDURATION_TREE {}", range(position.duration_pdf), range(position.duration_tree));
    for (name, _) in groups(std::str::from_utf8(s).unwrap()) {
        print_stream(name, &stream.stream[name], o);
    }
    for (name, _) in groups(std::str::from_utf8(p).unwrap()) {
        print_position(name, &position.position[name], o);
    }
    let _ = writeln!(o, "DATA {} {}", offset(file, data), data.len());
    Ok(Opened { global, stream, position, data })
}

fn print_global(g: &Global, o: &mut String) {
    let text = |s: &String| esc(s.as_bytes());
    let _ = writeln!(o, "HTS_VOICE_VERSION {}", text(&g.hts_voice_version));
    let _ = writeln!(o, "SAMPLING_FREQUENCY {}\nFRAME_PERIOD {}", g.sampling_frequency, g.frame_period);
    let _ = writeln!(o, "NUM_STATES {}\nNUM_STREAMS {}", g.num_states, g.num_streams);
    let _ = writeln!(o, "STREAM_TYPE {}", list(&g.stream_type));
    let _ = writeln!(o, "FULLCONTEXT_FORMAT {}", text(&g.fullcontext_format));
    let _ = writeln!(o, "FULLCONTEXT_VERSION {}", text(&g.fullcontext_version));
    let _ = writeln!(o, "GV_OFF_CONTEXT {}", list(&g.gv_off_context));
    // a missing COMMENT and an empty one are one to the Rust
    let _ = writeln!(o, "COMMENT {}", text(&g.comment));
}

fn print_stream(name: &str, s: &StreamData, o: &mut String) {
    let _ = writeln!(
        o,
        "STREAM {} VECTOR_LENGTH={} NUM_WINDOWS={} IS_MSD={} USE_GV={} OPTION={}",
        esc(name.as_bytes()), s.vector_length, s.num_windows, s.is_msd as u8, s.use_gv as u8, list(&s.option)
    );
}

fn print_position(name: &str, p: &PositionData, o: &mut String) {
    let windows: Vec<_> = p.stream_win.iter().map(|&r| range(r)).collect();
    let perhaps = |r: Option<(usize, usize)>| r.map_or("absent".into(), range);
    let _ = writeln!(
        o,
        "POSITION {} STREAM_WIN=[{}] STREAM_PDF={} STREAM_TREE={} GV_PDF={} GV_TREE={}",
        esc(name.as_bytes()), windows.join(","), range(p.stream_pdf), range(p.stream_tree), perhaps(p.gv_pdf), perhaps(p.gv_tree)
    );
}

/// Prints the opening, and hands on what was opened.
pub fn open<'a>(file: &'a [u8], o: &mut String) -> Option<Opened<'a>> {
    match read(file, o) {
        Ok(v) => Some(v),
        Err(line) => {
            o.push_str(&line);
            o.push('\n');
            None
        }
    }
}
