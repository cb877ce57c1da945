//! The binding beside the oracle's own structs: beside <hex lines    or    beside FILE..
//! Each voice is opened and loaded by both; what jbonsai holds in its structs (Global, Stream, Position, Question, Tree, Model) must be what the binding's views say, field by field, and
//! where one refuses, the other must with the same number, tree and line. Prints what differs, then one line: voices, models, fields compared, refusals, refusals that docs/DIFFERENCES.md has (limits, range ends
//! that wrap in the Rust, its panics), differences.
//! Built by `oracle/build --beside` over oracle/driver's open.rs and load.rs.
#![allow(dead_code)]
mod load;
mod open;
mod out;

use std::io::BufRead;

use jbonsai::model::parser::header::{PositionData, StreamData};
use jbonsai::model::voice::tree::TreeNode;
use larsavim::{Model, Position, Range, Record, Refusal, Stream, Voice};

use load::{Fault, Loaded};
use open::Opened;

#[derive(Default)]
struct Count {
    voices: usize,
    models: usize,
    fields: usize,
    refused: usize,
    known: usize,
    differences: usize,
}

impl Count {
    fn same<T: PartialEq + std::fmt::Debug>(&mut self, what: &str, ours: T, theirs: T) {
        self.fields += 1;
        if ours != theirs {
            self.differences += 1;
            println!("voice {}: {what}: {ours:?}, and {theirs:?} in the Rust", self.voices);
        }
    }
}

fn range(r: Range) -> (usize, usize) {
    (r.first as usize, r.last as usize)
}

fn stream(c: &mut Count, ours: &Stream, theirs: &StreamData) {
    c.same("VECTOR_LENGTH", ours.vector_length() as usize, theirs.vector_length);
    c.same("NUM_WINDOWS", ours.num_windows() as usize, theirs.num_windows);
    c.same("IS_MSD", ours.is_msd(), theirs.is_msd);
    c.same("USE_GV", ours.use_gv(), theirs.use_gv);
    c.same("OPTION", ours.options().map(String::from).collect::<Vec<_>>(), theirs.option.clone());
}

fn position(c: &mut Count, ours: &Position, theirs: &PositionData) {
    c.same("STREAM_WIN", ours.windows().map(range).collect::<Vec<_>>(), theirs.stream_win.clone());
    c.same("STREAM_PDF", range(ours.pdf()), theirs.stream_pdf);
    c.same("STREAM_TREE", range(ours.tree()), theirs.stream_tree);
    c.same("GV_PDF", ours.gv_pdf().map(range), theirs.gv_pdf);
    c.same("GV_TREE", ours.gv_tree().map(range), theirs.gv_tree);
}

fn header(c: &mut Count, ours: &Voice, theirs: &Opened) {
    let g = &theirs.global;
    c.same("HTS_VOICE_VERSION", ours.hts_voice_version(), &g.hts_voice_version);
    c.same("SAMPLING_FREQUENCY", ours.sampling_frequency() as usize, g.sampling_frequency);
    c.same("FRAME_PERIOD", ours.frame_period() as usize, g.frame_period);
    c.same("NUM_STATES", ours.num_states() as usize, g.num_states);
    c.same("NUM_STREAMS", ours.num_streams() as usize, g.num_streams);
    c.same("STREAM_TYPE", ours.stream_type().map(String::from).collect::<Vec<_>>(), g.stream_type.clone());
    c.same("FULLCONTEXT_FORMAT", ours.fullcontext_format(), &g.fullcontext_format);
    c.same("FULLCONTEXT_VERSION", ours.fullcontext_version(), &g.fullcontext_version);
    c.same("GV_OFF_CONTEXT", ours.gv_off_context().map(String::from).collect::<Vec<_>>(), g.gv_off_context.clone());
    c.same("COMMENT", ours.comment_or(""), &g.comment); // missing and empty are one to the Rust
    c.same("DURATION_PDF", range(ours.duration_pdf()), theirs.position.duration_pdf);
    c.same("DURATION_TREE", range(ours.duration_tree()), theirs.position.duration_tree);
    c.same("groups of [STREAM]", ours.streams().count(), theirs.stream.stream.len());
    c.same("groups of [POSITION]", ours.positions().count(), theirs.position.position.len());
    for s in ours.streams() {
        match theirs.stream.stream.get(s.name()) {
            Some(t) => stream(c, &s, t),
            None => c.same("a group of [STREAM]", Some(s.name()), None),
        }
    }
    for p in ours.positions() {
        match theirs.position.position.get(p.name()) {
            Some(t) => position(c, &p, t),
            None => c.same("a group of [POSITION]", Some(p.name()), None),
        }
    }
    c.same("data", ours.data(), theirs.data);
}

/// A node of the Rust's tree, with leaves that it leads to by their PDF: among equal leaves the Rust takes any.
#[derive(Debug, PartialEq)]
enum Node {
    Leaf(u64),
    Line { question: u64, yes: Goes, no: Goes },
}
#[derive(Debug, PartialEq)]
enum Goes {
    Line(u64),
    Pdf(u64),
}

fn ours_node(records: &[Record], k: usize) -> Node {
    let goes = |k: u64| match records[k as usize] {
        Record::Leaf { pdf } => Goes::Pdf(pdf),
        Record::Line { .. } => Goes::Line(k),
    };
    match records[k] {
        Record::Leaf { pdf } => Node::Leaf(pdf),
        Record::Line { question, yes, no } => Node::Line { question, yes: goes(yes), no: goes(no) },
    }
}

fn their_node(nodes: &[TreeNode], k: usize) -> Node {
    let goes = |k: usize| match &nodes[k] {
        TreeNode::Leaf { pdf_index } => Goes::Pdf(*pdf_index as u64),
        TreeNode::Node { .. } => Goes::Line(k as u64),
    };
    match &nodes[k] {
        TreeNode::Leaf { pdf_index } => Node::Leaf(*pdf_index as u64),
        TreeNode::Node { question, yes, no } => Node::Line { question: load::row_of(question) as u64, yes: goes(*yes), no: goes(*no) },
    }
}

/// Bits, with every NaN alike.
fn bits(x: f64) -> u64 {
    if x.is_nan() { f64::NAN.to_bits() } else { x.to_bits() }
}

fn model(c: &mut Count, ours: &Model, theirs: &Loaded) {
    c.same("width", ours.width() as usize, theirs.width);
    c.same("questions", ours.questions().len(), theirs.questions.len());
    for (q, (name, question)) in ours.questions().zip(&theirs.questions) {
        c.same("a question's name", q.name(), name.as_bytes());
        c.same("a question's patterns", q.patterns().collect::<Vec<_>>(), load::strings(question).iter().map(|p| p.as_bytes()).collect());
    }
    c.same("trees", ours.trees().len(), theirs.trees.len());
    for (i, (t, linked)) in ours.trees().zip(&theirs.trees).enumerate() {
        c.same("a tree's state", t.state() as usize, linked.state);
        c.same("a tree's lines", t.lines() as usize, theirs.lines[i]);
        let records: Vec<Record> = t.records().iter().collect();
        c.same("a tree's records", records.len(), linked.nodes.len());
        for k in 0..records.len().min(linked.nodes.len()) {
            c.same("a record", ours_node(&records, k), their_node(&linked.nodes, k));
        }
        let block = &theirs.model.pdf[i];
        c.same("a tree's entries", t.entries() as usize, block.len());
        for (n, p) in block.iter().enumerate() {
            let Some(e) = t.entry(n as u64 + 1) else {
                c.same("an entry", None, Some(n));
                continue;
            };
            let pairs: Vec<_> = e.parameters().map(|(m, v)| (bits(m), bits(v))).collect();
            c.same("an entry's means and variances", pairs, p.parameters.iter().map(|m| (bits(m.0), bits(m.1))).collect());
            c.same("an entry's msd", e.msd().map(bits), p.msd.map(bits));
        }
    }
}

fn told(r: Refusal) -> (u64, u64, u64) {
    let linked = (21..=23).contains(&r.number());
    (r.number(), if linked { r.place() } else { 0 }, if linked { r.line() } else { 0 })
}

/// What docs/DIFFERENCES.md has: the Rust has no limits (12), its numbers wrap (10, and 16 of a range end of 2^64 - 1), and it panics where text ends early (17).
fn known(v: Option<&Voice>, ours: &Refusal, theirs: &Result<Loaded, Fault>) -> bool {
    let wraps = |v: &Voice| {
        let ranges = v.positions().flat_map(|p| [Some(p.pdf()), Some(p.tree()), p.gv_pdf(), p.gv_tree()]).flatten();
        ranges.chain([v.duration_pdf(), v.duration_tree()]).any(|r| r.last == u64::MAX)
    };
    match ours.number() {
        10 | 12 => true,
        16 => v.is_some_and(wraps),
        17 => matches!(theirs, Err(Fault::Other(t)) if t.starts_with("panic nom-")),
        _ => false,
    }
}

fn voice(c: &mut Count, file: &[u8]) {
    c.voices += 1;
    let mut said = String::new();
    let theirs = open::open(file, &mut said);
    let (v, t) = match (Voice::open(file), theirs) {
        (Ok(v), Some(t)) => (v, t),
        (Err(r), None) => {
            c.refused += 1;
            let words: Vec<&str> = said.split_whitespace().collect();
            return c.same("a refused opening", format!("{} {}", r.number(), r.place()), words[1..].join(" "));
        }
        (Err(r), Some(_)) if known(None, &r, &Err(Fault::Other(String::new()))) => return c.known += 1,
        (ours, _) => return c.same("whether it opens", ours.map(|_| ()), Err(Refusal::Split)),
    };
    header(c, &v, &t);
    for (k, which) in v.models().enumerate() {
        let theirs = load::load(&t, k);
        let needs = match v.needs(which) {
            Ok(needs) => needs,
            Err(r) => {
                refused(c, &v, r, theirs);
                continue;
            }
        };
        let (mut memory, mut work) = (vec![0; needs.length() as usize], vec![0; needs.work() as usize]);
        match (Model::load(&needs, needs.tables(&mut memory).unwrap(), &mut work), theirs) {
            (Ok(m), Ok(l)) => {
                c.models += 1;
                model(c, &m, &l);
            }
            (Err(r), theirs) => refused(c, &v, r, theirs),
            (Ok(_), Err(Fault::Number(n, ..))) => c.same("whether a model loads", 0, n),
            (Ok(_), Err(Fault::Other(t))) => c.same("whether a model loads", String::new(), t),
        }
    }
}

fn refused(c: &mut Count, v: &Voice, ours: Refusal, theirs: Result<Loaded, Fault>) {
    c.refused += 1;
    match theirs {
        Err(Fault::Number(n, tree, line)) if told(ours) == (n as u64, tree as u64, line as u64) => {}
        theirs if known(Some(v), &ours, &theirs) => c.known += 1,
        Err(Fault::Number(n, tree, line)) => c.same("a refused load", told(ours), (n as u64, tree as u64, line as u64)),
        Err(Fault::Other(t)) => c.same("a refused load", format!("{ours}"), t),
        Ok(_) => c.same("whether a model loads", ours.number(), 0),
    }
}

fn main() {
    out::watch_panics();
    let mut c = Count::default();
    let paths: Vec<_> = std::env::args_os().skip(1).collect();
    for path in &paths {
        voice(&mut c, &std::fs::read(path).expect("a file that can be read"));
    }
    for line in std::io::stdin().lock().lines().take_while(|_| paths.is_empty()) {
        let line = line.unwrap();
        let digit = |b: u8| (b as char).to_digit(16).expect("hex") as u8;
        voice(&mut c, &line.as_bytes().chunks_exact(2).map(|p| digit(p[0]) << 4 | digit(p[1])).collect::<Vec<_>>());
    }
    println!("{} voices, {} models, {} fields, {} refusals, {} known, {} differences", c.voices, c.models, c.fields, c.refused, c.known, c.differences);
    std::process::exit((c.differences > 0) as i32);
}
