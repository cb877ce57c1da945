//! The Rust's own `search_node`, with the answers given and the questions counted.
use std::cell::Cell;
use std::io::BufRead;

use jlabel::Label;

use crate::load::{Fault, Loaded, load};
use crate::open::{Opened, open};
use crate::out::{esc, guard};

fn opened<'a>(file: &'a [u8]) -> Result<Opened<'a>, String> {
    let mut lines = String::new();
    open(file, &mut lines).ok_or_else(|| format!("REFUSED {}", lines.split(' ').nth(1).unwrap()))
}

fn loaded(v: &Opened, model: usize) -> Result<Loaded, String> {
    load(v, model).map_err(|f| match f {
        Fault::Number(n, ..) => format!("REFUSED {n}"),
        Fault::Other(t) => format!("REFUSED {t}"),
    })
}

/// `tree answers limit`, answers as hex bytes or `-` for none: `PDF n ASKED k` or `REFUSED n`.
fn outcome(m: &Loaded, args: &[&str]) -> String {
    let number = |i: usize| args[i].parse::<u64>().unwrap();
    let label = Label { answers: crate::unhex(args[1].trim_start_matches('-')), limit: number(2), asked: Cell::new(0) };
    let found = guard(|| m.trees.get(number(0) as usize).and_then(|t| t.search_node(&label)));
    match found {
        Ok(Some(n)) => format!("PDF {n} ASKED {}", label.asked.get()),
        Ok(None) => "REFUSED 24".into(),
        Err(p) if p.text == "unanswered" => "REFUSED 24".into(),
        Err(p) if p.text == "limit" => "REFUSED 25".into(),
        Err(p) => format!("REFUSED panic {} {}", p.file, esc(p.text.as_bytes())),
    }
}

/// One walk: `model tree answers limit`.
pub fn walk(file: &[u8], args: &[&str], o: &mut String) {
    let said = opened(file).and_then(|v| loaded(&v, args[0].parse().unwrap())).map(|m| outcome(&m, &args[1..]));
    o.push_str(&said.unwrap_or_else(|refused| refused));
    o.push('\n');
}

/// Many walks over one file: lines `model tree answers limit` on standard input, an answer a line. A model is loaded once for the lines in a row that name it.
pub fn walks(file: &[u8], o: &mut String) {
    let v = opened(file);
    let mut last: Option<(usize, Result<Loaded, String>)> = None;
    for line in std::io::stdin().lock().lines() {
        let line = line.unwrap();
        let args: Vec<&str> = line.split(' ').collect();
        let model = args[0].parse().unwrap();
        if last.as_ref().is_none_or(|l| l.0 != model) {
            last = Some((model, v.as_ref().map_err(String::clone).and_then(|v| loaded(v, model))));
        }
        let said = match &last.as_ref().unwrap().1 {
            Ok(m) => outcome(m, &args[1..]),
            Err(refused) => refused.clone(),
        };
        o.push_str(&said);
        o.push('\n');
    }
}
