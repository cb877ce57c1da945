//! Driver over jbonsai's own parser: an input a line on standard input, as hex; each answer ends with a line END.
mod load;
mod open;
mod out;
mod walk;

use std::fmt::Write as _;
use std::io::{BufRead, Read, Write as _};

use jbonsai::model::parser::{ModelParseError, parse_htsvoice};

use out::{guard, watch_panics};

pub fn unhex(s: &str) -> Vec<u8> {
    let digit = |c: u8| (c as char).to_digit(16).expect("hex") as u8;
    s.as_bytes().chunks_exact(2).map(|p| digit(p[0]) << 4 | digit(p[1])).collect()
}

/// The whole call of the Rust: 0, or the number of the first thing wrong (0 stands for 1, 17 and 19 alike: `nom`), or `panic`.
fn whole(file: &[u8], o: &mut String) {
    use ModelParseError::*;
    let word = match guard(|| parse_htsvoice(file)) {
        Ok(Ok(_)) => "0".to_string(),
        Ok(Err(NomError(_))) => "nom".into(),
        Ok(Err(HeaderUtf8Error)) => "2".into(),
        Ok(Err(DeserializeError(e))) => open::number(&e).to_string(),
        Ok(Err(PositionNotFound)) => "13".into(),
        Ok(Err(StreamNotFound)) => "14".into(),
        Ok(Err(UseGvError)) => "15".into(),
        Ok(Err(e)) => format!("other {e:?}"),
        Err(_) => "panic".into(),
    };
    let _ = writeln!(o, "WHOLE {word}");
}

fn run(mode: &str, input: &[u8], args: &[&str], o: &mut String) {
    match mode {
        "open" => drop(open::open(input, o)),
        "dump" => {
            if let Some(v) = open::open(input, o) {
                load::models(&v, o);
            }
            whole(input, o);
        }
        "tree" => load::text(input, o),
        "walk" => walk::walk(input, args, o),
        "walks" => walk::walks(input, o),
        _ => {
            eprintln!("oracle open|dump|tree|walk <hex lines    oracle open|dump|tree FILE    oracle walks FILE <lines");
            std::process::exit(2);
        }
    }
}

fn main() {
    watch_panics();
    let args: Vec<String> = std::env::args().skip(1).collect();
    let mut w = std::io::BufWriter::new(std::io::stdout().lock());
    let mut o = String::new();
    match args.iter().map(String::as_str).collect::<Vec<_>>().as_slice() {
        [mode] => {
            for line in std::io::stdin().lock().lines() {
                let line = line.unwrap();
                let words: Vec<&str> = line.split(' ').collect();
                o.clear();
                run(mode, &unhex(words[0]), &words[1..], &mut o);
                o.push_str("END\n");
                w.write_all(o.as_bytes()).unwrap();
            }
        }
        [mode, path, rest @ ..] => {
            let mut b = Vec::new();
            std::fs::File::open(path).and_then(|mut f| f.read_to_end(&mut b)).expect("readable file");
            run(mode, &b, rest, &mut o);
            w.write_all(o.as_bytes()).unwrap();
        }
        [] => run("", &[], &[], &mut o),
    }
    w.flush().unwrap();
}
