//! How long the Rust takes:  bench FILE REPETITIONS [ROUNDS]     the whole call for a file in memory, best of so many repetitions; and walks.
//! bench FILE -REPETITIONS does the call so often and nothing else, for counting instructions.
//! Times are of the processor, in nanoseconds. Prints lines of a name and numbers; bench/time reads them.
use std::cell::Cell;
use std::collections::BTreeMap;
use std::hint::black_box;

use jlabel::Label;
use jlabel_question::AllQuestion;
use nom::sequence::{pair, terminated};

use jbonsai::model::Voice;
use jbonsai::model::parser::base::ParseTarget;
use jbonsai::model::parser::header::{Global, Position, Stream, from_str};
use jbonsai::model::parser::model::convert_tree;
use jbonsai::model::parser::model::question::QuestionParser;
use jbonsai::model::parser::model::tree::TreeParser;
use jbonsai::model::parser::{ModelParseError, parse_all, parse_htsvoice, split_sections};
use jbonsai::model::voice::question::Question;
use jbonsai::model::voice::tree::Tree;

#[cfg(counted)]
mod counted;

#[repr(C)]
struct Timespec(i64, i64);
unsafe extern "C" {
    fn clock_gettime(clock: i32, at: *mut Timespec) -> i32;
}
/// Nanoseconds of this thread on the processor.
fn now() -> u64 {
    const CLOCK_THREAD_CPUTIME_ID: i32 = 3;
    let mut t = Timespec(0, 0);
    unsafe { clock_gettime(CLOCK_THREAD_CPUTIME_ID, &mut t) };
    t.0 as u64 * 1_000_000_000 + t.1 as u64
}

/// What is measured, under names that callgrind can be told.
#[unsafe(no_mangle)]
#[inline(never)]
pub fn bench_parse(file: &[u8]) -> Result<Voice, ModelParseError> {
    parse_htsvoice(black_box(file))
}
#[unsafe(no_mangle)]
#[inline(never)]
pub fn bench_walk(tree: &Tree, label: &Label) -> usize {
    tree.search_node(label).unwrap_or(0)
}

fn times(file: &[u8], repetitions: usize) {
    let (mut parse, mut dropped) = (u64::MAX, u64::MAX);
    for _ in 0..repetitions {
        let start = now();
        let voice = bench_parse(file);
        parse = parse.min(now() - start);
        if let Err(e) = &voice {
            println!("refused {}", format!("{e:?}").replace(' ', "_"));
            return;
        }
        let start = now();
        drop(black_box(voice));
        dropped = dropped.min(now() - start);
    }
    println!("parse {parse}\ndrop {dropped}");
}

/// The trees of every model, linked by the Rust's `convert_tree`, each question standing as its row's number, and how many questions there are.
fn linked(file: &[u8]) -> Vec<(usize, Vec<Tree>)> {
    let (_, (g, s, p, data)) = split_sections::<&[u8], nom::error::Error<&[u8]>>(file).unwrap();
    let text = |b| std::str::from_utf8(b).unwrap();
    let (global, stream, position): (Global, Stream, Position) = (from_str(text(g)).unwrap(), from_str(text(s)).unwrap(), from_str(text(p)).unwrap());
    let mut ranges = vec![position.duration_tree];
    for name in &global.stream_type {
        ranges.push(position.position[name].stream_tree);
        if stream.stream[name].use_gv {
            ranges.push(position.position[name].gv_tree.unwrap());
        }
    }
    let model = |range| {
        let both = pair(QuestionParser::parse_questions, TreeParser::parse_trees);
        let (questions, trees) = parse_all(terminated(both, ParseTarget::sp), range)(data).map_err(ModelParseError::from).unwrap().1;
        let row = |i| Question::AllQustion(AllQuestion(vec![jlabel_question::coded(i)]));
        let lut = BTreeMap::from_iter(questions.iter().enumerate().map(|(i, q)| (q.0.clone(), row(i))));
        (questions.len(), trees.into_iter().map(|t| convert_tree(t, &lut)).collect())
    };
    ranges.into_iter().map(model).collect()
}

/// The same answers as in bench/ours.c: bytes of 0 or 1, 64 rounds for each model.
fn answers(models: &[(usize, Vec<Tree>)]) -> Vec<Vec<Label>> {
    let mut x: u64 = 88172645463325252;
    let mut bit = || {
        x ^= x << 13;
        x ^= x >> 7;
        x ^= x << 17;
        (x >> 40) as u8 & 1
    };
    let mut label = |n| Label { answers: (0..n).map(|_| bit()).collect(), limit: u64::MAX, asked: Cell::new(0) };
    models.iter().map(|m| (0..64).map(|_| label(m.0)).collect()).collect()
}

/// Every tree of every model is walked with each of 64 sets of answers, best of so many rounds.
fn walks(file: &[u8], rounds: usize) {
    let models = linked(file);
    let labels = answers(&models);
    let (mut best, mut count, mut sum, mut asked) = (u64::MAX, 0, 0, 0);
    for _ in 0..rounds {
        (count, sum) = (0u64, 0u64);
        labels.iter().flatten().for_each(|l| l.asked.set(0));
        let start = now();
        for ((_, trees), labels) in models.iter().zip(&labels) {
            for label in labels {
                for tree in trees {
                    sum += bench_walk(tree, label) as u64;
                    count += 1;
                }
            }
        }
        best = best.min(now() - start);
        asked = labels.iter().flatten().map(|l| l.asked.get()).sum();
    }
    println!("walks {count} {best} {sum} {asked}");
}

fn main() {
    let args: Vec<String> = std::env::args().skip(1).collect();
    let file = std::fs::read(&args[0]).expect("readable file");
    if let Some(n) = args[1].strip_prefix('-') {
        (0..n.parse().unwrap()).for_each(|_| std::mem::forget(bench_parse(&file)));
        return;
    }
    #[cfg(counted)]
    counted::count(|| bench_parse(&file));
    times(&file, args[1].parse().unwrap());
    if let Some(rounds) = args.get(2) {
        walks(&file, rounds.parse().unwrap());
    }
}
