//! Loading a model: tree text, PDF block, linking; rows and values, or the refusal.
use std::collections::BTreeMap;
use std::fmt::Write as _;

use jlabel_question::AllQuestion;
use nom::sequence::{pair, terminated};

use jbonsai::model::parser::base::ParseTarget;
use jbonsai::model::parser::model::question::QuestionParser;
use jbonsai::model::parser::model::tree::{Node, Tree, TreeIndex, TreeParser};
use jbonsai::model::parser::model::{convert_tree, parse_model};
use jbonsai::model::parser::{ModelParseError, parse_all};
use jbonsai::model::voice::model::Model;
use jbonsai::model::voice::question::Question;
use jbonsai::model::voice::tree::{Tree as Linked, TreeNode};

use crate::open::Opened;
use crate::out::{Panic, esc, guard, list};

/// Number, tree, line; or words that no number fits.
pub enum Fault {
    Number(u32, usize, usize),
    Other(String),
}
fn fault<T>(n: u32) -> Result<T, Fault> {
    Err(Fault::Number(n, 0, 0))
}

type Range = (usize, usize);
type Questions = Vec<(String, Question)>;

/// Tree range, PDF range and width of model k: 0 duration, 2i + 1 stream i, 2i + 2 its GV.
fn which(v: &Opened, k: usize) -> Result<(Range, Range, usize), Fault> {
    if k == 0 {
        return Ok((v.position.duration_tree, v.position.duration_pdf, v.global.num_states.wrapping_mul(2)));
    }
    let Some(name) = v.global.stream_type.get((k - 1) / 2) else { return fault(13) };
    let Some(p) = v.position.position.get(name) else { return fault(13) };
    let Some(s) = v.stream.stream.get(name) else { return fault(14) };
    if k % 2 == 1 {
        let width = s.vector_length.wrapping_mul(s.num_windows).wrapping_mul(2).wrapping_add(s.is_msd as usize);
        return Ok((p.stream_tree, p.stream_pdf, width));
    }
    match (s.use_gv, p.gv_tree, p.gv_pdf) {
        (true, Some(t), Some(f)) => Ok((t, f, s.vector_length.wrapping_mul(2))),
        _ => fault(15),
    }
}

/// A panic in parser/mod.rs is its slicing by the range: 16. Any other is shown.
fn panicked(p: Panic) -> Fault {
    if p.file == "src/model/parser/mod.rs" {
        return Fault::Number(16, 0, 0);
    }
    let file = p.file.rsplit("/vendor/").next().unwrap().to_string();
    Fault::Other(format!("panic {file} {}", esc(p.text.as_bytes())))
}

/// The tree stage of `parse_model`, its expression copied; 18 where a state is negative.
fn tree_text(data: &[u8], range: Range) -> Result<(Questions, Vec<Tree>), Fault> {
    let stage = || -> Result<(Questions, Vec<Tree>), ModelParseError> {
        let both = pair(QuestionParser::parse_questions, TreeParser::parse_trees);
        Ok(parse_all(terminated(both, ParseTarget::sp), range)(data)?.1)
    };
    match guard(stage) {
        Ok(Ok((_, trees))) if trees.iter().any(|t| (t.state as isize) < 0) => fault(18),
        Ok(Ok(r)) => Ok(r),
        Ok(Err(_)) => fault(17),
        Err(p) => Err(panicked(p)),
    }
}

/// Links with the Rust's `convert_tree`, each question standing as its row's number.
fn link(questions: &Questions, trees: &[Tree]) -> Result<Vec<Linked>, Fault> {
    let row = |i: usize| Question::AllQustion(AllQuestion(vec![i.to_string()]));
    let mut lut = BTreeMap::from_iter(questions.iter().enumerate().map(|(i, q)| (q.0.clone(), row(i))));
    let mut linked = Vec::new();
    for (i, t) in trees.iter().enumerate() {
        match guard(|| convert_tree(t.clone(), &lut)) {
            Ok(l) => linked.push(l),
            Err(p) if p.text.starts_with("not yet implemented") => return Err(Fault::Number(23, i, 0)),
            Err(_) => {
                lut.insert(String::new(), row(0));
                let (n, line) = broken_line(t, &lut);
                return Err(Fault::Number(n, i, line));
            }
        }
    }
    Ok(linked)
}

/// The first line that `convert_tree` refuses where all others are harmless: 22 if a harmless question mends it, else 21.
fn broken_line(t: &Tree, lut: &BTreeMap<String, Question>) -> (u32, usize) {
    let leaf = TreeIndex::Pdf(1);
    let harmless = |n: &Node| Node { id: n.id, question_name: String::new(), yes: leaf.clone(), no: leaf.clone() };
    let mut one = Tree { state: t.state, nodes: t.nodes.iter().map(harmless).collect() };
    for (k, n) in t.nodes.iter().enumerate() {
        let calm = one.nodes[k].clone();
        one.nodes[k] = n.clone();
        if guard(|| convert_tree(one.clone(), lut)).is_err() {
            one.nodes[k].question_name = String::new();
            return (if guard(|| convert_tree(one, lut)).is_err() { 21 } else { 22 }, k);
        }
        one.nodes[k] = calm;
    }
    (99, 0)
}

pub struct Loaded {
    pub questions: Questions,
    pub lines: Vec<usize>,
    pub trees: Vec<Linked>,
    pub model: Model,
    pub width: usize,
}

pub fn load(v: &Opened, k: usize) -> Result<Loaded, Fault> {
    let (tree, pdf, width) = which(v, k)?;
    let (questions, trees) = tree_text(v.data, tree)?;
    let model = match guard(|| parse_model(v.data, tree, pdf, width)) {
        Ok(Ok(m)) => m,
        Ok(Err(_)) => return fault(19),
        Err(p) if p.file == "src/model/parser/model/mod.rs" => match link(&questions, &trees) {
            Ok(_) => return Err(Fault::Other("mismatch".into())),
            Err(f) => return Err(f),
        },
        Err(p) => return Err(panicked(p)),
    };
    let linked = link(&questions, &trees)?;
    if !alike(&linked, &model.trees, &questions) {
        return Err(Fault::Other("mismatch".into()));
    }
    let bare = |l: &Linked| matches!(l.nodes[..], [TreeNode::Leaf { .. }]);
    let lines = trees.iter().zip(&linked).map(|(t, l)| if bare(l) { 0 } else { t.nodes.len() }).collect();
    Ok(Loaded { questions, lines, trees: linked, model, width })
}

pub fn strings(q: &Question) -> &[String] {
    match q {
        Question::AllQustion(a) => &a.0,
        Question::Regex(_) => unreachable!(),
    }
}
pub fn row_of(q: &Question) -> usize {
    strings(q)[0].parse().unwrap()
}

/// What `parse_model` linked is what `link` did, with the questions of its rows.
fn alike(linked: &[Linked], trees: &[Linked], questions: &Questions) -> bool {
    let real = |l: &Linked| {
        let nodes = l.nodes.iter().map(|n| match n {
            TreeNode::Node { question, yes, no } => TreeNode::Node { question: questions[row_of(question)].1.clone(), yes: *yes, no: *no },
            leaf => leaf.clone(),
        });
        Linked { nodes: nodes.collect(), state: l.state }
    };
    linked.iter().map(real).collect::<Vec<_>>() == trees
}

/// The first record that is a leaf of the same number: the choice among equal leaves is not compared.
fn first_alike(nodes: &[TreeNode], k: usize) -> usize {
    match &nodes[k] {
        TreeNode::Leaf { pdf_index } => {
            let n = *pdf_index;
            let leaves = nodes.iter().position(|x| matches!(x, TreeNode::Leaf { .. })).unwrap();
            leaves + nodes[leaves..].partition_point(|x| matches!(x, TreeNode::Leaf { pdf_index } if *pdf_index < n))
        }
        _ => k,
    }
}

fn print_questions(questions: &Questions, o: &mut String) {
    for (i, (name, q)) in questions.iter().enumerate() {
        let _ = writeln!(o, "Q {i} {} {}", esc(name.as_bytes()), list(strings(q)));
    }
}

fn print(m: &Loaded, o: &mut String) {
    let patterns: usize = m.questions.iter().map(|q| strings(&q.1).len()).sum();
    let records: usize = m.trees.iter().map(|t| t.nodes.len()).sum();
    let entries: usize = m.model.pdf.iter().map(Vec::len).sum();
    let _ = writeln!(
        o, "LOAD 0 0 0 {} {patterns} {} {records} {} {}",
        m.questions.len(), m.trees.len(), m.model.pdf.len(), entries * m.width
    );
    print_questions(&m.questions, o);
    let mut first = 0;
    for (i, t) in m.trees.iter().enumerate() {
        let _ = writeln!(o, "T {i} {} {first} {} {}", t.state, t.nodes.len(), m.lines[i]);
        first += t.nodes.len();
    }
    let mut row = 0;
    for t in &m.trees {
        for n in &t.nodes {
            let _ = match n {
                TreeNode::Leaf { pdf_index } => writeln!(o, "R {row} 1 {pdf_index} 0 0"),
                TreeNode::Node { question, yes, no } => {
                    let (yes, no) = (first_alike(&t.nodes, *yes), first_alike(&t.nodes, *no));
                    writeln!(o, "R {row} 0 {} {yes} {no}", row_of(question))
                }
            };
            row += 1;
        }
    }
    let mut first = 0;
    for (i, b) in m.model.pdf.iter().enumerate() {
        let _ = writeln!(o, "B {i} {first} {}", b.len());
        first += b.len() * m.width;
    }
    let value = |v: f64, o: &mut String| {
        let _ = if v.is_nan() { write!(o, " nan") } else { write!(o, " {:016x}", v.to_bits()) };
    };
    for (i, e) in m.model.pdf.iter().flatten().enumerate() {
        let _ = write!(o, "V {i}");
        for p in &e.parameters {
            value(p.0, o);
            value(p.1, o);
        }
        if let Some(m) = e.msd {
            value(m, o);
        }
        o.push('\n');
    }
}

/// MODEL, LOAD and the rows of every model, as the dump has them; AFTER and LEAVES are no matter of the Rust.
pub fn models(v: &Opened, o: &mut String) {
    for k in 0..=2 * v.global.stream_type.len() {
        let _ = writeln!(o, "MODEL {k}");
        match load(v, k) {
            Ok(m) => print(&m, o),
            Err(Fault::Number(n, tree, line)) => {
                let _ = writeln!(o, "LOAD {n} {tree} {line} 0 0 0 0 0 0");
            }
            Err(Fault::Other(t)) => {
                let _ = writeln!(o, "LOAD {t}");
            }
        }
    }
}

fn reference(t: &TreeIndex) -> String {
    match t {
        TreeIndex::Node(i) => format!("N{i}"),
        TreeIndex::Pdf(i) => format!("P{i}"),
    }
}

/// A tree text as it is written: counts, questions, trees, lines.
pub fn text(b: &[u8], o: &mut String) {
    // an empty text is the range 0-(2^64 - 1): end + 1 wraps to 0, as in a file's 5-4
    let (questions, trees) = match tree_text(b, (0, b.len().wrapping_sub(1))) {
        Ok(r) => r,
        Err(Fault::Number(n, ..)) => return o.push_str(&format!("TEXT {n} 0 0 0 0 0\n")),
        Err(Fault::Other(t)) => return o.push_str(&format!("TEXT {t}\n")),
    };
    let single = |t: &Tree| t.nodes.len() == 1 && t.nodes[0].yes == t.nodes[0].no;
    // only a lone reference has no question name
    let lone = |t: &Tree| t.nodes.len() == 1 && t.nodes[0].question_name.is_empty();
    let pdf = |r: &TreeIndex| matches!(r, TreeIndex::Pdf(_)) as usize;
    let need = |t: &Tree| if single(t) { 1 } else { t.nodes.iter().map(|n| 1 + pdf(&n.yes) + pdf(&n.no)).sum() };
    let patterns: usize = questions.iter().map(|q| strings(&q.1).len()).sum();
    let records: usize = trees.iter().map(need).sum();
    let longest = trees.iter().map(|t| if lone(t) { 0 } else { t.nodes.len() }).max().unwrap_or(0);
    let _ = writeln!(o, "TEXT 0 {} {patterns} {} {records} {longest}", questions.len(), trees.len());
    print_questions(&questions, o);
    for (i, t) in trees.iter().enumerate() {
        if lone(t) {
            let _ = writeln!(o, "T {i} {} lone {}", t.state, reference(&t.nodes[0].yes));
            continue;
        }
        let _ = writeln!(o, "T {i} {} lines {}", t.state, t.nodes.len());
        for n in &t.nodes {
            let _ = writeln!(o, "L {} {} {} {}", n.id, esc(n.question_name.as_bytes()), reference(&n.no), reference(&n.yes));
        }
    }
}
