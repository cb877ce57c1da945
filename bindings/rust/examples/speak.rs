//! speak VOICE: which PDF of the stream MCP the tree of the second state ends in, for one label; silence if anything is refused. As speak.c of docs/INTEGRATION.md.
use larsavim::{Model, Refusal, Voice, Which};

/// The first i of shichi in the sample voice.
const LABEL: &[u8] = b"sil^sh-i+ch=i";

/// The PDF, or why there is none: a refusal, or a reason of our own.
fn speak(file: &[u8]) -> Result<u64, String> {
    let refused = |r: Refusal| format!("{}", r.number());
    let voice = Voice::open(file).map_err(refused)?;
    let needs = voice.needs(Which::Stream(0)).map_err(refused)?;
    let (mut memory, mut work, mut room) = (vec![0; needs.length() as usize], vec![0; needs.work() as usize], vec![0; needs.questions() as usize]);
    let tables = needs.tables(&mut memory).ok_or("20")?;
    let model = Model::load(&needs, tables, &mut work).map_err(refused)?;
    if !model.leaves() {
        return Err("a leaf has no entry".into());
    }
    let answers = model.answers(LABEL, &mut room).map_err(refused)?;
    let tree = model.tree_of_state(2).ok_or("no such state")?;
    let walk = model.walk(tree, answers, model.records().len() as u64).map_err(refused)?;
    model.trees().nth(tree as usize).and_then(|t| t.entry(walk.pdf)).ok_or("no entry")?;
    Ok(walk.pdf)
}

fn main() {
    let path = std::env::args_os().nth(1).expect("speak VOICE");
    let file = std::fs::read(path).expect("a file that can be read");
    match speak(&file) {
        Ok(pdf) => println!("PDF {}", pdf),
        Err(why) => {
            println!("silence ({})", why);
            std::process::exit(1);
        }
    }
}
