//! Two tasks in the same tables: one fills rows from the bottom, the other from the top.
use crate::calls::{self, Asked, Rows, BOUNDS, PATTERN_ROW, QUESTION_ROW, RECORD_ROW, TREE_ROW, WORDS};
use crate::{Model, Needs, Refusal, Tables};
use core::fmt;

/// Which end of the tables a task fills.
#[derive(Clone, Copy, Debug, PartialEq, Eq, Hash)]
pub enum Side {
    /// From the first row on.
    Bottom,
    /// Up to the last whole row.
    Top,
}

/// What a task holds: its bounds, and the data and the width of the model in its rows.
#[derive(Clone, Copy, Default)]
struct Task<'f> {
    held: [u64; BOUNDS],
    model: Option<(&'f [u8], u64)>,
}

/// Why a voice is none of the house's: what is refused, or the rule that is broken, and by which model.
#[derive(Clone, Copy, Debug, PartialEq, Eq, Hash)]
pub struct NotHouse {
    /// What is refused; a broken rule is one of the cases from [`Refusal::StreamNumber`] to [`Refusal::Variance`].
    pub refusal: Refusal,
    /// The number of the model that is refused or breaks the rule, as [`crate::Which::number`] has it; 0 where it is none's.
    pub model: u64,
}

impl fmt::Display for NotHouse {
    fn fmt(&self, f: &mut fmt::Formatter) -> fmt::Result {
        write!(f, "{}; model {}", self.refusal, self.model)
    }
}

#[cfg(feature = "std")]
impl std::error::Error for NotHouse {}

/// Tables that two tasks share, a voice for the day and one for the night. Each task loads and unloads its own model; nothing that it does changes the other's rows, and the other is
/// seen in one thing alone, whether there is room. The two take turns: a model is lent ([`Shared::model`]) until the next load or unload of either.
///
/// ```compile_fail,E0502
/// # use larsavim::*;
/// # fn f(shared: &mut Shared) -> Result<(), Refusal> {
/// let day = shared.model(Side::Bottom).unwrap();
/// shared.unload(Side::Top)?;
/// day.walk(0, &[], 9)?;
/// # Ok(()) }
/// ```
pub struct Shared<'f, 't> {
    tables: Tables<'t>,
    bottom: Task<'f>,
    top: Task<'f>,
}

impl<'f, 't> Shared<'f, 't> {
    /// Tables in which neither task holds a model.
    pub fn new(tables: Tables<'t>) -> Self {
        Shared { tables, bottom: Task::default(), top: Task::default() }
    }

    /// The task of a side, the other's bounds, and the tables.
    fn task(&mut self, side: Side) -> (&mut Task<'f>, &[u64; BOUNDS], &mut Tables<'t>) {
        match side {
            Side::Bottom => (&mut self.bottom, &self.top.held, &mut self.tables),
            Side::Top => (&mut self.top, &self.bottom.held, &mut self.tables),
        }
    }

    /// Loads a model into a task's rows. [`Refusal::Held`] where it holds one already; [`Refusal::Room`] where the other's rows leave too little.
    pub fn load(&mut self, side: Side, needs: &Needs<'f, '_>, work: &mut [i64]) -> Result<(), Refusal> {
        let voice = needs.voice();
        let asked = Asked { file: voice.file(), words: voice.words(), which: needs.which().number() };
        let (task, other, tables) = self.task(side);
        let [number, place, line, ..] = calls::load_shared(&asked, side as u64, &mut task.held, other, tables, work);
        Refusal::told(number, place, line)?;
        task.model = Some((voice.data(), needs.width()));
        Ok(())
    }

    /// Loads one tree of a model through the trailer behind the voice's data: the model then has that tree alone, as tree 0. [`Refusal::WalkTable`] where the trailer has no such row.
    pub fn load_tree(&mut self, side: Side, needs: &Needs<'f, '_>, tree: u64, work: &mut [i64]) -> Result<(), Refusal> {
        let voice = needs.voice();
        let asked = Asked { file: voice.file(), words: voice.words(), which: needs.which().number() };
        let (task, other, tables) = self.task(side);
        let [number, place, line, ..] = calls::load_tree(&asked, tree, side as u64, &mut task.held, other, tables, work);
        Refusal::told(number, place, line)?;
        task.model = Some((voice.data(), needs.width()));
        Ok(())
    }

    /// Judges a voice by the house's rules, which promise more than the format: `Ok` exactly where every model of it loads and no rule is broken. The models are loaded one after the other into the
    /// task's rows, beside the other's, so there must be room for the largest of them. Afterwards the task holds nothing; [`Refusal::Held`] where it held a model before, which stays.
    pub fn house(&mut self, side: Side, file: &[u8], work: &mut [i64]) -> Result<(), NotHouse> {
        let (task, other, tables) = self.task(side);
        let [number, place, line, model] = calls::house(file, &mut [0; WORDS], side as u64, &mut task.held, other, tables, work);
        let judged = Refusal::told(number, place, line).map_err(|refusal| NotHouse { refusal, model });
        if task.model.is_none() {
            calls::unload(side as u64, &mut task.held, other, tables); // the last model of the voice, where all loaded
        }
        judged
    }

    /// Zeroes a task's rows and frees them for either; of a task that holds nothing it changes nothing.
    pub fn unload(&mut self, side: Side) -> Result<(), Refusal> {
        let (task, other, tables) = self.task(side);
        Refusal::told(calls::unload(side as u64, &mut task.held, other, tables), 0, 0)?;
        task.model = None;
        Ok(())
    }

    /// The model that a task holds: its own rows, cut out, which are those of a load into tables of its own.
    pub fn model(&self, side: Side) -> Option<Model<'f, '_>> {
        let task = if side == Side::Bottom { &self.bottom } else { &self.top };
        let (data, width) = task.model?;
        let [questions, patterns, trees, records, values] = task.held;
        let t = &self.tables;
        let rows = Rows {
            questions: own(side, t.questions, questions, QUESTION_ROW)?,
            patterns: own(side, t.patterns, patterns, PATTERN_ROW)?,
            trees: own(side, t.trees, trees, TREE_ROW)?,
            records: own(side, t.records, records, RECORD_ROW)?,
            values: own(side, t.values, values, 1)?,
        };
        Some(Model::of(data, rows, width))
    }
}

/// A task's rows of a table: the first, or the last whole ones.
fn own(side: Side, table: &[u64], rows: u64, width: usize) -> Option<&[u64]> {
    let numbers = usize::try_from(rows).ok()?.checked_mul(width)?;
    let first = if side == Side::Bottom { 0 } else { (table.len() / width * width).checked_sub(numbers)? };
    table.get(first..)?.get(..numbers)
}
