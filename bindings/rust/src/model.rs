//! A model: what it needs, the tables that are lent for it, and what can be done when it is loaded.
use crate::calls::{self, Job, Rows, PATTERN_ROW, QUESTION_ROW, RECORD_ROW, TREE_ROW, WORK_A_RECORD};
use crate::voice::part;
use crate::{Refusal, Voice, Which};

/// What a model needs to be loaded: rows of each table, values, numbers of work.
#[derive(Clone, Copy)]
pub struct Needs<'f, 'v> {
    voice: &'v Voice<'f>,
    which: Which,
    rows: [u64; 5],
    work: u64,
    width: u64,
}

impl<'f, 'v> Needs<'f, 'v> {
    pub(crate) fn voice(&self) -> &'v Voice<'f> {
        self.voice
    }

    pub(crate) fn of(voice: &'v Voice<'f>, which: Which) -> Result<Self, Refusal> {
        let [number, place, line, questions, patterns, trees, records, values, work, width] = calls::needs(voice.file(), voice.words(), which.number());
        Refusal::told(number, place, line)?;
        Ok(Needs { voice, which, rows: [questions, patterns, trees, records, values], work, width })
    }

    /// Which model it is.
    pub fn which(&self) -> Which {
        self.which
    }

    /// Rows of questions.
    pub fn questions(&self) -> u64 {
        self.rows[0]
    }

    /// Rows of patterns.
    pub fn patterns(&self) -> u64 {
        self.rows[1]
    }

    /// Rows of trees.
    pub fn trees(&self) -> u64 {
        self.rows[2]
    }

    /// Rows of records.
    pub fn records(&self) -> u64 {
        self.rows[3]
    }

    /// Values.
    pub fn values(&self) -> u64 {
        self.rows[4]
    }

    /// Numbers of work.
    pub fn work(&self) -> u64 {
        self.work
    }

    /// Values in an entry.
    pub fn width(&self) -> u64 {
        self.width
    }

    /// Numbers in each table, in the order of [`Tables`].
    pub fn lengths(&self) -> [u64; 5] {
        let width = [QUESTION_ROW, PATTERN_ROW, TREE_ROW, RECORD_ROW, 1];
        core::array::from_fn(|t| self.rows[t] * width[t] as u64)
    }

    /// Numbers in all tables together: what [`Needs::tables`] takes.
    pub fn length(&self) -> u64 {
        self.lengths().iter().sum()
    }

    /// Cuts one slice into tables of just the rows needed. `None` where it is too short.
    pub fn tables<'t>(&self, memory: &'t mut [u64]) -> Option<Tables<'t>> {
        if (memory.len() as u64) < self.length() {
            return None;
        }
        let [questions, patterns, trees, records, values] = self.lengths();
        let (questions, memory) = memory.split_at_mut(questions as usize);
        let (patterns, memory) = memory.split_at_mut(patterns as usize);
        let (trees, memory) = memory.split_at_mut(trees as usize);
        let (records, memory) = memory.split_at_mut(records as usize);
        Some(Tables { questions, patterns, trees, records, values: &mut memory[..values as usize] })
    }
}

/// Tables that are lent to a load: rows of 4, 2, 6, 4 and 1 numbers. They may be longer than needed; what is beyond the rows is unchanged.
pub struct Tables<'t> {
    /// Name start, name length, first pattern, patterns.
    pub questions: &'t mut [u64],
    /// Start, length.
    pub patterns: &'t mut [u64],
    /// State, first record, records, lines, first value, entries.
    pub trees: &'t mut [u64],
    /// 0, question, yes, no; or 1, PDF number, 0, 0.
    pub records: &'t mut [u64],
    /// binary64 bit patterns.
    pub values: &'t mut [u64],
}

/// The front of a table: the rows that a load returned.
fn cut(table: &[u64], rows: u64, width: usize) -> &[u64] {
    usize::try_from(rows).ok().and_then(|rows| table.get(..rows * width)).unwrap_or(&[])
}

/// A loaded model. Its tables stay lent as long as it is used, and so does the file: names and patterns point into it. Nobody can change them meanwhile:
///
/// ```compile_fail,E0506
/// # use larsavim::*;
/// # fn f(needs: Needs, memory: &mut [u64]) -> Result<(), Refusal> {
/// let model = Model::load(&needs, needs.tables(memory).unwrap(), &mut [])?;
/// memory[0] = 1;
/// model.walk(0, &[], 9)?;
/// # Ok(()) }
/// ```
///
/// and nobody can make one of rows that no load returned:
///
/// ```compile_fail,E0451
/// # fn f(rows: ()) {
/// let model = larsavim::Model { data: &[], rows, width: 1 };
/// # }
/// ```
#[derive(Clone, Copy)]
pub struct Model<'f, 't> {
    data: &'f [u8],
    rows: Rows<'t>,
    width: u64,
}

/// Where a walk ended.
#[derive(Clone, Copy, Debug, PartialEq, Eq)]
pub struct Walk {
    /// The PDF's number, counted from 1.
    pub pdf: u64,
    /// Questions asked.
    pub asked: u64,
}

impl<'f, 't> Model<'f, 't> {
    /// Loads a model into the lent tables. Refused up to 20 (`Room`) nothing that is lent is changed; from 21 to 23 the tables and the work are zero. The work is
    /// free again afterwards.
    pub fn load(needs: &Needs<'f, '_>, mut tables: Tables<'t>, work: &mut [i64]) -> Result<Self, Refusal> {
        let voice = needs.voice;
        let [number, place, line, questions, patterns, trees, records, values] = calls::load(voice.file(), voice.words(), needs.which.number(), &mut tables, work);
        Refusal::told(number, place, line)?;
        let rows = Rows {
            questions: cut(tables.questions, questions, QUESTION_ROW),
            patterns: cut(tables.patterns, patterns, PATTERN_ROW),
            trees: cut(tables.trees, trees, TREE_ROW),
            records: cut(tables.records, records, RECORD_ROW),
            values: cut(tables.values, values, 1),
        };
        Ok(Model { data: voice.data(), rows, width: needs.width })
    }

    /// Of rows that a load returned.
    pub(crate) fn of(data: &'f [u8], rows: Rows<'t>, width: u64) -> Self {
        Model { data, rows, width }
    }

    /// The questions, in the order of their rows, which is that of the answers.
    pub fn questions(&self) -> impl ExactSizeIterator<Item = Question<'f, 't>> + '_ {
        let (data, patterns) = (self.data, self.rows.patterns);
        self.rows.questions.chunks_exact(QUESTION_ROW).map(move |row| Question { data, row, patterns })
    }

    /// The trees.
    pub fn trees(&self) -> impl ExactSizeIterator<Item = Tree<'t>> + '_ {
        let Rows { records, values, .. } = self.rows;
        let width = self.width as usize; // 4,096 at most
        self.rows.trees.chunks_exact(TREE_ROW).map(move |row| Tree { row, records, values, width })
    }

    /// The records of all trees.
    pub fn records(&self) -> Records<'t> {
        Records { rows: self.rows.records }
    }

    /// Values in an entry: means, variances and, where it is odd, the weight of the voiced space.
    pub fn width(&self) -> u64 {
        self.width
    }

    /// The first tree of a state.
    pub fn tree_of_state(&self, state: u64) -> Option<u64> {
        self.trees().position(|t| t.state() == state).map(|t| t as u64)
    }

    /// The leaf check: every reference inside its table, every leaf one of its tree's entries. A model that fails it must not be spoken from.
    pub fn leaves(&self) -> bool {
        calls::leaves(&self.rows, self.width) == 1
    }

    /// The answers of all questions to a label, a byte each, at the front of `room`; 1 where a pattern matches the whole label. `Room` where it is shorter than the questions.
    pub fn answers<'a>(&self, label: &[u8], room: &'a mut [u8]) -> Result<&'a [u8], Refusal> {
        Refusal::told(calls::answers(&self.rows, label, self.data, room), 0, 0)?;
        Ok(room.get(..self.questions().len()).unwrap_or(&[]))
    }

    /// Walks a tree with an answer byte for each question (0 is no) and a limit on the questions asked.
    pub fn walk(&self, tree: u64, answers: &[u8], limit: u64) -> Result<Walk, Refusal> {
        let [number, pdf, asked] = calls::walk(&self.rows, tree, answers, limit);
        Refusal::told(number, 0, 0)?;
        Ok(Walk { pdf, asked })
    }

    /// The walks of a sentence: each job as a walk with the answers from its start on.
    pub fn walk_jobs(&self, answers: &[u8], jobs: &mut [Job]) {
        calls::walk_jobs(&self.rows, answers, jobs)
    }

    /// How many numbers of work [`Model::depth`] takes for a tree.
    pub fn depth_work(&self, tree: u64) -> u64 {
        let records = usize::try_from(tree).ok().and_then(|t| self.trees().nth(t)).map_or(0, |t| t.row[2]);
        records.saturating_mul(WORK_A_RECORD as u64)
    }

    /// How many questions a walk of a tree can ask, whatever the answers; `None` where a path goes round.
    pub fn depth(&self, tree: u64, work: &mut [i64]) -> Result<Option<u64>, Refusal> {
        let [number, ends, questions] = calls::depth(&self.rows, tree, work);
        Refusal::told(number, 0, 0)?;
        Ok((ends == 1).then_some(questions))
    }

    /// How many bytes the model's tree text has, as [`Model::write`] writes it.
    pub fn text_len(&self) -> Result<u64, Refusal> {
        let [number, len] = calls::write_needs(&self.rows, self.data);
        Refusal::told(number, 0, 0)?;
        Ok(len)
    }

    /// Writes the model's questions and trees as tree text to the front of a buffer.
    pub fn write<'b>(&self, buffer: &'b mut [u8]) -> Result<&'b [u8], Refusal> {
        let [number, len] = calls::write(&self.rows, self.data, buffer);
        Refusal::told(number, 0, 0)?;
        Ok(part(buffer, 0, len))
    }
}

/// A question row.
#[derive(Clone, Copy)]
pub struct Question<'f, 't> {
    data: &'f [u8],
    row: &'t [u64],
    patterns: &'t [u64],
}

impl<'f, 't> Question<'f, 't> {
    /// Its name.
    pub fn name(&self) -> &'f [u8] {
        part(self.data, self.row[0], self.row[1])
    }

    /// Its patterns.
    pub fn patterns(&self) -> impl ExactSizeIterator<Item = &'f [u8]> + 't
    where
        'f: 't,
    {
        let (data, first, count) = (self.data, self.row[2] as usize, self.row[3] as usize);
        let rows = self.patterns.get(PATTERN_ROW * first..PATTERN_ROW * (first + count)).unwrap_or(&[]);
        rows.chunks_exact(PATTERN_ROW).map(move |p| part(data, p[0], p[1]))
    }
}

/// A tree row, and what belongs to it.
#[derive(Clone, Copy)]
pub struct Tree<'t> {
    row: &'t [u64],
    records: &'t [u64],
    values: &'t [u64],
    width: usize,
}

impl<'t> Tree<'t> {
    /// Its state.
    pub fn state(&self) -> u64 {
        self.row[0]
    }

    /// How many of its records are lines; they come first.
    pub fn lines(&self) -> u64 {
        self.row[3]
    }

    /// Its records: lines in the order of the text, then leaves.
    pub fn records(&self) -> Records<'t> {
        let (first, count) = (self.row[1] as usize, self.row[2] as usize);
        Records { rows: self.records.get(RECORD_ROW * first..RECORD_ROW * (first + count)).unwrap_or(&[]) }
    }

    /// How many entries its block has.
    pub fn entries(&self) -> u64 {
        self.row[5]
    }

    /// The entry of a PDF number, which counts from 1.
    pub fn entry(&self, pdf: u64) -> Option<Entry<'t>> {
        if pdf == 0 || pdf > self.entries() {
            return None;
        }
        let start = usize::try_from(self.row[4]).ok()?.checked_add(usize::try_from(pdf - 1).ok()?.checked_mul(self.width)?)?;
        self.values.get(start..start.checked_add(self.width)?).map(|values| Entry { values })
    }
}

/// A record of a tree.
#[derive(Clone, Copy, Debug, PartialEq, Eq)]
pub enum Record {
    /// A line: the question's row, and the records of its tree to which yes and no go.
    Line {
        /// The row of its question.
        question: u64,
        /// Where yes goes.
        yes: u64,
        /// Where no goes.
        no: u64,
    },
    /// A leaf.
    Leaf {
        /// The PDF's number.
        pdf: u64,
    },
}

/// Records, one after the other.
#[derive(Clone, Copy)]
pub struct Records<'t> {
    rows: &'t [u64],
}

impl<'t> Records<'t> {
    /// How many there are.
    pub fn len(&self) -> usize {
        self.rows.len() / RECORD_ROW
    }

    /// Whether there are none.
    pub fn is_empty(&self) -> bool {
        self.len() == 0
    }

    /// The k-th.
    pub fn get(&self, k: usize) -> Option<Record> {
        self.iter().nth(k)
    }

    /// All of them.
    pub fn iter(&self) -> impl ExactSizeIterator<Item = Record> + 't {
        self.rows.chunks_exact(RECORD_ROW).map(|r| match r[0] {
            0 => Record::Line { question: r[1], yes: r[2], no: r[3] },
            _ => Record::Leaf { pdf: r[1] },
        })
    }
}

/// An entry of a PDF block.
#[derive(Clone, Copy)]
pub struct Entry<'t> {
    values: &'t [u64],
}

impl<'t> Entry<'t> {
    /// Means and variances.
    pub fn parameters(&self) -> impl ExactSizeIterator<Item = (f64, f64)> + 't {
        self.values.chunks_exact(2).map(|p| (f64::from_bits(p[0]), f64::from_bits(p[1])))
    }

    /// The weight of the voiced space, where the stream has one.
    pub fn msd(&self) -> Option<f64> {
        (self.values.len() % 2 == 1).then(|| self.values.last().copied()).flatten().map(f64::from_bits)
    }

    /// The values as binary64 bit patterns.
    pub fn bits(&self) -> &'t [u64] {
        self.values
    }
}

/// Whether record rows that somebody else linked, four numbers each, belong to a tree of a tree text (the bytes of a STREAM_TREE, DURATION_TREE or GV_TREE range): then every walk over them
/// ends as the text says. [`Refusal::OtherRows`] where they don't; before it what is wrong with the text, the tree's number and the tree.
pub fn accepts(text: &[u8], tree: u64, records: &[u64]) -> Result<(), Refusal> {
    let [number, place, line] = calls::accepts(text, tree, records);
    Refusal::told(number, place, line)
}

/// How a walk straight over a tree text ends.
#[derive(Clone, Copy, Debug, PartialEq, Eq)]
pub struct BareWalk {
    /// The PDF number, from 1 on.
    pub pdf: u64,
    /// The questions asked.
    pub asked: u64,
    /// The lines of the tree that the walk read, the checks before it left out.
    pub read: u64,
}

/// Walks one tree straight over a tree text (the bytes of a STREAM_TREE, DURATION_TREE or GV_TREE range), without tables: a byte of `answers` for each question of the text, in its order. For a
/// text whose model loads, the walk over its tables ends at the same PDF after as many questions, or is refused by the same number.
pub fn bare_walk(text: &[u8], tree: u64, answers: &[u8], limit: u64) -> Result<BareWalk, Refusal> {
    let [number, place, line, pdf, asked, read] = calls::bare_walk(text, tree, answers, limit);
    Refusal::told(number, place, line).map(|()| BareWalk { pdf, asked, read })
}
