//! Why something is refused: the numbers of larsavim.h as an enum.
use core::fmt;

macro_rules! refusals {
    ($($(#[$doc:meta])* $name:ident $({ $($part:ident),+ })? = $number:literal, $sentence:literal;)*) => {
        /// Why something is refused. A place is a file offset, counted from 0; of [`Refusal::Text`] it counts from the first data byte. Trees and lines count from 0.
        #[non_exhaustive]
        #[derive(Clone, Copy, Debug, PartialEq, Eq, Hash)]
        #[allow(missing_docs, rustdoc::broken_intra_doc_links)] // the parts of a case: place, tree, line; the sections' names in brackets
        pub enum Refusal {
            $(#[doc = concat!($number, ": ", $sentence, ".")] $(#[$doc])* $name $({ $($part: u64),+ })?,)*
            /// A number that this crate has no name for: the library is newer than the crate.
            Other { number: u64, place: u64, line: u64 },
        }

        impl Refusal {
            /// The number, as larsavim.h has it: from 1 on.
            pub fn number(&self) -> u64 {
                match self {
                    $(Refusal::$name { .. } => $number,)*
                    Refusal::Other { number, .. } => *number,
                }
            }

            /// What is wrong, as a sentence.
            pub fn sentence(&self) -> &'static str {
                match self {
                    $(Refusal::$name { .. } => $sentence,)*
                    Refusal::Other { .. } => "refused, by a number that this crate has no name for",
                }
            }

            /// What a call told: 0 is no refusal.
            pub(crate) fn told(number: u64, place: u64, line: u64) -> Result<(), Refusal> {
                let _ = line;
                match number {
                    0 => Ok(()),
                    $($number => Err(refusals!(@make $name place line $({ $($part),+ })?)),)*
                    _ => Err(Refusal::Other { number, place, line }),
                }
            }
        }
    };
    (@make $name:ident $place:ident $line:ident) => { Refusal::$name };
    (@make $name:ident $place:ident $line:ident { place }) => { Refusal::$name { place: $place } };
    (@make $name:ident $place:ident $line:ident { tree, line }) => { Refusal::$name { tree: $place, line: $line } };
}

refusals! {
    Split = 1, "the file doesn't split into [GLOBAL], [STREAM], [POSITION] and [DATA]";
    Utf8 { place } = 2, "a header section is no UTF-8";
    Eof { place } = 3, "unexpected end of input";
    ExpectedBool { place } = 4, "expected bool (0 or 1)";
    ExpectedInteger { place } = 5, "expected integer value";
    ExpectedArrayComma { place } = 6, "expected comma as an array delimiter";
    ExpectedMapColon { place } = 7, "expected colon as map delimiter";
    ExpectedMapNewline { place } = 8, "expected newline as map delimiter";
    Field = 9, "a field is missing or stands twice, or a pair has fewer than two numbers";
    Number { place } = 10, "a header number is 2^64 or more";
    Limit = 12, "a limit is exceeded";
    NoPosition = 13, "a STREAM_TYPE name has no entry in [POSITION], or there is no such stream number";
    NoStream = 14, "a STREAM_TYPE name has no entry in [STREAM]";
    UseGv = 15, "GV is asked for, and USE_GV is 0 or GV_TREE or GV_PDF is absent";
    Range = 16, "a range isn't inside the data, or the record doesn't fit its limits or the file";
    Text { place } = 17, "tree text outside the grammar, or rows that no text reads back to";
    State = 18, "a tree's state is negative";
    Block = 19, "the length of a PDF block is wrong";
    Room = 20, "a lent table, the work or the buffer is smaller than needed";
    NodeRef { tree, line } = 21, "a line refers to an id that no line bears";
    QuestionRef { tree, line } = 22, "a line asks a question that isn't there, or a name or pattern has a byte that none can have";
    LoneNode { tree, line } = 23, "a tree's one reference is a node";
    WalkTable = 24, "a row, a record or an answer is outside its table";
    Steps = 25, "another question would pass the walk's limit";
    NoTrailer = 26, "no room for a trailer, or the file with it would pass the limit, or too few data bytes";
    TrailerSum = 27, "the trailer's sum isn't that of the bytes before it";
    TrailerRows = 28, "the trailer's rows don't fit, or aren't the text's";
    Held = 29, "the task already holds a model";
    StreamNumber = 30, "NUM_STREAMS isn't the number of names in STREAM_TYPE";
    StreamTwice = 31, "a name stands twice in STREAM_TYPE";
    Ids = 32, "a tree's ids aren't 0, -1, -2, .. in line order";
    NameTwice = 33, "a question name stands twice";
    Leaf = 34, "a leaf is 0 or past its tree's entries";
    Mean = 35, "a mean isn't finite";
    Variance = 36, "a variance isn't finite and above zero";
    OtherRows = 37, "record rows that don't belong to the tree";
}

impl Refusal {
    /// The place: a file offset, or of [`Refusal::Text`] an offset from the first data byte, or the tree, counted from 0. 0 where there is none.
    pub fn place(&self) -> u64 {
        use Refusal::*;
        match *self {
            Utf8 { place } | Eof { place } | ExpectedBool { place } | ExpectedInteger { place } | ExpectedArrayComma { place } | ExpectedMapColon { place } => place,
            ExpectedMapNewline { place } | Number { place } | Text { place } | Other { place, .. } => place,
            NodeRef { tree, .. } | QuestionRef { tree, .. } | LoneNode { tree, .. } => tree,
            _ => 0,
        }
    }

    /// The line of the tree, counted from 0; 0 where there is none.
    pub fn line(&self) -> u64 {
        match *self {
            Refusal::NodeRef { line, .. } | Refusal::QuestionRef { line, .. } | Refusal::LoneNode { line, .. } | Refusal::Other { line, .. } => line,
            _ => 0,
        }
    }
}

impl fmt::Display for Refusal {
    fn fmt(&self, f: &mut fmt::Formatter) -> fmt::Result {
        use Refusal::*;
        write!(f, "refused ({}): {}", self.number(), self.sentence())?;
        match *self {
            NodeRef { tree, line } | QuestionRef { tree, line } | LoneNode { tree, line } => write!(f, "; tree {tree}, line {line}"),
            Text { place } => write!(f, "; byte {place} of the data"),
            Utf8 { place } | Eof { place } | ExpectedBool { place } | ExpectedInteger { place } | ExpectedArrayComma { place } | ExpectedMapColon { place } => write!(f, "; byte {place} of the file"),
            ExpectedMapNewline { place } | Number { place } => write!(f, "; byte {place} of the file"),
            _ => Ok(()),
        }
    }
}

#[cfg(feature = "std")]
impl std::error::Error for Refusal {}
