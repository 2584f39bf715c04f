//! Document 01's marked entries: their sheets, and what is said of them.
use entryreader::{Answer, Code, Pair};

/// Sheet H, of cases a to f.
pub const H: &str = "    6    1   46    0    0
    1    4    2    3    3
    2    2   45    0    0
    3    4    4    5    6
    4    3    1    0    0
    5    2   46    0    0
    6    1    0    0    0
";

/// Case g.
pub const G: &str = "    1    1   46    0    0
    1    4    1    1    1
";

/// Case h.
pub const THROUGH_SECOND: &str = "    3    1   46    0    0
    1    4    2    1    3
    2    0    0    0    0
    3    1    0    0    0
";

/// Case i: a run of one byte.
pub const I: &str = "    3    1   46    0    0
    1    4    2    1    3
    2    2   97    0    0
    3    0    0    0    0
";

/// Case j.
pub const J: &str = "    2    1   46    0    0
    1    4    2    2    2
";

/// No marked entry: any number of `6`, then `-` and a loop.
pub const BEHIND: &str = "    6    1   46    0    0
    1    4    2    1    3
    2    2   54    0    0
    3    4    4    5    6
    4    2   45    0    0
    5    4    5    5    5
    6    1    0    0    0
";

/// The reading of case a.
pub const READING: &str = "       2       0       0       1       0       0
       4       1       0       2       0       0
       5       2       0       3       0       0
       3       1       0       3       2       3
       1       0       0       3       1       4
";

/// The cells of case a, a row for each variable: outcome and reach at positions 0 to 3.
pub const CELLS: [[u32; 8]; 6] = [
    [8, 3, 0, 0, 0, 0, 0, 0],
    [6, 1, 0, 0, 0, 0, 0, 0],
    [0, 0, 8, 3, 0, 0, 0, 0],
    [0, 0, 7, 2, 0, 0, 0, 0],
    [0, 0, 0, 0, 8, 3, 0, 0],
    [0, 0, 0, 0, 0, 0, 0, 0],
];

/// The same stored by place, a row for each position: outcome and reach of variables 1 to 6.
pub const STORED: [[u32; 12]; 4] = [
    [8, 3, 6, 1, 0, 0, 0, 0, 0, 0, 0, 0],
    [0, 0, 0, 0, 8, 3, 7, 2, 0, 0, 0, 0],
    [0, 0, 0, 0, 0, 0, 0, 0, 8, 3, 0, 0],
    [0, 0, 0, 0, 0, 0, 0, 0, 0, 0, 0, 0],
];

/// A marked entry: what the question about variable 1 at 0 is answered, and what the verdict is.
pub struct Case {
    pub sheet: &'static str,
    pub entry: &'static str,
    pub answer: Answer,
    pub verdict: Code,
}

/// Cases a and d to j; b and c are the machine's. Case e is a failure by order 11, and no entry needs the endmarker at its end.
pub fn cases() -> [Case; 8] {
    let pair = |variable, position| Pair { variable, position };
    let (named, cells) = (pair(2, 0), 2);
    let missing = Answer::Missing { named, cells };
    let named = pair(1, 0);
    let loops = |cells| Answer::Loop { named, cells };
    let success = |end, cells| Answer::Success { end, cells };
    let failure = Answer::Failure { cells: 5 };
    [
        (H, "-6.", success(3, 5), Code::Recognised),
        (H, "6.", success(2, 5), Code::Recognised),
        (H, "-6", failure, Code::Failure),
        (H, "x", failure, Code::Failure),
        (G, "", loops(1), Code::Loop),
        (THROUGH_SECOND, "", loops(2), Code::Loop),
        (I, "aa.", success(2, 7), Code::Partial),
        (J, "", missing, Code::Missing),
    ]
    .map(|(sheet, entry, answer, verdict)| Case {
        sheet,
        entry,
        answer,
        verdict,
    })
}
