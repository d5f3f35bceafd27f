// Kinds of grade and sheets of codes, by the rules.

/// A kind of grade: which codes are valid, and a height that is larger for the higher grade.
pub trait Order {
    fn valid(code: u32) -> bool;
    fn height(code: u32) -> u32;
}

pub struct Points;

impl Order for Points {
    fn valid(code: u32) -> bool {
        (1..=1000).contains(&code)
    }

    fn height(code: u32) -> u32 {
        code
    }
}

pub struct Ratings;

impl Order for Ratings {
    fn valid(code: u32) -> bool {
        (1..=4).contains(&(code % 256)) && code / 256 <= 20_000
    }

    fn height(code: u32) -> u32 {
        (4 - code % 256) * 20_001 + code / 256 + 1
    }
}

/// Grades of one kind: a row of codes for each package, 0 where there is no grade.
#[derive(Clone)]
pub struct Sheet {
    pub kind: u32,
    pub packages: usize,
    pub translators: usize,
    pub codes: Vec<u32>,
}

impl Sheet {
    pub fn new(kind: u32, packages: usize, translators: usize) -> Sheet {
        Sheet {
            kind,
            packages,
            translators,
            codes: vec![0; packages * translators],
        }
    }

    /// Rows and columns from 0.
    pub fn at(&self, row: usize, column: usize) -> u32 {
        self.codes[row * self.translators + column]
    }
}
