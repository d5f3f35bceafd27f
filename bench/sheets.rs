// The classes of sheets that are timed. A seed from 1 on gives one sheet of its class.

use crate::grades::Sheet;
use crate::random::Random;

pub const SEEDS: u64 = 15;

pub struct Class {
    pub name: &'static str,
    pub make: fn(u64) -> Sheet,
    /// Few enough grades for the list book, so timed over both books.
    pub listed: bool,
}

pub const CLASSES: &[Class] = &[
    Class {
        name: "48 x 64 full, random points",
        make: |seed| full(48, 64, seed),
        listed: false,
    },
    Class {
        name: "48 x 64, 25 % dense",
        make: sparse,
        listed: false,
    },
    Class {
        name: "48 x 48 full, random points",
        make: |seed| full(48, 48, seed),
        listed: false,
    },
    Class {
        name: "48 x 64 full, all grades equal",
        make: equal,
        listed: false,
    },
    Class {
        name: "48 x 64 full, three grades",
        make: three,
        listed: false,
    },
    Class {
        name: "48 x 48 staircase",
        make: staircase,
        listed: false,
    },
    Class {
        name: "48 x 48 long chain",
        make: chain,
        listed: true,
    },
    Class {
        name: "48 x 64 full, random ratings",
        make: ratings,
        listed: false,
    },
    Class {
        name: "48 x 64, no full plan",
        make: crowded,
        listed: false,
    },
    Class {
        name: "48 x 64, 1,024 grades",
        make: thousand,
        listed: true,
    },
];

/// Rows and columns from 0.
fn put(sheet: &mut Sheet, row: usize, column: usize, code: u32) {
    sheet.codes[row * sheet.translators + column] = code;
}

fn points(random: &mut Random) -> u32 {
    1 + random.below(1000) as u32
}

pub fn full(packages: usize, translators: usize, seed: u64) -> Sheet {
    let mut random = Random::new(seed);
    let mut sheet = Sheet::new(1, packages, translators);
    for code in &mut sheet.codes {
        *code = points(&mut random);
    }
    sheet
}

fn sparse(seed: u64) -> Sheet {
    let mut random = Random::new(seed);
    let mut sheet = Sheet::new(1, 48, 64);
    for code in &mut sheet.codes {
        if random.percent(25) {
            *code = points(&mut random);
        }
    }
    sheet
}

/// One grade for all pairs, another for each seed.
fn equal(seed: u64) -> Sheet {
    let mut sheet = Sheet::new(1, 48, 64);
    sheet.codes.fill(points(&mut Random::new(seed)));
    sheet
}

/// One in twenty grades is high, one in five middling, and the others are low.
fn three(seed: u64) -> Sheet {
    let mut random = Random::new(seed);
    let mut sheet = Sheet::new(1, 48, 64);
    for code in &mut sheet.codes {
        *code = match random.below(20) {
            0 => 900,
            1..=4 => 500,
            _ => 100,
        };
    }
    sheet
}

/// Package k is graded for translators 1 to 49 - k, so that the one full plan turns the order round.
fn staircase(seed: u64) -> Sheet {
    let mut random = Random::new(seed);
    let mut sheet = Sheet::new(1, 48, 48);
    for k in 0..48 {
        for j in 0..48 - k {
            put(&mut sheet, k, j, points(&mut random));
        }
    }
    sheet
}

/// Package k is graded for translators k and k + 1, and the last package for translator 1 alone: if
/// every other package has its own number, the last one has to push all of them on.
fn chain(seed: u64) -> Sheet {
    let mut random = Random::new(seed);
    let mut sheet = Sheet::new(1, 48, 48);
    for k in 0..47 {
        put(&mut sheet, k, k, points(&mut random));
        put(&mut sheet, k, k + 1, points(&mut random));
    }
    put(&mut sheet, 47, 0, points(&mut random));
    sheet
}

fn ratings(seed: u64) -> Sheet {
    let mut random = Random::new(seed);
    let mut sheet = Sheet::new(2, 48, 64);
    for code in &mut sheet.codes {
        *code = 1 + random.below(4) as u32 + 256 * random.below(20_001) as u32;
    }
    sheet
}

/// Random points, but the last ten packages are graded for the same nine translators alone.
fn crowded(seed: u64) -> Sheet {
    let mut sheet = full(48, 64, seed);
    for k in 38..48 {
        for j in 9..64 {
            put(&mut sheet, k, j, 0);
        }
    }
    sheet
}

/// As many random pairs as the list book holds.
fn thousand(seed: u64) -> Sheet {
    let mut random = Random::new(seed);
    let mut sheet = Sheet::new(1, 48, 64);
    let mut left = 1024;
    while left > 0 {
        let at = random.below(48 * 64);
        if sheet.codes[at] == 0 {
            sheet.codes[at] = points(&mut random);
            left -= 1;
        }
    }
    sheet
}
