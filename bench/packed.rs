// The plan of a sheet by the means of the plain implementation, tuned: work space that is made once,
// links packed row by row, a greedy start. Written apart from the product.

use crate::grades::{Order, Points, Ratings, Sheet};

const NONE: u8 = 255;
const MOST_PACKAGES: usize = 48;
const MOST_TRANSLATORS: usize = 64;

/// Work space, made once and used for any number of sheets.
pub struct Solver {
    packages: usize,
    translators: usize,
    heights: Vec<u32>,
    distinct: Vec<u32>,
    links: Vec<u8>,
    ends: [usize; MOST_PACKAGES],
    cursor: [usize; MOST_PACKAGES],
    level: [u8; MOST_PACKAGES],
    chosen: [u8; MOST_PACKAGES],
    owner: [u8; MOST_TRANSLATORS],
    best: [u8; MOST_PACKAGES],
    visited: [bool; MOST_TRANSLATORS],
    fixed: [bool; MOST_TRANSLATORS],
}

impl Solver {
    pub fn new() -> Solver {
        Solver {
            packages: 0,
            translators: 0,
            heights: Vec::with_capacity(MOST_PACKAGES * MOST_TRANSLATORS),
            distinct: Vec::with_capacity(MOST_PACKAGES * MOST_TRANSLATORS),
            links: vec![0; MOST_PACKAGES * MOST_TRANSLATORS],
            ends: [0; MOST_PACKAGES],
            cursor: [0; MOST_PACKAGES],
            level: [0; MOST_PACKAGES],
            chosen: [NONE; MOST_PACKAGES],
            owner: [NONE; MOST_TRANSLATORS],
            best: [NONE; MOST_PACKAGES],
            visited: [false; MOST_TRANSLATORS],
            fixed: [false; MOST_TRANSLATORS],
        }
    }

    /// The lowest code of the plan that is drawn, or none where there is no full plan. Translators
    /// (from 1) go into `plan`, the members of a tight or short set into `set`.
    pub fn solve<O: Order>(
        &mut self,
        sheet: &Sheet,
        plan: &mut [u16],
        set: &mut [u8],
    ) -> Option<u32> {
        self.read::<O>(sheet);
        // Where nothing has been probed yet the set of package 1 alone will do: no grade is higher.
        set[..self.packages].fill(0);
        set[0] = 1;
        if self.distinct.is_empty() {
            return None;
        }
        if !self.probe(self.distinct[0]) {
            self.stuck_set(set);
            return None;
        }
        self.best = self.chosen;
        let (mut low, mut high) = (0, self.distinct.len());
        while high - low > 1 {
            let middle = low + (high - low) / 2;
            if self.probe(self.distinct[middle]) {
                self.best = self.chosen;
                low = middle;
            } else {
                self.stuck_set(set);
                high = middle;
            }
        }
        let floor = self.distinct[low];
        self.first_plan(floor);
        let mut lowest = 0;
        for k in 0..self.packages {
            let j = self.chosen[k] as usize;
            plan[k] = j as u16 + 1;
            if self.heights[k * self.translators + j] == floor {
                lowest = sheet.at(k, j);
            }
        }
        Some(lowest)
    }

    /// Heights (0 for no valid grade) and the distinct ones in rising order.
    fn read<O: Order>(&mut self, sheet: &Sheet) {
        self.packages = sheet.packages;
        self.translators = sheet.translators;
        self.heights.clear();
        self.heights.extend(
            sheet
                .codes
                .iter()
                .map(|&code| if O::valid(code) { O::height(code) } else { 0 }),
        );
        self.distinct.clear();
        self.distinct
            .extend(self.heights.iter().copied().filter(|&height| height != 0));
        self.distinct.sort_unstable();
        self.distinct.dedup();
    }

    /// Links of every package at a floor, in rising order of translators, packed row by row.
    fn link(&mut self, floor: u32) {
        let mut end = 0;
        for (k, row) in self.heights.chunks_exact(self.translators).enumerate() {
            for (j, &height) in row.iter().enumerate() {
                self.links[end] = j as u8;
                end += usize::from(height >= floor);
            }
            self.ends[k] = end;
        }
    }

    fn begin(&self, k: usize) -> usize {
        if k == 0 { 0 } else { self.ends[k - 1] }
    }

    fn pair(&mut self, k: usize, j: usize) {
        self.chosen[k] = j as u8;
        self.owner[j] = k as u8;
    }

    /// Whether all packages can be matched by grades of at least this height (Hopcroft-Karp).
    fn probe(&mut self, floor: u32) -> bool {
        self.link(floor);
        self.chosen = [NONE; MOST_PACKAGES];
        self.owner = [NONE; MOST_TRANSLATORS];
        let mut matched = 0;
        for k in 0..self.packages {
            for at in self.begin(k)..self.ends[k] {
                let j = self.links[at] as usize;
                if self.owner[j] == NONE {
                    self.pair(k, j);
                    matched += 1;
                    break;
                }
            }
        }
        while matched < self.packages && self.layer() {
            for k in 0..self.packages {
                self.cursor[k] = self.begin(k);
            }
            for k in 0..self.packages {
                if self.chosen[k] == NONE && self.descend(k) {
                    matched += 1;
                }
            }
        }
        matched == self.packages
    }

    /// Levels of packages by breadth from the free ones; whether a free translator is in reach.
    fn layer(&mut self) -> bool {
        let mut queue = [0u8; MOST_PACKAGES];
        let (mut head, mut tail) = (0, 0);
        for k in 0..self.packages {
            self.level[k] = NONE;
            if self.chosen[k] == NONE {
                self.level[k] = 0;
                queue[tail] = k as u8;
                tail += 1;
            }
        }
        let mut reached = false;
        while head < tail {
            let k = queue[head] as usize;
            head += 1;
            for at in self.begin(k)..self.ends[k] {
                let other = self.owner[self.links[at] as usize];
                if other == NONE {
                    reached = true;
                } else if self.level[other as usize] == NONE {
                    self.level[other as usize] = self.level[k] + 1;
                    queue[tail] = other;
                    tail += 1;
                }
            }
        }
        reached
    }

    /// A path down the levels to a free translator, by depth; each link is looked at once a phase.
    fn descend(&mut self, k: usize) -> bool {
        while self.cursor[k] < self.ends[k] {
            let j = self.links[self.cursor[k]] as usize;
            self.cursor[k] += 1;
            let other = self.owner[j];
            if other == NONE
                || self.level[other as usize] == self.level[k] + 1 && self.descend(other as usize)
            {
                self.pair(k, j);
                return true;
            }
        }
        self.level[k] = NONE;
        false
    }

    /// After a failed probe: the packages in reach of one free package by alternating paths.
    fn stuck_set(&mut self, set: &mut [u8]) {
        let free = (0..self.packages)
            .find(|&k| self.chosen[k] == NONE)
            .unwrap();
        set[..self.packages].fill(0);
        set[free] = 1;
        let mut queue = [0u8; MOST_PACKAGES];
        queue[0] = free as u8;
        let (mut head, mut tail) = (0, 1);
        while head < tail {
            let k = queue[head] as usize;
            head += 1;
            for at in self.begin(k)..self.ends[k] {
                let other = self.owner[self.links[at] as usize] as usize;
                if set[other] == 0 {
                    set[other] = 1;
                    queue[tail] = other as u8;
                    tail += 1;
                }
            }
        }
    }

    /// From any full matching at a floor to the first by translator numbers.
    fn first_plan(&mut self, floor: u32) {
        self.link(floor);
        self.owner = [NONE; MOST_TRANSLATORS];
        for k in 0..self.packages {
            self.pair(k, self.best[k] as usize);
        }
        self.fixed = [false; MOST_TRANSLATORS];
        for k in 0..self.packages {
            for at in self.begin(k)..self.ends[k] {
                let j = self.links[at] as usize;
                if self.chosen[k] as usize == j || !self.fixed[j] && self.move_to(k, j) {
                    break;
                }
            }
            self.fixed[self.chosen[k] as usize] = true;
        }
    }

    /// Gives package k the translator j if its owner finds another, the old one of k included.
    fn move_to(&mut self, k: usize, j: usize) -> bool {
        let old = self.chosen[k] as usize;
        let other = self.owner[j];
        self.owner[old] = NONE;
        if other != NONE {
            self.visited = self.fixed;
            self.visited[j] = true;
            if !self.reroute(other as usize) {
                self.owner[old] = k as u8;
                return false;
            }
        }
        self.pair(k, j);
        true
    }

    fn reroute(&mut self, k: usize) -> bool {
        for at in self.begin(k)..self.ends[k] {
            let j = self.links[at] as usize;
            if self.visited[j] {
                continue;
            }
            self.visited[j] = true;
            let other = self.owner[j];
            if other == NONE || self.reroute(other as usize) {
                self.pair(k, j);
                return true;
            }
        }
        false
    }
}

/// The answer for a sheet of either kind.
pub fn solve(solver: &mut Solver, sheet: &Sheet, plan: &mut [u16], set: &mut [u8]) -> Option<u32> {
    if sheet.kind == 2 {
        solver.solve::<Ratings>(sheet, plan, set)
    } else {
        solver.solve::<Points>(sheet, plan, set)
    }
}
