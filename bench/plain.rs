// The plan of a sheet by textbook means, written apart from the product, as it is first written down:
// binary search over the distinct grades, Hopcroft-Karp on lists of neighbours for each probe, then
// one augmenting path for each candidate translator.

use crate::grades::{Order, Points, Ratings, Sheet};
use std::collections::VecDeque;

/// The lowest code and the translators from 1, or none where there is no full plan; and the members
/// of a tight or short set.
pub struct Found {
    pub best: Option<(u32, Vec<u16>)>,
    pub set: Vec<u8>,
}

pub fn solve(sheet: &Sheet) -> Found {
    if sheet.kind == 2 { solve_kind::<Ratings>(sheet) } else { solve_kind::<Points>(sheet) }
}

/// Height of each pair, none where it has no valid grade.
fn heights<O: Order>(sheet: &Sheet) -> Vec<Vec<Option<u32>>> {
    (0..sheet.packages)
        .map(|k| {
            (0..sheet.translators)
                .map(|j| Some(sheet.at(k, j)).filter(|&code| O::valid(code)).map(O::height))
                .collect()
        })
        .collect()
}

fn solve_kind<O: Order>(sheet: &Sheet) -> Found {
    let heights = heights::<O>(sheet);
    let mut distinct: Vec<u32> = heights.iter().flatten().copied().flatten().collect();
    distinct.sort_unstable();
    distinct.dedup();
    let mut set = vec![0; sheet.packages];
    set[0] = 1;
    // in `low..high` the first floor is known to have a full matching, and `high` not to
    let (mut low, mut high) = (0, distinct.len());
    let mut best = None;
    while low < high {
        let middle = if best.is_none() { low } else { low + (high - low) / 2 };
        let graph = Graph::at_floor(&heights, sheet.translators, distinct[middle]);
        let matching = graph.hopcroft_karp();
        if matching.is_full() {
            best = Some((middle, graph, matching));
            low = middle + 1;
        } else {
            set = graph.stuck_set(&matching);
            high = middle;
        }
    }
    let Some((at, graph, mut matching)) = best else {
        return Found { best: None, set };
    };
    graph.first_by_number(&mut matching);
    let plan: Vec<usize> = matching.of_package.iter().map(|j| j.unwrap()).collect();
    let lowest = (0..sheet.packages).find(|&k| heights[k][plan[k]] == Some(distinct[at])).unwrap();
    Found {
        best: Some((sheet.at(lowest, plan[lowest]), plan.iter().map(|&j| j as u16 + 1).collect())),
        set,
    }
}

struct Graph {
    neighbours: Vec<Vec<usize>>,
    translators: usize,
}

struct Matching {
    of_package: Vec<Option<usize>>,
    of_translator: Vec<Option<usize>>,
}

impl Matching {
    fn is_full(&self) -> bool {
        self.of_package.iter().all(Option::is_some)
    }

    fn pair(&mut self, k: usize, j: usize) {
        self.of_package[k] = Some(j);
        self.of_translator[j] = Some(k);
    }
}

impl Graph {
    fn at_floor(heights: &[Vec<Option<u32>>], translators: usize, floor: u32) -> Graph {
        let neighbours = heights
            .iter()
            .map(|row| {
                (0..translators).filter(|&j| row[j].is_some_and(|height| height >= floor)).collect()
            })
            .collect();
        Graph { neighbours, translators }
    }

    fn hopcroft_karp(&self) -> Matching {
        let mut matching = Matching {
            of_package: vec![None; self.neighbours.len()],
            of_translator: vec![None; self.translators],
        };
        while let Some(mut levels) = self.levels(&matching) {
            for k in 0..self.neighbours.len() {
                if matching.of_package[k].is_none() {
                    self.descend(k, &mut levels, &mut matching);
                }
            }
        }
        matching
    }

    /// Levels of packages by breadth from the free ones, if a free translator is in reach.
    fn levels(&self, matching: &Matching) -> Option<Vec<usize>> {
        let mut levels = vec![usize::MAX; self.neighbours.len()];
        let mut queue = VecDeque::new();
        for (k, pair) in matching.of_package.iter().enumerate() {
            if pair.is_none() {
                levels[k] = 0;
                queue.push_back(k);
            }
        }
        let mut reached = false;
        while let Some(k) = queue.pop_front() {
            for &j in &self.neighbours[k] {
                match matching.of_translator[j] {
                    None => reached = true,
                    Some(other) if levels[other] == usize::MAX => {
                        levels[other] = levels[k] + 1;
                        queue.push_back(other);
                    }
                    Some(_) => {}
                }
            }
        }
        reached.then_some(levels)
    }

    fn descend(&self, k: usize, levels: &mut [usize], matching: &mut Matching) -> bool {
        for &j in &self.neighbours[k] {
            let free = match matching.of_translator[j] {
                None => true,
                Some(other) => levels[other] == levels[k] + 1 && self.descend(other, levels, matching),
            };
            if free {
                matching.pair(k, j);
                return true;
            }
        }
        levels[k] = usize::MAX;
        false
    }

    /// The packages in reach of one free package by alternating paths.
    fn stuck_set(&self, matching: &Matching) -> Vec<u8> {
        let mut set = vec![0; self.neighbours.len()];
        let free = matching.of_package.iter().position(Option::is_none).unwrap();
        set[free] = 1;
        let mut queue = VecDeque::from([free]);
        while let Some(k) = queue.pop_front() {
            for &j in &self.neighbours[k] {
                let other = matching.of_translator[j].unwrap();
                if set[other] == 0 {
                    set[other] = 1;
                    queue.push_back(other);
                }
            }
        }
        set
    }

    /// Package by package the smallest translator that leaves the others one each.
    fn first_by_number(&self, matching: &mut Matching) {
        let mut fixed = vec![false; self.translators];
        for k in 0..self.neighbours.len() {
            for &j in &self.neighbours[k] {
                if matching.of_package[k] == Some(j) || !fixed[j] && self.moved(k, j, &fixed, matching) {
                    break;
                }
            }
            fixed[matching.of_package[k].unwrap()] = true;
        }
    }

    /// Gives package k the translator j if whoever has it finds another, the old one of k included.
    fn moved(&self, k: usize, j: usize, fixed: &[bool], matching: &mut Matching) -> bool {
        let old = matching.of_package[k].unwrap();
        matching.of_translator[old] = None;
        if let Some(other) = matching.of_translator[j] {
            let mut visited = fixed.to_vec();
            visited[j] = true;
            if !self.augment(other, &mut visited, matching) {
                matching.of_translator[old] = Some(k);
                return false;
            }
        }
        matching.pair(k, j);
        true
    }

    fn augment(&self, k: usize, visited: &mut [bool], matching: &mut Matching) -> bool {
        for &j in &self.neighbours[k] {
            if visited[j] {
                continue;
            }
            visited[j] = true;
            let free = match matching.of_translator[j] {
                None => true,
                Some(other) => self.augment(other, visited, matching),
            };
            if free {
                matching.pair(k, j);
                return true;
            }
        }
        false
    }
}
