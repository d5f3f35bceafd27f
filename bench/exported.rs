// The functions that the product exports for C, held to the rules.

use crate::checker;
use crate::grades::{Order, Points, Ratings, Sheet};
use crate::page_difference;
use crate::packed::{self, Solver};
use crate::random::Random;
use std::collections::BTreeMap;

unsafe extern "C" {
    fn planning_sheet_plan(
        kind: u32,
        packages: u32,
        translators: u32,
        codes: *const u32,
        codes_len: usize,
        plan: *mut u16,
        plan_len: usize,
        set: *mut u8,
        set_len: usize,
        lowest: *mut u32,
    ) -> u32;

    fn planning_sheet_page(
        input: *const u8,
        input_len: usize,
        output: *mut u8,
        output_len: usize,
        length: *mut usize,
    ) -> u32;
}

const SPACE: u32 = 9;
const SHORT: u32 = 100;
/// What buffers hold before a call.
const UNTOUCHED: u8 = 0xA5;
const UNTOUCHED_NUMBER: u32 = 0xDEAD_BEEF;

/// One page: with room to spare, with just enough, and with a byte too few.
pub fn compare_page(seed: u64, number: u64, input: &[u8], rules: &[u8]) -> Result<(), String> {
    let mut random = Random::new(seed ^ number.wrapping_mul(77));
    let short = random.below(rules.len());
    for room in [
        rules.len() + random.below(100),
        rules.len(),
        rules.len() - 1,
        short,
    ] {
        let mut output = vec![UNTOUCHED; room];
        let mut length = usize::MAX;
        // SAFETY: each pointer goes with the length of its own slice, and none of them overlap.
        let answer = unsafe {
            planning_sheet_page(
                input.as_ptr(),
                input.len(),
                output.as_mut_ptr(),
                output.len(),
                &mut length,
            )
        };
        let wanted = if room < rules.len() { SPACE } else { 0 };
        let written = if answer == 0 { length.min(room) } else { 0 };
        if output[written..].iter().any(|&byte| byte != UNTOUCHED) {
            return Err(format!("bytes past {written} of {room} were written"));
        }
        if answer == 0 && output[..written] != *rules {
            return Err(page_difference(input, &output[..written], rules));
        }
        if answer != wanted || length != rules.len() {
            return Err(format!(
                "with room for {room} bytes it answers {answer} and length {length}, and should {wanted} and {}\n{}",
                rules.len(),
                page_difference(input, &output[..written], rules)
            ));
        }
    }
    Ok(())
}

/// A call of the exported plan, right or not.
#[derive(Debug)]
struct Call {
    kind: u32,
    packages: u32,
    translators: u32,
    codes: Vec<u32>,
    plan_len: usize,
    set_len: usize,
}

impl Call {
    /// The refusal by the rules of the interface, in their order, or none.
    fn refusal(&self) -> Option<u32> {
        if self.packages < 1 || self.packages > 48 || self.translators < 1 || self.translators > 64
        {
            return Some(1);
        }
        let cells = (self.packages * self.translators) as usize;
        let valid = |code: u32| match self.kind {
            1 => Points::valid(code),
            2 => Ratings::valid(code),
            _ => false,
        };
        if !(1..=2).contains(&self.kind)
            || self
                .codes
                .iter()
                .take(cells)
                .any(|&code| code != 0 && !valid(code))
        {
            return Some(7);
        }
        let p = self.packages as usize;
        if self.plan_len < p || self.set_len < p || self.codes.len() < cells {
            return Some(SPACE);
        }
        None
    }
}

fn valid_code(random: &mut Random, kind: u32, spread: usize) -> u32 {
    if kind == 2 {
        1 + random.below(4) as u32 + 256 * random.below(spread * 20 + 1) as u32
    } else {
        1 + random.below(spread) as u32
    }
}

fn call(random: &mut Random) -> Call {
    let kind = 1 + random.below(2) as u32;
    let (p, t) = match random.below(4) {
        0 => (1 + random.below(48), 1 + random.below(64)),
        1 => {
            let p = 1 + random.below(48);
            (p, (p + random.below(4)).min(64))
        }
        _ => (1 + random.below(6), 1 + random.below(7)),
    };
    let spread = [1, 3, 30, 1000][random.below(4)];
    let dense = [10, 40, 80, 100][random.below(4)];
    let codes = (0..p * t)
        .map(|_| {
            if random.percent(dense) {
                valid_code(random, kind, spread)
            } else {
                0
            }
        })
        .collect();
    let mut call = Call {
        kind,
        packages: p as u32,
        translators: t as u32,
        codes,
        plan_len: p + random.below(3),
        set_len: p + random.below(3),
    };
    if random.percent(25) {
        for _ in 0..1 + random.below(2) {
            damage(random, &mut call);
        }
    }
    call
}

fn damage(random: &mut Random, call: &mut Call) {
    let p = call.packages.min(48) as usize;
    match random.below(9) {
        0 => call.packages = [0, 49, 256 + call.packages, u32::MAX][random.below(4)],
        1 => call.translators = [0, 65, 256 + call.translators, 1 << 31][random.below(4)],
        2 => call.kind = [0, 3, 257, 258, u32::MAX][random.below(5)],
        3 | 4 if !call.codes.is_empty() => {
            let at = random.below(call.codes.len());
            call.codes[at] = match random.below(4) {
                0 => 1001,
                1 => 5 + 256 * random.below(20_001) as u32,
                2 => 1 + 256 * 20_001,
                _ => 256 * random.below(20_001) as u32,
            };
        }
        5 => call.plan_len = random.below(p + 1),
        6 => call.set_len = random.below(p + 1),
        7 => call.codes.truncate(random.below(call.codes.len() + 1)),
        _ => call.codes.extend([0, 1].iter().take(1 + random.below(2))),
    }
}

/// Makes the call and holds its answer and all that it wrote to the rules.
fn compare(solver: &mut Solver, call: &Call) -> Result<u32, String> {
    let old = u16::from(UNTOUCHED);
    let mut plan = vec![old; call.plan_len];
    let mut set = vec![UNTOUCHED; call.set_len];
    let mut lowest = UNTOUCHED_NUMBER;
    // SAFETY: each pointer goes with the length of its own slice, and none of them overlap.
    let answer = unsafe {
        planning_sheet_plan(
            call.kind,
            call.packages,
            call.translators,
            call.codes.as_ptr(),
            call.codes.len(),
            plan.as_mut_ptr(),
            plan.len(),
            set.as_mut_ptr(),
            set.len(),
            &mut lowest,
        )
    };
    if let Some(number) = call.refusal() {
        if answer != number {
            return Err(format!("answers {answer} and should {number}"));
        }
        if plan.iter().any(|&n| n != old)
            || set.iter().any(|&b| b != UNTOUCHED)
            || lowest != UNTOUCHED_NUMBER
        {
            return Err(format!("refused with {number}, but something was written"));
        }
        return Ok(number);
    }
    let p = call.packages as usize;
    let mut sheet = Sheet::new(call.kind, p, call.translators as usize);
    let cells = sheet.codes.len();
    sheet.codes.copy_from_slice(&call.codes[..cells]);
    let mut best = vec![old; p];
    let wanted = packed::solve(solver, &sheet, &mut best, &mut vec![0; p]);
    if answer != if wanted.is_some() { 0 } else { SHORT } {
        return Err(format!(
            "answers {answer} where the lowest grade is {wanted:?}"
        ));
    }
    checker::check_answer(&sheet, wanted, &plan, &set)?;
    if plan[..p] != best[..] || wanted.is_some_and(|code| code != lowest) {
        return Err(format!(
            "plan {:?} with {lowest} and should be {best:?} with {wanted:?}",
            &plan[..p]
        ));
    }
    if wanted.is_none() && lowest != UNTOUCHED_NUMBER {
        return Err(format!("short, but the lowest code was set to {lowest}"));
    }
    if plan[p..].iter().any(|&n| n != old) || set[p..].iter().any(|&b| b != UNTOUCHED) {
        return Err("a place past the packages was written".to_string());
    }
    Ok(answer)
}

/// That many random calls; answers how often each answer came.
pub fn compare_sheets(solver: &mut Solver, seed: u64, sheets: u64) -> Result<String, String> {
    let mut outcomes = BTreeMap::new();
    for number in 1..=sheets {
        let call = call(&mut Random::new(
            seed.wrapping_mul(2_000_003).wrapping_add(number),
        ));
        let answer =
            compare(solver, &call).map_err(|e| format!("sheet {number}: {e}\n  {call:?}"))?;
        *outcomes.entry(answer).or_insert(0u64) += 1;
    }
    for answer in [0, 1, 7, SPACE, SHORT] {
        if !outcomes.contains_key(&answer) {
            return Err(format!("no sheet was answered {answer}: take more sheets"));
        }
    }
    Ok(outcomes
        .iter()
        .map(|(answer, count)| format!("{answer} x {count}"))
        .collect::<Vec<_>>()
        .join(", "))
}
