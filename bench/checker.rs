// Any answer held to the rules by counting.

use crate::grades::{Order, Points, Ratings, Sheet};

/// Holds an answer to the rules: a full plan, its lowest grade, and a tight or short set by counting.
pub fn check_answer(
    sheet: &Sheet,
    lowest: Option<u32>,
    plan: &[u16],
    set: &[u8],
) -> Result<(), String> {
    if sheet.kind == 2 {
        check_kind::<Ratings>(sheet, lowest, plan, set)
    } else {
        check_kind::<Points>(sheet, lowest, plan, set)
    }
}

fn check_kind<O: Order>(
    sheet: &Sheet,
    lowest: Option<u32>,
    plan: &[u16],
    set: &[u8],
) -> Result<(), String> {
    if let Some(code) = lowest {
        check_plan::<O>(sheet, code, plan)?;
    }
    let mut members = 0;
    for k in 0..sheet.packages {
        match set[k] {
            0 => {}
            1 => members += 1,
            other => return Err(format!("byte {other} in the set")),
        }
    }
    let counts = |code: u32| {
        O::valid(code) && lowest.map_or(true, |bottleneck| O::height(code) > O::height(bottleneck))
    };
    let reached = (0..sheet.translators)
        .filter(|&j| (0..sheet.packages).any(|k| set[k] == 1 && counts(sheet.at(k, j))))
        .count();
    if reached + 1 != members {
        return Err(format!(
            "a set of {members} packages that reaches {reached} translators"
        ));
    }
    Ok(())
}

fn check_plan<O: Order>(sheet: &Sheet, lowest: u32, plan: &[u16]) -> Result<(), String> {
    let mut taken = vec![false; sheet.translators];
    let mut held = false;
    for k in 0..sheet.packages {
        let j = plan[k] as usize;
        if j < 1 || j > sheet.translators {
            return Err(format!("package {} has translator {j}", k + 1));
        }
        if std::mem::replace(&mut taken[j - 1], true) {
            return Err(format!("translator {j} is named twice"));
        }
        let code = sheet.at(k, j - 1);
        if !O::valid(code) {
            return Err(format!(
                "package {} has no grade with translator {j}",
                k + 1
            ));
        }
        if O::height(code) < O::height(lowest) {
            return Err(format!(
                "grade {code} of package {} is below {lowest}",
                k + 1
            ));
        }
        held = held || code == lowest;
    }
    if held {
        Ok(())
    } else {
        Err(format!("no pair of the plan has grade {lowest}"))
    }
}
