// The whole plan of a sheet: the product's matching beside a plain implementation and a tuned one, on
// the same sheets in one run. Every answer is compared before anything is timed.

mod checker;
mod grades;
mod packed;
mod plain;
mod random;
mod sheets;

use grades::Sheet;
use packed::Solver;
use std::hint::black_box;

/// Seconds and nanoseconds, as the C library has them on 64-bit Linux.
#[repr(C)]
struct TimeSpec {
    seconds: i64,
    nanoseconds: i64,
}

const THREAD_CPU_TIME: i32 = 3;

unsafe extern "C" {
    fn clock_gettime(clock: i32, time: *mut TimeSpec) -> i32;

    fn timing_table_plan(
        kind: u32,
        packages: u32,
        translators: u32,
        codes: *const u32,
        codes_len: usize,
        repeats: u32,
        plan: *mut u16,
        plan_len: usize,
        set: *mut u8,
        set_len: usize,
        lowest: *mut u32,
    ) -> u32;

    fn timing_list_plan(
        kind: u32,
        packages: u32,
        translators: u32,
        codes: *const u32,
        codes_len: usize,
        repeats: u32,
        plan: *mut u16,
        plan_len: usize,
        set: *mut u8,
        set_len: usize,
        lowest: *mut u32,
    ) -> u32;
}

#[derive(Clone, Copy, PartialEq)]
enum Book {
    Table,
    List,
}

#[derive(PartialEq)]
struct Answer {
    lowest: Option<u32>,
    plan: Vec<u16>,
    set: Vec<u8>,
}

/// The product's answer, its plan made that many times over.
fn product(book: Book, sheet: &Sheet, repeats: u32) -> Result<Answer, String> {
    let call = match book {
        Book::Table => timing_table_plan,
        Book::List => timing_list_plan,
    };
    let mut plan = vec![0u16; sheet.packages];
    let mut set = vec![9u8; sheet.packages];
    let mut lowest = 0;
    // SAFETY: each pointer goes with the length of its own slice, and none of them overlap.
    let answer = unsafe {
        call(
            sheet.kind,
            sheet.packages as u32,
            sheet.translators as u32,
            sheet.codes.as_ptr(),
            sheet.codes.len(),
            repeats,
            plan.as_mut_ptr(),
            plan.len(),
            set.as_mut_ptr(),
            set.len(),
            &mut lowest,
        )
    };
    match answer {
        0 => Ok(Answer {
            lowest: Some(lowest),
            plan,
            set,
        }),
        100 => Ok(Answer {
            lowest: None,
            plan,
            set,
        }),
        number => Err(format!("the product refused the sheet with {number}")),
    }
}

fn plain_answer(sheet: &Sheet, repeats: u32) -> Answer {
    let mut found = plain::solve(sheet);
    for _ in 1..repeats {
        found = black_box(plain::solve(black_box(sheet)));
    }
    let (lowest, plan) = match found.best {
        Some((code, plan)) => (Some(code), plan),
        None => (None, vec![0; sheet.packages]),
    };
    Answer {
        lowest,
        plan,
        set: found.set,
    }
}

fn packed_answer(solver: &mut Solver, sheet: &Sheet, repeats: u32) -> Answer {
    let mut plan = vec![0u16; sheet.packages];
    let mut set = vec![9u8; sheet.packages];
    let mut lowest = None;
    for _ in 0..repeats {
        lowest = packed::solve(solver, black_box(sheet), &mut plan, &mut set);
        black_box((&mut plan, &mut set));
    }
    Answer { lowest, plan, set }
}

fn compare(book: Book, solver: &mut Solver, sheet: &Sheet) -> Result<Answer, String> {
    let ours = product(book, sheet, 1)?;
    checker::check_answer(sheet, ours.lowest, &ours.plan, &ours.set)
        .map_err(|e| format!("product: {e}"))?;
    let others = [
        ("plain", plain_answer(sheet, 1)),
        ("packed", packed_answer(solver, sheet, 1)),
    ];
    for (name, theirs) in others {
        checker::check_answer(sheet, theirs.lowest, &theirs.plan, &theirs.set)
            .map_err(|e| format!("{name}: {e}"))?;
        if ours.lowest != theirs.lowest || ours.plan != theirs.plan {
            return Err(format!(
                "the answers differ: product {:?} {:?}, {name} {:?} {:?}",
                ours.lowest, ours.plan, theirs.lowest, theirs.plan
            ));
        }
    }
    if product(book, sheet, 3)? != ours {
        return Err("three turns answer otherwise than one".to_string());
    }
    Ok(ours)
}

const RUNS: usize = 7;

/// Processor time of this thread in microseconds: what other programs take does not count.
fn now() -> f64 {
    let mut time = TimeSpec {
        seconds: 0,
        nanoseconds: 0,
    };
    // SAFETY: the pointer is to a value of the C library's own layout.
    unsafe { clock_gettime(THREAD_CPU_TIME, &mut time) };
    time.seconds as f64 * 1e6 + time.nanoseconds as f64 / 1e3
}

fn timed(run: &mut dyn FnMut(u32), repeats: u32) -> f64 {
    let start = now();
    run(repeats);
    now() - start
}

/// How many more repeats take about three milliseconds.
fn more_repeats(run: &mut dyn FnMut(u32)) -> u32 {
    let rough = (timed(run, 17) - timed(run, 1)) / 16.0;
    (3_000.0 / rough.max(0.2)).clamp(8.0, 20_000.0) as u32
}

/// Microseconds of one plan of each, in turns: what more repeats cost over a single one, so that
/// filling the book and making the buffers do not count.
fn time_each<const N: usize>(mut each: [&mut dyn FnMut(u32); N]) -> [f64; N] {
    let more: Vec<u32> = each.iter_mut().map(|run| more_repeats(*run)).collect();
    let mut times = vec![Vec::new(); N];
    for _ in 0..RUNS {
        for (n, run) in each.iter_mut().enumerate() {
            times[n].push((timed(*run, more[n] + 1) - timed(*run, 1)) / f64::from(more[n]));
        }
    }
    std::array::from_fn(|n| median(times[n].clone()))
}

fn median(mut values: Vec<f64>) -> f64 {
    values.sort_by(f64::total_cmp);
    values[values.len() / 2]
}

fn load() -> String {
    std::fs::read_to_string("/proc/loadavg")
        .map_or("unknown".to_string(), |text| text.trim().to_string())
}

/// How the time of a call grows with its repeats: no turn is dropped or hoisted.
fn growth(sheet: &Sheet) -> Result<(), String> {
    print!("one call, 48 x 64 full random points, table book, microseconds by repeats:");
    for repeats in [1, 10, 100, 1000] {
        let mut times = Vec::new();
        for _ in 0..7 {
            let start = now();
            black_box(product(Book::Table, black_box(sheet), repeats)?);
            times.push(now() - start);
        }
        print!("  {repeats}: {:.1}", median(times));
    }
    println!();
    Ok(())
}

fn run() -> Result<(), String> {
    println!("load averages before: {}", load());
    println!(
        "seeds of each class: 1 to {}; microseconds of processor time for one plan,",
        sheets::SEEDS
    );
    println!("medians over the sheets of medians of {RUNS} runs; then how many times as fast the");
    println!("product is as the plain one (median and worst sheet) and as the packed one");
    let mut solver = Solver::new();
    growth(&sheets::full(48, 64, 1))?;
    println!(
        "{:<31} {:<6} {:>7} {:>5} {:>8} {:>8} {:>8} {:>8} {:>6} {:>9}",
        "sheets",
        "book",
        "planned",
        "short",
        "product",
        "plain",
        "packed",
        "by plain",
        "worst",
        "by packed"
    );
    for class in sheets::CLASSES {
        run_class(class, &mut solver)?;
    }
    println!("load averages after: {}", load());
    Ok(())
}

fn run_class(class: &sheets::Class, solver: &mut Solver) -> Result<(), String> {
    let books = if class.listed {
        &[Book::List, Book::Table][..]
    } else {
        &[Book::Table][..]
    };
    for &book in books {
        let (mut planned, mut short) = (0, 0);
        let mut times: [Vec<f64>; 3] = Default::default();
        for seed in 1..=sheets::SEEDS {
            let sheet = (class.make)(seed);
            let answer = compare(book, solver, &sheet)
                .map_err(|e| format!("{}, seed {seed}: {e}", class.name))?;
            if answer.lowest.is_some() {
                planned += 1
            } else {
                short += 1
            }
            let each = time_each([
                &mut |repeats| {
                    black_box(product(book, black_box(&sheet), repeats)).ok();
                },
                &mut |repeats| {
                    black_box(plain_answer(&sheet, repeats));
                },
                &mut |repeats| {
                    black_box(packed_answer(solver, &sheet, repeats));
                },
            ]);
            for (n, time) in each.into_iter().enumerate() {
                times[n].push(time);
            }
        }
        let faster = |n: usize| -> Vec<f64> {
            let pairs = times[0].iter().zip(&times[n]);
            pairs.map(|(ours, theirs)| theirs / ours).collect()
        };
        println!(
            "{:<31} {:<6} {planned:>7} {short:>5} {:>8.2} {:>8.2} {:>8.2} {:>8.1} {:>6.1} {:>9.1}",
            class.name,
            if book == Book::Table { "table" } else { "list" },
            median(times[0].clone()),
            median(times[1].clone()),
            median(times[2].clone()),
            median(faster(1)),
            faster(1).into_iter().fold(f64::INFINITY, f64::min),
            median(faster(2))
        );
    }
    Ok(())
}

fn main() {
    if let Err(error) = run() {
        println!("DIFFERENCE: {error}");
        std::process::exit(1);
    }
}
