// A wide run beside an independent implementation of the rules: random and damaged pages through the
// page program and through the exported functions, and random sheets through the exported plan.
//
// Words: the path of the program, a seed, and how many pages go through the program, pages through
// the exported function, and sheets.

mod checker;
mod exported;
mod grades;
mod page;
mod pages;
mod packed;
mod random;

use packed::Solver;
use random::Random;
use std::collections::BTreeMap;
use std::io::Write;
use std::process::{Command, Stdio, exit};

/// What the page program writes for an input.
fn program(path: &str, input: &[u8]) -> Result<Vec<u8>, String> {
    let mut child = Command::new(path)
        .stdin(Stdio::piped())
        .stdout(Stdio::piped())
        .spawn()
        .map_err(|e| format!("cannot run {path}: {e}"))?;
    let mut stdin = child.stdin.take().ok_or("no standard input")?;
    let text = input.to_vec();
    // The program may stop reading where the input is too long, so a failed write is no fault.
    let writer = std::thread::spawn(move || drop(stdin.write_all(&text)));
    let done = child
        .wait_with_output()
        .map_err(|e| format!("{path}: {e}"))?;
    writer.join().map_err(|_| "the writer failed")?;
    if !done.status.success() {
        return Err(format!("{path} ended with {}", done.status));
    }
    Ok(done.stdout)
}

fn shown(bytes: &[u8]) -> String {
    bytes.escape_ascii().to_string().replace("\\n", "\\n\n    ")
}

/// The page and both outputs of a difference.
pub fn page_difference(input: &[u8], product: &[u8], rules: &[u8]) -> String {
    format!(
        "the outputs differ\n  page ({} bytes):\n    {}\n  product:\n    {}\n  by the rules:\n    {}",
        input.len(),
        shown(input),
        shown(product),
        shown(rules)
    )
}

/// How often each kind of answer came, so that a run shows what it went through.
#[derive(Default)]
struct Tally(BTreeMap<String, u64>);

impl Tally {
    fn add(&mut self, output: &[u8]) {
        for line in output
            .split(|&byte| byte == b'\n')
            .filter(|line| !line.is_empty())
        {
            let text = String::from_utf8_lossy(line);
            let kind = match text.split(' ').next() {
                Some(word @ ("drawn" | "shown")) => word.to_string(),
                _ => text.to_string(),
            };
            *self.0.entry(kind).or_default() += 1;
        }
    }

    /// Every answer that a page can have must have come up.
    fn check(&self) -> Result<(), String> {
        let all = [
            "ok",
            "drawn",
            "short",
            "shown",
            "refused 1",
            "refused 2",
            "refused 3",
            "refused 6",
            "refused 7",
            "refused 8",
            "bad line",
            "no slip",
            "withdrawn",
            "too long",
        ];
        match all.iter().find(|kind| !self.0.contains_key(**kind)) {
            Some(kind) => Err(format!("no page was answered '{kind}': take more pages")),
            None => Ok(()),
        }
    }
}

struct Words {
    path: String,
    seed: u64,
    programs: u64,
    pages: u64,
    sheets: u64,
}

fn words() -> Option<Words> {
    let mut args = std::env::args().skip(1);
    let path = args.next()?;
    let mut number = || args.next()?.parse().ok();
    let words = Words {
        path,
        seed: number()?,
        programs: number()?,
        pages: number()?,
        sheets: number()?,
    };
    if args.next().is_some() {
        None
    } else {
        Some(words)
    }
}

/// The page of a number: it can be made again from the seed and its number alone.
fn page_of(seed: u64, number: u64) -> Vec<u8> {
    pages::page(&mut Random::new(
        seed.wrapping_mul(1_000_003).wrapping_add(number),
    ))
}

fn run(words: &Words) -> Result<(), String> {
    let mut solver = Solver::new();
    let mut tally = Tally::default();
    println!("seed {}", words.seed);
    for number in 1..=words.programs {
        let input = page_of(words.seed, number);
        let rules = page::output(&mut solver, &input);
        let product = program(&words.path, &input)?;
        if product != rules {
            return Err(format!(
                "page {number}: {}",
                page_difference(&input, &product, &rules)
            ));
        }
        tally.add(&rules);
    }
    println!(
        "{} pages through the program: no difference",
        words.programs
    );
    for number in 1..=words.pages {
        let input = page_of(words.seed, number);
        let rules = page::output(&mut solver, &input);
        exported::compare_page(words.seed, number, &input, &rules)
            .map_err(|e| format!("page {number}: {e}"))?;
        tally.add(&rules);
    }
    println!(
        "{} pages through the exported function: no difference",
        words.pages
    );
    let outcomes = exported::compare_sheets(&mut solver, words.seed, words.sheets)?;
    println!(
        "{} sheets through the exported plan: no difference",
        words.sheets
    );
    println!("  answers: {outcomes}");
    println!("  answer lines of the pages:");
    for (kind, count) in &tally.0 {
        println!("  {count:>8} {kind}");
    }
    tally.check()
}

fn main() {
    let Some(words) = words() else {
        eprintln!("usage: wide PROGRAM SEED PAGES-BY-PROGRAM PAGES SHEETS");
        exit(2);
    };
    if let Err(error) = run(&words) {
        println!("DIFFERENCE, seed {}: {error}", words.seed);
        exit(1);
    }
}
