// The page program by its rules alone, written apart from the product: one page of calls in text,
// points, table book, and the output that the rules determine.

use crate::grades::Sheet;
use crate::packed::{self, Solver};

const MOST_BYTES: usize = 32_768;

/// The output for an input, byte for byte.
pub fn output(solver: &mut Solver, input: &[u8]) -> Vec<u8> {
    if input.len() > MOST_BYTES {
        return b"too long\n".to_vec();
    }
    let mut lines = lines(input).into_iter();
    let mut out = String::new();
    let mut page = match open(lines.next().unwrap_or(b"")) {
        Ok(page) => page,
        Err(answer) => return format!("{answer}\n").into_bytes(),
    };
    out.push_str("ok\n");
    for line in lines {
        out.push_str(&page.answer(solver, line));
        out.push('\n');
    }
    if page.slip.is_some() {
        out.push_str("withdrawn\n");
    }
    out.into_bytes()
}

/// A line ends at byte 0A or at the end; a last 0A begins no further line.
fn lines(input: &[u8]) -> Vec<&[u8]> {
    let mut lines: Vec<&[u8]> = input.split(|&byte| byte == b'\n').collect();
    if lines.last().is_some_and(|last| last.is_empty()) {
        lines.pop();
    }
    lines
}

/// A word and its numbers, or none for a line of any other form.
fn parts(line: &[u8]) -> Option<(&[u8], Vec<u32>)> {
    let mut pieces = line.split(|&byte| byte == b' ');
    let word = pieces.next()?;
    let mut numbers = Vec::new();
    for piece in pieces {
        if piece.is_empty() || piece.len() > 9 || !piece.iter().all(u8::is_ascii_digit) {
            return None;
        }
        numbers.push(
            piece
                .iter()
                .fold(0, |n, digit| n * 10 + u32::from(digit - b'0')),
        );
    }
    Some((word, numbers))
}

fn open(line: &[u8]) -> Result<Page, String> {
    match parts(line) {
        Some((b"open", numbers)) if numbers.len() == 2 => {
            let (p, t) = (numbers[0], numbers[1]);
            if p < 1 || p > 48 || t < 1 || t > 64 {
                return Err("refused 1".to_string());
            }
            Ok(Page {
                sheet: Sheet::new(1, p as usize, t as usize),
                slip: None,
                published: None,
            })
        }
        _ => Err("bad line".to_string()),
    }
}

/// A plan as it is printed: the lowest code and the translators.
type Drawn = String;

struct Page {
    sheet: Sheet,
    slip: Option<Drawn>,
    published: Option<Drawn>,
}

impl Page {
    fn answer(&mut self, solver: &mut Solver, line: &[u8]) -> String {
        let Some((word, numbers)) = parts(line) else {
            return "bad line".to_string();
        };
        let answer = match (word, &numbers[..]) {
            (b"grade", &[role, package, translator, code]) => {
                self.grade(role, package, translator, code)
            }
            (b"strike", &[role, package, translator]) => self.strike(role, package, translator),
            (b"draw", &[role]) => self.draw(solver, role),
            (b"publish", &[role]) => self.decide(role == 3, true),
            (b"withdraw", &[role]) => self.decide(role == 2 || role == 3, false),
            (b"show", &[role]) => self.show(role),
            _ => return "bad line".to_string(),
        };
        answer.unwrap_or_else(|number| format!("refused {number}"))
    }

    /// Where the grade of a pair stands, if the pair is inside the sizes.
    fn cell(&mut self, package: u32, translator: u32) -> Result<&mut u32, u32> {
        let (p, t) = (self.sheet.packages as u32, self.sheet.translators as u32);
        if package < 1 || package > p || translator < 1 || translator > t {
            return Err(6);
        }
        Ok(&mut self.sheet.codes[((package - 1) * t + translator - 1) as usize])
    }

    fn grade(
        &mut self,
        role: u32,
        package: u32,
        translator: u32,
        code: u32,
    ) -> Result<String, u32> {
        if role != 2 && role != 3 {
            return Err(2);
        }
        if self.slip.is_some() {
            return Err(3);
        }
        let cell = self.cell(package, translator)?;
        if code < 1 || code > 1000 {
            return Err(7);
        }
        *cell = code;
        Ok("ok".to_string())
    }

    fn strike(&mut self, role: u32, package: u32, translator: u32) -> Result<String, u32> {
        if role != 3 {
            return Err(2);
        }
        if self.slip.is_some() {
            return Err(3);
        }
        let cell = self.cell(package, translator)?;
        if *cell == 0 {
            return Err(8);
        }
        *cell = 0;
        Ok("ok".to_string())
    }

    fn draw(&mut self, solver: &mut Solver, role: u32) -> Result<String, u32> {
        if role != 2 && role != 3 {
            return Err(2);
        }
        if self.slip.is_some() {
            return Err(3);
        }
        let mut plan = vec![0; self.sheet.packages];
        let mut set = vec![0; self.sheet.packages];
        let Some(lowest) = packed::solve(solver, &self.sheet, &mut plan, &mut set) else {
            return Ok("short".to_string());
        };
        let mut told = lowest.to_string();
        for translator in plan {
            told.push_str(&format!(" {translator}"));
        }
        let answer = format!("drawn {told}");
        self.slip = Some(told);
        Ok(answer)
    }

    /// Publish or withdraw; without a slip no call is made.
    fn decide(&mut self, has_right: bool, publish: bool) -> Result<String, u32> {
        if self.slip.is_none() {
            return Ok("no slip".to_string());
        }
        if !has_right {
            return Err(2);
        }
        let drawn = self.slip.take();
        if publish {
            self.published = drawn;
        }
        Ok("ok".to_string())
    }

    fn show(&self, role: u32) -> Result<String, u32> {
        if role < 1 || role > 3 {
            return Err(2);
        }
        match &self.published {
            Some(told) => Ok(format!("shown {told}")),
            None => Err(8),
        }
    }
}
