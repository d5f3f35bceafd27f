// Calls the planning sheet from Rust: worked sheets, a short one, refused ones, and a page of text.
use std::io::Write;

mod planning_sheet {
    // Nothing checks these declarations against the source; planning_sheet.h says what they mean.
    unsafe extern "C" {
        fn planning_sheet_plan(
            kind: u32,
            packages: u32,
            translators: u32,
            codes: *const u32,
            codes_length: usize,
            plan: *mut u16,
            plan_length: usize,
            set: *mut u8,
            set_length: usize,
            lowest: *mut u32,
        ) -> u32;

        fn planning_sheet_page(
            input: *const u8,
            input_length: usize,
            output: *mut u8,
            output_length: usize,
            length: *mut usize,
        ) -> u32;
    }

    pub struct Sheet<'a> {
        pub kind: u32,
        pub packages: u32,
        pub translators: u32,
        pub codes: &'a [u32],
    }

    pub fn plan(sheet: &Sheet, plan: &mut [u16], set: &mut [u8], lowest: &mut u32) -> u32 {
        // SAFETY: borrowed slices are valid and aligned, and none that is `&mut` overlaps another.
        unsafe {
            planning_sheet_plan(
                sheet.kind,
                sheet.packages,
                sheet.translators,
                sheet.codes.as_ptr(),
                sheet.codes.len(),
                plan.as_mut_ptr(),
                plan.len(),
                set.as_mut_ptr(),
                set.len(),
                lowest,
            )
        }
    }

    pub fn page(input: &[u8], output: &mut [u8], length: &mut usize) -> u32 {
        // SAFETY: as above.
        unsafe {
            planning_sheet_page(
                input.as_ptr(),
                input.len(),
                output.as_mut_ptr(),
                output.len(),
                length,
            )
        }
    }
}

use planning_sheet::Sheet;

const ROOM: usize = 4;

fn spaced<T: ToString>(items: &[T]) -> String {
    let words: Vec<String> = items.iter().map(T::to_string).collect();
    words.join(" ")
}

// One call, and what the places lent to it hold afterwards. Each place begins as 77. Where more
// than one set may be written the set is not shown.
fn show_plan(name: &str, sheet: Sheet, one_set: bool) {
    let mut plan = [77u16; ROOM];
    let mut set = [77u8; ROOM];
    let mut lowest = 77;
    let answer = planning_sheet::plan(&sheet, &mut plan, &mut set, &mut lowest);
    print!("{name}: {answer}, lowest {lowest}, plan {}", spaced(&plan));
    if one_set {
        print!(", set {}", spaced(&set));
    }
    println!();
}

fn show_page(input: &[u8]) -> std::io::Result<()> {
    let mut output = [b'#'; 256];
    let mut length = 0;
    let answer = planning_sheet::page(input, &mut output[..4], &mut length);
    let start = String::from_utf8_lossy(&output[..4]);
    println!("page, room for 4: {answer}, length {length}, {start}");
    let answer = planning_sheet::page(input, &mut output, &mut length);
    let next = output[length] as char;
    println!("page, room for 256: {answer}, length {length}, then {next}");
    std::io::stdout().write_all(&output[..length])
}

fn sheet(kind: u32, packages: u32, translators: u32, codes: &[u32]) -> Sheet<'_> {
    Sheet {
        kind,
        packages,
        translators,
        codes,
    }
}

fn main() -> std::io::Result<()> {
    let rising = [1, 3, 2, 4];
    let ratings = [1, 2562, 2306, 5120002];
    let crowded = [1000; 6];
    show_plan("points, 2 by 2", sheet(1, 2, 2, &rising), true);
    show_plan("ratings, 2 by 2", sheet(2, 2, 2, &ratings), false);
    show_plan("points, 3 by 2", sheet(1, 3, 2, &crowded), true);
    show_plan("points, 1 by 1, no grade", sheet(1, 1, 1, &[0]), true);
    show_plan("points, 49 by 2", sheet(1, 49, 2, &rising), true);
    show_plan(
        "points, a code of 1001",
        sheet(1, 2, 2, &[1, 3, 2, 1001]),
        true,
    );
    show_plan("kind 3", sheet(3, 2, 2, &rising), true);
    show_plan("points, 3 codes of 4", sheet(1, 2, 2, &rising[..3]), true);
    show_plan(
        "points, 5 packages, room for 4",
        sheet(1, 5, 1, &crowded),
        true,
    );
    show_page(
        b"open 2 2\ngrade 2 1 1 700\ngrade 2 1 2 400\ndraw 2\ngrade 2 2 1 650\n\
          draw 2\npublish 2\npublish 3\nshow 1\n",
    )
}
