// Random pages for the page program: good mixes of lines, damaged ones, inputs at the limit of their
// length, and bytes of no sense.

use crate::random::Random;

pub fn page(random: &mut Random) -> Vec<u8> {
    match random.below(20) {
        0 => noise(random),
        1 => at_the_limit(random),
        2 => large(random),
        3 => no_good_start(random),
        4..=11 => mixed(random).concat(),
        _ => damaged(random),
    }
}

fn role(random: &mut Random) -> u32 {
    match random.below(20) {
        0 => [0, 4, 257, 258, 259, 999_999_999][random.below(6)],
        1..=3 => 1,
        4..=10 => 2,
        _ => 3,
    }
}

/// A number from 1 to most, now and then one outside.
fn place(random: &mut Random, most: usize) -> usize {
    match random.below(40) {
        0 => 0,
        1 => most + 1,
        2 => 256 + most,
        _ => 1 + random.below(most),
    }
}

fn code(random: &mut Random, spread: usize) -> usize {
    match random.below(40) {
        0 => [0, 1001, 65_537, 999_999_999][random.below(4)],
        1 => [1, 1000][random.below(2)],
        _ => 1 + random.below(spread),
    }
}

fn sizes(random: &mut Random) -> (usize, usize) {
    match random.below(10) {
        0 => (1 + random.below(48), 1 + random.below(64)),
        1 => (1, 1),
        _ => (1 + random.below(6), 1 + random.below(8)),
    }
}

/// An opening, then lines of every kind, roughly as an office would make them.
fn mixed(random: &mut Random) -> Vec<Vec<u8>> {
    let (p, t) = sizes(random);
    let spread = [3, 20, 1000][random.below(3)];
    let mut lines = vec![format!("open {p} {t}\n").into_bytes()];
    if random.percent(70) {
        let dense = [40, 80, 100][random.below(3)];
        for k in 1..=p {
            for j in 1..=t {
                if p * t < 200 && random.percent(dense) {
                    lines.push(
                        format!("grade 2 {k} {j} {}\n", 1 + random.below(spread)).into_bytes(),
                    );
                }
            }
        }
    }
    for _ in 0..random.below(60) {
        lines.push(line(random, p, t, spread).into_bytes());
    }
    lines
}

fn line(random: &mut Random, p: usize, t: usize, spread: usize) -> String {
    let role = role(random);
    match random.below(20) {
        0..=7 => format!(
            "grade {role} {} {} {}\n",
            place(random, p),
            place(random, t),
            code(random, spread)
        ),
        8..=10 => format!("strike {role} {} {}\n", place(random, p), place(random, t)),
        11..=13 => format!("draw {role}\n"),
        14 | 15 => format!("publish {role}\n"),
        16 => format!("withdraw {role}\n"),
        17 | 18 => format!("show {role}\n"),
        _ => [
            "open 2 2\n",
            "load 3\n",
            "save 3\n",
            "\n",
            "grade\n",
            "draw\n",
            "show 1 1\n",
        ][random.below(7)]
        .to_string(),
    }
}

/// As many grades on a full-sized sheet as fit, then draws.
fn large(random: &mut Random) -> Vec<u8> {
    let mut page = b"open 48 64\n".to_vec();
    let spread = [3, 1000][random.below(2)];
    while page.len() < 32_000 {
        let text = format!(
            "grade 3 {} {} {}\n",
            1 + random.below(48),
            1 + random.below(64),
            1 + random.below(spread)
        );
        page.extend_from_slice(text.as_bytes());
    }
    page.extend_from_slice(b"draw 2\npublish 3\nshow 1\ndraw 3\n");
    page
}

/// Pages of 32,767 to 32,770 bytes, filled up with lines, blanks or one long number.
fn at_the_limit(random: &mut Random) -> Vec<u8> {
    let mut page = mixed(random).concat();
    let long = 32_767 + random.below(4);
    let filler: &[u8] =
        [&b"show 1\n"[..], b"\n", b" ", b"1", b"draw 2\nwithdraw 2\n"][random.below(5)];
    while page.len() < long {
        page.extend_from_slice(filler);
    }
    page.truncate(long);
    page
}

fn no_good_start(random: &mut Random) -> Vec<u8> {
    let start = [
        "",
        "\n",
        "open 49 1\n",
        "open 1 65\n",
        "open 0 3\n",
        "open 3 0\n",
        "open 256 2\n",
        "open 304 64\n",
        "open 48 64\n",
        "open 48 65\n",
        "open 000000048 064\n",
        "open 0000000001 1\n",
        "open 2\n",
        "open 2 2 2\n",
        "open  2 2\n",
        " open 2 2\n",
        "open 2 2 \n",
        "open 2 2\r\n",
        "OPEN 2 2\n",
        "opens 2 2\n",
        "grade 2 1 1 5\n",
        "open 999999999 999999999\n",
        "open 2 -2\n",
        "open 2 2",
        "open\t2 2\n",
        "draw 2\n",
    ];
    let mut page = start[random.below(start.len())].as_bytes().to_vec();
    for _ in 0..random.below(4) {
        page.extend_from_slice(line(random, 2, 2, 20).as_bytes());
    }
    page
}

fn noise(random: &mut Random) -> Vec<u8> {
    let alphabet: &[u8] = b"open 2 2\ngrade drawshowpublish 1234567890\n\n  \r\t";
    let all = random.percent(30);
    let mut page = if random.percent(70) {
        b"open 2 2\n".to_vec()
    } else {
        Vec::new()
    };
    for _ in 0..random.below(300) {
        page.push(if all {
            random.below(256) as u8
        } else {
            alphabet[random.below(alphabet.len())]
        });
    }
    page
}

/// A good mix with up to six things wrong, mostly after the opening.
fn damaged(random: &mut Random) -> Vec<u8> {
    let mut lines = mixed(random);
    for _ in 0..1 + random.below(6) {
        let first = if random.percent(95) && lines.len() > 1 {
            1
        } else {
            0
        };
        let at = first + random.below(lines.len() - first);
        if random.below(12) == 0 {
            let copy = lines[random.below(lines.len())].clone();
            lines.insert(at, copy);
        } else {
            damage(random, &mut lines[at]);
        }
    }
    let mut page = lines.concat();
    if random.percent(25) {
        page.pop();
    }
    page
}

fn damage(random: &mut Random, line: &mut Vec<u8>) {
    if line.is_empty() {
        return;
    }
    let at = random.below(line.len());
    let space = line.iter().position(|&byte| byte == b' ');
    match random.below(14) {
        0 => line[at] ^= 1 << random.below(8),
        1 => line[at] = random.below(256) as u8,
        2 => drop(line.remove(at)),
        3 => line.insert(at, random.below(256) as u8),
        4 => line.insert(space.unwrap_or(at), b' '),
        5 => line.insert(line.len() - 1, b'\r'),
        6 => line.insert(line.len() - 1, b' '),
        7 => line.truncate(space.unwrap_or(at)),
        8 => drop(line.splice(
            line.len() - 1..line.len() - 1,
            b" 1234567890".iter().copied(),
        )),
        9 => drop(line.splice(
            space.map_or(at, |s| s + 1)..space.map_or(at, |s| s + 1),
            b"0000000".iter().copied(),
        )),
        10 => line[at] = line[at].to_ascii_uppercase(),
        11 => line.insert(at, b'\n'),
        12 => drop(line.splice(line.len() - 1..line.len() - 1, b" 1".iter().copied())),
        _ => line[space.unwrap_or(at)] = b'\t',
    }
}
