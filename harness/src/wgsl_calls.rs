//! Compares the reader of WGSL text over random texts, sound or damaged, and
//! lent tables of any length.

use crate::guarded::Guarded;
use crate::histogram::Histogram;
use crate::port;
use crate::random::Random;
use crate::wgsl::{self, Owed, MEMBER_WORDS, TYPE_WORDS};

pub fn read_wgsl(count: u64, seed: u64) -> bool {
    let mut histogram = Histogram::default();
    for index in 0..count {
        let random = &mut Random::new(seed, index);
        let text = text(random);
        let types = lent(random, TYPE_WORDS, 24);
        let members = lent(random, MEMBER_WORDS, 12);
        let owed = wgsl::read(&text, types, members);
        if let Some(difference) = difference(&text, types, members, &owed, random) {
            println!("seed {seed}, index {index}: {difference}");
            println!(
                "{types} and {members} words lent for {}",
                String::from_utf8_lossy(&text)
            );
            println!("{} cases, then a difference", index + 1);
            return false;
        }
        match owed {
            Err((number, _)) => histogram.count_answer([number, 0, 0, 0]),
            Ok(_) => histogram.count_answer([0; 4]),
        }
    }
    histogram.print();
    println!("{count} cases, 0 differences");
    true
}

/// Mostly room for all; else a few records, some cut.
fn lent(random: &mut Random, width: usize, most: u32) -> usize {
    if random.one_in(4) {
        return random.below(most * width as u32) as usize;
    }
    width * 200
}

fn difference(
    text: &[u8],
    types: usize,
    members: usize,
    owed: &Owed,
    random: &mut Random,
) -> Option<String> {
    let mut types = Guarded::new(types, random, Random::word);
    let mut members = Guarded::new(members, random, Random::word);
    let count_words = if random.one_in(16) {
        random.below(2)
    } else {
        2
    } as usize;
    let mut counts = Guarded::new(count_words, random, Random::word);
    let mut answer = Guarded::new(4, random, Random::word);
    port::read_wgsl(
        text,
        types.lend(),
        members.lend(),
        counts.lend(),
        answer.lend(),
    );
    let (number, owed_counts, owed_types, owed_members) = match owed {
        Ok(records) => {
            let count = [
                records.types.len() / TYPE_WORDS,
                records.members.len() / MEMBER_WORDS,
            ];
            (
                0,
                count,
                kept(&types, &records.types),
                kept(&members, &records.members),
            )
        }
        Err((number, _)) => (
            *number,
            [0, 0],
            vec![0; types.now().len()],
            vec![0; members.now().len()],
        ),
    };
    let owed_counts = match count_words {
        2 => owed_counts.map(|count| count as u32).to_vec(),
        _ => counts.before().to_vec(),
    };
    if answer.now() != [number, 0, 0, 0] {
        return Some(format!(
            "answer of the port {:?}, owed {number} at {owed:?}",
            answer.now()
        ));
    }
    if counts.now() != owed_counts {
        return Some(format!(
            "counts of the port {:?}, owed {owed_counts:?}",
            counts.now()
        ));
    }
    if types.now() != owed_types || members.now() != owed_members {
        return Some(format!(
            "records of the port {:?} {:?}, owed {owed:?}",
            types.now(),
            members.now()
        ));
    }
    let touched = answer.margins_are_touched()
        || counts.margins_are_touched()
        || types.margins_are_touched()
        || members.margins_are_touched();
    touched.then(|| "words beside what was lent are touched".to_string())
}

/// The records at the start, and what was lent behind them.
fn kept(lent: &Guarded<u32>, records: &[u32]) -> Vec<u32> {
    let mut owed = lent.before().to_vec();
    owed[..records.len()].copy_from_slice(records);
    owed
}

const SCALARS: [&str; 5] = ["bool", "i32", "u32", "f32", "f16"];
const WORDS: [&str; 40] = [
    "struct",
    "A",
    "B",
    "a",
    "b",
    "c",
    "_",
    "_a",
    "__a",
    "x1",
    "vec3f",
    "vec2",
    "vec3",
    "vec4",
    "vec5",
    "mat2x2",
    "mat4x3",
    "mat5x2",
    "array",
    "atomic",
    "f32",
    "f16",
    "bool",
    "i32",
    "u32",
    "align",
    "size",
    "location",
    "fn",
    "var",
    "let",
    "true",
    "const_assert",
    "continuing",
    "diagnostic",
    "alias",
    "target",
    "f64",
    "ptr",
    "while",
];
const NUMBERS: [&str; 16] = [
    "0",
    "1",
    "2",
    "3",
    "4",
    "8",
    "16",
    "32",
    "256",
    "00",
    "4u",
    "1.0",
    "2147483648",
    "4294967295",
    "4294967296",
    "99999999999999999999",
];
const MARKS: [&str; 24] = [
    "{",
    "}",
    "<",
    ">",
    "(",
    ")",
    ":",
    ",",
    ";",
    "@",
    " ",
    "\n",
    "\t",
    "\r",
    "// x\n",
    "/* y */",
    "/* /* z */ */",
    "/*",
    "*/",
    "/",
    "$",
    "\u{e9}",
    "//",
    "\u{0}",
];

pub fn text(random: &mut Random) -> Vec<u8> {
    let mut text = match random.below(8) {
        0 => (0..random.below(40))
            .map(|_| piece(random))
            .collect::<String>(),
        _ => structs(random),
    }
    .into_bytes();
    if random.one_in(2) {
        for _ in 0..random.between(1, 2) {
            damage(&mut text, random);
        }
    }
    text
}

fn piece(random: &mut Random) -> &'static str {
    match random.below(3) {
        0 => random.pick(&WORDS),
        1 => random.pick(&NUMBERS),
        _ => random.pick(&MARKS),
    }
}

/// A byte changed, taken out or put in, or a piece put in.
fn damage(text: &mut Vec<u8>, random: &mut Random) {
    let at = random.below(text.len() as u32 + 1) as usize;
    match random.below(5) {
        0 if at < text.len() => text[at] = random.below(256) as u8,
        1 if at < text.len() => {
            text.remove(at);
        }
        2 => text.insert(at, random.pick(b"{}<>():,;@ \n/*_0a9.-+\x0b\x0c\x80\x00")),
        3 => {
            let piece = piece(random).bytes().collect::<Vec<u8>>();
            text.splice(at..at, piece);
        }
        _ => text.truncate(at),
    }
}

fn blank(random: &mut Random) -> &'static str {
    random.pick(&[
        "",
        "",
        "",
        "",
        " ",
        "\n",
        "\t",
        "/**/",
        "//\r",
        "//!\x0b",
        "// */\x0c",
        "/* /*/**/*/ */",
    ])
}

fn structs(random: &mut Random) -> String {
    let mut text = String::new();
    let mut names: Vec<String> = Vec::new();
    for number in 0..random.below(5) {
        text += random.pick(&["", "", "", ";", " ; "]);
        let name = match random.below(20) {
            0 => random.pick(&WORDS).to_string(),
            _ => format!("S{number}"),
        };
        text += &format!("struct {name}{}{{", blank(random));
        for member in 0..random.between(1, 5) {
            text += blank(random);
            if member > 0 {
                text += ",";
            }
            attributes(&mut text, random);
            let member_name = if random.one_in(30) {
                "m0".to_string()
            } else {
                format!("m{member}")
            };
            text += &format!("{member_name}{}:{}", blank(random), blank(random));
            ty(&mut text, random, &names, 0);
        }
        text += random.pick(&["}", "}", "}", ",}", "};"]);
        names.push(name);
    }
    text
}

fn attributes(text: &mut String, random: &mut Random) {
    while random.one_in(4) {
        let name = random.pick(&["align", "align", "size", "size", "size", "location"]);
        let numbers: &[&str] = if name == "align" {
            &["1", "2", "4", "8", "16", "32", "64"]
        } else {
            &["4", "8", "16", "32", "64", "100", "4096"]
        };
        let number = if random.one_in(8) {
            random.pick(&NUMBERS)
        } else {
            random.pick(numbers)
        };
        *text += &format!(
            "{}@{name}({number}{}){}",
            blank(random),
            random.pick(&["", "", "", ","]),
            blank(random)
        );
    }
}

fn ty(text: &mut String, random: &mut Random, names: &[String], depth: u32) {
    let scalar = random.pick(&SCALARS);
    let close = random.pick(&[">", ">", ">", ",>", " >"]);
    match random.below(10) {
        0..=2 => *text += scalar,
        3 | 4 => {
            *text += &format!(
                "vec{}<{}{scalar}{close}",
                random.between(2, 4),
                blank(random)
            )
        }
        5 => {
            *text += &format!(
                "mat{}x{}<{scalar}{close}",
                random.between(2, 4),
                random.between(2, 4)
            )
        }
        6 => *text += &format!("atomic<{scalar}{close}"),
        7 if !names.is_empty() => *text += &names[random.below(names.len() as u32) as usize],
        8 if random.one_in(10) => *text += random.pick(&WORDS),
        _ if depth < 3 || random.one_in(2) => {
            let levels = if random.one_in(60) {
                random.between(28, 34)
            } else {
                1
            };
            *text += &"array<".repeat(levels as usize);
            ty(text, random, names, depth + 1);
            for _ in 0..levels {
                *text += &match random.below(8) {
                    0 => String::new(),
                    1 => format!(",{}", random.pick(&NUMBERS)),
                    _ => format!(",{}", random.between(1, 4)),
                };
                *text += close;
            }
        }
        _ => *text += scalar,
    }
}
