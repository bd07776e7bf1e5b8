//! The type section of a SPIR-V module, read independently of the port: one
//! pass with dictionaries of ids and decorations, from 02's sentences (E5) and
//! the Khronos specification.

use std::collections::HashMap;

pub const HEADER_WORDS: usize = 5;
pub const MAGIC: u32 = 0x0723_0203;
const MOST_TYPES: usize = 1024;
const MOST_MEMBERS: usize = 4096;
const MOST: u64 = u32::MAX as u64;

#[derive(Debug, Default, PartialEq, Eq)]
pub struct Section {
    pub types: Vec<[u32; 6]>,
    pub members: Vec<[u32; 4]>,
}

#[derive(Clone, Copy)]
enum Id {
    /// By its number.
    Type(usize),
    OtherType,
    /// Of an integer type: its length, 0 for what is none.
    Constant(u32),
}

/// What a type measures, to what it is aligned, and the column step of the
/// matrix that it is, or is an array of.
#[derive(Clone, Copy)]
struct Layout {
    size: u64,
    alignment: u64,
    step: Option<u64>,
}

#[derive(Default)]
struct Reader {
    ids: HashMap<u32, Id>,
    /// Bits and signedness.
    integers: HashMap<u32, (u32, u32)>,
    strides: HashMap<u32, Vec<u32>>,
    /// By struct and member: decoration and operand.
    decorations: HashMap<u32, HashMap<u32, Vec<(u32, u32)>>>,
    layouts: Vec<Layout>,
    section: Section,
}

/// What is said of a type: number 29, number 30, or its record.
struct Judged {
    unsupported: bool,
    sound: bool,
    record: [u32; 6],
    rows: Vec<[u32; 4]>,
    layout: Layout,
}

impl Judged {
    fn leaf(unsupported: bool, sound: bool, record: [u32; 6], size: u64, alignment: u64) -> Self {
        let layout = Layout {
            size,
            alignment,
            step: None,
        };
        Self {
            unsupported,
            sound,
            record,
            rows: Vec::new(),
            layout,
        }
    }
}

/// The records, or the number of the refusal. `types` and `members`: how many
/// records the lent tables have room for.
pub fn read(words: &[u32], types: usize, members: usize) -> Result<Section, u32> {
    if words.len() < HEADER_WORDS || words[0] != MAGIC {
        return Err(28);
    }
    let room = (types.min(MOST_TYPES), members.min(MOST_MEMBERS));
    let mut reader = Reader::default();
    let mut rest = &words[HEADER_WORDS..];
    while let Some(first) = rest.first() {
        let count = (first >> 16) as usize;
        if count == 0 || count > rest.len() {
            return Err(28);
        }
        reader.instruction(first & 0xffff, &rest[1..count], room)?;
        rest = &rest[count..];
    }
    Ok(reader.section)
}

fn supported_width(bits: u32) -> bool {
    [8, 16, 32, 64].contains(&bits)
}

/// Vectors of three are aligned as those of four.
fn vector_alignment(rows: u32, width: u64) -> u64 {
    if rows == 2 {
        2 * width
    } else {
        4 * width
    }
}

impl Reader {
    fn instruction(
        &mut self,
        opcode: u32,
        operands: &[u32],
        room: (usize, usize),
    ) -> Result<(), u32> {
        let least = |words: usize| {
            if operands.len() + 1 < words {
                Err(28)
            } else {
                Ok(())
            }
        };
        match opcode {
            43 => {
                least(2)?;
                let Some(&(bits, signedness)) = self.integers.get(&operands[0]) else {
                    return Ok(());
                };
                least(if bits == 64 { 5 } else { 4 })?;
                let value = operands[2];
                let counts = bits == 32 && (signedness == 0 || value as i32 > 0);
                self.give(operands[1], Id::Constant(if counts { value } else { 0 }))
            }
            71 => {
                least(3)?;
                if operands[1] == 6 {
                    least(4)?;
                    self.strides
                        .entry(operands[0])
                        .or_default()
                        .push(operands[2]);
                }
                Ok(())
            }
            72 => {
                least(4)?;
                let decoration = operands[2];
                if decoration == 35 || decoration == 7 {
                    least(5)?;
                }
                if [35, 7, 4].contains(&decoration) {
                    let operand = operands.get(3).copied().unwrap_or(0);
                    let of_struct = self.decorations.entry(operands[0]).or_default();
                    of_struct
                        .entry(operands[1])
                        .or_default()
                        .push((decoration, operand));
                }
                Ok(())
            }
            21 | 23 | 24 | 28 => least(4).and_then(|()| self.read_type(opcode, operands, room)),
            22 | 29 => least(3).and_then(|()| self.read_type(opcode, operands, room)),
            20 | 30 => least(2).and_then(|()| self.read_type(opcode, operands, room)),
            19..=38 => least(2).and_then(|()| self.give(operands[0], Id::OtherType)),
            _ => Ok(()),
        }
    }

    fn give(&mut self, id: u32, meaning: Id) -> Result<(), u32> {
        match self.ids.insert(id, meaning) {
            None => Ok(()),
            Some(_) => Err(30),
        }
    }

    fn is_other(&self, id: u32) -> bool {
        matches!(self.ids.get(&id), Some(Id::OtherType))
    }

    fn type_of(&self, id: u32) -> Option<usize> {
        match self.ids.get(&id) {
            Some(Id::Type(number)) => Some(*number),
            _ => None,
        }
    }

    fn read_type(
        &mut self,
        opcode: u32,
        operands: &[u32],
        room: (usize, usize),
    ) -> Result<(), u32> {
        let id = operands[0];
        let judged = match opcode {
            20 => Judged::leaf(false, true, [0, 3, 1, 0, 0, 0], 1, 1),
            21 | 22 => scalar(opcode, operands),
            23 | 24 => self.parts(opcode, operands),
            28 | 29 => self.array(opcode, operands),
            _ => self.structure(operands),
        };
        let misplaced = (opcode != 28 && opcode != 29 && self.strides.contains_key(&id))
            || (opcode != 30 && self.decorations.contains_key(&id));
        if judged.unsupported {
            return Err(29);
        }
        if !judged.sound || misplaced || self.ids.contains_key(&id) {
            return Err(30);
        }
        let Section { types, members } = &mut self.section;
        if types.len() >= room.0 || members.len() + judged.rows.len() > room.1 {
            return Err(1);
        }
        self.ids.insert(id, Id::Type(types.len()));
        if opcode == 21 {
            self.integers.insert(id, (operands[1], operands[2]));
        }
        types.push(judged.record);
        members.extend(judged.rows);
        self.layouts.push(judged.layout);
        Ok(())
    }

    fn parts(&self, opcode: u32, operands: &[u32]) -> Judged {
        let (base, n) = (operands[1], operands[2]);
        let unsupported = !(2..=4).contains(&n) || self.is_other(base);
        let of = |number: usize| self.section.types[number];
        match self.type_of(base).map(of) {
            Some([0, kind, width, ..]) if opcode == 23 => {
                let (n64, w) = (u64::from(n), u64::from(width));
                Judged::leaf(
                    unsupported,
                    true,
                    [1, n, kind, width, 0, 0],
                    n64 * w,
                    vector_alignment(n, w),
                )
            }
            Some([1, rows, kind, width, ..]) if opcode == 24 => {
                let step = vector_alignment(rows, u64::from(width));
                let record = [2, n, rows, kind, width, 0];
                let mut matrix = Judged::leaf(unsupported, true, record, step * u64::from(n), step);
                matrix.layout.step = Some(step);
                matrix
            }
            _ => Judged::leaf(unsupported, false, [0; 6], 0, 1),
        }
    }

    fn array(&self, opcode: u32, operands: &[u32]) -> Judged {
        let (id, element) = (operands[0], operands[1]);
        let unsupported = self.is_other(element) || (opcode == 28 && self.is_other(operands[2]));
        let strides = self.strides.get(&id).map_or(&[][..], |all| all);
        let length = match opcode {
            28 => match self.ids.get(&operands[2]) {
                Some(Id::Constant(length)) => *length,
                _ => 0,
            },
            _ => 1,
        };
        let (&[stride], Some(base)) = (strides, self.type_of(element)) else {
            return Judged::leaf(unsupported, false, [0; 6], 0, 1);
        };
        let size = u64::from(length) * u64::from(stride);
        let (form, count) = if opcode == 28 { (0, length) } else { (1, 0) };
        let record = [7, base as u32, form, count, stride, 0];
        let sound = length > 0 && size <= MOST;
        let mut array = Judged::leaf(
            unsupported,
            sound,
            record,
            size,
            self.layouts[base].alignment,
        );
        array.layout.step = self.layouts[base].step;
        array
    }

    fn structure(&self, operands: &[u32]) -> Judged {
        let (id, members) = (operands[0], &operands[1..]);
        let none = HashMap::new();
        let decorations = self.decorations.get(&id).unwrap_or(&none);
        let (mut unsupported, mut sound, mut end, mut alignment) = (false, true, 0, 1);
        let mut rows = Vec::new();
        for (j, &member) in members.iter().enumerate() {
            unsupported |= self.is_other(member);
            let all = decorations.get(&(j as u32)).map_or(&[][..], |all| all);
            let offsets: Vec<u32> = all.iter().filter(|d| d.0 == 35).map(|d| d.1).collect();
            let Some(number) = self.type_of(member) else {
                sound = false;
                continue;
            };
            let layout = self.layouts[number];
            if let Some(step) = layout.step {
                let otherwise = |d: &(u32, u32)| d.0 == 4 || (d.0 == 7 && u64::from(d.1) != step);
                unsupported |= all.iter().any(otherwise);
            }
            let &[offset] = &offsets[..] else {
                sound = false;
                continue;
            };
            rows.push([number as u32, offset, 0, 0]);
            end = u64::from(offset) + layout.size;
            alignment = alignment.max(layout.alignment);
        }
        let span = end.div_ceil(alignment) * alignment;
        let first = self.section.members.len() as u32;
        let record = [8, first, members.len() as u32, span as u32, 0, 0];
        let layout = Layout {
            size: span,
            alignment,
            step: None,
        };
        Judged {
            unsupported,
            sound: sound && span <= MOST,
            record,
            rows,
            layout,
        }
    }
}

fn scalar(opcode: u32, operands: &[u32]) -> Judged {
    let bits = operands[1];
    let (kind, odd) = match opcode {
        21 => (u32::from(operands[2] == 0), operands[2] > 1),
        _ => (2, operands.len() > 2),
    };
    let width = bits / 8;
    let unsupported = !supported_width(bits) || odd;
    Judged::leaf(
        unsupported,
        true,
        [0, kind, width, 0, 0, 0],
        width.into(),
        width.max(1).into(),
    )
}
