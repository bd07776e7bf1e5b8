//! Builds arenas that are meant to be accepted, type by type. What it knows of
//! sizes only steers the choice of offsets; the reference decides.

use crate::random::Random;
use crate::records::*;

pub const SINT: u32 = 0;
pub const UINT: u32 = 1;
pub const FLOAT: u32 = 2;
pub const BOOL: u32 = 3;
pub const STORAGE_SPACE: u32 = 4;
pub const EXTERNAL_CLASS: u32 = 2;
pub const MAX_TYPE_SIZE: u32 = i32::MAX as u32;

/// What later types want to know of an earlier one.
#[derive(Clone, Copy, Default)]
pub struct Fact {
    pub kind: u32,
    pub size: u32,
    pub alignment: u32,
    pub data: bool,
    pub sized: bool,
    /// Not to be named by types that are meant to be accepted.
    pub broken: bool,
    pub external: bool,
}

pub struct Builder<'r> {
    pub random: &'r mut Random,
    pub types: Vec<u32>,
    pub members: Vec<u32>,
    pub facts: Vec<Fact>,
    /// The capability bits that the types so far ask for.
    pub needed: u32,
    /// How many members a struct usually has at most.
    pub usual_members: u32,
    /// How large a member is at most.
    pub largest_member: u32,
    /// Member rows of earlier structs: first, count.
    runs: Vec<(u32, u32)>,
}

pub fn round_up(alignment: u32, n: u64) -> u64 {
    n.next_multiple_of(u64::from(alignment.max(1)))
}

impl<'r> Builder<'r> {
    pub fn new(random: &'r mut Random) -> Self {
        Self {
            random,
            types: Vec::new(),
            members: Vec::new(),
            facts: Vec::new(),
            needed: 0,
            usual_members: 6,
            largest_member: (1 << 24) - 1,
            runs: Vec::new(),
        }
    }

    /// The tables, with the capabilities that they need.
    pub fn into_arena(self) -> (Arena, &'r mut Random) {
        let arena = Arena {
            types: self.types,
            members: self.members,
            capabilities: self.needed,
            rule: OLDER,
            rows_len: 0,
        };
        (arena, self.random)
    }

    pub fn count(&self) -> u32 {
        self.facts.len() as u32
    }

    pub fn member_count(&self) -> u32 {
        (self.members.len() / MEMBER_WORDS) as u32
    }

    pub fn push(&mut self, words: &[u32], fact: Fact) -> u32 {
        let mut record = [0; TYPE_WORDS];
        record[..words.len()].copy_from_slice(words);
        self.types.extend_from_slice(&record);
        self.facts.push(Fact {
            kind: words[0],
            ..fact
        });
        self.count() - 1
    }

    /// A record that nothing later should name.
    pub fn push_broken(&mut self, words: &[u32]) -> u32 {
        let broken = true;
        self.push(
            words,
            Fact {
                broken,
                ..Fact::default()
            },
        )
    }

    /// An earlier type with the wanted property, the last ones preferred.
    pub fn find(&mut self, wanted: impl Fn(&Fact) -> bool) -> Option<u32> {
        let count = self.count();
        if count == 0 {
            return None;
        }
        for _ in 0..6 {
            let reach = if self.random.one_in(2) {
                count.min(6)
            } else {
                count
            };
            let number = count - 1 - self.random.below(reach);
            let fact = &self.facts[number as usize];
            if !fact.broken && wanted(fact) {
                return Some(number);
            }
        }
        let last = self.facts.iter().rposition(|f| !f.broken && wanted(f));
        last.map(|number| number as u32)
    }

    /// One more type that is meant to be accepted.
    pub fn grow(&mut self) -> u32 {
        const WEIGHTS: [u32; 14] = [5, 4, 3, 1, 2, 2, 1, 7, 10, 2, 1, 1, 1, 2];
        match self.random.weighted(&WEIGHTS) as u32 {
            kind::SCALAR => self.scalar(),
            kind::VECTOR => self.vector(),
            kind::MATRIX => self.matrix(),
            kind::COOPERATIVE_MATRIX => self.cooperative_matrix(),
            kind::ATOMIC => self.atomic(),
            kind::POINTER => self.pointer(),
            kind::VALUE_POINTER => self.value_pointer(),
            kind::ARRAY => self.array(),
            kind::STRUCT => self.structure(),
            kind::IMAGE => self.image(),
            kind::SAMPLER => self.sampler(),
            kind::ACCELERATION_STRUCTURE => self.acceleration_structure(),
            kind::RAY_QUERY => self.ray_query(),
            _ => self.binding_array(),
        }
    }

    /// One more type that is data and neither array nor struct.
    pub fn plain_type(&mut self) -> u32 {
        match self.random.weighted(&[5, 4, 3, 1, 2, 1]) {
            0 => self.scalar(),
            1 => self.vector(),
            2 => self.matrix(),
            3 => self.cooperative_matrix(),
            4 => self.atomic(),
            _ => self.ray_query(),
        }
    }

    /// A scalar kind and width that may stand, and its capability bit noted.
    pub fn scalar_pair(&mut self) -> (u32, u32) {
        const PAIRS: [(u32, u32, u32); 10] = [
            (SINT, 4, 0),
            (UINT, 4, 0),
            (FLOAT, 4, 0),
            (BOOL, 1, 0),
            (FLOAT, 2, 1 << 1),
            (SINT, 2, 1 << 2),
            (UINT, 2, 1 << 2),
            (FLOAT, 8, 1 << 0),
            (SINT, 8, 1 << 3),
            (UINT, 8, 1 << 3),
        ];
        let index = self.random.weighted(&[4, 4, 8, 2, 2, 1, 1, 1, 1, 1]);
        let (kind, width, bit) = PAIRS[index];
        self.needed |= bit;
        (kind, width)
    }

    pub fn plain(size: u32, alignment: u32) -> Fact {
        Fact {
            size,
            alignment,
            data: true,
            sized: true,
            ..Fact::default()
        }
    }

    pub fn scalar(&mut self) -> u32 {
        let (kind, width) = self.scalar_pair();
        self.push(&[kind::SCALAR, kind, width], Self::plain(width, width))
    }

    /// A scalar of the given size that needs no capability.
    pub fn word_scalar(&mut self) -> u32 {
        let kind = self.random.pick(&[SINT, UINT, FLOAT]);
        self.push(&[kind::SCALAR, kind, 4], Self::plain(4, 4))
    }

    pub fn byte_scalar(&mut self) -> u32 {
        self.push(&[kind::SCALAR, BOOL, 1], Self::plain(1, 1))
    }

    pub fn vector(&mut self) -> u32 {
        let (kind, width) = self.scalar_pair();
        let size = self.random.between(2, 4);
        let alignment = if size == 2 { 2 * width } else { 4 * width };
        let words = [kind::VECTOR, size, kind, width];
        self.push(&words, Self::plain(size * width, alignment))
    }

    pub fn matrix(&mut self) -> u32 {
        let width = self.random.pick(&[4, 4, 4, 2, 8]);
        self.needed |= match width {
            2 => 1 << 1,
            8 => 1 << 0,
            _ => 0,
        };
        let (columns, rows) = (self.random.between(2, 4), self.random.between(2, 4));
        let alignment = if rows == 2 { 2 * width } else { 4 * width };
        let words = [kind::MATRIX, columns, rows, FLOAT, width];
        self.push(&words, Self::plain(columns * alignment, alignment))
    }

    pub fn cooperative_matrix(&mut self) -> u32 {
        self.needed |= 1 << 7;
        let (columns, rows) = (self.random.pick(&[8, 16]), self.random.pick(&[8, 16]));
        let (width, role) = (self.random.pick(&[2, 4]), self.random.below(3));
        let words = [kind::COOPERATIVE_MATRIX, columns, rows, FLOAT, width, role];
        self.push(&words, Self::plain(columns * rows * width, rows * width))
    }

    pub fn atomic(&mut self) -> u32 {
        let (kind, width) = self.random.pick(&[
            (SINT, 4),
            (UINT, 4),
            (SINT, 4),
            (UINT, 4),
            (SINT, 8),
            (UINT, 8),
            (FLOAT, 4),
        ]);
        self.needed |= match (kind, width) {
            (FLOAT, _) => 1 << 4,
            (_, 8) => self.random.pick(&[1 << 5, 1 << 6]),
            _ => 0,
        };
        self.push(&[kind::ATOMIC, kind, width], Self::plain(width, width))
    }

    pub fn pointer(&mut self) -> u32 {
        let Some(base) = self.find(|f| f.data) else {
            return self.scalar();
        };
        let space = match self.facts[base as usize].sized {
            true => self.random.below(10),
            false => STORAGE_SPACE,
        };
        self.push_opaque(&[kind::POINTER, base, space])
    }

    pub fn value_pointer(&mut self) -> u32 {
        let (kind, width) = self.scalar_pair();
        let space = self.random.below(10);
        self.push_opaque(&[kind::VALUE_POINTER, kind, width, space])
    }

    /// A type that is no data.
    pub fn push_opaque(&mut self, words: &[u32]) -> u32 {
        self.push(words, Fact::default())
    }

    pub fn image(&mut self) -> u32 {
        let dimension = self.random.below(4);
        let arrayed = u32::from(dimension != 2 && self.random.one_in(2));
        let class = self.random.pick(&[0, 1, 3]);
        if dimension == 3 && arrayed == 1 {
            self.needed |= 1 << 8;
        }
        if self.random.one_in(4) {
            return self.external_image();
        }
        self.push_opaque(&[kind::IMAGE, dimension, arrayed, class])
    }

    pub fn external_image(&mut self) -> u32 {
        self.needed |= 1 << 9;
        let external = true;
        let words = [kind::IMAGE, 1, 0, EXTERNAL_CLASS];
        self.push(
            &words,
            Fact {
                external,
                ..Fact::default()
            },
        )
    }

    pub fn sampler(&mut self) -> u32 {
        self.push_opaque(&[kind::SAMPLER])
    }

    pub fn acceleration_structure(&mut self) -> u32 {
        let vertex_return = self.random.below(2);
        self.needed |= self.random.pick(&[1 << 10, 1 << 11]) | vertex_return << 12;
        self.push_opaque(&[kind::ACCELERATION_STRUCTURE, vertex_return])
    }

    pub fn ray_query(&mut self) -> u32 {
        let vertex_return = self.random.below(2);
        self.needed |= 1 << 10 | vertex_return << 12;
        self.push(&[kind::RAY_QUERY, vertex_return], Self::plain(0, 1))
    }

    pub fn binding_array(&mut self) -> u32 {
        let fits = |f: &Fact| !f.external && (!f.data || f.kind == kind::STRUCT);
        let base = match self.find(fits) {
            Some(base) => base,
            None => self.sampler(),
        };
        let (form, count) = match self.random.below(3) {
            0 => (DYNAMIC, 0),
            1 => (CONSTANT, self.random.between(1, 8)),
            _ => (CONSTANT, self.random.word().max(1)),
        };
        self.push_opaque(&[kind::BINDING_ARRAY, base, form, count])
    }

    pub fn array(&mut self) -> u32 {
        let base = match self.find(|f| f.data && f.sized) {
            Some(base) => base,
            None => self.scalar(),
        };
        let stride = self.stride(base);
        if self.random.one_in(6) {
            let wide = round_up(16, u64::from(stride).min(1 << 30)) as u32;
            let stride = self.random.pick(&[stride, wide]);
            return self.push_array(base, DYNAMIC, 0, stride);
        }
        let most = MAX_TYPE_SIZE / stride.max(1);
        let count = match self.random.below(20) {
            0 => most,
            1 => self.random.between(1, 1000),
            _ => self.random.between(1, 8),
        };
        self.push_array(base, CONSTANT, count.min(most).max(1), stride)
    }

    pub fn push_array(&mut self, base: u32, form: u32, count: u32, stride: u32) -> u32 {
        let fact = Fact {
            size: count.max(1).saturating_mul(stride),
            alignment: self.facts[base as usize].alignment,
            data: true,
            sized: form == CONSTANT,
            ..Fact::default()
        };
        self.push(&[kind::ARRAY, base, form, count, stride], fact)
    }

    fn stride(&mut self, base: u32) -> u32 {
        let Fact {
            size, alignment, ..
        } = self.facts[base as usize];
        let natural = round_up(alignment, u64::from(size));
        let stride = match self.random.weighted(&[10, 5, 2, 3]) {
            0 => natural,
            1 => round_up(16, natural),
            2 => natural + u64::from(alignment * self.random.between(1, 4)),
            _ => self.odd_stride(size, alignment),
        };
        stride.min(u64::from(MAX_TYPE_SIZE)) as u32
    }

    /// Strides that are 0, below the element, or on no boundary.
    fn odd_stride(&mut self, size: u32, alignment: u32) -> u64 {
        let near = [
            0,
            1,
            alignment / 2,
            alignment,
            size.saturating_sub(1),
            size.saturating_add(1),
            size.saturating_add(alignment / 2),
            self.random.below(40),
        ];
        u64::from(self.random.pick(&near))
    }

    pub fn structure(&mut self) -> u32 {
        if self.random.one_in(8) {
            if let Some(number) = self.shared_structure() {
                return number;
            }
        }
        let mode = self.random.weighted(&[7, 6, 3, 3, 1, 2]) as u32;
        let largest = self.largest_member;
        let mut rows = Vec::new();
        let mut layout = Layout::default();
        for _ in 0..self.random.between(1, self.usual_members) {
            let Some(ty) = self.find(|f| f.data && f.sized && f.size <= largest) else {
                break;
            };
            self.place(mode, ty, &mut layout, &mut rows);
        }
        if rows.is_empty() {
            let ty = self.word_scalar();
            self.place(mode, ty, &mut layout, &mut rows);
        }
        let mut sized = true;
        if self.random.one_in(4) {
            let runtime = |f: &Fact| !f.sized && f.kind == kind::ARRAY && f.size <= largest;
            if let Some(ty) = self.find(runtime) {
                self.place(mode, ty, &mut layout, &mut rows);
                sized = false;
            }
        }
        let span = self.span(&layout);
        let number = self.push_struct(&rows, span);
        self.facts[number as usize].sized = sized;
        number
    }

    /// A struct with an empty member so far away that a walk's offset sum may
    /// leave 32 bits there and nowhere else.
    pub fn far_and_empty(&mut self) -> u32 {
        let plain = self.word_scalar();
        let empty = match self.random.one_in(2) {
            true => self.ray_query(),
            false => self.push_array(plain, CONSTANT, 3, 0),
        };
        let offset = u32::MAX - self.random.below(64);
        let span = self.random.between(offset, u32::MAX);
        self.push_struct(&[(plain, 0), (empty, offset)], span)
    }

    /// Puts a member where the mode wants it.
    fn place(&mut self, mode: u32, ty: u32, layout: &mut Layout, rows: &mut Vec<(u32, u32)>) {
        let fact = self.facts[ty as usize];
        let natural = round_up(fact.alignment, layout.end);
        let offset = match mode {
            0 => natural,
            1 => layout.uniform_offset(&fact),
            2 => natural + u64::from(fact.alignment * self.random.below(4)),
            3 => layout.end + u64::from(self.random.below(4)),
            4 if self.random.one_in(2) && layout.struct_before.is_none() => 0,
            4 => natural,
            _ => self.near_the_distance(layout, natural),
        };
        let end = offset + u64::from(fact.size);
        if end > u64::from(u32::MAX) {
            return;
        }
        rows.push((ty, offset as u32));
        let span = (fact.kind == kind::STRUCT).then_some((offset, u64::from(fact.size)));
        layout.struct_before = span;
        layout.end = end;
        layout.furthest = layout.furthest.max(end);
        layout.alignment = layout.alignment.max(fact.alignment);
    }

    /// At the distance that the uniform rule wants after a struct, or just
    /// beside it.
    fn near_the_distance(&mut self, layout: &Layout, natural: u64) -> u64 {
        let Some((offset, span)) = layout.struct_before else {
            return natural;
        };
        let wanted = offset + round_up(16, span);
        let moved = match self.random.below(6) {
            0 => wanted.saturating_sub(1),
            1 => wanted.saturating_sub(4),
            2 => wanted + 1,
            3 => wanted + 16,
            _ => wanted,
        };
        moved.max(layout.end)
    }

    fn span(&mut self, layout: &Layout) -> u32 {
        let natural = round_up(layout.alignment, layout.furthest);
        let span = match self.random.weighted(&[14, 3, 2, 1, 1]) {
            0 => natural,
            1 => layout.furthest,
            2 => natural + u64::from(layout.alignment * self.random.below(5)),
            3 => layout.furthest + u64::from(self.random.below(20)),
            _ => u64::from(u32::MAX - self.random.below(40)),
        };
        span.max(layout.furthest).min(u64::from(u32::MAX)) as u32
    }

    pub fn push_struct(&mut self, rows: &[(u32, u32)], span: u32) -> u32 {
        let first = self.member_count();
        for &(ty, offset) in rows {
            self.members.extend(member(ty, offset));
        }
        self.runs.push((first, rows.len() as u32));
        self.push_struct_of_run(first, rows.len() as u32, span)
    }

    fn push_struct_of_run(&mut self, first: u32, count: u32, span: u32) -> u32 {
        let number = self.count() as usize;
        let rows = self.run(first, count);
        let earlier = rows.filter(|row| (row.0 as usize) < number);
        let alignments = earlier.map(|row| self.facts[row.0 as usize].alignment);
        let alignment = alignments.max().unwrap_or(1).max(1);
        self.push(
            &[kind::STRUCT, first, count, span],
            Self::plain(span, alignment),
        )
    }

    fn run(&self, first: u32, count: u32) -> impl Iterator<Item = (u32, u32)> + '_ {
        let (first, count) = (first as usize, count as usize);
        let words = &self.members[MEMBER_WORDS * first..MEMBER_WORDS * (first + count)];
        words.chunks_exact(MEMBER_WORDS).map(|row| (row[0], row[1]))
    }

    /// A struct over a part of an earlier struct's rows.
    fn shared_structure(&mut self) -> Option<u32> {
        if self.runs.is_empty() {
            return None;
        }
        let index = self.random.below(self.runs.len() as u32) as usize;
        let (first, count) = self.runs[index];
        let (start, count) = match self.random.below(3) {
            0 => (0, count),
            1 => (0, self.random.between(1, count)),
            _ => {
                let start = self.random.below(count);
                (start, count - start)
            }
        };
        let rows: Vec<_> = self.run(first + start, count).collect();
        let facts = |ty: u32| self.facts.get(ty as usize).copied().unwrap_or_default();
        if rows.iter().any(|row| !facts(row.0).data) {
            return None;
        }
        let sized = rows.iter().all(|row| facts(row.0).sized);
        let ends = rows
            .iter()
            .map(|r| u64::from(r.1) + u64::from(facts(r.0).size));
        let layout = Layout {
            furthest: ends.max().unwrap_or(0),
            alignment: rows.iter().map(|r| facts(r.0).alignment).max().unwrap_or(1),
            ..Layout::default()
        };
        let span = self.span(&layout);
        let number = self.push_struct_of_run(first + start, count, span);
        self.facts[number as usize].sized = sized;
        Some(number)
    }
}

/// Where the members of a struct have got to.
#[derive(Default)]
struct Layout {
    end: u64,
    furthest: u64,
    alignment: u32,
    /// Offset and span of the member before, if it is a struct.
    struct_before: Option<(u64, u64)>,
}

impl Layout {
    /// WGSL's offset in the uniform space.
    fn uniform_offset(&self, fact: &Fact) -> u64 {
        let wide = matches!(fact.kind, kind::STRUCT | kind::ARRAY);
        let alignment = if wide {
            fact.alignment.max(16)
        } else {
            fact.alignment
        };
        let after = self.struct_before;
        let least = after.map_or(0, |(offset, span)| offset + round_up(16, span));
        round_up(alignment, self.end.max(least))
    }
}
