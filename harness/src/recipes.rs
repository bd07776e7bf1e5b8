//! Arenas made for one refusal number each. The reference decides what they
//! get; a recipe only has to come near.

use crate::builder::*;
use crate::random::Random;
use crate::records::*;
use crate::wild;

/// The recipes' weights, by number from 1 on: 8 has eleven details, 21 has four
/// causes. The last two are for no number, but for many rules at once.
const WEIGHTS: [u32; 26] = [
    2, 2, 2, 2, 2, 2, 2, 8, 2, 2, 2, 2, 2, 2, 2, 2, 2, 2, 2, 2, 4, 2, 2, 2, 8, 6,
];

/// What is to be done when the arena stands.
pub enum Finish {
    Nothing,
    WrongLength,
    BadField,
    /// The base of this record is to lie outside the arena.
    BaseOutside(u32),
    /// The base of this record is to be this or a later one.
    BaseLater(u32),
    /// These capability bits are taken away.
    Without(u32),
}

pub fn choose(random: &mut Random) -> u32 {
    random.weighted(&WEIGHTS) as u32 + 1
}

/// Adds the records that the number wants.
pub fn add(b: &mut Builder, number: u32) -> Finish {
    match number {
        1 => return Finish::WrongLength,
        2 => return Finish::BadField,
        3 => return base_outside(b),
        4 => too_large(b),
        5 => element_not_earlier(b),
        6 => member_not_earlier(b),
        7 => odd_width(b),
        8 => return missing_capability(b),
        9 => invalid_width(b),
        10 => abstract_scalar(b),
        11 => not_float(b),
        12 => atomic_width(b),
        13 => return pointer_to_no_data(b),
        14 => pointer_to_unsized(b),
        15 => array_base(b),
        16 => empty_struct(b),
        17 => return not_data(b),
        18 => overlap(b),
        19 => out_of_bounds(b),
        20 => dynamic_member(b),
        21 => struct_sum(b),
        22 => image_form(b),
        23 => binding_array_of_data(b),
        24 => return binding_array_of_external(b),
        25 => wild::structure(b),
        _ => return wild::records(b),
    }
    Finish::Nothing
}

fn base_outside(b: &mut Builder) -> Finish {
    let words = match b.random.below(3) {
        0 => [kind::POINTER, 0, b.random.below(10), 0],
        1 => [kind::BINDING_ARRAY, 0, DYNAMIC, 0],
        _ => [kind::BINDING_ARRAY, 0, CONSTANT, b.random.between(1, 9)],
    };
    Finish::BaseOutside(b.push_broken(&words))
}

fn too_large(b: &mut Builder) {
    let base = b.scalar();
    let stride = b
        .random
        .pick(&[0, 1, 2, 3, 4, 16, 48, 65536, 1 << 30, 1 << 31]);
    let over = match stride {
        0 => MAX_TYPE_SIZE + 1,
        _ => MAX_TYPE_SIZE / stride + 1,
    };
    let (form, count, stride) = match b.random.below(5) {
        0 => (DYNAMIC, 0, MAX_TYPE_SIZE + 1 + b.random.below(3)),
        1 => (CONSTANT, b.random.word() | 1 << 31, stride),
        2 => (
            CONSTANT,
            b.random.between(3, 1 << 20),
            u32::MAX - b.random.below(9),
        ),
        3 => (CONSTANT, over + b.random.below(3), stride),
        _ => (CONSTANT, over, stride),
    };
    b.push_broken(&[kind::ARRAY, base, form, count, stride]);
}

/// This type's number or one that is not an earlier type's.
fn not_earlier(b: &mut Builder) -> u32 {
    let this = b.count();
    let later = this + b.random.between(1, 5);
    b.random
        .pick(&[this, this, later, later, 1 << 31, u32::MAX - 1, u32::MAX])
}

fn element_not_earlier(b: &mut Builder) {
    let base = not_earlier(b);
    let (form, count) = b.random.pick(&[(DYNAMIC, 0), (CONSTANT, 1), (CONSTANT, 7)]);
    b.push_broken(&[kind::ARRAY, base, form, count, 16]);
}

fn member_not_earlier(b: &mut Builder) {
    let mut rows = good_rows(b);
    let position = b.random.below(rows.len() as u32) as usize;
    rows[position].0 = not_earlier(b);
    push_broken_struct(b, &rows, 1024);
}

/// Some members one after the other, 16 bytes apart.
fn good_rows(b: &mut Builder) -> Vec<(u32, u32)> {
    let count = b.random.between(1, 5);
    let ty = b.word_scalar();
    (0..count).map(|i| (ty, 16 * i)).collect()
}

pub fn push_broken_struct(b: &mut Builder, rows: &[(u32, u32)], span: u32) {
    let number = b.push_struct(rows, span);
    b.facts[number as usize].broken = true;
}

fn odd_width(b: &mut Builder) {
    let width = b
        .random
        .pick(&[0, 3, 5, 6, 7, 9, 12, 15, 17, 24, 31, 63, 127, 129, 254, 255]);
    let kind = b.random.below(6);
    push_scalar_user(b, kind, width, 5);
}

/// A record of one of the first `shapes` shapes that hold a scalar.
fn push_scalar_user(b: &mut Builder, kind: u32, width: u32, shapes: u32) {
    let (small, wide) = (b.random.between(2, 4), b.random.pick(&[8, 16]));
    match b.random.below(shapes) {
        0 => b.push_broken(&[kind::SCALAR, kind, width]),
        1 => b.push_broken(&[kind::VECTOR, small, kind, width]),
        2 => b.push_broken(&[kind::MATRIX, small, 3, kind, width]),
        3 => b.push_broken(&[kind::ATOMIC, kind, width]),
        _ => b.push_broken(&[kind::COOPERATIVE_MATRIX, wide, 8, kind, width, 1]),
    };
}

fn missing_capability(b: &mut Builder) -> Finish {
    let space = b.random.below(10);
    let detail = b.random.pick(&[0, 1, 2, 3, 4, 6, 7, 8, 9, 10, 12]);
    let (bits, words) = match detail {
        0 => (
            1,
            b.random.pick(&[
                [kind::SCALAR, FLOAT, 8, 0],
                [kind::VECTOR, 3, FLOAT, 8],
                [kind::VALUE_POINTER, FLOAT, 8, space],
            ]),
        ),
        1 => (
            1 << 1,
            b.random.pick(&[
                [kind::SCALAR, FLOAT, 2, 0],
                [kind::VECTOR, 2, FLOAT, 2],
                [kind::VALUE_POINTER, FLOAT, 2, space],
            ]),
        ),
        2 => (
            1 << 2,
            b.random.pick(&[
                [kind::SCALAR, SINT, 2, 0],
                [kind::VECTOR, 4, UINT, 2],
                [kind::VALUE_POINTER, UINT, 2, space],
            ]),
        ),
        3 => (
            1 << 3,
            b.random.pick(&[
                [kind::SCALAR, UINT, 8, 0],
                [kind::VECTOR, 4, SINT, 8],
                [kind::VALUE_POINTER, SINT, 8, space],
            ]),
        ),
        4 => (1 << 4, [kind::ATOMIC, FLOAT, 4, 0]),
        6 => (1 << 5 | 1 << 6, [kind::ATOMIC, b.random.below(2), 8, 0]),
        7 => {
            let (kind, width) = (b.random.below(6), b.random.pick(&[1, 2, 4, 8]));
            b.push_broken(&[kind::COOPERATIVE_MATRIX, 8, 16, kind, width, 2]);
            return Finish::Without(1 << 7);
        }
        8 => (1 << 8, [kind::IMAGE, 3, 1, b.random.pick(&[0, 1, 2, 3])]),
        9 => (1 << 9, [kind::IMAGE, 1, 0, EXTERNAL_CLASS]),
        10 => b.random.pick(&[
            (1 << 10, [kind::RAY_QUERY, 0, 0, 0]),
            (1 << 10, [kind::RAY_QUERY, 1, 0, 0]),
            (1 << 10 | 1 << 11, [kind::ACCELERATION_STRUCTURE, 0, 0, 0]),
            (1 << 10 | 1 << 11, [kind::ACCELERATION_STRUCTURE, 1, 0, 0]),
        ]),
        _ => {
            b.needed |= b.random.pick(&[1 << 10, 1 << 10 | 1 << 11]);
            let kind = b
                .random
                .pick(&[kind::RAY_QUERY, kind::ACCELERATION_STRUCTURE]);
            (1 << 12, [kind, 1, 0, 0])
        }
    };
    b.push_broken(&words);
    Finish::Without(bits)
}

fn invalid_width(b: &mut Builder) {
    let (kind, width) = match b.random.below(3) {
        0 => (b.random.below(2), b.random.pick(&[1, 16, 32, 64, 128])),
        1 => (FLOAT, b.random.pick(&[1, 16, 32, 64, 128])),
        _ => (BOOL, b.random.pick(&[2, 4, 8, 16, 128])),
    };
    let space = b.random.below(10);
    match b.random.below(4) {
        0 => {
            let width = b.random.pick(&[width, 0, 3, 5, 255]);
            b.push_broken(&[kind::VALUE_POINTER, kind, width, space]);
        }
        1 if kind == FLOAT => {
            b.push_broken(&[kind::MATRIX, 2, 3, kind, width]);
        }
        _ => push_scalar_user(b, kind, width, 2),
    }
}

fn abstract_scalar(b: &mut Builder) {
    let kind = b.random.between(4, 5);
    let width = b.random.pick(&[1, 2, 4, 8, 8, 8, 64]);
    let space = b.random.below(10);
    if b.random.one_in(4) {
        let width = b.random.pick(&[width, 0, 3, 255]);
        b.push_broken(&[kind::VALUE_POINTER, kind, width, space]);
    } else {
        push_scalar_user(b, kind, width, 2);
    }
}

fn not_float(b: &mut Builder) {
    let kind = b.random.pick(&[SINT, UINT, BOOL, 4, 5]);
    let width = b.random.pick(&[1, 2, 4, 8]);
    if b.random.one_in(2) {
        let (columns, rows) = (b.random.between(2, 4), b.random.between(2, 4));
        b.push_broken(&[kind::MATRIX, columns, rows, kind, width]);
        return;
    }
    b.needed |= 1 << 7;
    let (kind, width) = b
        .random
        .pick(&[(kind, width), (FLOAT, 8), (FLOAT, 1), (FLOAT, 64)]);
    b.push_broken(&[kind::COOPERATIVE_MATRIX, 16, 8, kind, width, 0]);
}

fn atomic_width(b: &mut Builder) {
    let (kind, width) = match b.random.below(3) {
        0 => (b.random.below(2), b.random.pick(&[1, 2, 16, 128])),
        1 => (FLOAT, b.random.pick(&[1, 2, 8, 16])),
        _ => (b.random.between(3, 5), b.random.pick(&[1, 4, 8])),
    };
    b.push_broken(&[kind::ATOMIC, kind, width]);
}

fn pointer_to_no_data(b: &mut Builder) -> Finish {
    let space = b.random.below(10);
    if b.random.one_in(2) {
        return Finish::BaseLater(b.push_broken(&[kind::POINTER, 0, space]));
    }
    let base = opaque(b);
    b.push_broken(&[kind::POINTER, base, space]);
    Finish::Nothing
}

/// A new type that is accepted and is no data.
pub fn opaque(b: &mut Builder) -> u32 {
    let space = b.random.below(10);
    match b.random.below(6) {
        0 => b.sampler(),
        1 => b.image(),
        2 => b.acceleration_structure(),
        3 => b.push_opaque(&[kind::VALUE_POINTER, FLOAT, 4, space]),
        4 => {
            let base = b.scalar();
            b.push_opaque(&[kind::POINTER, base, space])
        }
        _ => {
            let base = b.sampler();
            b.push_opaque(&[kind::BINDING_ARRAY, base, CONSTANT, 2])
        }
    }
}

/// A new runtime array, or a struct that ends with one.
pub fn unsized_type(b: &mut Builder, as_struct: bool) -> u32 {
    let base = b.word_scalar();
    let array = b.push_array(base, DYNAMIC, 0, 4);
    if !as_struct {
        return array;
    }
    let number = b.push_struct(&[(base, 0), (array, 4)], 8);
    b.facts[number as usize].sized = false;
    number
}

fn pointer_to_unsized(b: &mut Builder) {
    let as_struct = b.random.one_in(2);
    let base = unsized_type(b, as_struct);
    let space = b.random.pick(&[0, 1, 2, 3, 5, 6, 7, 8, 9]);
    b.push_broken(&[kind::POINTER, base, space]);
}

fn array_base(b: &mut Builder) {
    let base = match b.random.below(3) {
        0 => unsized_type(b, false),
        1 => unsized_type(b, true),
        _ => opaque(b),
    };
    let (form, count) = b.random.pick(&[(DYNAMIC, 0), (CONSTANT, 1), (CONSTANT, 9)]);
    let stride = b.random.pick(&[0, 4, 16]);
    b.push_broken(&[kind::ARRAY, base, form, count, stride]);
}

fn empty_struct(b: &mut Builder) {
    let rows = b.member_count();
    let first = b.random.pick(&[0, rows, rows / 2]);
    let span = b.random.pick(&[0, 4, 16, u32::MAX]);
    b.push_broken(&[kind::STRUCT, first, 0, span]);
}

fn not_data(b: &mut Builder) -> Finish {
    if b.random.one_in(4) {
        let (form, count) = b.random.pick(&[(DYNAMIC, 0), (CONSTANT, 3)]);
        return Finish::BaseLater(b.push_broken(&[kind::BINDING_ARRAY, 0, form, count]));
    }
    let mut rows = good_rows(b);
    let ty = opaque(b);
    for row in &mut rows {
        if b.random.one_in(3) {
            row.0 = ty;
        }
    }
    let position = b.random.below(rows.len() as u32) as usize;
    rows[position].0 = ty;
    push_broken_struct(b, &rows, 1024);
    Finish::Nothing
}

fn overlap(b: &mut Builder) {
    let mut rows = good_rows(b);
    let (ty, offset) = rows[rows.len() - 1];
    let end = offset + 4;
    let below = end - b.random.between(1, 3);
    rows.push((ty, b.random.pick(&[below, below, 1.max(end / 2)])));
    rows.push((ty, 512));
    push_broken_struct(b, &rows, 1024);
}

fn out_of_bounds(b: &mut Builder) {
    let mut rows = good_rows(b);
    let (ty, offset) = rows[rows.len() - 1];
    let end = offset + 4;
    let span = match b.random.below(3) {
        0 => end - 1,
        1 => b.random.below(end),
        _ => {
            let last = rows.len() - 1;
            rows[last].1 = u32::MAX - 4 - b.random.below(64);
            1024
        }
    };
    if b.random.one_in(3) {
        rows.push((ty, 2048));
    }
    push_broken_struct(b, &rows, span);
}

fn dynamic_member(b: &mut Builder) {
    let mut rows = good_rows(b);
    let as_struct = b.random.one_in(2);
    let ty = unsized_type(b, as_struct);
    let last = rows.len() - 1;
    let position = b.random.below(last as u32 + 1) as usize;
    rows[position].0 = if as_struct { ty } else { rows[position].0 };
    if !as_struct {
        let at = rows[position].1;
        let plain = rows[position].0;
        rows[position] = (ty, at);
        rows.push((plain, 512));
        if b.random.one_in(3) {
            rows.push((ty, 528));
        }
    }
    push_broken_struct(b, &rows, 1024);
}

fn struct_sum(b: &mut Builder) {
    match b.random.below(4) {
        0 => end_sum(b),
        1 => difference_below_zero(b),
        2 => span_near_the_top(b),
        _ => expected_offset(b),
    }
}

fn end_sum(b: &mut Builder) {
    let mut rows = good_rows(b);
    let ty = match b.random.one_in(2) {
        true => b.vector(),
        false => b.matrix(),
    };
    let size = b.facts[ty as usize].size;
    rows.push((ty, u32::MAX - b.random.below(size)));
    push_broken_struct(b, &rows, u32::MAX);
}

fn difference_below_zero(b: &mut Builder) {
    let mut rows = good_rows(b);
    let plain = rows[0].0;
    let inner = b.push_struct(&[(plain, 0)], 4);
    let end = rows[rows.len() - 1].1 + 16;
    rows.push((inner, end));
    rows.push((plain, 0));
    if b.random.one_in(2) {
        rows.push((plain, end + 16));
    }
    push_broken_struct(b, &rows, 1024);
}

/// `span + 15` of a preceding struct leaves 32 bits from 4,294,967,281 on.
fn span_near_the_top(b: &mut Builder) {
    let plain = b.byte_scalar();
    let span = u32::MAX - b.random.below(20);
    let inner = b.push_struct(&[(plain, 0)], span);
    b.facts[inner as usize].broken = true;
    let next = b.random.pick(&[0, span, span.saturating_add(1)]);
    push_broken_struct(b, &[(inner, 0), (plain, next)], u32::MAX);
}

/// The offset that the distance rule expects leaves 32 bits.
fn expected_offset(b: &mut Builder) {
    let plain = b.byte_scalar();
    let span = b.random.between(1, 40);
    let inner = b.push_struct(&[(plain, 0)], span);
    let offset = u32::MAX - span - b.random.below(20);
    let gap = b.random.below(u32::MAX - offset - span + 1);
    push_broken_struct(
        b,
        &[(inner, offset), (plain, offset + span + gap)],
        u32::MAX,
    );
}

fn image_form(b: &mut Builder) {
    let class = b.random.below(4);
    let words = b.random.pick(&[
        [kind::IMAGE, 2, 1, class],
        [kind::IMAGE, 0, 0, EXTERNAL_CLASS],
        [kind::IMAGE, 2, 0, EXTERNAL_CLASS],
        [kind::IMAGE, 3, 0, EXTERNAL_CLASS],
        [kind::IMAGE, 1, 1, EXTERNAL_CLASS],
        [kind::IMAGE, 3, 1, EXTERNAL_CLASS],
    ]);
    b.needed |= 1 << 8;
    b.push_broken(&words);
}

fn binding_array_of_data(b: &mut Builder) {
    let base = match b.random.below(5) {
        0 => b.scalar(),
        1 => b.matrix(),
        2 => b.atomic(),
        3 => b.ray_query(),
        _ => unsized_type(b, false),
    };
    let (form, count) = b.random.pick(&[(DYNAMIC, 0), (CONSTANT, 3)]);
    b.push_broken(&[kind::BINDING_ARRAY, base, form, count]);
}

fn binding_array_of_external(b: &mut Builder) -> Finish {
    let (form, count) = b.random.pick(&[(DYNAMIC, 0), (CONSTANT, 3)]);
    if b.random.one_in(2) {
        let base = b.count() + 1;
        b.push_broken(&[kind::BINDING_ARRAY, base, form, count]);
        b.external_image();
    } else {
        let base = b.external_image();
        b.push_broken(&[kind::BINDING_ARRAY, base, form, count]);
    }
    Finish::Nothing
}
