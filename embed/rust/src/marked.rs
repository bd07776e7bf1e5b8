//! The marked examples M1 to M12, the standard's figures for plain types, the columns of matrices, masks, names and sentences,
//! through the safe calls.

use crate::*;

const OLDER: UniformRule = UniformRule::Older;
const E: [u32; 6] = [kind::SCALAR, scalar::FLOAT, 4, 0, 0, 0];
const V: [u32; 6] = [kind::VECTOR, 3, scalar::FLOAT, 4, 0, 0];
const F16: [u32; 6] = [kind::SCALAR, scalar::FLOAT, 2, 0, 0, 0];
/// V at 0, E at 12.
const PAIR: [u32; 8] = [1, 0, 0, 0, 0, 12, 0, 0];

fn structure(first: u32, count: u32, span: u32) -> [u32; 6] {
    [kind::STRUCT, first, count, span, 0, 0]
}

fn array(count: u32, stride: u32) -> [u32; 6] {
    [kind::ARRAY, 0, form::CONSTANT, count, stride, 0]
}

/// Judged over rows of sevens, and checked over rows of zeros.
fn judged(types: &[[u32; 6]], members: &[u32], capabilities: u32) -> Result<Vec<u32>, Refusal> {
    let (mut rows, mut others) = (
        vec![7; types.len() * ROW_WORDS],
        vec![0; types.len() * ROW_WORDS],
    );
    let types = types.as_flattened();
    let answer = judge(types, members, capabilities, OLDER, &mut rows);
    assert_eq!(
        check(types, members, capabilities, OLDER, &mut others),
        answer
    );
    assert_eq!(rows, others);
    answer.map(|()| rows)
}

/// M1's arena with E at another offset and another span.
fn m1(offset: u32, span: u32) -> Result<Vec<u32>, Refusal> {
    judged(
        &[E, V, structure(0, 2, span)],
        &[1, 0, 0, 0, 0, offset, 0, 0],
        0,
    )
}

fn refused(number: u32, ty: u32, member: u32, detail: u32) -> Refusal {
    Refusal {
        number,
        ty,
        member,
        detail,
    }
}

fn masks(touched: u64, partly: u64) -> Result<Slots, Refusal> {
    Ok(Slots { touched, partly })
}

fn row(rows: &[u32], ty: u32) -> Row<'_> {
    Row::of(rows, ty).unwrap()
}

#[test]
fn m1_rows() {
    let rows = m1(12, 16).unwrap();
    let expected = [
        [4, 4, 255, 0, 4, 0, 0, 0, 0, 4, 0, 0, 0, 0],
        [12, 16, 255, 0, 16, 0, 0, 0, 0, 16, 0, 0, 0, 0],
        [16, 16, 247, 0, 16, 0, 0, 0, 0, 16, 0, 0, 0, 0],
    ];
    assert_eq!(rows, expected.as_flattened());
    let pair = row(&rows, 2);
    assert_eq!((pair.size(), pair.alignment(), pair.flags()), (16, 16, 247));
    assert!(pair.has(flags::DATA | flags::HOST_SHAREABLE) && !pair.has(flags::IO_SHAREABLE));
    assert_eq!(Row::of(&rows, 3), None);
}

#[test]
fn m2_slots() {
    let types = [E, V, structure(0, 2, 16)];
    let walk = |ty| slots(types.as_flattened(), &PAIR, 0, OLDER, &mut [0; 42], ty, 0);
    assert_eq!(walk(2), masks(15, 0));
    assert_eq!(walk(3), Err(refused(26, 0, 0, 0)));
}

#[test]
fn m3_span() {
    let rows = m1(12, 20).unwrap();
    let expected = Verdict {
        code: verdict::STRUCT_SPAN,
        ty: 2,
        index: 0,
        value: 20,
        bound: 16,
    };
    assert_eq!(row(&rows, 2).uniform(), expected);
    assert_eq!(row(&rows, 2).storage(), expected);
    assert_eq!(expected.alignment(), None);
}

#[test]
fn m4_to_m6_members() {
    assert_eq!(m1(8, 16), Err(refused(18, 2, 1, 0)));
    assert_eq!(row(&m1(0, 16).unwrap(), 2).flags(), 231);
    assert_eq!(m1(12, 15), Err(refused(19, 2, 1, 0)));
}

#[test]
fn m7_and_m8_arrays() {
    let rows = judged(&[E, array(3, 4)], &[], 0).unwrap();
    assert_eq!(row(&rows, 1).storage().alignment(), Some(4));
    let uniform = row(&rows, 1).uniform();
    assert_eq!((uniform.code, uniform.bound), (verdict::ARRAY_STRIDE, 16));
    assert!(judged(&[E, array(1_073_741_823, 2)], &[], 0).is_ok());
    let refusal = judged(&[E, array(1_073_741_824, 2)], &[], 0);
    assert_eq!(refusal, Err(refused(4, 1, 0, 0)));
}

#[test]
fn m9_and_m10_distances() {
    let inner = structure(0, 1, 4);
    let rows = judged(
        &[E, inner, structure(1, 2, 16)],
        &[0, 0, 0, 0, 1, 0, 0, 0, 0, 4, 0, 0],
        0,
    )
    .unwrap();
    let uniform = row(&rows, 2).uniform();
    assert_eq!(uniform.code, verdict::MEMBER_OFFSET_AFTER_STRUCT);
    assert_eq!(uniform.bound, 16);
    assert_eq!(row(&rows, 2).storage().alignment(), Some(4));
    let members = [0, 0, 0, 0, 0, 0, 0, 0, 1, 16, 0, 0, 0, 0, 0, 0];
    let refusal = judged(&[E, inner, structure(1, 3, 32)], &members, 0);
    assert_eq!(refusal, Err(refused(21, 2, 2, 0)));
}

/// Number 21 where the span rounded up to 16 leaves 32 bits: a struct of that
/// span, then a ray query at an offset past it.
#[test]
fn rounded_span_at_the_border() {
    let query = [kind::RAY_QUERY, 0, 0, 0, 0, 0];
    let outer = structure(1, 2, u32::MAX);
    let border = |span, offset| {
        let members = [0, 0, 0, 0, 2, 0, 0, 0, 1, offset, 0, 0];
        let types = [E, query, structure(0, 1, span), outer];
        judged(&types, &members, capabilities::RAY_QUERY)
    };
    assert!(border(4_294_967_280, 4_294_967_280).is_ok());
    let refusal = border(4_294_967_281, u32::MAX);
    assert_eq!(refusal, Err(refused(21, 3, 1, 0)));
}

#[test]
fn m11_half_floats() {
    assert_eq!(judged(&[F16], &[], 0), Err(refused(8, 0, 0, 1)));
    let rows = judged(&[F16], &[], capabilities::SHADER_FLOAT16).unwrap();
    assert_eq!(row(&rows, 0).immediates(), 3);
}

#[test]
fn m12_ranges() {
    assert_eq!(range(300, 0), masks(0, 0));
    assert_eq!(range(3, 2), masks(3, 3));
    assert_eq!(range(252, 4), masks(1 << 63, 0));
    assert_eq!(range(252, 5), Err(refused(25, 0, 0, 0)));
}

#[test]
fn slots_in_part() {
    assert_eq!(range(1, 1), masks(1, 1));
    let walk = |types: &[[u32; 6]], members: &[u32]| {
        let ty = types.len() as u32 - 1;
        let f16 = capabilities::SHADER_FLOAT16;
        slots(
            types.as_flattened(),
            members,
            f16,
            OLDER,
            &mut [0; 42],
            ty,
            0,
        )
    };
    assert_eq!(
        walk(&[F16, structure(0, 2, 4)], &[0, 0, 0, 0, 0, 2, 0, 0]),
        masks(1, 1)
    );
    assert_eq!(
        walk(&[E, F16, structure(0, 2, 4)], &[0, 0, 0, 0, 1, 0, 0, 0]),
        masks(1, 1)
    );
    assert_eq!(walk(&[F16, array(3, 2)], &[]), masks(3, 2));
}

/// By 01 they follow the Rust: all of other's bits; the bits of this that are not other's; the bits of either.
#[test]
fn masks_together() {
    let (all, last) = (u64::MAX, 1 << 63);
    for (mask, other, contained, left, joined) in [
        (0, 0, true, 0, 0),
        (15, 6, true, 9, 15),
        (6, 15, false, 0, 15),
        (6, 9, false, 6, 15),
        (last, 1, false, last, last + 1),
        (all, last, true, last - 1, all),
        (last - 1, all, false, 0, all),
    ] {
        assert_eq!(contains(mask, other), contained, "{mask} {other}");
        assert_eq!(difference(mask, other), left, "{mask} {other}");
        assert_eq!(union(mask, other), joined, "{mask} {other}");
    }
}

#[test]
fn rows_after_a_refusal() {
    let types = [E, V, structure(0, 2, 15)];
    let mut rows = [7; 44];
    let refusal = check(types.as_flattened(), &PAIR, 0, OLDER, &mut rows[..41]);
    assert_eq!((refusal, rows), (Err(refused(1, 0, 0, 0)), [7; 44]));
    assert!(check(types.as_flattened(), &PAIR, 0, OLDER, &mut rows).is_err());
    assert_eq!(rows[..42], [0; 42]);
    assert_eq!(rows[42..], [7; 2]);
    assert_eq!(layout(types.as_flattened(), &PAIR, &mut rows), Ok(()));
    assert_eq!(rows[28..31], [15, 16, 0]);
}

#[test]
fn layouts_before_capabilities() {
    let mut rows = [7; ROW_WORDS];
    assert_eq!(layout(&F16, &[], &mut rows), Ok(()));
    assert_eq!(rows, [2, 2, 0, 0, 0, 0, 0, 0, 0, 0, 0, 0, 0, 0]);
    let bit = capabilities::SHADER_FLOAT16;
    assert_eq!(judge(&F16, &[], bit, OLDER, &mut rows), Ok(()));
    assert_eq!(rows, [2, 2, 255, 0, 2, 0, 0, 0, 0, 2, 0, 0, 0, 3]);
    let unknown = judge(&F16, &[], u32::MAX, OLDER, &mut rows);
    assert_eq!(unknown, Err(refused(1, 0, 0, 0)));
    assert_eq!(rows[2], 255);
    let missing = judge(&F16, &[], 0, OLDER, &mut rows);
    assert_eq!(missing, Err(refused(8, 0, 0, 1)));
    assert_eq!(rows, [0; ROW_WORDS]);
}

#[test]
fn empty_tables_places_and_parts() {
    assert_eq!(judge(&[], &[], 0, OLDER, &mut []), Ok(()));
    assert_eq!(check(&[], &[], 0, OLDER, &mut []), Ok(()));
    let types = [E, V, structure(0, 2, 16)];
    let types = types.as_flattened();
    let place = |start, steps: &[u32]| place(types, &PAIR, 0, OLDER, &mut [0; 42], start, steps);
    assert_eq!(place(2, &[1]), Ok(Place { byte: 12, leaf: 0 }));
    assert_eq!(place(0, &[]), Ok(Place { byte: 0, leaf: 0 }));
    assert_eq!(place(2, &[2]), Err(refused(26, 0, 0, 0)));
    assert_eq!(members(types, &PAIR, 2), PAIR);
    assert!(members(types, &PAIR, 1).is_empty() && members(types, &PAIR[..7], 2).is_empty());
}

/// AlignOf and SizeOf of the standard, the column step AlignOf(vecR).
#[test]
fn plain_types() {
    let numbers = |shape, width| plain(shape, width).map(|p| [p.size, p.alignment, p.step]);
    let f32_and_vectors = [[4, 4, 0], [8, 8, 0], [12, 16, 0], [16, 16, 0]];
    let two_columns = [[16, 8, 8], [32, 16, 16], [32, 16, 16]];
    let three_columns = [[24, 8, 8], [48, 16, 16], [48, 16, 16]];
    let four_columns = [[32, 8, 8], [64, 16, 16], [64, 16, 16]];
    let matrices = [two_columns, three_columns, four_columns];
    let figures = f32_and_vectors.iter().chain(matrices.as_flattened());
    for (shape, figures) in (0..).zip(figures) {
        assert_eq!(numbers(shape, 4), Ok(*figures));
        assert_eq!(numbers(shape, 2), Ok(figures.map(|n| n / 2)));
    }
    for (shape, width) in [(13, 4), (0, 3), (13, 3), (0, 0), (12, 16), (u32::MAX, 4)] {
        assert_eq!(plain(shape, width), Err(refused(2, 0, 0, 0)));
    }
}

/// M9 by either rule, and a struct with a runtime-sized member, to which the newer gives code 5.
#[test]
fn by_the_newer_rule() {
    let types = [E, structure(0, 1, 4), structure(1, 2, 16)];
    let members = [0, 0, 0, 0, 1, 0, 0, 0, 0, 4, 0, 0];
    let mut rows = [7; 42];
    judge(
        types.as_flattened(),
        &members,
        0,
        UniformRule::Newer,
        &mut rows,
    )
    .unwrap();
    let row = Row::of(&rows, 2).unwrap();
    assert_eq!(row.uniform(), row.storage());
    assert_eq!(row.uniform().alignment(), Some(4));
    judge(types.as_flattened(), &members, 0, OLDER, &mut rows).unwrap();
    let row = Row::of(&rows, 2).unwrap();
    assert_eq!(row.uniform().code, verdict::MEMBER_OFFSET_AFTER_STRUCT);
    let tail = [kind::ARRAY, 0, form::DYNAMIC, 0, 4, 0];
    let types = [E, tail, structure(0, 1, 4)];
    judge(
        types.as_flattened(),
        &[1, 0, 0, 0],
        0,
        UniformRule::Newer,
        &mut rows,
    )
    .unwrap();
    let row = Row::of(&rows, 2).unwrap();
    assert_eq!(row.uniform().code, verdict::UNSIZED_MEMBER);
    assert_eq!(row.storage().alignment(), Some(4));
}

#[test]
fn columns() {
    let mat3x3 = |width| [kind::MATRIX, 3, 3, scalar::FLOAT, width, 0];
    let cooperative = [kind::COOPERATIVE_MATRIX, 8, 8, scalar::FLOAT, 4, 0];
    let types = [mat3x3(4), mat3x3(2), cooperative, structure(0, 1, 64)];
    let place = |start, steps: &[u32]| {
        let mut rows = [0; 4 * ROW_WORDS];
        place(
            types.as_flattened(),
            &[0, 16, 0, 0],
            capabilities::ALL,
            OLDER,
            &mut rows,
            start,
            steps,
        )
    };
    for column in 0..3 {
        let found = |step, byte| {
            Ok(Place {
                byte: byte + step * u64::from(column),
                leaf: 0,
            })
        };
        assert_eq!(place(0, &[column]), found(16, 0));
        assert_eq!(place(3, &[0, column]), found(16, 16));
    }
    assert_eq!(place(1, &[2]), Ok(Place { byte: 16, leaf: 1 }));
    assert_eq!(place(2, &[]), Ok(Place { byte: 0, leaf: 2 }));
    for (start, steps) in [(0, &[][..]), (0, &[3]), (0, &[2, 0]), (2, &[0]), (3, &[0])] {
        assert_eq!(place(start, steps), Err(refused(26, 0, 0, 0)));
    }
}

/// Rules of single address spaces, dimensions and classes.
#[test]
fn spaces_dimensions_and_classes() {
    let runtime = [kind::ARRAY, 0, form::DYNAMIC, 0, 4, 0];
    for space in space::FUNCTION..=space::INCOMING_RAY_PAYLOAD {
        let pointer = [kind::POINTER, 1, space, 0, 0, 0];
        let answer = judged(&[E, runtime, pointer], &[], 0);
        let refusal = (space != space::STORAGE).then(|| refused(14, 2, 0, 0));
        assert_eq!(answer.err(), refusal);
    }
    let image = |dimension, arrayed, class, capabilities| {
        let record = [kind::IMAGE, dimension, arrayed, class, 0, 0];
        judged(&[record], &[], capabilities).err()
    };
    let external = capabilities::TEXTURE_EXTERNAL;
    assert_eq!(image(dimension::D2, 0, class::EXTERNAL, external), None);
    for class in [class::SAMPLED, class::DEPTH, class::STORAGE] {
        assert_eq!(image(dimension::D1, 1, class, 0), None);
        assert_eq!(
            image(dimension::D3, 1, class, 0),
            Some(refused(22, 0, 0, 0))
        );
        assert_eq!(
            image(dimension::CUBE, 1, class, 0),
            Some(refused(8, 0, 0, 8))
        );
    }
    for dimension in [dimension::D1, dimension::D3, dimension::CUBE] {
        let refusal = image(dimension, 0, class::EXTERNAL, external);
        assert_eq!(refusal, Some(refused(22, 0, 0, 0)));
    }
}

/// A struct of vec4s with blend sources, by E9 of 02: each detail of number 34, the capability, a source without a location, and the flag.
#[test]
fn blend_sources() {
    let vec4 = [kind::VECTOR, 4, scalar::FLOAT, 4, 0, 0];
    let bool = [kind::SCALAR, scalar::BOOL, 1, 0, 0, 0];
    let dual = capabilities::DUAL_SOURCE_BLENDING;
    // Location 0 is stored as 1, sources 0 and 1 as 1 and 2.
    let two = |first: [u32; 4], second: [u32; 4], capabilities| {
        let types = [vec4, bool, V, structure(0, 2, 32)];
        let members = [first, second];
        judged(&types, members.as_flattened(), capabilities)
    };
    let pair = ([0, 0, 1, 1], [0, 16, 1, 2]);
    let rows = two(pair.0, pair.1, dual).unwrap();
    assert_eq!(row(&rows, 3).flags(), 255);
    assert!(row(&rows, 3).has(flags::IO_SHAREABLE));
    assert_eq!(two(pair.0, pair.1, 0), Err(refused(8, 3, 0, 13)));
    let plain = two([0, 0, 1, 0], [0, 16, 2, 0], 0).unwrap();
    assert_eq!(row(&plain, 3).flags(), 247);
    for (first, second, detail) in [
        (pair.0, [0, 16, 1, 3], blend::BAD_INDEX),
        (pair.0, [0, 16, 2, 2], blend::BAD_INDEX),
        (pair.0, [0, 16, 1, 1], blend::COLLISION),
        (pair.0, [2, 16, 1, 2], blend::TYPES_DIFFER),
        ([1, 0, 1, 1], [1, 16, 1, 2], blend::NOT_SHAREABLE),
        (pair.0, [0, 16, 2, 0], blend::ONE_MISSING),
    ] {
        assert_eq!(two(first, second, dual), Err(refused(34, 3, 0, detail)));
    }
    let third = [pair.0, pair.1, [0, 32, 2, 0]];
    let types = [vec4, structure(0, 3, 48)];
    let others = judged(&types, third.as_flattened(), dual);
    let expected = refused(34, 1, 0, blend::OTHER_LOCATIONS);
    assert_eq!(others, Err(expected));
    assert_eq!(two(pair.0, [0, 16, 0, 2], 0), Err(refused(2, 3, 0, 0)));
}

/// A vec3 at offset 4: accepted, and not usable in either address space.
#[test]
fn accepted_and_not_usable() {
    let rows = judged(&[E, V, structure(0, 2, 16)], &[0, 0, 0, 0, 1, 4, 0, 0], 0).unwrap();
    let expected = Verdict {
        code: verdict::MEMBER_OFFSET,
        ty: 2,
        index: 1,
        value: 4,
        bound: 16,
    };
    assert_eq!(row(&rows, 2).storage(), expected);
    assert_eq!(row(&rows, 2).uniform(), expected);
}

/// The worked layouts of the standard, and the smallest refusals of a text.
#[test]
fn texts() {
    let (mut types, mut members) = ([7; 12], [7; 12]);
    let counts = read_wgsl(b"struct A { a: f32, @size(8) b: u32 }", &mut types, &mut members);
    assert_eq!(counts.map(|c| (c.types, c.members)), Err(refused(1, 0, 0, 0)));
    assert_eq!((types, members), ([0; 12], [0; 12]));
    let (mut types, mut members) = ([7; 20], [7; 12]);
    let counts = read_wgsl(b"struct A { a: f32, @size(8) b: u32 }", &mut types, &mut members);
    assert_eq!(counts.map(|c| (c.types, c.members)), Ok((3, 2)));
    assert_eq!(types[..], [0, 2, 4, 0, 0, 0, 0, 1, 4, 0, 0, 0, 8, 0, 2, 12, 0, 0, 7, 7]);
    assert_eq!(members, [0, 0, 0, 0, 1, 4, 0, 0, 7, 7, 7, 7]);
    for (text, number) in [("struct A {}", 31), ("struct A { a: foo }", 32), ("struct A { @align(3) a: f32 }", 33)] {
        let read = read_wgsl(text.as_bytes(), &mut types, &mut members);
        assert_eq!(read.map(|c| c.types), Err(refused(number, 0, 0, 0)));
    }
}

#[test]
fn the_header_has_the_same_sentences() {
    let header = include_str!("../../wuldazin.h");
    let (_, function) = header.split_once("*wuldazin_meaning(").unwrap();
    let (function, _) = function.split_once("\n}").unwrap();
    let sentences = function.split('"').skip(1).step_by(2);
    let numbers = 0..39;
    let meanings = numbers.map(|number| refused(number, 0, 0, 0).meaning());
    assert!(sentences.eq(meanings));
}

#[test]
fn refusals_in_words() {
    let text = refused(18, 2, 1, 0).to_string();
    assert_eq!(
        text,
        "18: a member overlaps the one before (type 2, member 1)"
    );
    assert_eq!(
        refused(8, 0, 0, 1).to_string(),
        "8: a capability is missing (type 0, bit 1)"
    );
    assert_eq!(
        refused(34, 1, 0, 6).to_string(),
        "34: the blend sources of a struct's members are refused (type 1, detail 6)"
    );
    assert_eq!(
        refused(26, 0, 0, 0).to_string(),
        "26: no type has that number, or the steps lead to no place"
    );
}

// A struct of one mat3x3 of f32, column by column, as glslang writes it: five words of header, the member's Offset, ColMajor and
// MatrixStride, then the types.
const MODULE: [u32; 38] = [
    0x07230203, 0x10300, 0, 100, 0, 0x50048, 4, 0, 35, 0, 0x40048, 4, 0, 5, 0x50048, 4, 0, 7, 16, 0x30016, 1, 32, 0x40017, 2,
    1, 3, 0x40018, 3, 2, 3, 0x3001e, 4, 3, 0x40020, 5, 2, 4, 0x10000,
];

#[test]
fn a_module_from_spirv() {
    let (mut types, mut members) = ([9; 30], [9; 8]);
    let read = read_spirv(&MODULE, &mut types, &mut members);
    assert_eq!(read, Ok(Section { types: 4, members: 1 }));
    let expected = [0, 2, 4, 0, 0, 0, 1, 3, 2, 4, 0, 0, 2, 3, 3, 2, 4, 0, 8, 0, 1, 48, 0, 0];
    assert_eq!(types[..24], expected);
    assert_eq!(types[24..], [9; 6]);
    assert_eq!(members, [2, 0, 0, 0, 9, 9, 9, 9]);
}

#[test]
fn modules_refused() {
    let refusal = |words: &[u32], room: usize| {
        let (mut types, mut members) = (vec![9; room], vec![9; 5]);
        let number = read_spirv(words, &mut types, &mut members).unwrap_err().number;
        assert!(types.iter().chain(&members).all(|word| *word == 0));
        number
    };
    let with = |at: usize, word: u32| {
        let mut words = MODULE;
        words[at] = word;
        words
    };
    assert_eq!(refusal(&MODULE[..4], 30), 28);
    assert_eq!(refusal(&with(0, 0x03022307), 30), 28);
    assert_eq!(refusal(&with(37, 0x20000), 30), 28);
    assert_eq!(refusal(&with(18, 12), 30), 29);
    assert_eq!(refusal(&with(13, 4), 30), 29);
    assert_eq!(refusal(&with(32, 9), 30), 30);
    assert_eq!(refusal(&with(8, 36), 30), 30);
    assert_eq!(refusal(&MODULE, 23), 1);
    assert_eq!(refusal(&[], 0), 28);
}
