//! The reference in the port's place: the comparer must then find nothing.

use crate::records::*;
use crate::reference::{self, Expected};
use std::slice::{from_raw_parts, from_raw_parts_mut};

/// Writes what the port owes.
fn deliver(
    owed: Expected,
    types: &[u32],
    rows: &mut [u32],
    output: &mut [u64],
    answer: &mut [u32],
) {
    answer.copy_from_slice(&owed.answer);
    output.copy_from_slice(&owed.output);
    if owed.answer == WRONG_LENGTH {
        return;
    }
    let rows = &mut rows[..ROW_WORDS * (types.len() / TYPE_WORDS)];
    match owed.rows {
        None => rows.fill(0),
        Some(owed) => rows.copy_from_slice(owed.as_flattened()),
    }
}

#[no_mangle]
unsafe extern "C" fn wuldazin_layout(
    types: *const u32,
    types_len: usize,
    members: *const u32,
    members_len: usize,
    rows: *mut u32,
    rows_len: usize,
    answer: *mut u32,
    answer_len: usize,
) {
    let types = from_raw_parts(types, types_len);
    let members = from_raw_parts(members, members_len);
    let rows = from_raw_parts_mut(rows, rows_len);
    let answer = from_raw_parts_mut(answer, answer_len);
    let owed = reference::layout(types, members, rows_len).into();
    deliver(owed, types, rows, &mut [], answer);
}

#[cfg(feature = "check")]
#[no_mangle]
unsafe extern "C" fn wuldazin_check(
    types: *const u32,
    types_len: usize,
    members: *const u32,
    members_len: usize,
    capabilities: u32,
    rule: u32,
    rows: *mut u32,
    rows_len: usize,
    answer: *mut u32,
    answer_len: usize,
) {
    let types = from_raw_parts(types, types_len);
    let members = from_raw_parts(members, members_len);
    let rows = from_raw_parts_mut(rows, rows_len);
    let answer = from_raw_parts_mut(answer, answer_len);
    let owed = reference::check(types, members, capabilities, rule, rows_len).into();
    deliver(owed, types, rows, &mut [], answer);
}

#[cfg(feature = "check")]
#[no_mangle]
unsafe extern "C" fn wuldazin_judge(
    types: *const u32,
    types_len: usize,
    members: *const u32,
    members_len: usize,
    capabilities: u32,
    rule: u32,
    rows: *mut u32,
    rows_len: usize,
    answer: *mut u32,
    answer_len: usize,
) {
    wuldazin_check(
        types,
        types_len,
        members,
        members_len,
        capabilities,
        rule,
        rows,
        rows_len,
        answer,
        answer_len,
    );
}

#[cfg(feature = "slots")]
#[no_mangle]
unsafe extern "C" fn wuldazin_range(
    offset: u32,
    size: u32,
    mask: *mut u64,
    mask_len: usize,
    answer: *mut u32,
    answer_len: usize,
) {
    let mask = from_raw_parts_mut(mask, mask_len);
    let answer = from_raw_parts_mut(answer, answer_len);
    let mut owed = crate::slots::range(offset, size);
    owed.output.truncate(mask_len);
    deliver(owed, &[], &mut [], mask, answer);
}

#[cfg(feature = "slots")]
#[no_mangle]
unsafe extern "C" fn wuldazin_slots(
    types: *const u32,
    types_len: usize,
    members: *const u32,
    members_len: usize,
    capabilities: u32,
    rule: u32,
    rows: *mut u32,
    rows_len: usize,
    ty: u32,
    offset: u32,
    mask: *mut u64,
    mask_len: usize,
    answer: *mut u32,
    answer_len: usize,
) {
    let types = from_raw_parts(types, types_len);
    let members = from_raw_parts(members, members_len);
    let rows = from_raw_parts_mut(rows, rows_len);
    let mask = from_raw_parts_mut(mask, mask_len);
    let answer = from_raw_parts_mut(answer, answer_len);
    let outcome = reference::check(types, members, capabilities, rule, rows_len);
    let mut owed = crate::slots::walk(outcome, ty, offset);
    owed.output.truncate(mask_len);
    deliver(owed, types, rows, mask, answer);
}

#[cfg(feature = "masks")]
#[no_mangle]
extern "C" fn wuldazin_contains(mask: u64, other: u64) -> bool {
    crate::mask_calls::contained(mask, other)
}

#[cfg(feature = "masks")]
#[no_mangle]
extern "C" fn wuldazin_difference(mask: u64, other: u64) -> u64 {
    crate::mask_calls::left(mask, other)
}

#[cfg(feature = "masks")]
#[no_mangle]
extern "C" fn wuldazin_union(mask: u64, other: u64) -> u64 {
    crate::mask_calls::joined(mask, other)
}

#[cfg(feature = "place")]
#[no_mangle]
unsafe extern "C" fn wuldazin_place(
    types: *const u32,
    types_len: usize,
    members: *const u32,
    members_len: usize,
    capabilities: u32,
    rule: u32,
    rows: *mut u32,
    rows_len: usize,
    start: u32,
    steps: *const u32,
    steps_len: usize,
    place: *mut u64,
    place_len: usize,
    answer: *mut u32,
    answer_len: usize,
) {
    let types = from_raw_parts(types, types_len);
    let members = from_raw_parts(members, members_len);
    let rows = from_raw_parts_mut(rows, rows_len);
    let steps = from_raw_parts(steps, steps_len);
    let place = from_raw_parts_mut(place, place_len);
    let answer = from_raw_parts_mut(answer, answer_len);
    let outcome = reference::check(types, members, capabilities, rule, rows_len);
    let owed = crate::place::look_up(outcome, types, members, start, steps);
    deliver(owed, types, rows, place, answer);
}

#[cfg(feature = "short")]
#[no_mangle]
unsafe extern "C" fn wuldazin_place_short(
    types: *const u32,
    types_len: usize,
    members: *const u32,
    members_len: usize,
    capabilities: u32,
    scratch: *mut u32,
    scratch_len: usize,
    start: u32,
    steps: *const u32,
    steps_len: usize,
    place: *mut u64,
    place_len: usize,
    answer: *mut u32,
    answer_len: usize,
) {
    let types = from_raw_parts(types, types_len);
    let members = from_raw_parts(members, members_len);
    let scratch = from_raw_parts_mut(scratch, scratch_len);
    let steps = from_raw_parts(steps, steps_len);
    let outcome = short_outcome(types, members, capabilities, scratch);
    let owed = crate::place::look_up(outcome, types, members, start, steps);
    from_raw_parts_mut(place, place_len).copy_from_slice(&owed.output);
    from_raw_parts_mut(answer, answer_len).copy_from_slice(&owed.answer);
}

#[cfg(feature = "short")]
#[no_mangle]
unsafe extern "C" fn wuldazin_places(
    types: *const u32,
    types_len: usize,
    members: *const u32,
    members_len: usize,
    capabilities: u32,
    scratch: *mut u32,
    scratch_len: usize,
    runs: *const u32,
    runs_len: usize,
    found: *mut u64,
    found_len: usize,
    answer: *mut u32,
    answer_len: usize,
) {
    let types = from_raw_parts(types, types_len);
    let members = from_raw_parts(members, members_len);
    let scratch = from_raw_parts_mut(scratch, scratch_len);
    let found = from_raw_parts_mut(found, found_len);
    let answer = from_raw_parts_mut(answer, answer_len);
    answer.copy_from_slice(&crate::records::WRONG_LENGTH);
    let Some(runs) = crate::short_calls::read(from_raw_parts(runs, runs_len)) else {
        return;
    };
    if found.len() < 2 * runs.len() {
        return;
    }
    let outcome = short_outcome(types, members, capabilities, scratch);
    answer.copy_from_slice(&outcome.answer);
    if outcome.answer == crate::records::WRONG_LENGTH {
        return;
    }
    for (pair, (start, steps)) in found.chunks_exact_mut(2).zip(runs) {
        let accepted = outcome.rows.is_some();
        let place = accepted.then(|| crate::place::of(types, members, start, &steps));
        let words = place.flatten().map(|(byte, leaf)| [byte, u64::from(leaf)]);
        pair.copy_from_slice(&words.unwrap_or([u64::MAX; 2]));
    }
}

/// By the reference, and the scratch that it owes.
#[cfg(feature = "short")]
fn short_outcome(
    types: &[u32],
    members: &[u32],
    capabilities: u32,
    scratch: &mut [u32],
) -> reference::Outcome {
    use crate::records::{OLDER, ROW_WORDS, TYPE_WORDS};
    let count = types.len() / TYPE_WORDS;
    let rows_len = match scratch.len() < 3 * count {
        true => 0,
        false => ROW_WORDS * count,
    };
    let outcome = reference::check(types, members, capabilities, OLDER, rows_len);
    if outcome.answer != crate::records::WRONG_LENGTH {
        let words = &mut scratch[..3 * count];
        words.fill(0);
        let rows = outcome.rows.iter().flatten();
        for (three, row) in words.chunks_exact_mut(3).zip(rows) {
            three.copy_from_slice(&row[..3]);
        }
    }
    outcome
}

#[cfg(feature = "report")]
#[no_mangle]
unsafe extern "C" fn wuldazin_report(
    types: *const u32,
    types_len: usize,
    members: *const u32,
    members_len: usize,
    capabilities: u32,
    rule: u32,
    rows: *mut u32,
    rows_len: usize,
    report: *mut u64,
    report_len: usize,
    totals: *mut u64,
    totals_len: usize,
    answer: *mut u32,
    answer_len: usize,
) {
    let arena = Arena {
        types: from_raw_parts(types, types_len).to_vec(),
        members: from_raw_parts(members, members_len).to_vec(),
        capabilities,
        rule,
        rows_len,
    };
    let rows = from_raw_parts_mut(rows, rows_len);
    let report = from_raw_parts_mut(report, report_len);
    let totals = from_raw_parts_mut(totals, totals_len);
    let answer = from_raw_parts_mut(answer, answer_len);
    let outcome = crate::print::reference_of(&arena);
    let owed = crate::report::of(&arena, outcome, report_len);
    report.copy_from_slice(&crate::report::owed_words(report, &arena, &owed));
    deliver(owed.expected, &arena.types, rows, totals, answer);
}

#[cfg(feature = "members")]
#[no_mangle]
unsafe extern "C" fn wuldazin_members(
    types: *const u32,
    types_len: usize,
    members: *const u32,
    members_len: usize,
    ty: u32,
    part: *mut u64,
    part_len: usize,
) {
    let types = from_raw_parts(types, types_len);
    let members = from_raw_parts(members, members_len);
    let owed = crate::members::part(types, members, ty);
    from_raw_parts_mut(part, part_len).copy_from_slice(&owed);
}

#[cfg(feature = "plain")]
#[no_mangle]
unsafe extern "C" fn wuldazin_plain(
    shape: u32,
    width: u32,
    numbers: *mut u32,
    numbers_len: usize,
    answer: *mut u32,
    answer_len: usize,
) {
    let (owed, owed_numbers) = crate::plain::owed(shape, width);
    from_raw_parts_mut(answer, answer_len).copy_from_slice(&owed);
    if let Some(first) = from_raw_parts_mut(numbers, numbers_len).first_chunk_mut() {
        *first = owed_numbers;
    }
}

#[cfg(feature = "spirv")]
#[no_mangle]
unsafe extern "C" fn wuldazin_read_spirv(
    words: *const u32,
    words_len: usize,
    types: *mut u32,
    types_len: usize,
    members: *mut u32,
    members_len: usize,
    counts: *mut u32,
    counts_len: usize,
    answer: *mut u32,
    answer_len: usize,
) {
    let words = std::slice::from_raw_parts(words, words_len);
    let types = from_raw_parts_mut(types, types_len);
    let members = from_raw_parts_mut(members, members_len);
    let counts = from_raw_parts_mut(counts, counts_len);
    let answer = from_raw_parts_mut(answer, answer_len);
    counts[..2].fill(0);
    answer[..4].fill(0);
    match crate::spirv::read(words, types.len() / 6, members.len() / 4) {
        Ok(section) => {
            let (t, m) = (section.types.as_flattened(), section.members.as_flattened());
            types[..t.len()].copy_from_slice(t);
            members[..m.len()].copy_from_slice(m);
            counts[0] = section.types.len() as u32;
            counts[1] = section.members.len() as u32;
        }
        Err(number) => {
            types.fill(0);
            members.fill(0);
            answer[0] = number;
        }
    }
}

/// An accepted step leaves its pass.
#[cfg(feature = "pass")]
fn leave(words: &mut [u64], after: Option<crate::pass::Pass>) {
    if let (Some(first), Some(after)) = (words.first_chunk_mut(), after) {
        *first = after.words();
    }
}

#[cfg(feature = "pass")]
#[no_mangle]
unsafe extern "C" fn wuldazin_pass_start(pass: *mut u64, pass_len: usize) {
    let words = from_raw_parts_mut(pass, pass_len);
    leave(words, crate::pass::Pass::of(&[0; crate::pass::PASS_WORDS]));
}

#[cfg(feature = "pass")]
#[no_mangle]
unsafe extern "C" fn wuldazin_pass_set(
    pass: *mut u64,
    pass_len: usize,
    offset: u32,
    size: u32,
    answer: *mut u32,
    answer_len: usize,
) {
    let words = from_raw_parts_mut(pass, pass_len);
    let before = crate::pass::Pass::of(words);
    let after = before.map_or(Err(1), |pass| pass.set(offset, size));
    let number = after.as_ref().err().copied().unwrap_or(0);
    from_raw_parts_mut(answer, answer_len).copy_from_slice(&[number, 0, 0, 0]);
    leave(words, after.ok());
}

#[cfg(feature = "pass")]
#[no_mangle]
unsafe extern "C" fn wuldazin_pass_choose(
    types: *const u32,
    types_len: usize,
    members: *const u32,
    members_len: usize,
    capabilities: u32,
    rule: u32,
    rows: *mut u32,
    rows_len: usize,
    ty: u32,
    pass: *mut u64,
    pass_len: usize,
    answer: *mut u32,
    answer_len: usize,
) {
    let types = from_raw_parts(types, types_len);
    let members = from_raw_parts(members, members_len);
    let rows = from_raw_parts_mut(rows, rows_len);
    let words = from_raw_parts_mut(pass, pass_len);
    let answer = from_raw_parts_mut(answer, answer_len);
    let outcome = reference::check(types, members, capabilities, rule, rows_len);
    let before = crate::pass::Pass::of(words);
    let (owed, after) = crate::pass::choose(before.as_ref(), outcome, ty);
    deliver(owed, types, rows, &mut [], answer);
    leave(words, after);
}

#[cfg(feature = "pass")]
#[no_mangle]
unsafe extern "C" fn wuldazin_pass_dispatch(
    pass: *const u64,
    pass_len: usize,
    missing: *mut u64,
    missing_len: usize,
    answer: *mut u32,
    answer_len: usize,
) {
    let before = crate::pass::Pass::of(from_raw_parts(pass, pass_len));
    let (number, slots) = match before.map(|pass| pass.dispatch()) {
        None => (1, 0),
        Some(Ok(())) => (0, 0),
        Some(Err(slots)) => (crate::pass::NOT_READY, slots),
    };
    from_raw_parts_mut(answer, answer_len).copy_from_slice(&[number, 0, 0, 0]);
    if let Some(first) = from_raw_parts_mut(missing, missing_len).first_mut() {
        *first = slots;
    }
}

#[cfg(feature = "wgsl")]
#[no_mangle]
unsafe extern "C" fn wuldazin_read_wgsl(
    text: *const u8,
    text_len: usize,
    types: *mut u32,
    types_len: usize,
    members: *mut u32,
    members_len: usize,
    counts: *mut u32,
    counts_len: usize,
    answer: *mut u32,
    answer_len: usize,
) {
    let text = from_raw_parts(text, text_len);
    let types = from_raw_parts_mut(types, types_len);
    let members = from_raw_parts_mut(members, members_len);
    let counts = from_raw_parts_mut(counts, counts_len);
    let owed = crate::wgsl::read(text, types.len(), members.len());
    let (number, records) = match owed {
        Ok(records) => (0, records),
        Err((number, _)) => {
            types.fill(0);
            members.fill(0);
            (number, Default::default())
        }
    };
    types[..records.types.len()].copy_from_slice(&records.types);
    members[..records.members.len()].copy_from_slice(&records.members);
    if let Some(first) = counts.first_chunk_mut() {
        *first = [
            (records.types.len() / crate::wgsl::TYPE_WORDS) as u32,
            (records.members.len() / crate::wgsl::MEMBER_WORDS) as u32,
        ];
    }
    if let Some(first) = from_raw_parts_mut(answer, answer_len).first_chunk_mut() {
        *first = [number, 0, 0, 0];
    }
}
