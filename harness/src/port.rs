//! The port, called through C: a slice is handed as a pointer and a length.

use crate::compare::Lent;
use crate::records::Arena;
#[cfg(feature = "short")]
use crate::short_calls::ManyLent;

extern "C" {
    fn wuldazin_layout(
        types: *const u32,
        types_len: usize,
        members: *const u32,
        members_len: usize,
        rows: *mut u32,
        rows_len: usize,
        answer: *mut u32,
        answer_len: usize,
    );
    #[cfg(feature = "check")]
    fn wuldazin_judge(
        types: *const u32,
        types_len: usize,
        members: *const u32,
        members_len: usize,
        capabilities: u32,
        rule: u32,
        rows: *mut u32,
        rows_len: usize,
        answer: *mut u32,
        answer_len: usize,
    );
    #[cfg(feature = "check")]
    fn wuldazin_check(
        types: *const u32,
        types_len: usize,
        members: *const u32,
        members_len: usize,
        capabilities: u32,
        rule: u32,
        rows: *mut u32,
        rows_len: usize,
        answer: *mut u32,
        answer_len: usize,
    );
    #[cfg(feature = "slots")]
    fn wuldazin_range(
        offset: u32,
        size: u32,
        mask: *mut u64,
        mask_len: usize,
        answer: *mut u32,
        answer_len: usize,
    );
    #[cfg(feature = "slots")]
    fn wuldazin_slots(
        types: *const u32,
        types_len: usize,
        members: *const u32,
        members_len: usize,
        capabilities: u32,
        rule: u32,
        rows: *mut u32,
        rows_len: usize,
        ty: u32,
        offset: u32,
        mask: *mut u64,
        mask_len: usize,
        answer: *mut u32,
        answer_len: usize,
    );
    #[cfg(feature = "masks")]
    fn wuldazin_contains(mask: u64, other: u64) -> bool;
    #[cfg(feature = "masks")]
    fn wuldazin_difference(mask: u64, other: u64) -> u64;
    #[cfg(feature = "masks")]
    fn wuldazin_union(mask: u64, other: u64) -> u64;
    #[cfg(feature = "place")]
    fn wuldazin_place(
        types: *const u32,
        types_len: usize,
        members: *const u32,
        members_len: usize,
        capabilities: u32,
        rule: u32,
        rows: *mut u32,
        rows_len: usize,
        start: u32,
        steps: *const u32,
        steps_len: usize,
        place: *mut u64,
        place_len: usize,
        answer: *mut u32,
        answer_len: usize,
    );
    #[cfg(feature = "short")]
    fn wuldazin_place_short(
        types: *const u32,
        types_len: usize,
        members: *const u32,
        members_len: usize,
        capabilities: u32,
        scratch: *mut u32,
        scratch_len: usize,
        start: u32,
        steps: *const u32,
        steps_len: usize,
        place: *mut u64,
        place_len: usize,
        answer: *mut u32,
        answer_len: usize,
    );
    #[cfg(feature = "short")]
    fn wuldazin_places(
        types: *const u32,
        types_len: usize,
        members: *const u32,
        members_len: usize,
        capabilities: u32,
        scratch: *mut u32,
        scratch_len: usize,
        runs: *const u32,
        runs_len: usize,
        found: *mut u64,
        found_len: usize,
        answer: *mut u32,
        answer_len: usize,
    );
    #[cfg(feature = "report")]
    fn wuldazin_report(
        types: *const u32,
        types_len: usize,
        members: *const u32,
        members_len: usize,
        capabilities: u32,
        rule: u32,
        rows: *mut u32,
        rows_len: usize,
        report: *mut u64,
        report_len: usize,
        totals: *mut u64,
        totals_len: usize,
        answer: *mut u32,
        answer_len: usize,
    );
    #[cfg(feature = "order")]
    fn wuldazin_order(
        types: *mut u32,
        types_len: usize,
        type_count: u32,
        members: *mut u32,
        members_len: usize,
        member_count: u32,
        capabilities: u32,
        rule: u32,
        rows: *mut u32,
        rows_len: usize,
        wanted: *const u32,
        wanted_len: usize,
        span: u32,
        found: *mut u32,
        found_len: usize,
        answer: *mut u32,
        answer_len: usize,
    );
    #[cfg(feature = "members")]
    fn wuldazin_members(
        types: *const u32,
        types_len: usize,
        members: *const u32,
        members_len: usize,
        ty: u32,
        part: *mut u64,
        part_len: usize,
    );
    #[cfg(feature = "spirv")]
    fn wuldazin_read_spirv(
        words: *const u32,
        words_len: usize,
        types: *mut u32,
        types_len: usize,
        members: *mut u32,
        members_len: usize,
        counts: *mut u32,
        counts_len: usize,
        answer: *mut u32,
        answer_len: usize,
    );
    #[cfg(feature = "plain")]
    fn wuldazin_plain(
        shape: u32,
        width: u32,
        numbers: *mut u32,
        numbers_len: usize,
        answer: *mut u32,
        answer_len: usize,
    );
    #[cfg(feature = "pass")]
    fn wuldazin_pass_start(pass: *mut u64, pass_len: usize);
    #[cfg(feature = "pass")]
    fn wuldazin_pass_set(
        pass: *mut u64,
        pass_len: usize,
        offset: u32,
        size: u32,
        answer: *mut u32,
        answer_len: usize,
    );
    #[cfg(feature = "pass")]
    fn wuldazin_pass_choose(
        types: *const u32,
        types_len: usize,
        members: *const u32,
        members_len: usize,
        capabilities: u32,
        rule: u32,
        rows: *mut u32,
        rows_len: usize,
        ty: u32,
        pass: *mut u64,
        pass_len: usize,
        answer: *mut u32,
        answer_len: usize,
    );
    #[cfg(feature = "pass")]
    fn wuldazin_pass_dispatch(
        pass: *const u64,
        pass_len: usize,
        missing: *mut u64,
        missing_len: usize,
        answer: *mut u32,
        answer_len: usize,
    );
    #[cfg(feature = "wgsl")]
    fn wuldazin_read_wgsl(
        text: *const u8,
        text_len: usize,
        types: *mut u32,
        types_len: usize,
        members: *mut u32,
        members_len: usize,
        counts: *mut u32,
        counts_len: usize,
        answer: *mut u32,
        answer_len: usize,
    );
}

pub fn layout(arena: &Arena, lent: Lent) {
    // The pointers and lengths are those of live slices, as the port's are.
    unsafe {
        wuldazin_layout(
            arena.types.as_ptr(),
            arena.types.len(),
            arena.members.as_ptr(),
            arena.members.len(),
            lent.rows.as_mut_ptr(),
            lent.rows.len(),
            lent.answer.as_mut_ptr(),
            lent.answer.len(),
        )
    }
}

#[cfg(feature = "check")]
pub fn judge(arena: &Arena, lent: Lent) {
    // As above.
    unsafe {
        wuldazin_judge(
            arena.types.as_ptr(),
            arena.types.len(),
            arena.members.as_ptr(),
            arena.members.len(),
            arena.capabilities,
            arena.rule,
            lent.rows.as_mut_ptr(),
            lent.rows.len(),
            lent.answer.as_mut_ptr(),
            lent.answer.len(),
        )
    }
}

#[cfg(feature = "check")]
pub fn check(arena: &Arena, lent: Lent) {
    // As above.
    unsafe {
        wuldazin_check(
            arena.types.as_ptr(),
            arena.types.len(),
            arena.members.as_ptr(),
            arena.members.len(),
            arena.capabilities,
            arena.rule,
            lent.rows.as_mut_ptr(),
            lent.rows.len(),
            lent.answer.as_mut_ptr(),
            lent.answer.len(),
        )
    }
}

#[cfg(feature = "slots")]
pub fn range(offset: u32, size: u32, lent: Lent) {
    // As above.
    unsafe {
        wuldazin_range(
            offset,
            size,
            lent.output.as_mut_ptr(),
            lent.output.len(),
            lent.answer.as_mut_ptr(),
            lent.answer.len(),
        )
    }
}

#[cfg(feature = "slots")]
pub fn slots(arena: &Arena, ty: u32, offset: u32, lent: Lent) {
    // As above.
    unsafe {
        wuldazin_slots(
            arena.types.as_ptr(),
            arena.types.len(),
            arena.members.as_ptr(),
            arena.members.len(),
            arena.capabilities,
            arena.rule,
            lent.rows.as_mut_ptr(),
            lent.rows.len(),
            ty,
            offset,
            lent.output.as_mut_ptr(),
            lent.output.len(),
            lent.answer.as_mut_ptr(),
            lent.answer.len(),
        )
    }
}

#[cfg(feature = "masks")]
pub fn contains(mask: u64, other: u64) -> bool {
    // Two numbers are handed over, and nothing is lent; so in the next two.
    unsafe { wuldazin_contains(mask, other) }
}

#[cfg(feature = "masks")]
pub fn difference(mask: u64, other: u64) -> u64 {
    unsafe { wuldazin_difference(mask, other) }
}

#[cfg(feature = "masks")]
pub fn union(mask: u64, other: u64) -> u64 {
    unsafe { wuldazin_union(mask, other) }
}

#[cfg(feature = "place")]
pub fn place(arena: &Arena, start: u32, steps: &[u32], lent: Lent) {
    // As above.
    unsafe {
        wuldazin_place(
            arena.types.as_ptr(),
            arena.types.len(),
            arena.members.as_ptr(),
            arena.members.len(),
            arena.capabilities,
            arena.rule,
            lent.rows.as_mut_ptr(),
            lent.rows.len(),
            start,
            steps.as_ptr(),
            steps.len(),
            lent.output.as_mut_ptr(),
            lent.output.len(),
            lent.answer.as_mut_ptr(),
            lent.answer.len(),
        )
    }
}

/// With the scratch in the place of the rows.
#[cfg(feature = "short")]
pub fn place_short(arena: &Arena, start: u32, steps: &[u32], lent: Lent) {
    // As above.
    unsafe {
        wuldazin_place_short(
            arena.types.as_ptr(),
            arena.types.len(),
            arena.members.as_ptr(),
            arena.members.len(),
            arena.capabilities,
            lent.rows.as_mut_ptr(),
            lent.rows.len(),
            start,
            steps.as_ptr(),
            steps.len(),
            lent.output.as_mut_ptr(),
            lent.output.len(),
            lent.answer.as_mut_ptr(),
            lent.answer.len(),
        )
    }
}

#[cfg(feature = "short")]
pub fn places(arena: &Arena, runs: &[u32], lent: ManyLent) {
    // As above.
    unsafe {
        wuldazin_places(
            arena.types.as_ptr(),
            arena.types.len(),
            arena.members.as_ptr(),
            arena.members.len(),
            arena.capabilities,
            lent.scratch.as_mut_ptr(),
            lent.scratch.len(),
            runs.as_ptr(),
            runs.len(),
            lent.found.as_mut_ptr(),
            lent.found.len(),
            lent.answer.as_mut_ptr(),
            lent.answer.len(),
        )
    }
}

#[cfg(feature = "report")]
pub fn report(arena: &Arena, report: &mut [u64], lent: Lent) {
    // As above.
    unsafe {
        wuldazin_report(
            arena.types.as_ptr(),
            arena.types.len(),
            arena.members.as_ptr(),
            arena.members.len(),
            arena.capabilities,
            arena.rule,
            lent.rows.as_mut_ptr(),
            lent.rows.len(),
            report.as_mut_ptr(),
            report.len(),
            lent.output.as_mut_ptr(),
            lent.output.len(),
            lent.answer.as_mut_ptr(),
            lent.answer.len(),
        )
    }
}

#[cfg(feature = "order")]
pub fn order(
    call: &crate::order::Call,
    types: &mut [u32],
    members: &mut [u32],
    rows: &mut [u32],
    found: &mut [u32],
    answer: &mut [u32],
) {
    // As above.
    unsafe {
        wuldazin_order(
            types.as_mut_ptr(),
            types.len(),
            call.arena.type_count() as u32,
            members.as_mut_ptr(),
            members.len(),
            call.arena.member_count() as u32,
            call.arena.capabilities,
            call.arena.rule,
            rows.as_mut_ptr(),
            rows.len(),
            call.wanted.as_ptr(),
            call.wanted.len(),
            call.span,
            found.as_mut_ptr(),
            found.len(),
            answer.as_mut_ptr(),
            answer.len(),
        )
    }
}

#[cfg(feature = "members")]
pub fn members(types: &[u32], members: &[u32], ty: u32, part: &mut [u64]) {
    // As above.
    unsafe {
        wuldazin_members(
            types.as_ptr(),
            types.len(),
            members.as_ptr(),
            members.len(),
            ty,
            part.as_mut_ptr(),
            part.len(),
        )
    }
}

#[cfg(feature = "spirv")]
pub fn read_spirv(
    words: &[u32],
    types: &mut [u32],
    members: &mut [u32],
    counts: &mut [u32],
    answer: &mut [u32],
) {
    // As above.
    unsafe {
        wuldazin_read_spirv(
            words.as_ptr(),
            words.len(),
            types.as_mut_ptr(),
            types.len(),
            members.as_mut_ptr(),
            members.len(),
            counts.as_mut_ptr(),
            counts.len(),
            answer.as_mut_ptr(),
            answer.len(),
        )
    }
}

#[cfg(feature = "plain")]
pub fn plain(shape: u32, width: u32, numbers: &mut [u32], answer: &mut [u32]) {
    // As above.
    unsafe {
        wuldazin_plain(
            shape,
            width,
            numbers.as_mut_ptr(),
            numbers.len(),
            answer.as_mut_ptr(),
            answer.len(),
        )
    }
}

#[cfg(feature = "pass")]
pub fn pass_start(pass: &mut [u64]) {
    // As above.
    unsafe { wuldazin_pass_start(pass.as_mut_ptr(), pass.len()) }
}

#[cfg(feature = "pass")]
pub fn pass_set(pass: &mut [u64], offset: u32, size: u32, answer: &mut [u32]) {
    // As above.
    unsafe {
        wuldazin_pass_set(
            pass.as_mut_ptr(),
            pass.len(),
            offset,
            size,
            answer.as_mut_ptr(),
            answer.len(),
        )
    }
}

/// The output is the pass.
#[cfg(feature = "pass")]
pub fn pass_choose(arena: &Arena, ty: u32, lent: Lent) {
    // As above.
    unsafe {
        wuldazin_pass_choose(
            arena.types.as_ptr(),
            arena.types.len(),
            arena.members.as_ptr(),
            arena.members.len(),
            arena.capabilities,
            arena.rule,
            lent.rows.as_mut_ptr(),
            lent.rows.len(),
            ty,
            lent.output.as_mut_ptr(),
            lent.output.len(),
            lent.answer.as_mut_ptr(),
            lent.answer.len(),
        )
    }
}

#[cfg(feature = "pass")]
pub fn pass_dispatch(pass: &[u64], missing: &mut [u64], answer: &mut [u32]) {
    // As above.
    unsafe {
        wuldazin_pass_dispatch(
            pass.as_ptr(),
            pass.len(),
            missing.as_mut_ptr(),
            missing.len(),
            answer.as_mut_ptr(),
            answer.len(),
        )
    }
}

#[cfg(feature = "wgsl")]
pub fn read_wgsl(
    text: &[u8],
    types: &mut [u32],
    members: &mut [u32],
    counts: &mut [u32],
    answer: &mut [u32],
) {
    // As above.
    unsafe {
        wuldazin_read_wgsl(
            text.as_ptr(),
            text.len(),
            types.as_mut_ptr(),
            types.len(),
            members.as_mut_ptr(),
            members.len(),
            counts.as_mut_ptr(),
            counts.len(),
            answer.as_mut_ptr(),
            answer.len(),
        )
    }
}
