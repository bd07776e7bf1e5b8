//! A pass tried before it is run.

use crate::{door, Refusal, UniformRule};

/// Slots of immediates that are set, and those that the chosen pipeline's type needs. Steps that are refused leave it as it
/// was.
#[derive(Clone, Copy, Debug, Default, PartialEq, Eq)]
pub struct Pass {
    words: [u64; 3],
}

/// Why a dispatch does not pass, number 36.
#[derive(Clone, Copy, Debug, PartialEq, Eq)]
pub struct NotReady {
    pub refusal: Refusal,
    /// The slots needed and not set; 0 without a pipeline.
    pub missing: u64,
}

impl Pass {
    /// No slot set and no pipeline.
    pub fn start() -> Self {
        let mut words = [0; 3];
        // SAFETY: every pointer and length is that of a live slice, and no slice that is written overlaps another. So below.
        unsafe { door::wuldazin_pass_start(words.as_mut_ptr(), words.len()) }
        Self { words }
    }

    /// All slots set so far, bit k for bytes 4k to 4k + 3.
    pub fn slots_set(&self) -> u64 {
        self.words[0]
    }

    /// The slots that the chosen pipeline's type needs, if there is one.
    pub fn slots_needed(&self) -> Option<u64> {
        let [_, needed, chosen] = self.words;
        (chosen != 0).then_some(needed)
    }

    /// Sets `size` bytes of immediates from `offset` on; an empty range sets nothing. Number 37 for an offset or a size that
    /// is no multiple of 4, then 25.
    pub fn set(&mut self, offset: u32, size: u32) -> Result<(), Refusal> {
        let mut answer = [0; 4];
        // SAFETY: as in start.
        unsafe {
            door::wuldazin_pass_set(
                self.words.as_mut_ptr(),
                self.words.len(),
                offset,
                size,
                answer.as_mut_ptr(),
                answer.len(),
            )
        }
        Refusal::of(answer)
    }

    /// Chooses a pipeline by its immediate type. The slots that it needs are fixed here; slots set before stay set. Judges
    /// the arena first. Numbers 1 to 24 and 34, then 26, 37 for a type whose immediates word is not 0, and 25.
    ///
    /// What is said of time and stack at [`crate::slots`] holds here too.
    pub fn choose(
        &mut self,
        types: &[u32],
        members: &[u32],
        capabilities: u32,
        rule: UniformRule,
        rows: &mut [u32],
        ty: u32,
    ) -> Result<(), Refusal> {
        let mut answer = [0; 4];
        // SAFETY: as in start.
        unsafe {
            door::wuldazin_pass_choose(
                types.as_ptr(),
                types.len(),
                members.as_ptr(),
                members.len(),
                capabilities,
                rule as u32,
                rows.as_mut_ptr(),
                rows.len(),
                ty,
                self.words.as_mut_ptr(),
                self.words.len(),
                answer.as_mut_ptr(),
                answer.len(),
            )
        }
        Refusal::of(answer)
    }

    /// Passes exactly when a pipeline is chosen and each slot that it needs is set.
    pub fn dispatch(&self) -> Result<(), NotReady> {
        let (mut missing, mut answer) = ([0; 1], [0; 4]);
        // SAFETY: as in start.
        unsafe {
            door::wuldazin_pass_dispatch(
                self.words.as_ptr(),
                self.words.len(),
                missing.as_mut_ptr(),
                missing.len(),
                answer.as_mut_ptr(),
                answer.len(),
            )
        }
        let [missing] = missing;
        Refusal::of(answer).map_err(|refusal| NotReady { refusal, missing })
    }
}
