//! The smallest passes, through the safe calls.

use crate::*;

const OLDER: UniformRule = UniformRule::Older;
const E: [u32; 6] = [kind::SCALAR, scalar::FLOAT, 4, 0, 0, 0];
const H: [u32; 6] = [kind::SCALAR, scalar::FLOAT, 2, 0, 0, 0];
const B: [u32; 6] = [kind::SCALAR, scalar::BOOL, 1, 0, 0, 0];
const V: [u32; 6] = [kind::VECTOR, 3, scalar::FLOAT, 4, 0, 0];

fn refused(number: u32) -> Refusal {
    Refusal {
        number,
        ty: 0,
        member: 0,
        detail: 0,
    }
}

fn not_ready(missing: u64) -> NotReady {
    let refusal = refused(36);
    NotReady { refusal, missing }
}

fn choose(pass: &mut Pass, types: &[[u32; 6]], capabilities: u32, ty: u32) -> Result<(), Refusal> {
    let mut rows = vec![7; types.len() * ROW_WORDS];
    pass.choose(
        types.as_flattened(),
        &[],
        capabilities,
        OLDER,
        &mut rows,
        ty,
    )
}

#[test]
fn ranges() {
    let mut pass = Pass::start();
    assert_eq!(pass, Pass::default());
    assert_eq!(pass.set(300, 0), Ok(()));
    assert_eq!(pass.set(301, 0), Err(refused(37)));
    assert_eq!(pass.set(0, 2), Err(refused(37)));
    assert_eq!(pass.set(257, 4), Err(refused(37)));
    assert_eq!(pass.set(256, 4), Err(refused(25)));
    assert_eq!(pass, Pass::start());
    assert_eq!(pass.set(252, 4), Ok(()));
    assert_eq!(pass.slots_set(), 1 << 63);
    assert_eq!(pass.set(0, 8), Ok(()));
    assert_eq!(pass.slots_set(), 1 << 63 | 3);
}

#[test]
fn pipelines() {
    let mut pass = Pass::start();
    let half = capabilities::SHADER_FLOAT16;
    assert_eq!(choose(&mut pass, &[H], half, 0), Err(refused(37)));
    assert_eq!(choose(&mut pass, &[H], half, 1), Err(refused(26)));
    let wide = [kind::ARRAY, 0, form::CONSTANT, 65, 4, 0];
    assert_eq!(choose(&mut pass, &[E, wide], 0, 1), Err(refused(25)));
    let missing = Refusal {
        detail: 1,
        ..refused(8)
    };
    assert_eq!(choose(&mut pass, &[H], 0, 0), Err(missing));
    assert_eq!(pass.slots_needed(), None);
    assert_eq!(choose(&mut pass, &[B], 0, 0), Ok(()));
    assert_eq!(pass.slots_needed(), Some(1));
}

#[test]
fn dispatches() {
    let mut pass = Pass::start();
    assert_eq!(pass.dispatch(), Err(not_ready(0)));
    assert_eq!(pass.set(0, 4), Ok(()));
    assert_eq!(pass.dispatch(), Err(not_ready(0)));
    assert_eq!(choose(&mut pass, &[E], 0, 0), Ok(()));
    assert_eq!(pass.dispatch(), Ok(()));
    assert_eq!(choose(&mut pass, &[E, V], 0, 1), Ok(()));
    assert_eq!(pass.dispatch(), Err(not_ready(6)));
    assert_eq!(choose(&mut pass, &[E, E], 0, 5), Err(refused(26)));
    assert_eq!(pass.set(2, 4), Err(refused(37)));
    assert_eq!(pass.dispatch(), Err(not_ready(6)));
    assert_eq!(pass.set(4, 8), Ok(()));
    assert_eq!(pass.dispatch(), Ok(()));
}

#[test]
fn no_slot_needed() {
    let mut pass = Pass::start();
    let sampler = [kind::SAMPLER, 0, 0, 0, 0, 0];
    let found = choose(&mut pass, &[sampler], 0, 0);
    let needed = pass.slots_needed();
    assert_eq!((found, needed), (Ok(()), Some(0)));
    assert_eq!(pass.dispatch(), Ok(()));
}
