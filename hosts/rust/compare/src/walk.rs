//! Long random runs of calls on drawn heaps.

use crate::{compare, draw, Call, Coverage, Lent, Random, Subject};

/// From which t to which, and how many calls one heap lives through.
#[derive(Clone, Copy, Debug)]
pub struct Sizes {
    pub least: u64,
    pub most: u64,
    pub calls_per_heap: u64,
}

/// Makes at least so many calls on drawn heaps, or says where the subject first goes wrong.
pub fn run_walks(
    subject: Subject,
    sizes: Sizes,
    seed: u64,
    calls: u64,
    coverage: &mut Coverage,
) -> Result<(), String> {
    let mut random = Random::new(seed);
    let end = coverage.calls() + calls;
    while coverage.calls() < end {
        let anywhere = random.between(sizes.least, sizes.most);
        let t = random.pick(&[sizes.least, anywhere, anywhere, sizes.most]);
        let mut heap = draw::heap(&mut random, t);
        for _ in 0..sizes.calls_per_heap {
            step(subject, &mut random, &mut heap, coverage)
                .map_err(|fault| format!("seed {seed}, call {}: {fault}", coverage.calls()))?;
        }
    }
    Ok(())
}

/// One call; on a damaged heap now and then, an init more often there, after which the run goes on from the
/// sound one.
fn step(
    subject: Subject,
    random: &mut Random,
    heap: &mut Lent,
    coverage: &mut Coverage,
) -> Result<(), String> {
    let mut call = draw::call(random, heap);
    let damaged = random.percent(15).then(|| {
        let mut damaged = heap.clone();
        draw::damage(random, &mut damaged);
        damaged
    });
    if damaged.is_some() && random.percent(10) {
        call = Call::Init;
    }
    let before = damaged.as_ref().unwrap_or(heap);
    let (reply, after) = compare(subject, &call, before)?;
    coverage.count(&call, before, &reply);
    if damaged.is_none() {
        *heap = after;
    }
    Ok(())
}
