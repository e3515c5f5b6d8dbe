use crate::engine::Engine;
use am_latch_ties::CallId;
use am_record::{HashKey, MAX_RUNS, Step};
use std::test::Fail;

// Where all that was stored is handed out, the end of an active transaction still has its room.
#[test]
fn an_end_keeps_its_room(rt: HostRuntime) -> Result<(), Fail> {
    let mut engine = Engine::open(rt.alloc(), HashKey::known(), MAX_RUNS)?;
    engine.step(CallId { seat: 0, call: 0 }, Step::Begin);
    for _ in 0..2 {
        engine.hand_out()?;
        assert!(rt; engine.trace.capacity() > 0 && engine.calls.capacity() > 0);
    }
    Ok(())
}
