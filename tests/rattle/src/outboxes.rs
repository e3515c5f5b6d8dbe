//! Text that waits for its file.

use am_line_sink::Sink;
use am_trace_file::{GrowingFile, Outbox, Sending, TraceFile};
use std::fs;
use std::test::Fail;

/// So many bytes may wait here.
const BOUND: usize = 10_000;

/// The lines that wait, each of ten bytes.
const LINE: &[u8] = b"nine byte\n";

// What no thread takes waits up to the bound, and each line behind that is refused: none is lost in the middle. What
// waited stands in the file afterwards, whole, and so does what came once there was room again.
#[test]
fn lines_wait_up_to_a_bound(rt: HostRuntime) -> Result<(), Fail> {
    let outbox = Outbox::with_bound(rt.alloc(), BOUND);
    let mut sink = Sending::new(&rt, &outbox);
    let mut taken = 0;
    while sink.give(LINE).is_ok() && taken < 2 * BOUND {
        taken += LINE.len();
    }
    assert_eq!(rt; taken, BOUND);
    assert!(rt; sink.give(LINE).is_err());
    assert_eq!(rt; outbox.len(&rt), BOUND);
    let path = "outbox_of_a_test";
    let (_, file) = TraceFile::open_growing(&rt, path).map_err(|_| "no file")?;
    let name = String::from_str(rt.alloc(), path)?;
    outbox.give_file(&rt, GrowingFile::new(file, name, None));
    outbox.close(&rt);
    outbox.write_out(&rt);
    assert_eq!(rt; outbox.len(&rt), 0);
    let text = fs::read(&rt, path)?;
    fs::remove_file(&rt, path)?;
    assert_eq!(rt; text.len(), BOUND);
    assert!(rt; text.chunks(LINE.len()).all(|line| line == LINE));
    Ok(())
}
