//! Traces that are written as they come.

use am_line_sink::StopSink;
use am_record::{Reply, Step};
use am_trace_text::{Header, Version};
use am_trace_writer::{PieceTaker, TraceWriter};
use std::test::Fail;

// The sink takes the first line, fails once, and would take more.
#[test]
fn a_cut_trace_gets_nothing_more(rt: HostRuntime) -> Result<(), Fail> {
    let header = Header::Profile(Version::Three);
    let mut writer = TraceWriter::begin(rt.alloc(), StopSink::new(rt.alloc(), 2), header);
    let piece = [(Step::Begin, Reply::Begun(1))];
    writer.take(&piece);
    assert!(rt; writer.is_cut());
    writer.take(&piece);
    assert!(rt; writer.into_sink().bytes() == b"TRACE 3\n".as_slice());
    Ok(())
}
