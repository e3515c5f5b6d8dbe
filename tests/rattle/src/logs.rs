//! The line of counts that a server tells.

use am_index::Figures;
use am_serve_connections::SessionCounts;
use am_serve_drain::{ServerCounts, log_text};
use am_trace_writer::{EventCounts, TraceCounts};
use std::alloc::AllocError;

// Three runs and one ghost, and no two numbers alike.
#[test]
fn each_count_is_told_by_its_name(rt: HostRuntime) -> Result<(), AllocError> {
    let counts = ServerCounts {
        sessions: SessionCounts {
            begun: 812,
            open: 4,
            refused_by_system: 18_446_744_073_709_551_615,
            first_refusal: Some(24),
        },
        trace: TraceCounts {
            events: 40_655,
            kept: 35,
            of: EventCounts {
                commits: 9120,
                busy: 14,
                too_many: 0,
                wrong: 2,
            },
        },
        index: Figures {
            entries: 8514,
            in_final: 7204,
            in_runs: 1310,
            runs: 3,
            ghosts: 1,
        },
        is_cut: false,
    };
    let whole = log_text(rt.alloc(), &counts, 65_536, false)?;
    assert_eq!(rt;
        whole.as_str(),
        "sessions=812 open=4 steps=40655 commits=9120 busy=14 too_many=0 wrong=2 \
        in_final=7204 in_runs=1310 runs=3 ghosts=1 kept=35 waiting=65536 unaccepted=18446744073709551615 trace=whole\n"
    );
    let cut = log_text(rt.alloc(), &counts, 10, true)?;
    assert!(rt;
        cut.as_str()
            .ends_with(" waiting=10 unaccepted=18446744073709551615 trace=cut\n")
    );
    Ok(())
}
