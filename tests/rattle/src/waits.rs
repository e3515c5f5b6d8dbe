//! Blocks that wait for the log and are handed over, and reads that wait for the log's end.

use am_replica_waits::{Ends, Expired, Question, Queue, Waiting, Waits};
use std::alloc::Global;

// A queue in which blocks of these sizes wait, from number 1 on.
fn entered(alloc: Global, sizes: &[u64]) -> Queue {
    let mut queue = Queue::new(alloc);
    for bytes in sizes {
        queue.enter(*bytes).unwrap();
    }
    queue
}

// Hands over, and tells the last number and how many it were.
fn handed(queue: &mut Queue, most_bytes: u64, numbers: &mut [u64]) -> (usize, u64) {
    let count = queue.hand_over(most_bytes, numbers);
    (count, if count == 0 { 0 } else { numbers[count - 1] })
}

#[test]
fn as_many_go_on_their_way_as_fit(rt: HostRuntime) {
    let mut queue = entered(rt.alloc(), &[40, 60, 1, 200, 0, 7, 8, 9]);
    let mut numbers = [0; 3];
    assert_eq!(rt; handed(&mut queue, 100, &mut numbers), (2, 2));
    assert_eq!(rt; numbers, [1, 2, 0]);
    assert_eq!(rt; handed(&mut queue, 100, &mut numbers), (1, 3));
    assert_eq!(rt; handed(&mut queue, 100, &mut numbers), (1, 4));
    assert_eq!(rt; handed(&mut queue, 0, &mut numbers), (1, 5));
    assert_eq!(rt; handed(&mut queue, 100, &mut numbers[..2]), (2, 7));
    assert_eq!(rt; handed(&mut queue, 100, &mut []), (0, 0));
    assert_eq!(rt; handed(&mut queue, 100, &mut numbers), (1, 8));
    assert_eq!(rt; handed(&mut queue, 100, &mut numbers), (0, 0));
    assert_eq!(rt; (queue.on_way().len(), queue.waiting().len()), (8, 0));
}

#[test]
fn unreachable_are_those_that_never_went(rt: HostRuntime) {
    let mut queue = entered(rt.alloc(), &[1; 5]);
    let mut numbers = [0; 2];
    assert_eq!(rt; queue.expire(4), Some(Expired::Unreachable));
    assert_eq!(rt; handed(&mut queue, 100, &mut numbers), (2, 2));
    assert!(rt; queue.settle(2));
    assert_eq!(rt; queue.expire(1), Some(Expired::Unknown));
    assert!(rt; !queue.settle(3));
    assert_eq!(rt; queue.enter(1), Ok(6));
    assert_eq!(rt; handed(&mut queue, 100, &mut numbers), (2, 5));
    assert_eq!(rt; numbers, [3, 5]);
    assert!(rt;
        matches!(
            queue.waiting(),
            [Waiting {
                number: 6,
                bytes: 1
            }]
        )
    );
    for number in [0, 1, 2, 4, 7] {
        assert!(rt; !queue.settle(number));
        assert_eq!(rt; queue.expire(number), None);
    }
    assert_eq!(rt; queue.expire(6), Some(Expired::Unreachable));
    assert!(rt; queue.settle(5));
    assert_eq!(rt; queue.expire(3), Some(Expired::Unknown));
    assert!(rt; queue.on_way().is_empty() && queue.waiting().is_empty());
}

#[test]
fn a_read_waits_for_an_end_that_was_asked_since(rt: HostRuntime) {
    let mut ends = Ends::new(rt.alloc());
    assert!(rt; !ends.is_reached(0) && !ends.is_reached(1));
    ends.answered(Question { asked: 10, end: 5 }).unwrap();
    ends.answered(Question { asked: 30, end: 9 }).unwrap();
    ends.answered(Question { asked: 20, end: 7 }).unwrap();
    for (revision, known) in [(4, 0), (5, 10), (3, 10), (8, 20), (9, 30), (9, 30)] {
        ends.reach(revision);
        assert_eq!(rt; ends.known(), known);
        assert!(rt; ends.is_reached(known) == (known > 0) && !ends.is_reached(known + 1));
    }
    ends.answered(Question { asked: 25, end: 9 }).unwrap();
    assert_eq!(rt; (ends.known(), ends.applied()), (30, 9));
    ends.answered(Question { asked: 40, end: 8 }).unwrap();
    assert_eq!(rt; (ends.known(), ends.applied()), (40, 9));
    assert!(rt; ends.is_reached(1) && ends.is_reached(40) && !ends.is_reached(0));
}

#[test]
fn both_begin_with_nothing(rt: HostRuntime) {
    let mut waits = Waits::new(rt.alloc());
    assert_eq!(rt; (waits.ends.known(), waits.ends.applied()), (0, 0));
    assert_eq!(rt; waits.queue.enter(3), Ok(1));
}
