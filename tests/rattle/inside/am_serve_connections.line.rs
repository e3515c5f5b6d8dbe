use crate::line::{Asked, Grant, Holder, Line, Waiter};
use std::alloc::{AllocError, Global};
use std::test::Fail;

// Two sessions stand at places 0 and 1, and one that would hold at place 2.
const HOLDER: usize = 2;

// For so many microseconds it would hold.
const MICROS: u64 = 1_000_000;

// What a session does next, or has done.
#[derive(Clone, Copy, PartialEq, Eq)]
enum Place {
    SaysInside,
    Looks,
    Waits,
    IsInside,
    Left,
}

// What who would hold does next, or has done.
#[derive(Clone, Copy, PartialEq, Eq)]
enum Hold {
    Asks,
    LooksWhoIsInside,
    IsTold(Option<u64>),
    Holds,
    Over,
}

// They come together, at a time since the first asked to hold.
#[derive(Drop)]
struct Meeting {
    line: Line,
    places: [Place; 2],
    hold: Hold,
    now: u64,
}

impl Meeting {
    fn new(alloc: Global, now: u64) -> Result<Meeting, AllocError> {
        Ok(Meeting {
            line: Line::new(alloc)?,
            places: [Place::SaysInside; 2],
            hold: Hold::Asks,
            now,
        })
    }

    // One step of a session: it says that it is inside, and then looks whether it may stay.
    fn step_session(&mut self, place: usize) {
        let waiter = Waiter {
            place,
            session: place as u64,
        };
        self.places[place] = match self.places[place] {
            Place::SaysInside => Place::Looks,
            Place::Looks if self.line.is_kept(place) && self.line.join(waiter) => Place::Waits,
            Place::Looks => Place::IsInside,
            Place::Waits => Place::Waits,
            Place::IsInside | Place::Left => Place::Left,
        };
    }

    // One step of who would hold: it asks, and then looks who is inside.
    fn step_holder(&mut self) {
        self.hold = match self.hold {
            Hold::Asks => {
                let asked = self
                    .line
                    .hold_anew(Holder::new(HOLDER, HOLDER as u64, 0, MICROS));
                if asked == Asked::Asks {
                    Hold::LooksWhoIsInside
                } else {
                    Hold::Asks
                }
            }
            Hold::LooksWhoIsInside => Hold::IsTold(self.inside()),
            Hold::IsTold(other) => match self.line.grant(HOLDER, other, self.now) {
                Grant::Holds => Hold::Holds,
                _ => Hold::LooksWhoIsInside,
            },
            Hold::Holds => {
                self.line.release(HOLDER);
                Hold::Over
            }
            Hold::Over => Hold::Over,
        };
        self.let_go_on();
    }

    // A session that said that it is inside.
    fn inside(&self) -> Option<u64> {
        let is_there = |place: &Place| *place == Place::Looks || *place == Place::IsInside;
        let place = self.places.iter().position(is_there)?;
        Some(place as u64)
    }

    fn let_go_on(&mut self) {
        while let Some(waiter) = self.line.next() {
            self.places[waiter.place] = Place::IsInside;
        }
    }

    fn step(&mut self, who: usize) {
        if who == HOLDER {
            self.step_holder();
        } else {
            self.step_session(who);
        }
    }

    // Nobody went in while one holds.
    fn is_right(&self) -> bool {
        self.hold != Hold::Holds || !self.places.contains(&Place::IsInside)
    }

    fn is_over(&self) -> bool {
        self.hold == Hold::Over && self.places == [Place::Left; 2]
    }
}

// The order of that number: whose step each is.
fn order_of(number: u32) -> [usize; 9] {
    let mut rest = number;
    let mut order = [0; 9];
    for who in &mut order {
        *who = (rest % 3) as usize;
        rest /= 3;
    }
    order
}

// Steps in each order, and then all in turn: whoever holds does so alone, and in the end all have had their turn.
#[test]
fn one_that_holds_is_alone(rt: HostRuntime) -> Result<(), Fail> {
    let mut held_at_once = 0;
    for now in [0, 300_000, 950_000] {
        for number in 0..19_683 {
            let mut meeting = Meeting::new(rt.alloc(), now)?;
            for who in order_of(number) {
                meeting.step(who);
                assert!(rt; meeting.is_right());
            }
            if meeting.hold == Hold::Holds {
                held_at_once += 1;
            }
            for turn in 0..30 {
                meeting.step(turn % 3);
                assert!(rt; meeting.is_right());
            }
            assert!(rt; meeting.is_over());
        }
    }
    assert!(rt; held_at_once > 0);
    Ok(())
}

// Who holds asks again: that ends its hold, who waits goes on first, and its time counts from when it holds again.
#[test]
fn others_go_on_before_it_holds_anew(rt: HostRuntime) -> Result<(), Fail> {
    let mut line = Line::new(rt.alloc())?;
    let waiter = Waiter {
        place: 0,
        session: 5,
    };
    assert!(rt; line.hold_anew(Holder::new(1, 6, 100, MICROS)) == Asked::Asks);
    assert!(rt; line.hold_anew(Holder::new(2, 7, 100, MICROS)) == Asked::KeptBy(6));
    assert!(rt; line.grant(2, None, 100) == Grant::Gone);
    assert!(rt; line.grant(1, None, 100) == Grant::Holds);
    assert!(rt; line.is_kept(0) && !line.is_kept(1));
    assert!(rt; line.join(waiter) && line.next() == None);
    let anew = Holder::new(1, 6, 200, MICROS);
    assert!(rt; line.hold_anew(anew) == Asked::OthersFirst);
    assert!(rt; line.hold_anew(anew) == Asked::OthersFirst);
    assert!(rt; line.next() == Some(waiter) && line.next() == None);
    assert!(rt; line.hold_anew(anew) == Asked::Asks);
    assert!(rt; line.grant(1, Some(5), 300) == Grant::AsksOn(10_000));
    assert!(rt; line.grant(1, None, 400) == Grant::Holds);
    line.look(400 + MICROS - 1);
    assert!(rt; line.is_kept(0));
    line.look(400 + MICROS);
    assert!(rt; !line.is_kept(0) && line.grant(1, None, 500) == Grant::Gone);
    Ok(())
}

// Beside one that stays inside, others are kept out for the first tenth of its time and for the last.
#[test]
fn others_are_let_in_between(rt: HostRuntime) -> Result<(), Fail> {
    let mut line = Line::new(rt.alloc())?;
    assert!(rt; line.hold_anew(Holder::new(1, 6, 0, MICROS)) == Asked::Asks);
    for tenth in 0..10 {
        for now in [tenth * 100_000, tenth * 100_000 + 99_999] {
            line.grant(1, Some(5), now);
            assert!(rt; line.is_kept(0) == (tenth == 0 || tenth == 9));
            // (one that was inside no more for a moment comes again)
            line.grant(1, if line.is_kept(0) { Some(5) } else { None }, now);
            assert!(rt; line.is_kept(0));
        }
    }
    assert!(rt; line.grant(1, Some(5), MICROS) == Grant::InVain(5));
    assert!(rt; !line.is_kept(0));
    Ok(())
}
