//! How much is spent on a pair that is hard to decide: room, and seconds.
//!
//! A call of the library can't be broken off. So it is asked in rising room, and each larger room is
//! tried only if that would end in time.

use std::time::{Duration, Instant};

use crate::ask::{Asked, Buffers, Room};
use crate::sides::Side;
use crate::words::Options;

/// What may be spent on a pair.
#[derive(Clone, Copy, Debug, PartialEq, Eq)]
pub struct Spend {
    room: Room,
    most: Option<Duration>,
}

impl Spend {
    pub fn new(options: &Options) -> Spend {
        let room = match (options.room, options.seconds) {
            (Room::Fixed(room), Some(_)) => Room::UpTo(room),
            (room, _) => room,
        };
        Spend { room, most: options.seconds }
    }

    /// Asks of a pair, with no more than that.
    pub fn ask(self, buffers: &mut Buffers, left: &Side, right: &Side) -> Asked {
        buffers.ask_while(left, right, self.room, self.clock())
    }

    /// From now on: whether there is time to go on from a room to a larger one.
    fn clock(self) -> impl FnMut(usize, usize) -> bool {
        let (begun, mut last) = (Instant::now(), Duration::ZERO);
        move |room, larger| {
            let Some(most) = self.most else {
                return true;
            };
            let spent = begun.elapsed();
            let took = spent - last;
            last = spent;
            spent + expected(took, room, larger) <= most
        }
    }
}

/// How long a larger room may take after what the last one took: a search takes about as long for
/// each situation.
fn expected(took: Duration, room: usize, larger: usize) -> Duration {
    took.mul_f64(larger as f64 / room.max(1) as f64)
}

#[cfg(test)]
mod tests {
    use super::*;

    #[test]
    fn room_rises_where_there_is_a_limit_of_time() {
        let seconds = Some(Duration::from_secs(1));
        let room =
            |room, seconds| Spend::new(&Options { room, seconds, ..Options::default() }).room;
        assert_eq!(room(Room::Growing, None), Room::Growing);
        assert_eq!(room(Room::Fixed(7), None), Room::Fixed(7));
        assert_eq!(room(Room::Growing, seconds), Room::Growing);
        assert_eq!(room(Room::Fixed(7), seconds), Room::UpTo(7));
    }

    #[test]
    fn what_is_expected() {
        let took = Duration::from_millis(3);
        assert_eq!(expected(took, 356, 1_424), Duration::from_millis(12));
        assert_eq!(expected(Duration::ZERO, 0, 356), Duration::ZERO);
    }
}
