//! The ends of a ring that lies in a mapping. Not proved.
use crate::receiver::RingRx;
use crate::sender::RingTx;
use crate::site::Site;
use atomic_table::Badge;
use region_words::Part;

impl RingTx {
    /// The sender's end of a ring that was made with its counts at 0: nobody else has it or had it.
    pub fn taken(base: u64, size: u64, max: u32) -> RingTx {
        RingTx {
            seat: Badge::blank().into_seat(),
            spare: Some(Badge::blank().into_seat()),
            site: Site {
                base,
                size,
                max,
                bytes: 8 * (size + 3),
                rest: Part::of_seat(Badge::blank().into_seat()),
            },
            position: 0,
        }
    }
}

impl RingRx {
    /// The receiver's end of such a ring.
    pub fn taken(base: u64, size: u64, max: u32) -> RingRx {
        RingRx {
            seat: Badge::blank().into_seat(),
            base,
            size,
            max,
            position: 0,
        }
    }
}
