//! The ends of a queue that lies in a mapping. Not proved.
use crate::receiver::Receiver;
use crate::sender::Sender;
use mq_ring::{RingRx, RingTx};
use rattle_std::alloc::{AllocError, Global};
use rattle_std::prelude::*;

impl Sender {
    /// The sending end over a ring that nothing was put on.
    pub fn taken(tx: RingTx) -> Sender {
        Sender::new(tx)
    }
}

impl Receiver {
    /// The receiving end over a ring that nothing was taken off. It takes memory for the greatest message.
    pub fn taken(rx: RingRx) -> Result<Receiver, AllocError> {
        let buffer = rattle_std::vec_in![Global; 0u8; rx.max() as usize]?;
        Ok(Receiver::new(rx, buffer))
    }
}
