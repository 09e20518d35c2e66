//! Document 01, "The list and the step": one order of a list, ten bytes.

use crate::condition::{is_type, second_is_allowed, Condition};
use crate::refusal::Refusal;

/// Bytes of an order in a list.
pub const ORDER_BYTES: usize = 10;

/// Most orders in a list. It is also the count of slots.
pub const MOST_ORDERS: usize = 20;

#[derive(Clone, Copy, PartialEq, Eq, Debug, Default)]
pub struct Order {
    pub number: u32,
    pub condition: Condition,
}

impl Order {
    /// Judges what an order shows by itself: refusals 3, 4, 5 and 6. Refusals
    /// 7 and 8 need the list and the desk, and come after these.
    pub fn read(bytes: &[u8; ORDER_BYTES]) -> Result<Order, Refusal> {
        let [n0, n1, n2, n3, kind, spare, f0, f1, s0, s1] = *bytes;
        let number = u32::from_be_bytes([n0, n1, n2, n3]);
        let first = u16::from_be_bytes([f0, f1]);
        let second = u16::from_be_bytes([s0, s1]);
        if number == 0 {
            return Err(Refusal::OrderNumberZero);
        }
        if !is_type(kind) {
            return Err(Refusal::OrderType);
        }
        if spare != 0 {
            return Err(Refusal::SpareByte);
        }
        if !second_is_allowed(kind, first, second) {
            return Err(Refusal::SecondWord);
        }
        Ok(Order {
            number,
            condition: Condition::held(kind, first, second),
        })
    }

    /// The ten bytes of this order, as a list has them.
    pub fn bytes(&self) -> [u8; ORDER_BYTES] {
        let [n0, n1, n2, n3] = self.number.to_be_bytes();
        let [f0, f1] = self.condition.first.to_be_bytes();
        let [s0, s1] = self.condition.second.to_be_bytes();
        [n0, n1, n2, n3, self.condition.kind, 0, f0, f1, s0, s1]
    }
}

#[cfg(test)]
mod tests {
    use super::*;

    #[test]
    fn an_order_is_read_high_byte_first() {
        let order = Order::read(&[1, 2, 3, 4, 9, 0, 0x12, 0x34, 0xAB, 0xCD]).unwrap();
        assert_eq!(order.number, 0x0102_0304);
        assert_eq!(order.condition.kind, 9);
        assert_eq!(order.condition.first, 0x1234);
        assert_eq!(order.condition.second, 0xABCD);
        assert_eq!(order.bytes(), [1, 2, 3, 4, 9, 0, 0x12, 0x34, 0xAB, 0xCD]);
    }

    /// Faults are mended one by one; each time the next refusal shows.
    #[test]
    fn refusals_3_to_6_come_in_this_order() {
        let mut bytes = [0, 0, 0, 0, 0, 1, 0, 0, 0xFF, 0xFF];
        assert_eq!(Order::read(&bytes), Err(Refusal::OrderNumberZero));
        bytes[0] = 0xFF;
        assert_eq!(Order::read(&bytes), Err(Refusal::OrderType));
        bytes[4] = 10;
        assert_eq!(Order::read(&bytes), Err(Refusal::OrderType));
        bytes[4] = 5;
        assert_eq!(Order::read(&bytes), Err(Refusal::SpareByte));
        bytes[5] = 0;
        assert_eq!(Order::read(&bytes), Err(Refusal::SecondWord));
        bytes[6] = 0x80;
        assert_eq!(Order::read(&bytes).unwrap().condition.second, 0);
    }
}
