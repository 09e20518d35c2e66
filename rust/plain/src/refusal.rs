//! Document 01, "Refusal numbers".

/// A refusal. Each case has the number that document 01 gives it.
#[derive(Clone, Copy, PartialEq, Eq, Debug)]
#[repr(u8)]
pub enum Refusal {
    ListLengthNotTens = 1,
    ListTooLong = 2,
    OrderNumberZero = 3,
    OrderType = 4,
    SpareByte = 5,
    SecondWord = 6,
    OrderTwice = 7,
    LiveWithAnotherType = 8,
    PacketAskedFor = 9,
    Length = 10,
    PacketHeard = 11,
    EmptySlotNotZero = 12,
    SlotType = 13,
    NumberTwiceInTelegram = 14,
    NumberTwiceInSet = 15,
    TrainFirstByte = 16,
    TrainZeroBit = 17,
}

impl Refusal {
    pub fn number(self) -> u8 {
        self as u8
    }
}

#[cfg(test)]
mod tests {
    use super::Refusal::*;

    #[test]
    fn numbers_run_from_1_to_17_in_the_order_of_the_table() {
        let all = [
            ListLengthNotTens,
            ListTooLong,
            OrderNumberZero,
            OrderType,
            SpareByte,
            SecondWord,
            OrderTwice,
            LiveWithAnotherType,
            PacketAskedFor,
            Length,
            PacketHeard,
            EmptySlotNotZero,
            SlotType,
            NumberTwiceInTelegram,
            NumberTwiceInSet,
            TrainFirstByte,
            TrainZeroBit,
        ];
        for (place, refusal) in all.iter().enumerate() {
            assert_eq!(refusal.number() as usize, place + 1);
        }
    }
}
