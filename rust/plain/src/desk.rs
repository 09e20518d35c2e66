//! Document 01, "The list and the step": the desk with its twenty slots.

use crate::order::{Order, MOST_ORDERS, ORDER_BYTES};
use crate::refusal::Refusal;
use crate::step;
use crate::telegram::{self, Slot, Table, SLOTS};

/// A number may come back in the eighth accepted step after its end: it rests
/// in the step that ended it and in the seven after.
const REST: u64 = 8;

/// Kept in place of a step for a number that a live order has.
const LIVE: u64 = u64::MAX;

const ALL_SLOTS: u32 = (1 << SLOTS) - 1;

#[derive(Clone)]
pub struct Desk {
    step: u16,
    /// How many lists were accepted. Rests are reckoned with this count and
    /// not with the step number, which comes round again after 8,192 steps.
    accepted: u64,
    /// The order number in each slot, 0 where the slot is empty.
    orders: [u32; SLOTS],
    table: Table,
    /// One bit for each occupied slot.
    occupied: u32,
    last_given: u8,
    /// For each number the count of accepted lists from which it is permitted.
    permitted_from: [u64; 256],
}

impl Default for Desk {
    fn default() -> Desk {
        Desk::new()
    }
}

impl Desk {
    pub fn new() -> Desk {
        Desk {
            step: 0,
            accepted: 0,
            orders: [0; SLOTS],
            table: Table::default(),
            occupied: 0,
            last_given: 0,
            permitted_from: [0; 256],
        }
    }

    pub fn step(&self) -> u16 {
        self.step
    }

    pub fn table(&self) -> &Table {
        &self.table
    }

    /// The order number in each slot, 0 where the slot is empty.
    pub fn orders(&self) -> &[u32; SLOTS] {
        &self.orders
    }

    /// The number given last, 0 when none was given yet.
    pub fn last_given(&self) -> u8 {
        self.last_given
    }

    /// Puts a list to the desk. The whole list is judged before anything
    /// changes, so that a refused list leaves the desk as it was.
    pub fn put(&mut self, list: &[u8]) -> Result<(), Refusal> {
        if !list.len().is_multiple_of(ORDER_BYTES) {
            return Err(Refusal::ListLengthNotTens);
        }
        if list.len() > ORDER_BYTES * MOST_ORDERS {
            return Err(Refusal::ListTooLong);
        }

        let mut orders = [Order::default(); MOST_ORDERS];
        let mut numbers = [0; MOST_ORDERS];
        // The slot of each order that is live already.
        let mut slots = [None; MOST_ORDERS];
        let mut present = 0;
        let count = list.len() / ORDER_BYTES;
        for (place, bytes) in list.as_chunks::<ORDER_BYTES>().0.iter().enumerate() {
            let order = Order::read(bytes)?;
            // Number 0 was refused, so the places not yet filled never match.
            if find(&numbers, order.number).is_some() {
                return Err(Refusal::OrderTwice);
            }
            let slot = find(&self.orders, order.number);
            if let Some(slot) = slot {
                if self.table[slot].condition.kind != order.condition.kind {
                    return Err(Refusal::LiveWithAnotherType);
                }
                present |= 1 << slot;
            }
            orders[place] = order;
            numbers[place] = order.number;
            slots[place] = slot;
        }

        self.step = step::next(self.step);
        self.accepted += 1;
        self.end_all_but(present);
        // Every ended order has left its slot and its number rests, so twenty
        // new orders find room after twenty old ones.
        for (order, slot) in orders[..count].iter().zip(slots) {
            match slot {
                Some(slot) => self.table[slot].condition = order.condition,
                None => self.place(order),
            }
        }
        Ok(())
    }

    fn end_all_but(&mut self, present: u32) {
        let mut ended = self.occupied & !present;
        self.occupied = present;
        while ended != 0 {
            let slot = ended.trailing_zeros() as usize;
            ended &= ended - 1;
            let number = self.table[slot].number;
            self.permitted_from[usize::from(number)] = self.accepted + REST;
            self.table[slot] = Slot::default();
            self.orders[slot] = 0;
        }
    }

    /// Gives a new order the lowest free slot and the first permitted number
    /// after the last one given.
    fn place(&mut self, order: &Order) {
        let free = ALL_SLOTS & !self.occupied;
        let slot = free.trailing_zeros() as usize;
        let mut number = after(self.last_given);
        // At most 160 numbers rest and 19 are live, so this finds one.
        while self.permitted_from[usize::from(number)] > self.accepted {
            number = after(number);
        }
        self.last_given = number;
        self.permitted_from[usize::from(number)] = LIVE;
        self.occupied |= 1 << slot;
        self.orders[slot] = order.number;
        self.table[slot] = Slot {
            number,
            condition: order.condition,
        };
    }

    /// Writes one packet of the table as it stands: refusals 9 and 10.
    pub fn write(&self, packet: u8, buffer: &mut [u8]) -> Result<(), Refusal> {
        telegram::write(self.step, &self.table, packet, buffer)
    }
}

/// 255 is followed by 1; 0 is never given.
fn after(number: u8) -> u8 {
    if number == 255 {
        1
    } else {
        number + 1
    }
}

/// The bit of each slot.
const BITS: [u32; SLOTS] = {
    let mut bits = [0; SLOTS];
    let mut place = 0;
    while place < SLOTS {
        bits[place] = 1 << place;
        place += 1;
    }
    bits
};

/// Where a number stands. All twenty are looked at without leaving early: so
/// few are compared at once, and there is no branch to mispredict.
fn find(numbers: &[u32; SLOTS], number: u32) -> Option<usize> {
    let mut found = 0;
    for (&other, bit) in numbers.iter().zip(BITS) {
        found |= if other == number { bit } else { 0 };
    }
    if found == 0 {
        None
    } else {
        Some(found.trailing_zeros() as usize)
    }
}

#[cfg(test)]
mod tests;
