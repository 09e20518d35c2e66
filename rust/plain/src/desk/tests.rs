//! The desk's own tests.

use super::*;
use crate::condition::Condition;
use std::ops::RangeInclusive;

fn order(number: u32, kind: u8, first: u16, second: u16) -> [u8; 10] {
    let condition = Condition {
        kind,
        first,
        second,
    };
    Order { number, condition }.bytes()
}

fn list(numbers: impl IntoIterator<Item = u32>) -> Vec<u8> {
    numbers
        .into_iter()
        .flat_map(|number| order(number, 1, 0, 0))
        .collect()
}

fn given(desk: &Desk) -> Vec<u8> {
    desk.table().iter().map(|slot| slot.number).collect()
}

/// Everything of a desk that a caller can see or that later steps show.
fn whole(desk: &Desk) -> impl PartialEq + std::fmt::Debug {
    let rests = desk.permitted_from.to_vec();
    let seen = (desk.step, desk.accepted, desk.orders, desk.table);
    (seen, desk.occupied, desk.last_given, rests)
}

#[track_caller]
fn refused(desk: &mut Desk, list: &[u8], number: u8) {
    let before = desk.clone();
    assert_eq!(desk.put(list).map_err(Refusal::number), Err(number));
    assert!(whole(desk) == whole(&before), "a refusal changed the desk");
}

#[test]
fn a_fresh_desk_is_at_step_0_with_all_slots_empty() {
    let desk = Desk::new();
    assert_eq!(desk.step(), 0);
    assert_eq!(desk.table(), &Table::default());
    let mut bytes = [0xAA; 26];
    desk.write(3, &mut bytes).unwrap();
    assert_eq!(bytes[0], 0x60);
    assert_eq!(bytes[1..], [0; 25]);
}

#[test]
fn the_first_number_is_1_and_slots_fill_from_the_lowest() {
    let mut desk = Desk::new();
    desk.put(&list([50, 40, 30])).unwrap();
    assert_eq!(desk.step(), 1);
    assert_eq!(desk.orders()[..4], [50, 40, 30, 0]);
    assert_eq!(given(&desk)[..4], [1, 2, 3, 0]);
    desk.put(&list([60, 30, 50, 70])).unwrap();
    assert_eq!(desk.orders()[..5], [50, 60, 30, 70, 0]);
    assert_eq!(given(&desk)[..5], [1, 4, 3, 5, 0]);
}

#[test]
fn an_order_present_takes_the_new_words() {
    let mut desk = Desk::new();
    desk.put(&order(9, 4, 100, 0x0211)).unwrap();
    desk.put(&order(9, 4, 0x8000, 0xFFFF)).unwrap();
    let held = desk.table()[0];
    assert_eq!((held.number, held.condition.first), (1, 0x8000));
    assert_eq!(held.condition.second, 0);
}

#[test]
fn an_order_that_ends_and_comes_back_is_new() {
    let mut desk = Desk::new();
    desk.put(&list([9])).unwrap();
    desk.put(&[]).unwrap();
    // It may even come back with another type.
    desk.put(&order(9, 2, 0, 0)).unwrap();
    assert_eq!(given(&desk)[0], 2);
}

#[test]
fn twenty_old_and_twenty_new_orders_fit() {
    let mut desk = Desk::new();
    desk.put(&list(1..=20)).unwrap();
    desk.put(&list(21..=40)).unwrap();
    assert_eq!(given(&desk), (21..=40).collect::<Vec<u8>>());
}

#[test]
fn the_step_after_8191_is_0() {
    let mut desk = Desk::new();
    for _ in 0..8191 {
        desk.put(&[]).unwrap();
    }
    assert_eq!(desk.step(), 8191);
    desk.put(&[]).unwrap();
    assert_eq!(desk.step(), 0);
}

/// A number that ended 8,192 steps ago must not look as if it ended now.
#[test]
fn a_rest_is_over_for_good() {
    let mut desk = Desk::new();
    desk.put(&list(1..=20)).unwrap();
    for base in 1..=12 {
        let from = base * 20 + 1;
        desk.put(&list(from..=from + 19)).unwrap();
    }
    // Numbers 6 to 20 ended in step 2 and are not yet given again.
    assert_eq!(desk.last_given(), 5);
    while desk.step() != 1 {
        desk.put(&[]).unwrap();
    }
    desk.put(&list([1000])).unwrap();
    assert_eq!((desk.step(), desk.last_given()), (2, 6));
}

/// Runs a desk up to last given 255 with number 1 alive in slot 0.
fn long_lived() -> Desk {
    let mut desk = Desk::new();
    desk.put(&list([1])).unwrap();
    let mut next = 2;
    while desk.last_given() < 255 {
        let upto = (next + 18).min(next + 254 - u32::from(desk.last_given()));
        desk.put(&list([1].into_iter().chain(next..=upto))).unwrap();
        next = upto + 1;
    }
    desk
}

fn number_after(rest: RangeInclusive<u32>, refusals: bool) -> u8 {
    let mut desk = long_lived();
    assert_eq!(desk.last_given(), 255);
    desk.put(&[]).unwrap();
    for _ in rest {
        desk.put(&[]).unwrap();
        if refusals {
            assert!(desk.put(&[0]).is_err());
            assert!(desk.put(&[0; 10]).is_err());
        }
    }
    desk.put(&list([5000])).unwrap();
    desk.last_given()
}

#[test]
fn a_number_rests_in_its_step_and_seven_more() {
    // Number 1 ended in step f. Number 2 had ended long before.
    assert_eq!(number_after(1..=6, false), 2);
    assert_eq!(number_after(1..=7, false), 1);
    let mut desk = long_lived();
    desk.put(&list([5000])).unwrap();
    assert_eq!(desk.last_given(), 2, "it rests in the step that ends it");
}

#[test]
fn a_refused_list_shortens_no_rest() {
    assert_eq!(number_after(1..=6, true), 2);
    assert_eq!(number_after(1..=7, true), 1);
}

#[test]
fn lengths_are_judged_first_1_and_then_2() {
    let mut desk = Desk::new();
    for length in [1, 9, 11, 195, 199, 201, 205, 215, 65_535] {
        refused(&mut desk, &vec![0; length], 1);
    }
    for length in [210, 220, 1000, 65_530] {
        refused(&mut desk, &vec![0; length], 2);
    }
    desk.put(&list(1..=20)).unwrap();
    desk.put(&[]).unwrap();
    assert_eq!(desk.step(), 2);
}

/// One order with every fault there is; faults are mended one by one.
#[test]
fn within_an_order_3_to_8_come_in_this_order() {
    let mut desk = Desk::new();
    desk.put(&order(9, 1, 0, 0)).unwrap();
    let mut bad = [0, 0, 0, 0, 0, 1, 0, 0, 0x40, 0];
    let with = |bad: [u8; 10]| [order(9, 1, 0, 0), bad].concat();
    refused(&mut desk, &with(bad), 3);
    bad[3] = 9;
    refused(&mut desk, &with(bad), 4);
    bad[4] = 4;
    refused(&mut desk, &with(bad), 5);
    bad[5] = 0;
    refused(&mut desk, &with(bad), 6);
    bad[8] = 0;
    refused(&mut desk, &with(bad), 7);
    refused(&mut desk, &bad, 8);
    bad[3] = 10;
    desk.put(&with(bad)).unwrap();
}

#[test]
fn the_first_bad_order_decides() {
    let mut desk = Desk::new();
    desk.put(&order(9, 1, 0, 0)).unwrap();
    let other_type = order(9, 2, 0, 0);
    let zero = order(0, 1, 0, 0);
    refused(&mut desk, &[other_type, zero].concat(), 8);
    refused(&mut desk, &[zero, other_type].concat(), 3);
    let twice = [order(5, 1, 0, 0), order(5, 1, 0, 0)].concat();
    refused(&mut desk, &[&twice[..], &zero[..]].concat(), 7);
    refused(&mut desk, &[&zero[..], &twice[..]].concat(), 3);
}

#[test]
fn the_second_of_two_is_refused_7_also_with_another_type() {
    let mut desk = Desk::new();
    let two = [order(5, 1, 0, 0), order(5, 2, 0, 0)].concat();
    refused(&mut desk, &two, 7);
}
