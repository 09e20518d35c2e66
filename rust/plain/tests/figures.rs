//! Document 01, "Reckoned by hand" and "Errors that look right": P1 to P8,
//! the gap 8 and 9, and the example of the listing, from outside the library;
//! and what request 1 of document 02 says of voltage 0.

use plain::calls::signals;
use plain::desk::Desk;
use plain::listing::list;
use plain::run::put_table;

fn order(number: u32, kind: u8, first: u16, second: u16) -> Vec<u8> {
    let mut bytes = number.to_be_bytes().to_vec();
    bytes.extend([kind, 0]);
    bytes.extend(first.to_be_bytes());
    bytes.extend(second.to_be_bytes());
    bytes
}

fn put(desk: &mut Desk, list: &[u8]) -> u8 {
    match desk.put(list) {
        Ok(()) => 0,
        Err(refusal) => refusal.number(),
    }
}

/// So many wholly new orders; `next` counts the order numbers used.
fn fresh_orders(count: u32, next: &mut u32) -> Vec<u8> {
    let from = *next;
    *next += count;
    (from..*next).flat_map(|n| order(n, 1, 0, 0)).collect()
}

fn numbers(desk: &Desk) -> Vec<u8> {
    desk.table().iter().map(|slot| slot.number).collect()
}

fn listed(recording: &[u8]) -> String {
    let mut listing = Vec::new();
    list(recording, &mut listing);
    String::from_utf8(listing).unwrap()
}

#[test]
fn p1_voltage_1_and_country_33() {
    let mut desk = Desk::new();
    assert_eq!(put(&mut desk, &order(1, 4, 0, 0x0211)), 0);
    let mut file = Vec::new();
    put_table(&desk, &mut file);
    assert!(listed(&file).contains("\n0 1 4 0 1/33 new\n"));
    assert_eq!(put(&mut desk, &order(2, 4, 0, 33 << 4 | 6)), 6);
}

#[test]
fn request_1_voltage_0_has_no_country() {
    let mut desk = Desk::new();
    assert_eq!(put(&mut desk, &order(1, 4, 0, 0x0210)), 0);
    let mut file = Vec::new();
    put_table(&desk, &mut file);
    assert_eq!(file[2..8], [1, 4, 0, 0, 0, 0]);
    assert_eq!(put(&mut desk, &order(1, 4, 0, 0x4210)), 6);
    assert_eq!(put(&mut desk, &order(1, 4, 0x8000, 0xC210)), 0);
    // Heard from another writer.
    file[6..8].copy_from_slice(&[0x3F, 0xF0]);
    assert!(listed(&file).contains("\n0 1 4 0 0/0 new\n"));
    file[6] = 0xBF;
    assert!(listed(&file).contains("\nrefused 6\n"));
}

#[test]
fn p2_limits() {
    for (limit, answer) in [(1000, 0), (1023, 0), (1001, 6), (1022, 6)] {
        let mut desk = Desk::new();
        assert_eq!(put(&mut desk, &order(1, 5, 0, limit)), answer);
        assert_eq!(put(&mut desk, &order(1, 5, 0x8000, limit)), 0);
        assert_eq!(desk.table()[0].condition.second, 0);
    }
}

#[test]
fn p3_gaps_around_8192() {
    for (last, new, gap) in [(8190, 3, 5), (0, 8191, 8191)] {
        let mut recording = Vec::new();
        for step in [last, new] {
            for packet in 3..=7u16 {
                recording.extend((packet << 13 | step).to_be_bytes());
                recording.extend([0; 24]);
            }
        }
        let expected = format!("conditions 1\ntable {last} 0 0\ntable {new} 0 {gap}\nend 2\n");
        assert_eq!(listed(&recording), expected);
    }
}

#[test]
fn p4_twenty_wholly_new_orders_every_step() {
    let mut desk = Desk::new();
    let mut next = 1;
    for step in 1..=13 {
        let list = fresh_orders(20, &mut next);
        assert_eq!(put(&mut desk, &list), 0);
        assert_eq!(desk.step(), step);
        if step == 12 {
            assert_eq!(numbers(&desk), (221..=240).collect::<Vec<u8>>());
        }
    }
    assert_eq!(
        numbers(&desk),
        (241..=255).chain(1..=5).collect::<Vec<u8>>()
    );
}

#[test]
fn p5_number_1_in_step_f_and_7_and_in_step_f_and_8() {
    for (between, number) in [(6, 2), (7, 1)] {
        let mut desk = Desk::new();
        let mut next = 2;
        let long_lived = order(1, 1, 0, 0);
        assert_eq!(put(&mut desk, &long_lived), 0);
        // 254 more numbers: 13 steps of 19 and one of 7.
        for count in [19; 13].into_iter().chain([7]) {
            let mut list = long_lived.clone();
            list.extend(fresh_orders(count, &mut next));
            assert_eq!(put(&mut desk, &list), 0);
        }
        assert_eq!(desk.last_given(), 255);
        // Step f, and the steps between without a new order.
        for _ in 0..=between {
            assert_eq!(put(&mut desk, &[]), 0);
        }
        let list = fresh_orders(1, &mut next);
        assert_eq!(put(&mut desk, &list), 0);
        assert_eq!(desk.last_given(), number);
    }
}

#[test]
fn p6_lengths() {
    let mut desk = Desk::new();
    let mut next = 1;
    let list = fresh_orders(21, &mut next);
    assert_eq!(put(&mut desk, &list[..205]), 1);
    assert_eq!(put(&mut desk, &list), 2);
    assert_eq!(put(&mut desk, &[]), 0);
    assert_eq!(desk.step(), 1);
}

fn line(start: &[u8]) -> String {
    let mut call = vec![0, 26];
    call.extend_from_slice(start);
    call.resize(28, 0);
    let mut lines = Vec::new();
    signals(&call, &mut lines);
    String::from_utf8(lines).unwrap()
}

#[test]
fn p7_a_train_telegram() {
    let rest = "not-isolated ".repeat(14);
    let expected = format!("accepted 0 A unknown isolated {rest}isolated 00000006\n");
    let telegram = [1, 2, 3, 0x80, 1, 0x7F, 0xFE, 0, 0, 0, 6];
    assert_eq!(line(&telegram), expected);
}

#[test]
fn p8_invalid_cab_and_brake_position() {
    assert!(line(&[1, 3, 0]).starts_with("accepted 0 invalid passenger-P "));
    assert!(line(&[1, 0, 4]).starts_with("accepted 0 none invalid "));
}

#[test]
fn gap_8_is_carried_and_gap_9_is_new() {
    for (lost, mark) in [(7, "carried"), (8, "new")] {
        let mut desk = Desk::new();
        let mut recording = Vec::new();
        let same = order(1, 1, 5, 6);
        assert_eq!(put(&mut desk, &same), 0);
        put_table(&desk, &mut recording);
        for _ in 0..=lost {
            assert_eq!(put(&mut desk, &same), 0);
        }
        put_table(&desk, &mut recording);
        let gap = lost + 1;
        let step = 1 + gap;
        let expected = format!(
            "conditions 1\ntable 1 1 0\n0 1 1 5 6 new\ntable {step} 1 {gap}\n0 1 1 5 6 {mark}\nend 2\n"
        );
        assert_eq!(listed(&recording), expected);
    }
}

#[test]
fn the_example_of_the_listing() {
    let mut recording = vec![0x60, 0x01, 0x01, 0x03, 0x04, 0xB0, 0x05, 0xDC];
    recording.extend([0; 18]);
    for packet in [0x80, 0xA0, 0xC0, 0xE0] {
        recording.extend([packet, 0x01]);
        recording.extend([0; 24]);
    }
    let expected = "conditions 1\ntable 1 1 0\n0 1 3 1200 1500 new\nend 1\n";
    assert_eq!(listed(&recording), expected);
}

/// A long-lived number ends just as the search arrives. It must not come back
/// in the very next table, nor in the seven after that.
#[test]
fn a_number_does_not_come_back_by_going_round() {
    let mut desk = Desk::new();
    let mut next = 2;
    assert_eq!(put(&mut desk, &order(1, 1, 0, 0)), 0);
    while desk.last_given() != 248 {
        let mut list = order(1, 1, 0, 0);
        list.extend(fresh_orders(19, &mut next));
        assert_eq!(put(&mut desk, &list), 0);
    }
    for step in 0..8 {
        let list = fresh_orders(20, &mut next);
        assert_eq!(put(&mut desk, &list), 0);
        assert!(!numbers(&desk).contains(&1), "{step}");
    }
}
