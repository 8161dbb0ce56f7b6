//! Conditions that use up a counter: when they hold, and which counters move.

mod common;

use common::{
    count, counter_record, erase_and_write, get_data, get_metadata, hex, set, set_metadata, write,
    Element, DONE,
};
use reference::check_store;
use reference::store::Slot;

const UP: u8 = 2;
const DOWN: u8 = 4;

/// Up counters, with value and threshold of `FIRST` given by each test.
const FIRST: u16 = 0x1000;
const SECOND: u16 = 0x1001;
const THIRD: u16 = 0x1002;
/// A factory object of 140 bytes.
const OBJECT: u16 = 0xF1D0;

/// The factory store with three up counters: one as given, two with 5 of 9.
fn element(value: u32, threshold: u32) -> Element {
    Element::with_records(&[
        counter_record(UP, FIRST, value, threshold),
        counter_record(UP, SECOND, 5, 9),
        counter_record(UP, THIRD, 5, 9),
    ])
}

/// That store with these hex digits as the object's read and change expression.
fn asking(expression: &str) -> Element {
    let mut element = element(5, 9);
    ask(&mut element, OBJECT, expression);
    element
}

fn ask(element: &mut Element, object: u16, expression: &str) {
    element.set_expression(object, Slot::Read, &hex(expression));
    element.set_expression(object, Slot::Change, &hex(expression));
    assert!(check_store(&element.store));
}

fn value(element: &mut Element, counter: u16) -> u32 {
    let data = element.data(counter);
    u32::from_be_bytes([data[0], data[1], data[2], data[3]])
}

/// The values of the three counters.
fn values(element: &mut Element) -> [u32; 3] {
    [FIRST, SECOND, THIRD].map(|counter| value(element, counter))
}

/// The values after a write of the object under this expression; 5 each before.
fn after_write(expression: &str) -> [u32; 3] {
    let mut element = asking(expression);
    assert_eq!(element.send(&write(OBJECT, 0, &[7])), DONE);
    assert_eq!(element.data(OBJECT)[0], 7);
    assert!(check_store(&element.store));
    values(&mut element)
}

/// The code of a write, and of a get, of the object under this expression.
fn refused(mut element: Element, expression: &str) {
    ask(&mut element, OBJECT, expression);
    assert_eq!(element.code(&write(OBJECT, 0, &[7])), 0x07);
    assert_eq!(element.code(&get_data(OBJECT, 0, 0)), 0x07);
}

#[test]
fn bytes_of_a_moved_counter() {
    // Value 255 (00FF), threshold 600 (0258); the number is 1000.
    let mut element = element(255, 600);
    let sent = "02 01 00 09 F1 D0 20 05 D0 03 40 10 00";
    element.done(sent);
    assert_eq!(element.data(FIRST), hex("000000FF 00000258"));
    element.done("02 00 00 05 F1 D0 00 00 01");
    assert_eq!(element.data(FIRST), hex("00000100 00000258"));
    let metadata = element.done("01 01 00 02 F1 D0");
    let expected = "20 16 C0 01 01 C4 02 00 8C C5 02 00 01 D0 03 40 10 00 D1 01 00 D3 01 00";
    assert_eq!(metadata, hex(expected));
    assert_eq!(element.data(FIRST), hex("00000100 00000258"));
}

#[test]
fn a_counter_runs_out() {
    let mut element = element(7, 9);
    ask(&mut element, OBJECT, "40 1000");
    assert_eq!(element.send(&write(OBJECT, 0, &[1])), DONE);
    assert_eq!(value(&mut element, FIRST), 8);
    assert_eq!(element.send(&write(OBJECT, 0, &[2])), DONE);
    assert_eq!(value(&mut element, FIRST), 9);
    for _ in 0..3 {
        assert_eq!(element.code(&write(OBJECT, 0, &[3])), 0x07);
        assert_eq!(element.code(&get_data(OBJECT, 0, 1)), 0x07);
    }
    assert_eq!(element.data(OBJECT)[0], 2);
    // It is filled again by a write of the counter.
    let anew = hex("00000000 00000001");
    assert_eq!(element.send(&write(FIRST, 0, &anew)), DONE);
    assert_eq!(element.send(&write(OBJECT, 0, &[3])), DONE);
    assert_eq!(element.code(&write(OBJECT, 0, &[4])), 0x07);
}

#[test]
fn a_counter_at_the_end_of_32_bits() {
    let mut element = element(0xFFFF_FFFE, 0xFFFF_FFFF);
    ask(&mut element, OBJECT, "40 1000");
    assert_eq!(element.send(&write(OBJECT, 0, &[1])), DONE);
    assert_eq!(element.data(FIRST), hex("FFFFFFFF FFFFFFFF"));
    assert_eq!(element.code(&write(OBJECT, 0, &[1])), 0x07);
}

#[test]
fn at_or_above_the_threshold_is_false() {
    for (value, threshold) in [(9, 9), (10, 9), (0, 0), (0xFFFF_FFFF, 0), (0xFFFF_FFFF, 9)] {
        refused(element(value, threshold), "40 1000");
    }
    // Thresholds are compared without sign.
    let mut element = element(0x7FFF_FFFF, 0x8000_0000);
    ask(&mut element, OBJECT, "40 1000");
    assert_eq!(element.send(&write(OBJECT, 0, &[1])), DONE);
    assert_eq!(value(&mut element, FIRST), 0x8000_0000);
}

#[test]
fn other_objects_are_false() {
    // A down counter, on both sides of its threshold, and data.
    for (kind, value) in [(DOWN, 9), (DOWN, 5), (DOWN, 1), (1, 1), (1, 9)] {
        let records = [counter_record(kind, FIRST, value, 5)];
        refused(Element::with_records(&records), "40 1000");
    }
    // No such object, also the number with its bytes swapped.
    for missing in ["40 0FFF", "40 1003", "40 0000", "40 FFFF", "40 0010"] {
        refused(element(5, 9), missing);
    }
    // Data, the object itself, and the objects of the session.
    for other in ["40 F1D1", "40 F1D0", "40 E0C0", "40 F1C0", "40 F1C2"] {
        refused(element(5, 9), other);
    }
}

#[test]
fn joining_bytes_inside_a_number() {
    let numbers = [0xFD01, 0xFDFD, 0xFDFE, 0xFE02, 0xFEFD, 0xFEFE, 0xFFFD];
    let mut start = element(5, 9);
    for number in numbers {
        start.store.extend(counter_record(UP, number, 3, 9));
    }
    for number in numbers {
        let mut element = start.clone();
        ask(&mut element, OBJECT, &format!("40 {number:04X}"));
        assert_eq!(element.send(&write(OBJECT, 0, &[1])), DONE);
        for other in numbers {
            let expected = if other == number { 4 } else { 3 };
            assert_eq!(value(&mut element, other), expected);
        }
    }
    // Missing and FEFE, or FDFE and FE02, or 1000.
    let expression = "40 FD00 FD 40 FEFE FE 40 FDFE FD 40 FE02 FE 40 1000";
    ask(&mut start, OBJECT, expression);
    assert_eq!(start.send(&write(OBJECT, 0, &[1])), DONE);
    let after = numbers.map(|number| value(&mut start, number));
    assert_eq!(after, [3, 3, 4, 4, 3, 3, 3]);
    assert_eq!(value(&mut start, FIRST), 5);
}

#[test]
fn every_condition_of_the_group_moves() {
    assert_eq!(after_write("40 1000"), [6, 5, 5]);
    assert_eq!(after_write("40 1002 FD 40 1000"), [6, 5, 6]);
    assert_eq!(after_write("40 1000 FD 40 1001 FD 40 1002"), [6, 6, 6]);
    // Beside a state condition: LcsO is below operational.
    assert_eq!(after_write("E1 FC 07 FD 40 1001"), [5, 6, 5]);
    assert_eq!(after_write("40 1001 FD E1 FC 07"), [5, 6, 5]);
}

#[test]
fn the_first_true_group_decides() {
    // 70 FA 03 is false, 70 FA 01 is true, 0FFF is missing.
    assert_eq!(after_write("40 1000 FE 40 1001"), [6, 5, 5]);
    assert_eq!(after_write("40 1000 FE 40 1001 FE 40 1002"), [6, 5, 5]);
    assert_eq!(
        after_write("40 1000 FD 70 FA 03 FE 40 1001 FE 40 1002"),
        [5, 6, 5]
    );
    assert_eq!(after_write("40 0FFF FE 70 FA 03 FE 40 1002"), [5, 5, 6]);
    assert_eq!(
        after_write("40 1000 FD 40 0FFF FE 40 1001 FD 40 1002"),
        [5, 6, 6]
    );
    // A later true group spares nothing, an earlier one does.
    assert_eq!(after_write("40 1000 FE 70 FA 01"), [6, 5, 5]);
    assert_eq!(after_write("70 FA 01 FE 40 1000"), [5, 5, 5]);
    // Only the last group is true, and it has no counter.
    assert_eq!(after_write("40 1000 FD 70 FA 03 FE 70 FA 01"), [5, 5, 5]);
}

#[test]
fn a_counter_moves_once() {
    assert_eq!(after_write("40 1000 FD 40 1000"), [6, 5, 5]);
    assert_eq!(after_write("40 1000 FD 40 1001 FD 40 1000"), [6, 6, 5]);
    assert_eq!(after_write("40 1000 FE 40 1000"), [6, 5, 5]);
    assert_eq!(
        after_write("40 1000 FD 40 1001 FE 40 1000 FD 40 1002"),
        [6, 6, 5]
    );
    let seven = ["40 1000"; 7].join("FD");
    assert_eq!(after_write(&seven), [6, 5, 5]);
    // One below its threshold, twice.
    let mut element = element(8, 9);
    ask(&mut element, OBJECT, "40 1000 FD 40 1000");
    assert_eq!(element.send(&write(OBJECT, 0, &[1])), DONE);
    assert_eq!(element.data(FIRST), hex("00000009 00000009"));
}

#[test]
fn a_false_expression_moves_nothing() {
    for expression in [
        "40 1000 FD 70 FA 03",
        "70 FA 03 FD 40 1000",
        "40 1000 FD 40 0FFF FE 40 1001 FD 70 FA 03",
        "FF",
    ] {
        refused(element(5, 9), expression);
    }
    assert_eq!(after_write("00"), [5, 5, 5]);
}

#[test]
fn a_spent_counter_gives_way_to_the_next_group() {
    let mut element = element(8, 9);
    ask(&mut element, OBJECT, "40 1000 FE 40 1001");
    for expected in [[9, 5, 5], [9, 6, 5], [9, 7, 5], [9, 8, 5], [9, 9, 5]] {
        assert_eq!(element.send(&write(OBJECT, 0, &[1])), DONE);
        assert_eq!(values(&mut element), expected);
    }
    assert_eq!(element.code(&write(OBJECT, 0, &[1])), 0x07);
}

#[test]
fn commands_that_ask_the_change_expression() {
    for sent in [
        write(OBJECT, 3, &[1]),
        erase_and_write(OBJECT, 3, &[1]),
        set_metadata(OBJECT, &hex("C0 01 03")),
    ] {
        let mut element = element(5, 9);
        element.set_expression(OBJECT, Slot::Change, &hex("40 1000"));
        element.set_expression(OBJECT, Slot::Read, &hex("40 1001"));
        element.set_expression(OBJECT, Slot::Execute, &hex("40 1002"));
        assert_eq!(element.send(&sent), DONE);
        assert_eq!(values(&mut element), [6, 5, 5]);
    }
    // A count of the second asks its own change expression.
    let mut element = element(5, 9);
    element.set_expression(SECOND, Slot::Change, &hex("40 1000"));
    element.set_expression(SECOND, Slot::Read, &hex("40 1002"));
    assert_eq!(element.send(&count(SECOND, 0, 2)), DONE);
    assert_eq!(values(&mut element), [6, 7, 5]);
}

#[test]
fn a_get_of_data_asks_the_read_expression() {
    let mut element = element(5, 9);
    assert_eq!(element.send(&write(OBJECT, 0, &[1, 2])), DONE);
    element.set_expression(OBJECT, Slot::Change, &hex("40 1000"));
    element.set_expression(OBJECT, Slot::Read, &hex("40 1001"));
    element.set_expression(OBJECT, Slot::Execute, &hex("40 1002"));
    assert_eq!(element.send(&get_data(OBJECT, 0, 9)), hex("00000002 0102"));
    assert_eq!(values(&mut element), [5, 6, 5]);
    // No data, by length 0 and at used.
    for (offset, length) in [(0, 0), (2, 0), (2, 9)] {
        let before = value(&mut element, SECOND);
        assert_eq!(element.send(&get_data(OBJECT, offset, length)), DONE);
        assert_eq!(values(&mut element), [5, before + 1, 5]);
    }
    assert_eq!(element.code(&get_data(OBJECT, 0, 0)), 0x07);
}

#[test]
fn a_get_of_metadata_moves_nothing() {
    for expression in ["40 1000", "40 0FFF"] {
        let mut element = element(5, 9);
        ask(&mut element, OBJECT, expression);
        element.set_expression(OBJECT, Slot::Execute, &hex(expression));
        let before = element.clone();
        let [high, low] = [expression[3..5].to_string(), expression[5..].to_string()];
        let expected = format!(
            "0000001C 20 1A C0 01 01 C4 02 008C C5 02 0000 \
             D0 03 40 {high}{low} D1 03 40 {high}{low} D3 03 40 {high}{low}"
        );
        assert_eq!(element.send(&get_metadata(OBJECT)), hex(&expected));
        assert_eq!(element, before);
    }
}

/// `code` also finds the store unchanged.
#[test]
fn a_refused_command_moves_nothing() {
    let mut element = asking("40 1000");
    element.set_used(OBJECT, 3);
    // 08: past the maximum, above used.
    assert_eq!(element.code(&write(OBJECT, 140, &[1])), 0x08);
    assert_eq!(element.code(&erase_and_write(OBJECT, 139, &[1, 2])), 0x08);
    assert_eq!(element.code(&get_data(OBJECT, 4, 1)), 0x08);
    assert_eq!(element.code(&get_data(OBJECT, 4, 0)), 0x08);
    // 03: a count of data.
    assert_eq!(element.code(&count(OBJECT, 0, 1)), 0x03);
    // 05: bad content, also after good tags.
    for content in ["C0 01 02", "D1 02 40 10", "C0 01 01 D0 03 41 10 00", ""] {
        assert_eq!(element.code(&set_metadata(OBJECT, &hex(content))), 0x05);
    }
    // 0D: no room for the data.
    assert_eq!(element.code_in(&get_data(OBJECT, 0, 3), 6), 0x0D);
    assert_eq!(values(&mut element), [5, 5, 5]);
    // 08 of a counter, by its threshold and by the size of a write.
    ask(&mut element, SECOND, "40 1000");
    let full = hex("00000009 00000009");
    assert_eq!(element.send(&write(SECOND, 0, &full)), DONE);
    assert_eq!(values(&mut element), [6, 9, 5]);
    assert_eq!(element.code(&count(SECOND, 0, 1)), 0x08);
    assert_eq!(element.code(&count(SECOND, 1, 1)), 0x08);
    assert_eq!(element.code(&write(SECOND, 0, &[1])), 0x08);
    assert_eq!(values(&mut element), [6, 9, 5]);
}

#[test]
fn refusals_before_access_and_outcome_1() {
    let mut element = asking("40 1000");
    let mut long = write(OBJECT, 0, &[1]);
    long.push(0);
    assert_eq!(element.code(&long), 0x04);
    assert_eq!(element.code(&set(0x41, OBJECT, 0, &[1])), 0x03);
    element.session.opened = false;
    assert_eq!(element.code(&write(OBJECT, 0, &[1])), 0x0C);
    element.session.opened = true;
    let before = element.clone();
    for size in 0..4 {
        let mut room = vec![0xA5; size];
        assert_eq!(element.send_in(&write(OBJECT, 0, &[1]), &mut room), 1);
        assert_eq!(element, before);
    }
    // 4 bytes are enough.
    let mut room = [0xA5; 4];
    assert_eq!(element.send_in(&write(OBJECT, 0, &[1]), &mut room), 0);
    assert_eq!(values(&mut element), [6, 5, 5]);
}

#[test]
fn a_read_shows_its_own_counter_before_the_step() {
    let mut element = element(7, 9);
    ask(&mut element, FIRST, "40 1000");
    let read = get_data(FIRST, 0, 8);
    assert_eq!(element.send(&read), hex("00000008 00000007 00000009"));
    assert_eq!(element.send(&read), hex("00000008 00000008 00000009"));
    assert_eq!(element.data(FIRST), hex("00000009 00000009"));
    assert_eq!(element.code(&read), 0x07);
}

#[test]
fn a_written_counter_steps_after_the_write() {
    for (sent, after) in [
        // Below the threshold, one below, at it and above it.
        ("00000002 00000009", "00000003 00000009"),
        ("00000008 00000009", "00000009 00000009"),
        ("00000009 00000009", "00000009 00000009"),
        ("0000000A 00000009", "00000009 00000009"),
        ("FFFFFFFF 00000009", "00000009 00000009"),
        ("00000000 00000000", "00000000 00000000"),
        ("FFFFFFFF 00000000", "00000000 00000000"),
        ("FFFFFFFE FFFFFFFF", "FFFFFFFF FFFFFFFF"),
        ("FFFFFFFF FFFFFFFF", "FFFFFFFF FFFFFFFF"),
    ] {
        for param in [0x00, 0x40] {
            let mut element = element(5, 9);
            ask(&mut element, FIRST, "40 1000 FD 40 1001");
            assert_eq!(element.send(&set(param, FIRST, 0, &hex(sent))), DONE);
            assert_eq!(element.data(FIRST), hex(after));
            assert_eq!(element.data(SECOND), hex("00000006 00000009"));
            assert!(check_store(&element.store));
        }
    }
}

#[test]
fn a_write_is_judged_by_the_store_before_it() {
    // At its threshold, the counter cannot be written back by its own condition.
    let mut element = element(9, 9);
    ask(&mut element, FIRST, "40 1000");
    let anew = hex("00000000 00000009");
    assert_eq!(element.code(&write(FIRST, 0, &anew)), 0x07);
    assert_eq!(element.code(&erase_and_write(FIRST, 0, &anew)), 0x07);
    assert_eq!(element.code(&count(FIRST, 0, 1)), 0x07);
    // By the first group before the write, though it is false after it.
    ask(&mut element, SECOND, "40 1001 FE 40 1002");
    let full = hex("00000007 00000003");
    assert_eq!(element.send(&write(SECOND, 0, &full)), DONE);
    assert_eq!(values(&mut element), [9, 3, 5]);
}

#[test]
fn a_count_on_its_own_condition() {
    for (value, step, after) in [
        (2, 3, "00000006 00000009"),
        (2, 0, "00000003 00000009"),
        (2, 5, "00000008 00000009"),
        (2, 6, "00000009 00000009"),
        (2, 7, "00000009 00000009"),
        (2, 255, "00000009 00000009"),
        (8, 0, "00000009 00000009"),
        (8, 1, "00000009 00000009"),
    ] {
        let mut element = element(value, 9);
        ask(&mut element, FIRST, "40 1000");
        assert_eq!(element.send(&count(FIRST, 0, step)), DONE);
        assert_eq!(element.data(FIRST), hex(after), "{value} {step}");
    }
    // At the threshold access says no before the count does.
    let mut element = element(9, 9);
    ask(&mut element, FIRST, "40 1000");
    assert_eq!(element.code(&count(FIRST, 0, 1)), 0x07);
}

#[test]
fn a_metadata_write_moves_the_counters_stored_before() {
    let mut element = asking("40 1000");
    let content = hex("D0 03 40 10 01");
    assert_eq!(element.send(&set_metadata(OBJECT, &content)), DONE);
    assert_eq!(values(&mut element), [6, 5, 5]);
    assert_eq!(element.slot(OBJECT, Slot::Change)[..4], hex("03 40 10 01"));
    assert_eq!(element.send(&write(OBJECT, 0, &[1])), DONE);
    assert_eq!(values(&mut element), [6, 6, 5]);
    // From always to a condition, and back to always.
    let mut element = asking("00");
    assert_eq!(element.send(&set_metadata(OBJECT, &content)), DONE);
    assert_eq!(values(&mut element), [5, 5, 5]);
    let always = set_metadata(OBJECT, &hex("D0 01 00"));
    assert_eq!(element.send(&always), DONE);
    assert_eq!(element.send(&always), DONE);
    assert_eq!(values(&mut element), [5, 6, 5]);
    // The LcsO brought along is not the one that the group is chosen by.
    let mut element = asking("E1 FA 01 FD 40 1000 FE E1 FA 03 FD 40 1001");
    let content = hex("C0 01 03");
    assert_eq!(element.send(&set_metadata(OBJECT, &content)), DONE);
    assert_eq!(values(&mut element), [6, 5, 5]);
    assert_eq!(element.send(&set_metadata(OBJECT, &content)), DONE);
    assert_eq!(values(&mut element), [6, 6, 5]);
}

#[test]
fn a_metadata_write_of_a_counter_on_its_own_condition() {
    let mut element = element(5, 9);
    ask(&mut element, FIRST, "40 1000");
    let content = hex("D0 01 00 D1 01 FF");
    assert_eq!(element.send(&set_metadata(FIRST, &content)), DONE);
    assert_eq!(element.data(FIRST), hex("00000006 00000009"));
    assert_eq!(element.slot(FIRST, Slot::Change)[..2], [1, 0x00]);
    assert_eq!(element.slot(FIRST, Slot::Read)[..2], [1, 0xFF]);
}

#[test]
fn metadata_sent_back_moves_the_counters() {
    let mut element = asking("40 1000 FE 40 1001");
    let content = hex("C0 01 01 D0 07 40 1000 FE 40 1001 D1 07 40 1000 FE 40 1001 D3 01 00");
    let mut expected = element.clone();
    assert_eq!(element.send(&set_metadata(OBJECT, &content)), DONE);
    // Only the first counter's value differs, from 5 to 6.
    expected.store[96 + 3] = 6;
    assert_eq!(element, expected);
}

#[test]
fn execute_expressions_are_never_asked() {
    let mut element = element(5, 9);
    element.set_expression(OBJECT, Slot::Execute, &hex("40 1000"));
    element.set_expression(SECOND, Slot::Execute, &hex("40 0FFF FD 40 1000"));
    assert!(check_store(&element.store));
    assert_eq!(element.send(&write(OBJECT, 0, &[1])), DONE);
    assert_eq!(element.send(&get_data(OBJECT, 0, 1)), hex("00000001 01"));
    assert_eq!(element.send(&count(SECOND, 0, 1)), DONE);
    let content = hex("D3 07 40 FDFE FE 40 0000");
    assert_eq!(element.send(&set_metadata(OBJECT, &content)), DONE);
    assert_eq!(values(&mut element), [5, 6, 5]);
    let slot = element.slot(OBJECT, Slot::Execute);
    assert_eq!(slot[..8], hex("07 40 FDFE FE 40 0000"));
}

#[test]
fn a_step_asks_nothing_of_the_counter() {
    // The counter moved may be closed to all, and its own conditions stay as they are.
    let mut element = asking("40 1000");
    ask(&mut element, FIRST, "FF");
    assert_eq!(element.send(&write(OBJECT, 0, &[1])), DONE);
    assert_eq!(values(&mut element), [6, 5, 5]);
    ask(&mut element, FIRST, "40 1001");
    assert_eq!(element.send(&write(OBJECT, 0, &[1])), DONE);
    assert_eq!(values(&mut element), [7, 5, 5]);
    // A count of it moves the counter that it names in turn, and no further one.
    ask(&mut element, SECOND, "40 1002");
    assert_eq!(element.send(&count(FIRST, 0, 1)), DONE);
    assert_eq!(values(&mut element), [8, 6, 5]);
}

#[test]
fn two_counters_on_each_other() {
    let mut element = element(5, 9);
    ask(&mut element, FIRST, "40 1001");
    ask(&mut element, SECOND, "40 1000");
    assert_eq!(element.send(&count(FIRST, 0, 2)), DONE);
    assert_eq!(values(&mut element), [7, 6, 5]);
    let read = get_data(SECOND, 0, 4);
    assert_eq!(element.send(&read), hex("00000004 00000006"));
    assert_eq!(values(&mut element), [8, 6, 5]);
}

#[test]
fn a_down_counter_is_written_but_not_named() {
    let mut element = element(5, 9);
    let down = counter_record(DOWN, 0x0800, 9, 5);
    element.store.splice(0..0, down);
    ask(&mut element, 0x0800, "40 0800 FE 40 1000");
    assert_eq!(element.send(&count(0x0800, 0, 1)), DONE);
    assert_eq!(element.data(0x0800), hex("00000008 00000005"));
    let anew = hex("00000001 00000005");
    assert_eq!(element.send(&write(0x0800, 0, &anew)), DONE);
    assert_eq!(element.data(0x0800), anew);
    assert_eq!(values(&mut element), [7, 5, 5]);
}

#[test]
fn forms_of_the_condition_in_metadata() {
    for tag in ["D0", "D1", "D3"] {
        for (length, good) in [
            ("03 40 0000", true),
            ("03 40 FDFE", true),
            ("03 40 FFFF", true),
            ("07 40 FE40 FD 40 40FD", true),
            ("01 40", false),
            ("02 40 10", false),
            ("04 40 1000 00", false),
            ("04 40 1000 FD", false),
            ("03 41 1000", false),
            ("03 3F 1000", false),
            ("03 C0 1000", false),
            ("06 40 10 FD 40 1000", false),
            ("07 40 1000 FC 40 1000", false),
            ("07 40 1000 40 40 1000", false),
        ] {
            let mut element = element(5, 9);
            let content = hex(&format!("{tag} {length}"));
            let expected = if good { 0 } else { 0x05 };
            let sent = set_metadata(OBJECT, &content);
            assert_eq!(element.code(&sent), expected, "{length}");
            assert_eq!(values(&mut element), [5, 5, 5]);
        }
    }
    // Seven conditions in three groups, not eight and not four.
    let condition = "40 1000";
    for (joins, good) in [
        ("FD FD FE FD FE FD", true),
        ("FD FD FD FD FD FD FD", false),
        ("FE FE FE", false),
    ] {
        let mut expression = hex(condition);
        for join in hex(joins) {
            expression.push(join);
            expression.extend(hex(condition));
        }
        let mut content = vec![0xD1, expression.len() as u8];
        content.extend(expression);
        let expected = if good { 0 } else { 0x05 };
        assert_eq!(
            element(5, 9).code(&set_metadata(OBJECT, &content)),
            expected
        );
    }
}
