//! `execute` takes no memory from the heap.

mod common;

use std::alloc::{GlobalAlloc, Layout, System};
use std::cell::Cell;

use common::{
    acknowledge, append, count, counter_record, get_data, get_metadata, hex, queue_record,
    set_metadata, write, Element, OPEN,
};
use reference::execute;

struct Counting;

thread_local! {
    static ALLOCATIONS: Cell<usize> = const { Cell::new(0) };
}

// SAFETY: every call goes on to the system's allocator.
unsafe impl GlobalAlloc for Counting {
    unsafe fn alloc(&self, layout: Layout) -> *mut u8 {
        let _ = ALLOCATIONS.try_with(|count| count.set(count.get() + 1));
        unsafe { System.alloc(layout) }
    }

    unsafe fn dealloc(&self, pointer: *mut u8, layout: Layout) {
        unsafe { System.dealloc(pointer, layout) }
    }
}

#[global_allocator]
static ALLOCATOR: Counting = Counting;

#[test]
fn execute_does_not_allocate() {
    let mut element = Element::with_records(&[
        counter_record(2, 0x1000, 7, 9),
        queue_record(0x1001, 60, &[0; 4]),
    ]);
    let commands = [
        hex(OPEN),
        count(0x1000, 0, 1),
        count(0xF1D0, 0, 1),
        write(0xF1D0, 3, &[1, 2, 3]),
        get_data(0xF1D0, 0, 6),
        get_metadata(0xF1D0),
        set_metadata(0xF1D0, &hex("C0 01 03 D1 01 FF")),
        get_data(0xF1D0, 0, 6),
        get_data(0xF1C2, 0, 1),
        set_metadata(0xF1D1, &hex("D0 07 E1 FA 0F FE 40 10 00")),
        write(0xF1D1, 0, &[1]),
        write(0xF1D1, 0, &[2]),
        append(0x1001, &[1, 2, 3]),
        append(0x1001, &[4]),
        append(0x1001, &[5; 50]),
        acknowledge(0x1001, 0),
        acknowledge(0x1001, 0),
        write(0x1001, 0, &[1]),
        vec![],
    ];
    let mut room = [0; 1_504];
    let before = ALLOCATIONS.get();
    for command in &commands {
        let answer = execute(command, &mut element.store, element.session, &mut room);
        element.session = answer.session;
    }
    assert_eq!(ALLOCATIONS.get(), before);
    assert!(element.session.opened);
    // One count and one write that used up the counter; then there is no access.
    assert_eq!(element.data(0x1000), hex("00000009 00000009"));
    assert_eq!(element.data(0xF1D1)[0], 1);
    // The second of two fares is left.
    assert_eq!(element.used(0x1001), 13);
}
