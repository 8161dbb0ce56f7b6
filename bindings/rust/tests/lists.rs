//! Lists of commands by one call.
mod common;

use common::*;
use element::{Element, Error};

/// Open, the last error, close, the last error.
fn list() -> Vec<u8> {
    [&OPEN[..], &READ_ERROR, &CLOSE, &READ_ERROR].concat()
}

const SIZES: [usize; 4] = [20, 10, 4, 10];
const SPACES: [usize; 4] = [4, 6, 3, 5];

#[test]
fn a_list_gives_every_outcome_and_room() {
    let mut element = fresh();
    let (mut rooms, mut outcomes) = ([0xEE; 18], [0xEE; 4]);
    let ran = element.run(&list(), &SIZES, &mut rooms, &SPACES, &mut outcomes);
    assert_eq!(ran, Ok(()));
    // The close has a room of 3 bytes: the application stays open, and the last command reads.
    assert_eq!(outcomes, [0, 0, 1, 0]);
    assert_eq!(rooms[..4], [0, 0, 0, 0]);
    assert_eq!(rooms[4..10], [0, 0, 0, 1, 0, 0xEE]);
    assert_eq!(rooms[10..13], [0xEE; 3]);
    assert_eq!(rooms[13..], [0, 0, 0, 1, 0]);
}

#[test]
fn a_list_does_as_single_commands() {
    let spaces = [4, 5, 4, 5];
    let (mut rooms, mut outcomes) = ([0xEE; 18], [0xEE; 4]);
    let mut by_list = fresh();
    let ran = by_list.run(&list(), &SIZES, &mut rooms, &spaces, &mut outcomes);
    assert_eq!(ran, Ok(()));
    let mut by_one = fresh();
    let commands: [&[u8]; 4] = [&OPEN, &READ_ERROR, &CLOSE, &READ_ERROR];
    let mut expected = Vec::new();
    for (command, space) in commands.into_iter().zip(spaces) {
        let mut room = vec![0xEE; space];
        assert_eq!(by_one.send(command, &mut room).outcome, 0);
        expected.extend(room);
    }
    assert_eq!(rooms[..], expected);
    // The application is closed where the last command comes.
    assert_eq!(rooms[13..17], [0xFF, 0, 0, 0]);
    assert_eq!(by_list.session(), by_one.session());
    assert_eq!(by_list.session().error, 0x0C);
}

#[test]
fn an_empty_list_is_done() {
    let mut element = fresh();
    assert_eq!(element.run(&[], &[], &mut [], &[], &mut []), Ok(()));
    assert_eq!(element.session(), fresh().session());
}

#[test]
fn sizes_past_the_last_outcome_are_not_looked_at() {
    let (mut rooms, mut outcomes) = ([0xEE; 4], [0xEE; 1]);
    let sizes = [20, usize::MAX];
    let ran = opened().run(&OPEN, &sizes, &mut rooms, &[4, 4], &mut outcomes);
    assert_eq!(ran, Ok(()));
    assert_eq!((rooms, outcomes), ([0; 4], [0]));
}

/// The list is refused as a whole and changes nothing.
fn check_misfit(mut element: Element, sizes: &[usize], spaces: &[usize]) {
    let before = (element.session(), element.store().to_vec());
    let (mut rooms, mut outcomes) = ([0xEE; 18], [0xEE; 4]);
    let ran = element.run(&list(), sizes, &mut rooms, spaces, &mut outcomes);
    assert_eq!(ran, Err(Error::WrongSize), "{sizes:?} {spaces:?}");
    assert_eq!((rooms, outcomes), ([0xEE; 18], [0xEE; 4]));
    assert_eq!((element.session(), element.store().to_vec()), before);
}

#[test]
fn a_list_that_does_not_fit_changes_nothing() {
    check_misfit(fresh(), &[20, 10, 4, 11], &SPACES);
    check_misfit(fresh(), &SIZES, &[4, 6, 3, 6]);
    check_misfit(fresh(), &SIZES[..3], &SPACES);
    check_misfit(fresh(), &SIZES, &SPACES[..3]);
    check_misfit(fresh(), &[], &[]);
    check_misfit(fresh(), &[20, usize::MAX, 1, 0], &SPACES);
    check_misfit(fresh(), &SIZES, &[usize::MAX, usize::MAX, 2, 0]);
}
