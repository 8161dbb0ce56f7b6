//! The programs as they are called.

mod common;

use std::process::Output;

use common::{hex, run, OPEN};

fn bench(input: &[u8]) -> Vec<u8> {
    let output = run(env!("CARGO_BIN_EXE_bench"), &[], input);
    assert!(output.status.success());
    output.stdout
}

fn replay(input: &[u8]) -> Vec<u8> {
    let output = run(env!("CARGO_BIN_EXE_replay"), &[], input);
    assert!(output.status.success());
    output.stdout
}

fn dock_replay(input: &[u8]) -> Vec<u8> {
    let output = run(env!("CARGO_BIN_EXE_dock_replay"), &[], input);
    assert!(output.status.success());
    output.stdout
}

fn generate(arguments: &[&str]) -> Output {
    run(env!("CARGO_BIN_EXE_generate"), arguments, &[])
}

#[test]
fn bench_lines() {
    let mut input = hex("00 14");
    input.extend(hex(OPEN));
    input.extend(hex("00 0A 01 00 00 06 F1 C2 00 00 00 01"));
    assert_eq!(bench(&input), b"0 00000000\n0 0000000100\n");
    input.push(0);
    assert_eq!(bench(&input), b"0 00000000\n0 0000000100\ncut\n");
    assert_eq!(bench(&[]), b"");
    assert_eq!(bench(&[0; 16_385]), b"too long\n");
    assert_eq!(bench(&[0; 16_384]), b"0 FF000000\n".repeat(8_192));
}

#[test]
fn replay_lines() {
    assert_eq!(replay(b""), b"");
    assert_eq!(replay(b"BX"), b"B \nbad\n");
    let cases = generate(&["cases", "3", "50"]);
    assert!(cases.status.success());
    let output = String::from_utf8(replay(&cases.stdout)).unwrap();
    assert!(output.lines().filter(|line| line.starts_with("C ")).count() >= 50);
}

#[test]
fn dock_replay_lines() {
    assert_eq!(dock_replay(b""), b"");
    let mut input = hex("4E EE 50 0003 070001 50 0000 50 0006 00AA5060 0500");
    input.extend(hex("50 0001 00 4E 00 57 01 0008 A5A5A5A5A5A5A5A5 0001 AA"));
    input.extend(hex("57 02 0006 A5A5A5A5A5A5 0001 AA 57 02 0000 0616"));
    input.extend([0; 0x616]);
    let lines = [
        "N",
        "P 3 3 0 0 0 FAF3AAA4 ",
        "P 0 3 0 0 0 FAF3AAA4 ",
        "P 4 0 0 1 1 907BA846 AA",
        // 05 in place of 07 at the front of all 1,563 bytes.
        "P 2 0 1 0 0 8445A844 ",
        "P 1 0 1 0 0 8445A844 ",
        "N",
        "W 0 07000100AA5060A5",
        "W 2 A5A5A5A5A5A5",
        "W 1 ",
        "",
    ];
    assert_eq!(dock_replay(&input), lines.join("\n").as_bytes());
    // Before the first item: between frames, all lent bytes 00.
    assert_eq!(dock_replay(&hex("50 0000")), b"P 0 0 0 0 0 061B0001 \n");
    let mut held = hex("48 0005 0000 0600010042");
    held.extend([0; 1_558]);
    held.extend(hex("50 0001 52"));
    assert!(dock_replay(&held).starts_with(b"H\nP 1 0 0 1 0 "));
}

#[test]
fn dock_replay_of_bad_input() {
    let mut large_room = hex("57 01 1001");
    large_room.extend([0; 0x1001 + 2]);
    let mut large_body = hex("57 01 0000 1001");
    large_body.extend([0; 0x1001]);
    let mut short_held = hex("48 0000 0000");
    short_held.extend([0; 1_562]);
    for bad in [
        hex("51"),
        hex("4E"),
        hex("50 00"),
        hex("50 0001"),
        hex("57 00 0000 0000"),
        hex("57 03 0000 0000"),
        hex("57 01 0000 00"),
        hex("57 01 0000 0001"),
        large_room,
        large_body,
        short_held,
    ] {
        assert_eq!(dock_replay(&bad), b"bad\n");
        assert_eq!(dock_replay(&[b"N\0", &bad[..]].concat()), b"N\nbad\n");
    }
    let mut largest = hex("57 01 1000");
    largest.extend([0; 0x1000]);
    largest.extend(hex("1000"));
    largest.extend([0; 0x1000]);
    assert!(dock_replay(&largest).starts_with(b"W 1 0000"));
    let mut piece = hex("50 FFFF");
    piece.extend([0; 0xFFFF]);
    assert!(dock_replay(&piece).starts_with(b"P 65535 0 1 0 0 "));
}

#[test]
fn streams_are_generated() {
    let streams = generate(&["streams", "3", "200"]);
    assert!(streams.status.success());
    let output = String::from_utf8(dock_replay(&streams.stdout)).unwrap();
    assert!(output.lines().filter(|line| line.starts_with("P ")).count() >= 200);
    assert!(!output.contains("bad"));
    assert!(generate(&["dock-coverage", "1", "20000"]).status.success());
    let coverage = generate(&["dock-coverage", "1", "1"]);
    assert_eq!(coverage.status.code(), Some(1));
    let text = String::from_utf8(coverage.stdout).unwrap();
    assert!(text.contains("never occurred: dock Write(Command, Exact)"));
    assert!(text.contains("never occurred: damaged frame CheckSwapped"));
    assert!(text.contains("never occurred: held value Noise"));
}

fn check_mixes(arguments: &[&str], input: &[u8]) -> Output {
    run(env!("CARGO_BIN_EXE_check_mixes"), arguments, input)
}

#[test]
fn mixes_are_checked() {
    assert_eq!(check_mixes(&["1"], &[]).status.code(), Some(2));
    assert_eq!(check_mixes(&["1", "x"], &[]).status.code(), Some(2));
    let mixes = generate(&["mixes", "2", "100"]);
    assert!(mixes.status.success());
    let mut output = replay(&mixes.stdout);
    let checked = check_mixes(&["2", "100"], &output);
    assert!(checked.status.success());
    let text = String::from_utf8(checked.stdout).unwrap();
    assert_eq!(text.lines().count(), 1);
    assert!(text.contains("alike in all orders"));
    output.extend_from_slice(b"S 1\n");
    let checked = check_mixes(&["2", "100"], &output);
    assert_eq!(checked.status.code(), Some(1));
    assert_eq!(checked.stdout, b"the input goes on after the last pair\n");
    let checked = check_mixes(&["2", "100"], b"S 1\n");
    assert_eq!(checked.status.code(), Some(1));
}

#[test]
fn generate_calls() {
    assert_eq!(generate(&[]).status.code(), Some(2));
    assert_eq!(generate(&["cases", "x", "1"]).status.code(), Some(2));
    assert_eq!(generate(&["other", "1", "1"]).status.code(), Some(2));
    let first = generate(&["lists", "4", "0"]).stdout;
    assert_eq!(first, generate(&["lists", "4", "0"]).stdout);
    assert!(!first.is_empty());
    // So few commands come before any store, and reach no object.
    let coverage = generate(&["coverage", "1", "1"]);
    assert_eq!(coverage.status.code(), Some(1));
    let text = String::from_utf8(coverage.stdout).unwrap();
    assert!(text.contains("never occurred: get data x 0D"));
    for missing in [
        "get of data Stored",
        "get of data Session",
        "get of data LastError",
        "count x ",
        "counter Count",
        "counter Write",
        "stored counter ",
        "condition on a counter Granted",
        "condition on a counter Own",
        "append x ",
        "acknowledge x ",
        "queue Append",
        "queue Acknowledge",
        "queue Other",
        "stored queue ",
    ] {
        assert!(text.contains(&format!("never occurred: {missing}")));
    }
}
