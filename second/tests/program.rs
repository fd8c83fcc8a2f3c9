//! The programs, from standard input to standard output.

use second::charge_calls;
use second::checker::print_check;
use second::pages::print_pages;
use second::table_calls;
use std::ffi::OsStr;
use std::io::Write;
use std::os::unix::ffi::OsStrExt;
use std::process::{Command, Stdio};

fn printed(input: &[u8]) -> String {
    output(env!("CARGO_BIN_EXE_second"), &[], input)
}

fn printed_pages(arguments: &[&str], input: &[u8]) -> String {
    output(env!("CARGO_BIN_EXE_pages"), arguments, input)
}

fn printed_check(input: &[u8]) -> String {
    output(env!("CARGO_BIN_EXE_checker"), &[], input)
}

fn printed_charge(arguments: &[&str], input: &[u8]) -> String {
    output(env!("CARGO_BIN_EXE_pricer"), arguments, input)
}

fn output(program: &str, arguments: &[&str], input: &[u8]) -> String {
    output_of(Command::new(program).args(arguments), input)
}

fn output_of(command: &mut Command, input: &[u8]) -> String {
    let mut program = command
        .stdin(Stdio::piped())
        .stdout(Stdio::piped())
        .spawn()
        .unwrap();
    program.stdin.take().unwrap().write_all(input).unwrap();
    let output = program.wait_with_output().unwrap();
    assert!(output.status.success());
    String::from_utf8(output.stdout).unwrap()
}

#[test]
fn prints_runs() {
    assert_eq!(printed(b"0 2 1 101 4 2 1 2 3"), "4 1 0\n4\n0\n1\n2\n3\n");
    assert_eq!(
        printed(b"\n0\t0001\n1 00101\n\n"),
        "4 3 0\n2 2 2\n0 0 0\n0 1 1\n1 0 1\n1 1 0\n"
    );
}

#[test]
fn prints_refusals() {
    assert_eq!(printed(b""), "refused 2 0 0 0 0 0 0\n");
    assert_eq!(printed(b"0 1 1 101 x"), "refused 2 4 0 0 0 0 0\n");
    assert_eq!(printed(b"0 1 1 101 5"), "refused 2 4 0 0 0 0 0\n");
    // Words are looked at before the list is tried.
    assert_eq!(printed(b"99 1 65536"), "refused 2 2 0 0 0 0 0\n");
    assert_eq!(printed(b"99 1 65535"), "refused 2 0 0 0 0 0 0\n");
    assert_eq!(
        printed("7\n".repeat(40_000).as_bytes()),
        "refused 2 32768 0 0 0 0 0\n"
    );
    assert_eq!(
        printed(b"1 1 4 2 2 2 0 0 0 0 1 1 1 1 1 1 1"),
        "refused 5 1 1 2 0 0 2\n"
    );
}

#[test]
fn prints_pages() {
    let order = b"0 1 1 104";
    let page = print_pages(order, None);
    assert_eq!(page.len(), 4_800);
    // Only the first argument is looked at.
    for arguments in [&[] as &[&str], &["1"], &["001", "2"], &["1", "x"]] {
        assert_eq!(printed_pages(arguments, order), page);
    }
}

#[test]
fn prints_refusals_of_pages() {
    for arguments in [["0"], ["2"], [""], ["x"], ["1 1"], ["65537"]] {
        assert_eq!(
            printed_pages(&arguments, b"0 1 1 104"),
            "refused 13 0 0 0 0 0 0\n"
        );
        assert_eq!(
            printed_pages(&arguments, b"0 1 1 5"),
            "refused 8 1 0 0 0 0 0\n"
        );
    }
    assert_eq!(printed_pages(&[], b""), "refused 2 0 0 0 0 0 0\n");
}

#[test]
fn prints_checks() {
    assert_eq!(
        printed_check(b"1 4 2 2 2 0 0 0 0 1 1 1 1\n"),
        "refused 5 1 1 2 0 0 2\ngap 4\npairs 1\n"
    );
    for text in ["", "1 2 1 2 0 1", "1 2 1 2 0 2", "1 2 2 2 2 0 1 1 0", "2 x"] {
        let text = text.as_bytes();
        assert_eq!(printed_check(text), print_check(text));
    }
}

#[test]
fn prints_answers_of_table_calls() {
    let calls = b"0\n5 1 2 1 2 0\n6 1 2 1 2 0 1\n9 1 2 2 2 2 0 1 1 0\n";
    let printed = output(env!("CARGO_BIN_EXE_table_answers"), &[], calls);
    assert_eq!(
        printed,
        "2 0 0 0 0 0 0 0 0\n2 5 0 0 0 0 0 0 0\n0 0 0 0 0 0 0 0 0\n5 1 1 2 0 0 0 -2 1\n"
    );
    let stored = output(env!("CARGO_BIN_EXE_table_calls"), &[], b"");
    assert_eq!(stored, table_calls::stored());
}

#[test]
fn prints_charges() {
    let order = b"0 1 1 103";
    let arguments = ["4500", "1250", "300", "290", "74", "993", "15"];
    assert_eq!(printed_charge(&arguments, order), "57877\n");
    let arguments = ["0", "4294967295", "0", "0", "0", "00012", "000"];
    assert_eq!(printed_charge(&arguments, order), "8589934662\n");
    assert_eq!(
        printed_charge(&["5", "7", "50"], b"0 2 1 101 4 2 1 2 3"),
        "21\n"
    );
}

const REFUSED_15: &str = "refused 15 0 0 0 0 0 0\n";

#[test]
fn prints_refusals_of_charges() {
    let order = b"0 2 1 101 4 2 1 2 3";
    let one_too_many = ["1"; 131];
    for arguments in [
        &[] as &[&str],
        &["5"],
        &["5", "50"],
        &["5", "7", "7", "50"],
        &["5", "7", "101"],
        &["5", "7", "4294967295"],
        &["", "7", "50"],
        &["5", "", "50"],
        &["5", "7", ""],
        &["+5", "7", "50"],
        &["5", "-1", "50"],
        &["5", "1.5", "50"],
        &["5", "4294967296", "50"],
        &["5", "7 7", "50"],
        &["5", "7", " 50"],
        &["--", "5", "7", "50"],
        &["x"],
        &one_too_many,
    ] {
        assert_eq!(
            printed_charge(arguments, order),
            REFUSED_15,
            "{arguments:?}"
        );
        assert_eq!(
            printed_charge(arguments, b"0 1 1 5"),
            "refused 8 1 0 0 0 0 0\n"
        );
        assert_eq!(printed_charge(arguments, b""), "refused 2 0 0 0 0 0 0\n");
    }
}

#[test]
fn arguments_need_not_be_text() {
    let words: [&[u8]; 3] = [b"5", &[b'7', 255], b"50"];
    let mut command = Command::new(env!("CARGO_BIN_EXE_pricer"));
    command.args(words.map(OsStr::from_bytes));
    assert_eq!(output_of(&mut command, b"0 2 1 101 4 2 1 2 3"), REFUSED_15);
}

#[test]
fn prints_answers_of_charge_calls() {
    // One run of one column, with one price, with none, and with a level count of 1.
    let calls = b"1 1 1 0 0 50 1 0 7 1 2 1 1 1 1\n\
        1 1 0 9 0 0 0 1 2 1 1 0\n\
        1 1 0 9 0 0 1 0 7 1 1 1 1 0\n";
    let printed = output(env!("CARGO_BIN_EXE_charge_answers"), &[], calls);
    assert_eq!(printed, "0 32768\n15 0\n1 0\n");
    let stored = output(env!("CARGO_BIN_EXE_charge_calls"), &[], b"");
    assert_eq!(stored, charge_calls::stored());
}
