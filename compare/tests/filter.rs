//! The binary itself, from standard input to standard output.

use std::io::Write;
use std::process::{Command, Stdio};

#[test]
fn filters_standard_input() {
    let mut child = Command::new(env!("CARGO_BIN_EXE_filter"))
        .stdin(Stdio::piped())
        .stdout(Stdio::piped())
        .spawn()
        .unwrap();
    let mut input = child.stdin.take().unwrap();
    input
        .write_all(b"mem\t2\t00000000\t4\tr\t1\ts\tp\nmap\t2\nx")
        .unwrap();
    drop(input);
    let output = child.wait_with_output().unwrap();
    assert!(output.status.success());
    let expected = "ans\t0\t00000000\nguard\t2\n\
                    span\t00000000\t000fffff\t8282000000000000\nend\t1\nbad\t3\n";
    assert_eq!(output.stdout, expected.as_bytes());
}
