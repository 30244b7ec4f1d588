//! The differential harness, against the program in OTHER_CAPTURE.

use std::process::{Command, Output};

const DIFFERENTIAL: &str = env!("CARGO_BIN_EXE_differential");
const COUNT: &str = "4000";

fn differential(program: &str, count: &str) -> Output {
    let mut command = Command::new(DIFFERENTIAL);
    let output = command.args([program, count]).output();
    output.expect("the harness runs")
}

#[test]
fn the_other_program_gives_the_same_lines() {
    let Ok(program) = std::env::var("OTHER_CAPTURE") else {
        panic!("OTHER_CAPTURE is not set: it is the path of crates/tlv_capture/out/tlv_capture (see .ci/run)");
    };
    let output = differential(&program, COUNT);
    let text = String::from_utf8_lossy(&[output.stdout, output.stderr].concat()).into_owned();
    println!("{text}");
    assert!(output.status.success(), "{text}");
    assert!(
        text.contains(&format!("{COUNT} captures compared")),
        "{text}"
    );
}

#[test]
fn a_difference_is_found() {
    // It prints nothing, so even the empty capture's end line differs.
    let output = differential("true", "1");
    let text = String::from_utf8_lossy(&output.stdout);
    assert_eq!(output.status.code(), Some(1), "{text}");
    assert!(text.contains("differs"), "{text}");
    let folder = text.lines().find_map(|line| line.strip_prefix("saved in "));
    let folder = folder.expect("the folder is printed");
    let saved = std::fs::read(format!("{folder}/capture")).expect("the capture is saved");
    assert!(saved == second::generate::catalogue::capture(0));
    std::fs::remove_dir_all(folder).expect("the folder can be removed");
}
