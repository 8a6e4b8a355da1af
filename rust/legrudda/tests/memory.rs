//! A run whose buffers cannot be had, in a process of little memory.
use std::{env, process::Command};

use legrudda::{Element, Run};

const LIMITED: &str = "LEGRUDDA_TEST_OF_LITTLE_MEMORY";

/// This test again, with a gigabyte of addresses.
#[test]
fn buffers_that_cannot_be_had() {
    if env::var_os(LIMITED).is_some() {
        return in_little_memory();
    }
    let again = "ulimit -v 1048576 && exec \"$0\" --exact buffers_that_cannot_be_had";
    let ended = Command::new("sh")
        .args(["-c", again])
        .arg(env::current_exe().unwrap())
        .env(LIMITED, "")
        .output()
        .unwrap();
    let printed = String::from_utf8_lossy(&ended.stdout);
    assert!(printed.contains("1 passed; 0 failed"), "{ended:?}");
}

fn in_little_memory() {
    let r = [0; 4 * 21];
    // 4,096 stack columns of 16·2^20 bytes.
    let wide = [4096, 20, 0];
    assert!(Run::try_new(0, 20, &[1], &wide, &r, Element::ONE).is_err());
    let mut run = Run::try_new(0, 20, &[1], &[1, 20, 0], &r, Element::ONE).unwrap();
    run.start().unwrap();
    let buffers = Run::new(0, 20, &[1], &[1, 20, 0], &r, Element::ONE);
    let lengths = |run: &Run| run.work_buffers().map(<[u32]>::len);
    assert_eq!(lengths(&run), lengths(&buffers));
}
