//! The printing program against the reference's text.

use crate::blocks;
use crate::plans::{self, SMALL, TINY};
use crate::session::Session;
use reference::plan::{BLOCK, blocks_of};
use reference::samples::{deferrable, plan_a, plan_a_bound};
use reference::show::text;
use std::env;
use std::io::{self, Write};
use std::process::{Command, Stdio};

/// Compares the program's output on a number of inputs.
pub fn compare(session: &mut Session, program: &str) -> io::Result<()> {
    let mut inputs = vec![
        Vec::new(),
        vec![0; BLOCK],
        vec![1; 4_096],
        vec![0; 4_097],
        vec![0; 9_000],
    ];
    for plan in (0..4).map(plan_a_bound).chain([plan_a()]) {
        inputs.extend([blocks_of(&plan), blocks_of(&deferrable(plan))]);
    }
    for _ in 0..200 {
        let size = session.random.pick(&[TINY, SMALL]);
        let plan = plans::plan(&mut session.random, size);
        inputs.push(blocks_of(&plan));
        inputs.push(blocks::damaged(&mut session.random, &plan));
    }
    for input in inputs {
        let (expected, written) = (text(&input), output(program, &input)?);
        if session.note("planview", expected.as_bytes() == written) {
            println!("DIFFERENT: planview on {input:?}");
            println!("  reference: {expected:?}");
            println!("  program:   {:?}", String::from_utf8_lossy(&written));
        }
    }
    Ok(())
}

/// The program as it is run here: by the emulator that EMULATOR names, if it names one.
fn command(program: &str) -> Command {
    let Some(emulator) = env::var_os("EMULATOR") else {
        return Command::new(program);
    };
    let mut command = Command::new(emulator);
    command.arg(program);
    command
}

fn output(program: &str, input: &[u8]) -> io::Result<Vec<u8>> {
    let mut child = command(program)
        .stdin(Stdio::piped())
        .stdout(Stdio::piped())
        .spawn()?;
    if let Some(mut to) = child.stdin.take() {
        // The program may stop reading before the end of a long input.
        let _ = to.write_all(input);
    }
    Ok(child.wait_with_output()?.stdout)
}
