//! The C side: the header's layout against the wrapper's, and the example against its text.

use std::env;
use std::fmt::Write;
use std::mem::{align_of, offset_of, size_of};
use std::path::{Path, PathBuf};
use std::process::Command;

use coreshare::{
    Answer, Chosen, Dispatcher, Fate, Guest, Located, LogEntries, LogEntry, Ordered, Plan, Read,
    Refusal, Released, Run, RunIn, Salvaged, Start, Stated, Statement, TickIn, Ticked, Verdict,
    mark, pair,
};

/// Compiles a C file of the folder `c` beside this crate, runs it and gives what it wrote.
fn output_of(name: &str, libraries: &[PathBuf]) -> String {
    let host = Path::new(env!("CARGO_MANIFEST_DIR")).join("..");
    let program = Path::new(env!("CARGO_TARGET_TMPDIR")).join(name);
    let compiled = Command::new(env::var_os("CC").unwrap_or("cc".into()))
        .args([
            "-std=c11",
            "-O2",
            "-Wall",
            "-Wextra",
            "-Werror",
            "-pedantic",
            "-o",
        ])
        .arg(&program)
        .arg(host.join("c").join(name).with_extension("c"))
        .args(libraries)
        .status()
        .expect("a C compiler, which CC names, or cc");
    assert!(compiled.success());
    let run = match env::var_os("EMULATOR") {
        Some(emulator) => Command::new(emulator).arg(&program).output(),
        None => Command::new(&program).output(),
    };
    let run = run.expect("the program");
    assert!(run.status.success());
    String::from_utf8(run.stdout).expect("text")
}

fn size_of_field<S, F>(_: fn(&S) -> &F) -> usize {
    size_of::<F>()
}

/// The lines that `layout.c` prints of one struct.
macro_rules! lines {
    ($to:expr, $name:literal, $type:ty, $($field:ident)*) => {
        let (size, align) = (size_of::<$type>(), align_of::<$type>());
        writeln!($to, "{} size {size} align {align}", $name).unwrap();
        $(
            let (at, size) = (offset_of!($type, $field), size_of_field(|s: &$type| &s.$field));
            writeln!($to, "{}.{} at {at} size {size}", $name, stringify!($field)).unwrap();
        )*
    };
}

fn layout() -> String {
    let mut to = String::new();
    lines!(to, "CsGuest", Guest, id capacity period tasks charge marks deferrable run every deadline);
    lines!(to, "CsPlan", Plan, count guests);
    lines!(to, "CsRefusal", Refusal, number place);
    lines!(to, "CsRead", Read, refusal plan);
    lines!(to, "CsOrdered", Ordered, refusal plan);
    lines!(to, "CsChosen", Chosen, refusal plan);
    lines!(to, "CsVerdict", Verdict, number place verdict ticks);
    lines!(to, "CsLocated", Located, number place sheet);
    lines!(to, "CsDispatcher", Dispatcher, plan usage left position rest wait age);
    lines!(to, "CsStart", Start, refusal dispatcher);
    lines!(to, "CsReleased", Released, refusal dispatcher);
    lines!(to, "CsAnswer", Answer, kind guest task age margin);
    lines!(to, "CsTicked", Ticked, dispatcher refusal answer);
    lines!(to, "CsTickIn", TickIn, number answer);
    lines!(to, "CsRunIn", RunIn, number done answer);
    lines!(to, "CsRun", Run, refusal done answer dispatcher);
    lines!(to, "CsLogEntry", LogEntry, guest task age);
    lines!(to, "CsLogEntries", LogEntries, count entries);
    lines!(to, "CsStatement", Statement, blocks margins jobs longest late);
    lines!(to, "CsStated", Stated, refusal statement passed position number);
    lines!(to, "CsFate", Fate, number place);
    lines!(to, "CsSalvaged", Salvaged, refusal written blocks fates);
    for mark in [mark(1), mark(16)] {
        writeln!(to, "mark {mark}").unwrap();
    }
    for pair in [pair(9, 2), pair(u32::MAX, u16::MAX)] {
        writeln!(to, "pair {pair}").unwrap();
    }
    to
}

#[test]
fn c_and_rust_lay_the_structs_out_alike() {
    assert_eq!(output_of("layout", &[]), layout());
}

#[test]
fn the_sizes_are_those_of_the_header() {
    let sizes = [
        size_of::<Guest>(),
        size_of::<Plan>(),
        size_of::<Dispatcher>(),
        size_of::<Run>(),
        size_of::<Statement>(),
        size_of::<Stated>(),
    ];
    assert_eq!(sizes, [216, 1_732, 3_472, 3_504, 2_568, 2_600]);
}

#[test]
fn the_example_writes_what_document_01_says() {
    let archive =
        Path::new(env!("CARGO_MANIFEST_DIR")).join("../../target/staticlib/libcoreshare.a");
    let text = "guest 9 stands at byte 512
guest 7 fitted 2
task 1 met 4
guest 9 fitted 14
task 1 met 36
task 2 met 80
plan accepted
guest 9 needs a capacity of 7
guest 7 stands at byte 0 of the plan
guest 8 is refused as 7 by the plan
guest 9 stands at byte 0 of the sheet
with capacity 7 guest 9 is fitted 13 and its tasks are met 38 and 86
so the plan is accepted, and needs 7
exchanged, task 1 of guest 9 is met 26, and task 2 is unmet
in the order proposed they are met 36 and 80, which is plan A
the least capacities are 1 and 6, and the plan is accepted with them
task 1 has 36, and bound 24
bound, it is answered 0 at position 0 and 17 at position 1
guest 9 fitted 16
task 1 met 38
task 2 met 82
the old card's start is refused as 23
guest 9 fitted 14
task 1 met 36
task 2 met 80
converted it is plan A
after 24 ticks guest 9 finished task 1: age 24, margin 26
guest 7 had 10 ticks and idled 10 of them away
guest 9 had 10 ticks and idled 0 of them away
nobody had 4
sheet answered 0 9 9 7
1 block counted: 2 jobs, longest age 60, 1 late, margins 16
1 passed over, the first at 1 by 3
block 0 is dropped by 2
block 1 is kept at place 0
512 bytes are salvaged, the first guest is 9
";
    assert_eq!(output_of("example", &[archive]), text);
}
