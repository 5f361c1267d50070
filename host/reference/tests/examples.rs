//! The plan files of the folder `examples`: each is made of the text beside it, if it has one, and prints what the
//! folder's page says.

use reference::convert::convert;
use reference::order::order;
use reference::plan::{Guest, Plan, Refusal, blocks_of};
use reference::salvage::{Fate, salvage};
use reference::samples::deferrable;
use reference::show::text;
use std::fs;
use std::path::PathBuf;

/// The plan files that have a text, by their names.
const NAMES: [&str; 7] = [
    "plan-a",
    "unfit",
    "unmet",
    "bound",
    "converted",
    "unordered",
    "refused",
];

fn path(name: &str) -> PathBuf {
    let root = PathBuf::from(env!("CARGO_MANIFEST_DIR")).join("../../examples");
    root.join(name)
}

fn lines_of(name: &str) -> Vec<String> {
    let whole = fs::read_to_string(path(name)).expect("a text");
    whole.lines().map(str::to_string).collect()
}

fn plan_file(name: &str) -> Vec<u8> {
    fs::read(path(&format!("{name}.plan"))).expect("a plan file")
}

/// The numbers of a line.
fn numbers(line: &str) -> Vec<u32> {
    let parts = line.split(|letter: char| !letter.is_ascii_digit());
    parts.filter_map(|part| part.parse().ok()).collect()
}

/// The plan of a text: a line for each guest, and below it one for each of its tasks.
fn plan_of(name: &str) -> Plan {
    let mut guests: Vec<(Guest, Vec<[u32; 3]>)> = Vec::new();
    for line in lines_of(&format!("{name}.txt")) {
        match (line.split(' ').next(), &numbers(&line)[..]) {
            (Some("guest"), [id, capacity, period, charge]) => {
                let mut guest = Guest::new(*id, *capacity, *period, &[]);
                guest.charge = *charge as u16;
                guests.push((guest, Vec::new()));
            }
            (Some("task"), [run, every, deadline]) => {
                let (guest, tasks) = guests.last_mut().expect("a guest above");
                let bound = u16::from(line.ends_with(" bound"));
                guest.marks |= bound << tasks.len();
                tasks.push([*run, *every, *deadline]);
            }
            _ => assert!(line.starts_with('#'), "{line}"),
        }
    }
    let with_tasks = |(guest, tasks): &(Guest, Vec<[u32; 3]>)| Guest {
        charge: guest.charge,
        marks: guest.marks,
        ..Guest::new(guest.id, guest.capacity, guest.period, tasks)
    };
    Plan::new(&guests.iter().map(with_tasks).collect::<Vec<_>>())
}

/// What the page says that a plan file prints: the first lines after its name that are set off.
fn printed(name: &str) -> String {
    set_off_after(&format!("**`{name}.plan`**"))
}

/// The first lines of the page that are set off after one that starts so.
fn set_off_after(start: &str) -> String {
    let page = lines_of("README.md");
    let after = page.iter().skip_while(|line| !line.starts_with(start));
    let set_off = after.skip_while(|line| !line.starts_with("    "));
    let lines = set_off.take_while(|line| line.starts_with("    "));
    lines.map(|line| line[4..].to_string() + "\n").collect()
}

#[test]
fn each_plan_file_is_made_of_its_text() {
    for name in NAMES {
        assert_eq!(plan_file(name), blocks_of(&plan_of(name)), "{name}");
    }
}

#[test]
fn each_plan_file_prints_what_the_page_says() {
    for name in NAMES {
        assert_eq!(text(&plan_file(name)), printed(name), "{name}");
    }
}

#[test]
fn the_order_proposed_for_the_unordered_plan_file_is_plan_as() {
    let ordered = order(&plan_of("unordered"), 9);
    assert_eq!(ordered.refusal, Refusal::NONE);
    assert_eq!(blocks_of(&ordered.plan), plan_file("plan-a"));
}

#[test]
fn the_old_card_is_converted_as_the_page_says() {
    let old = plan_file("old-card");
    assert_eq!(old, blocks_of(&deferrable(plan_of("plan-a"))));
    assert_eq!(text(&old), printed("old-card"));
    let mut out = [0; 1024];
    assert_eq!(convert(&old, &mut out), Refusal::NONE);
    assert_eq!(out[..], plan_file("converted"));
    assert_eq!(out[..], plan_file("plan-a"));
}

#[test]
fn the_damaged_plan_file_is_salvaged_as_the_page_says() {
    let mut file = blocks_of(&plan_of("plan-a"));
    file[508] ^= 1;
    assert_eq!(plan_file("damaged"), file);
    assert_eq!(text(&file), printed("damaged"));
    let mut out = [0; 512];
    let salvaged = salvage(&file, &mut out);
    assert_eq!(salvaged.list(), [Fate::dropped(2), Fate::kept(0)]);
    assert_eq!(text(&out), set_off_after("Salvage"));
}
