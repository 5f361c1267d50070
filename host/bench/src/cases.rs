//! What is measured: the same call on the same input, of the library, of plain Rust behind the same
//! interface, and of plain Rust by reference and in place.

mod amended;
mod choice;
mod convert;
pub mod desk;
mod dispatcher;
mod lent;
mod order;
mod salvage;
mod sheets;
mod statements;

use crate::inputs;
use coreshare::exports as ours;
use dispatcher::{release, release_in_place, run, tick, tick_in_place};
use plain::exports as same;
use plain::verdict::TaskVerdict;
use sheets::{sheet, sheet_in_place, singles};
use std::hint::black_box;

/// A call to be made again and again; what it gives shows that all sides do the same.
pub type Work = Box<dyn FnMut() -> u64>;

/// The names of the sides, in order.
pub const SIDES: [&str; 3] = ["ours", "same", "reference"];

pub struct Case {
    pub name: &'static str,
    /// Our aim for its ratio to plain Rust.
    pub aim: f64,
    pub sides: [Work; 3],
}

/// A case of three sides: ours, plain Rust behind the same interface, plain Rust by reference.
fn case(
    name: &'static str,
    aim: f64,
    ours: impl FnMut() -> u64 + 'static,
    same: impl FnMut() -> u64 + 'static,
    reference: impl FnMut() -> u64 + 'static,
) -> Case {
    let sides: [Work; 3] = [Box::new(ours), Box::new(same), Box::new(reference)];
    Case { name, aim, sides }
}

pub fn all() -> Vec<Case> {
    let mut all = judging();
    all.extend(lent::all());
    all.extend(order::all());
    all.extend(choice::all());
    all.extend(amended::all());
    all.extend(dispatching());
    all.extend(statements::all());
    all.extend(salvage::all());
    all.extend(convert::all());
    all
}

fn judging() -> Vec<Case> {
    vec![
        read("read-1-block", inputs::near_a_million()[..512].to_vec()),
        read("read-8-blocks", inputs::near_a_million()),
        read("read-8-bound", inputs::bound_near_a_million()),
        write("write-block", inputs::near_a_million()),
        write("write-bound", inputs::bound_near_a_million()),
        accept("accept-plan-a", FILES, inputs::plan_a(), true),
        accept(
            "accept-near-a-million",
            FULL,
            inputs::near_a_million(),
            true,
        ),
        accept("accept-bound", FULL, inputs::bound_near_a_million(), true),
        accept(
            "accept-deferrable",
            FULL,
            inputs::deferrable_near_a_million(),
            true,
        ),
        accept("accept-growing", FULL, inputs::growing(), true),
        accept("accept-last-unmet", FULL, inputs::last_unmet(), false),
        guest_verdict("guest-long-climb", FILES, inputs::long_climb(), 8, 89_600),
        task_verdict("task-long-climb", CLIMB, inputs::long_climb(), 8, 324_900),
        task_verdict("task-growing", FILES, inputs::growing(), 8, 478_324),
        capacity("capacity-plan-a", FILES, inputs::plan_a(), 9, Ok(7)),
        capacity("capacity-small", FULL, inputs::little_asked(), 8, Ok(6)),
        capacity(
            "capacity-half-a-million",
            FULL,
            inputs::half_a_million(),
            4,
            Ok(500_047),
        ),
        capacity(
            "capacity-bound",
            FULL,
            inputs::bound_half_a_million(),
            4,
            Ok(500_047),
        ),
        capacity("capacity-none", FULL, inputs::no_capacity(), 4, Err(11)),
    ]
}

fn dispatching() -> Vec<Case> {
    vec![
        release("release-full", inputs::endless()),
        release("release-bound", inputs::all_bound()),
        singles("release-256-single", inputs::twice()),
        sheet("sheet-256", inputs::endless(), inputs::twice()),
        sheet("sheet-256-bound", inputs::all_bound(), inputs::twice()),
        sheet("sheet-16", inputs::endless(), inputs::last_guests()),
        tick("tick-plan-a", inputs::plan_a()),
        tick("tick-full", inputs::endless()),
        release_in_place("release-full-in-place", inputs::endless()),
        sheet_in_place("sheet-256-in-place", inputs::endless(), inputs::twice()),
        tick_in_place("tick-plan-a-in-place", inputs::plan_a()),
        tick_in_place("tick-full-in-place", inputs::endless()),
        run("run-million-plan-a-idle", inputs::plan_a(), false),
        run("run-million-full", inputs::endless(), true),
        run("run-million-full-idle", inputs::endless(), false),
    ]
}

/// The aim for plan files, orders, least capacities, statements, salvages, conversions and what is asked of small
/// plans, and the one for the dispatcher. The desk's are in `desk`.
const FILES: f64 = 1.2;
const DISPATCHER: f64 = 1.5;

/// The aim where the plan or the state stays where it lies, beside plain Rust that does the same.
const PLACED: f64 = 1.2;

/// Where recurrences decide, fewer divisions than plain Rust makes: the aim for a full plan's acceptance and smallest
/// capacities, and the one for the verdict of a single task that climbs long.
const FULL: f64 = 0.4;
const CLIMB: f64 = 0.6;

/// The plan as each side reads it.
fn plans(bytes: &[u8]) -> (coreshare::Plan, plain::Plan) {
    let ours = coreshare::Plan::read(bytes).expect("a plan");
    let plain = plain::block::read(bytes).expect("a plan");
    (ours, plain)
}

fn read(name: &'static str, bytes: Vec<u8>) -> Case {
    let (one, two) = (bytes.clone(), bytes.clone());
    let mut lent = plain::Plan::default();
    case(
        name,
        FILES,
        move || {
            let plan = ours::read(black_box(&bytes)).plan;
            u64::from(plan.count + plan.guests[0].deadline[15])
        },
        move || {
            let plan = same::read(black_box(&one)).plan;
            u64::from(plan.count + plan.guests[0].deadline[15])
        },
        move || {
            let plan = black_box(&mut lent);
            plain::block::read_into(black_box(&two), plan).expect("a plan");
            u64::from(plan.count + plan.guests[0].deadline[15])
        },
    )
}

fn write(name: &'static str, bytes: Vec<u8>) -> Case {
    let (product, plain) = plans(&bytes);
    let (mut to_ours, mut to_same, mut to_reference) = ([0; 512], [0; 512], [0; 512]);
    case(
        name,
        FILES,
        move || {
            let refusal = ours::write(black_box(&product.guests[0]), 0, black_box(&mut to_ours));
            u64::from(refusal.number) + u64::from(to_ours[508])
        },
        move || {
            let guest = *black_box(&plain.guests[0]);
            let refusal = same::write(guest, 0, black_box(&mut to_same));
            u64::from(refusal.number) + u64::from(to_same[508])
        },
        move || {
            let guest = black_box(&plain.guests[0]);
            plain::block::write(guest, 0, black_box(&mut to_reference)).expect("taken");
            u64::from(to_reference[508])
        },
    )
}

fn accept(name: &'static str, aim: f64, bytes: Vec<u8>, accepted: bool) -> Case {
    let (product, plain) = plans(&bytes);
    assert_eq!(plain.accepted(), Ok(accepted), "{name}");
    case(
        name,
        aim,
        move || u64::from(ours::accept(black_box(&product)).verdict),
        move || u64::from(same::accept(*black_box(&plain)).verdict),
        move || match black_box(&plain).accepted().expect("a plan") {
            true => 1,
            false => 2,
        },
    )
}

fn guest_verdict(name: &'static str, aim: f64, bytes: Vec<u8>, id: u32, response: u32) -> Case {
    let (product, plain) = plans(&bytes);
    assert_eq!(plain.guest_verdict(id), Ok(Some(response)), "{name}");
    case(
        name,
        aim,
        move || u64::from(ours::guest_verdict(black_box(&product), id).ticks),
        move || u64::from(same::guest_verdict(*black_box(&plain), id).ticks),
        move || {
            let response = black_box(&plain).guest_verdict(id).expect("a guest");
            u64::from(response.unwrap_or(0))
        },
    )
}

/// The last of 16 tasks.
fn task_verdict(name: &'static str, aim: f64, bytes: Vec<u8>, id: u32, response: u32) -> Case {
    let (product, plain) = plans(&bytes);
    let met = TaskVerdict::Met(response);
    assert_eq!(plain.task_verdict(id, 16), Ok(met), "{name}");
    case(
        name,
        aim,
        move || u64::from(ours::task_verdict(black_box(&product), id, 16).ticks),
        move || u64::from(same::task_verdict(*black_box(&plain), id, 16).ticks),
        move || match black_box(&plain).task_verdict(id, 16) {
            Ok(TaskVerdict::Met(response)) => u64::from(response),
            _ => 0,
        },
    )
}

fn capacity(
    name: &'static str,
    aim: f64,
    bytes: Vec<u8>,
    id: u32,
    found: Result<u32, u32>,
) -> Case {
    let (product, plain) = plans(&bytes);
    let refused = |refusal: plain::Refusal| refusal.number;
    assert_eq!(
        plain.smallest_capacity(id).map_err(refused),
        found,
        "{name}"
    );
    case(
        name,
        aim,
        move || u64::from(ours::smallest_capacity(black_box(&product), id).ticks),
        move || u64::from(same::smallest_capacity(*black_box(&plain), id).ticks),
        move || u64::from(black_box(&plain).smallest_capacity(id).unwrap_or(0)),
    )
}
