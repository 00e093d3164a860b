//! The static library beside the Rust and beside a plain reading of document 01, on cases made from a seed.
//!
//!     differential [CASES [SEED]]
//!
//! Against the Rust: a cube's floats; a fresh mesh; a mesh that the Rust built after a log, honest or foolish, in the source's mode of
//! the update. A Sides entry is a pair for the Rust, CullFaces and then AddFaces, and a Replaced one is Broken and then Added. Every quad,
//! float bit, triangle word and index entry is compared, and a panic of the Rust counts as a disagreement.
//! Against the plain reading, where the Rust says nothing: `moved`, zeroed and spare places, the new mode of the update, the check, and
//! refusals, with every buffer whole. A Sides entry split in two, which hide and draw, has to leave the same, and so does a Replaced one, split into
//! Broken and Added. And demand 3, tried: the mesh passes the check after an honest log of cubes put into empty cells or in place of others; in the
//! source's mode they have to cover opposite sides alike. And two crews, tried: two such logs on cells that do not touch leave the same faces in any
//! order, and the mesh passes the check. A case that fails is shrunk and printed; ten failing cases end the run.
//! A run of a thousand cases that never met something it is there for has failed too.

use oracle::cases::{simpler, simpler_to_mend, Added, Case, Random};
use oracle::compare::{Compared, Comparison, Pairs, Tally, Updates, MODES};
use oracle::crews::{simpler_crews, Crews};
use oracle::entries::{ENTRY, PAIRED};
use oracle::faults::{limits, Faulty};
use oracle::library::Library;
use oracle::orders::{Orders, Touching};
use oracle::rust::Words;
use plain::NO_ROOM;
use std::panic::{catch_unwind, AssertUnwindSafe};
use std::time::Instant;

const MOST_DISAGREEMENTS: u64 = 10;

/// Room for so many quads more than the crews find.
const SPARE_FOR_CREWS: [usize; 6] = [0, 1, 2, 4, 16, 10_000];

/// Sizes at and near the limits.
const LARGE: [[u32; 3]; 7] =
    [[1024, 1, 1], [1, 1024, 1], [1, 1, 1024], [32, 32, 32], [16, 256, 16], [1024, 32, 32], [32, 1024, 32]];

fn main() {
    Library::assert_level();
    let mut arguments = std::env::args().skip(1).map(|argument| argument.parse().expect("a number"));
    let (cases, seed) = (arguments.next().unwrap_or(40_000), arguments.next().unwrap_or(1));
    let start = Instant::now();
    std::panic::set_hook(Box::new(|_| {}));
    let mut run = Run::of(seed);
    for number in 0..cases {
        run.one(number);
        if run.disagreements >= MOST_DISAGREEMENTS {
            println!("stopped after ten disagreements, at case {number}");
            break;
        }
    }
    run.large();
    run.limits();
    if cases >= 1000 && run.disagreements < MOST_DISAGREEMENTS {
        run.met_all();
    }
    println!("seed {seed}, {cases} cases, {:.1} s", start.elapsed().as_secs_f64());
    print_tally(&run.comparison.tally);
    println!("disagreements: {}", run.disagreements);
    std::process::exit((run.disagreements != 0) as i32);
}

struct Run {
    random: Random,
    /// Draws what the modes need, so that it changes none of the cases that a seed gives.
    later: Random,
    /// Draws the crews.
    crews: Random,
    comparison: Comparison<'static>,
    disagreements: u64,
}

impl Run {
    fn of(seed: u64) -> Run {
        let [random, later, crews] = [seed, !seed, seed ^ 1 << 63].map(Random);
        Run { random, later, crews, comparison: Comparison::of(&Library), disagreements: 0 }
    }

    /// One case of each kind.
    fn one(&mut self, number: u64) {
        let (parameters, case, fault) = (self.random.cube(), self.random.case(), self.random.word() as u64);
        let faulty = Case { tested: self.later.pick(&MODES), ..case.clone() };
        if let Err(difference) = whole(|| self.comparison.cube(&parameters)) {
            self.disagreements += 1;
            println!("case {number}: {difference}\n{parameters:x?}");
        }
        if let Err(difference) = whole(|| self.comparison.case(&case)) {
            self.disagreements += 1;
            println!("case {number}: {difference}");
            print(&shrunk(case, simpler, |c| anew(|comparison| comparison.case(c))));
        }
        if let Err(difference) = whole(|| self.comparison.faults(&parameters, &faulty, fault)) {
            self.disagreements += 1;
            println!("case {number}, made wrong by {fault}: {difference}");
            let shrunk = shrunk(faulty, simpler, |c| anew(|comparison| comparison.faults(&parameters, c, fault)));
            print_faulty(&Faulty::of(&parameters, &shrunk, fault), &difference);
        }
        for added in [Added::AnyCubes, Added::AlikeCubes] {
            self.mendable(number, added);
        }
        self.in_little_room(number);
        self.either_order(number);
        // Nothing is claimed of these, so few are enough
        if number % 4 == 0 {
            self.touching(number);
        }
    }

    fn mendable(&mut self, number: u64, added: Added) {
        let case = self.later.mendable(added);
        let spare = self.later.pick(&[0, 4, 16, 10_000, 10_000, 10_000]);
        if let Err(difference) = whole(|| self.comparison.mended(&case, spare)) {
            self.disagreements += 1;
            println!("case {number}, to be mended in room for {spare} quads more: {difference}");
            print(&shrunk(case, simpler_to_mend, |c| anew(|comparison| comparison.mended(c, spare))));
        }
    }

    fn in_little_room(&mut self, number: u64) {
        let (case, spare) = (self.later.foolish_case(), self.later.below(6));
        if let Err(difference) = whole(|| self.comparison.in_little_room(&case, spare)) {
            self.disagreements += 1;
            println!("case {number}, in little room, for {spare} quads more or at the least: {difference}");
            print(&shrunk(case, simpler, |c| anew(|comparison| comparison.in_little_room(c, spare))));
        }
    }

    fn either_order(&mut self, number: u64) {
        let (crews, seed, spare) = (self.crews.crews(), self.crews.word() as u64, self.crews.pick(&SPARE_FOR_CREWS));
        if let Err(difference) = whole(|| self.comparison.either_order(&crews, seed, spare)) {
            self.disagreements += 1;
            println!("case {number}, two crews in room for {spare} quads more: {difference}");
            let shrunk = shrunk(crews, simpler_crews, |c| anew(|comparison| comparison.either_order(c, seed, spare)));
            print_crews(&shrunk);
            println!("  orders {:?}", shrunk.orders(seed));
        }
    }

    fn touching(&mut self, number: u64) {
        let (crews, spare) = (self.crews.touching_crews(), self.crews.pick(&SPARE_FOR_CREWS));
        if let Err(difference) = whole(|| self.comparison.touching(&crews, spare)) {
            self.disagreements += 1;
            println!("case {number}, two crews that touch, in room for {spare} quads more: {difference}");
            print_crews(&shrunk(crews, simpler_crews, |c| anew(|comparison| comparison.touching(c, spare))));
        }
    }

    fn large(&mut self) {
        for dims in LARGE {
            let case = self.random.landscape(dims);
            if let Err(difference) = whole(|| self.comparison.case(&case)) {
                self.disagreements += 1;
                println!("landscape {dims:?}: {difference}");
            }
        }
    }

    /// What never came up in a run is a disagreement: nothing was tried.
    fn met_all(&mut self) {
        let Tally { updates, same_in_both, left_wrong, mended_without_empty, pairs, replaced_by_no_cube, orders, .. } =
            &self.comparison.tally;
        let by_mode = |count: fn(&Updates) -> u64| updates.iter().map(count).min().unwrap();
        let crews_by_mode = |count: fn(&Orders) -> u64| orders.iter().map(count).min().unwrap();
        let by_change = |count: fn(&Pairs) -> u64| pairs.iter().map(count).min().unwrap();
        let met = [
            ("a log that the source's mode leaves wrong", *left_wrong),
            ("a log that gives the same in both modes", *same_in_both),
            ("a mended mesh in each mode", by_mode(|updates| updates.mended)),
            ("a mesh mended by Replaced entries in each mode", by_mode(|updates| updates.mended_replaced)),
            ("a mesh mended without an empty type", *mended_without_empty),
            ("NO_ROOM in each mode", by_mode(|updates| updates.answers[NO_ROOM as usize])),
            ("a Sides entry and a Replaced one beside the Rust's pair", by_change(|pairs| pairs.log_entries)),
            ("a Sides entry and a Replaced one by which a quad went and one was drawn", by_change(|pairs| pairs.went_and_drew)),
            ("a log with its Sides entries split, and one with its Replaced ones", by_change(|pairs| pairs.split)),
            ("NO_ROOM for a Sides entry and for a Replaced one", by_change(|pairs| pairs.without_room)),
            ("a Replaced entry whose new type is no cube", *replaced_by_no_cube),
            ("two crews with an entry each, in each mode", crews_by_mode(|orders| orders.pairs)),
            ("two crews with longer logs, in each mode", crews_by_mode(|orders| orders.longer)),
            ("two crews whose order left quads in other places, in each mode", crews_by_mode(|orders| orders.other_places)),
            ("two crews whose order had another moved, in each mode", crews_by_mode(|orders| orders.other_moved)),
            ("two crews with no room in one order alone, in each mode", crews_by_mode(|orders| orders.one_without_room)),
            ("two neighbours whose order left other faces, in each mode", crews_by_mode(|orders| orders.neighbours.other_faces)),
        ];
        for (what, _) in met.iter().filter(|(_, times)| *times == 0) {
            self.disagreements += 1;
            println!("never met: {what}");
        }
    }

    fn limits(&mut self) {
        for (what, mut case) in limits() {
            for tested in MODES {
                case.tested = tested;
                if let Err(difference) = whole(|| self.comparison.limit(&case)) {
                    self.disagreements += 1;
                    println!("{what}, {tested:?} tested: {difference}");
                }
            }
        }
    }
}

/// A panic is a difference like another.
fn whole(compare: impl FnOnce() -> Compared) -> Compared {
    catch_unwind(AssertUnwindSafe(compare)).unwrap_or_else(|panic| {
        let text = panic.downcast_ref::<String>().cloned();
        Err(format!("panic: {}", text.or(panic.downcast_ref::<&str>().map(|text| text.to_string())).unwrap_or_default()))
    })
}

/// A comparison that no tally counts.
fn anew(compare: impl FnOnce(&mut Comparison) -> Compared) -> Compared {
    whole(|| compare(&mut Comparison::of(&Library)))
}

/// The simplest case found that still fails; how is printed.
fn shrunk<C>(mut case: C, simpler: impl Fn(&C) -> Vec<C>, compare: impl Fn(&C) -> Compared) -> C {
    while let Some(simple) = simpler(&case).into_iter().find(|simple| compare(simple).is_err()) {
        case = simple;
    }
    if let Err(small) = compare(&case) {
        println!("  shrunk: {small}");
    }
    case
}

fn print_faulty(faulty: &Faulty, difference: &str) {
    let Faulty { parameters, out, case, room, count } = faulty;
    if difference.starts_with("faulty cube") {
        println!("  room {} {parameters:x?}", out.len());
        return;
    }
    print(case);
    println!("  the side tested: {:?}", case.tested);
    let Words { positions, normals, uvs, colours, triangles, .. } = room;
    let [p, n, u, c, t] = [positions, normals, uvs, colours, triangles].map(Vec::len);
    println!("  count {count}, room {p} floats of positions, {n} of normals, {u} of uvs, {c} of colours, {t} triangle words");
    println!("  links {:x?}\n  slots {:x?}", room.links, room.slots);
}

/// The case but for the side tested: where both are, the difference names the one at fault.
fn print(case: &Case) {
    let Case { dims, outer, grid, types, naive, log, tested: _ } = case;
    println!("  w,h,l {dims:?} outer {outer:?} naive {naive} grid {grid:?}");
    println!("  kinds {:?} covers {:?} coloured {}", types.kinds, types.covers, types.coloured);
    println!("  d {:x?} centre {:x?}", types.d, types.centre);
    for entry in log.chunks(ENTRY) {
        println!("  entry {entry:?}");
    }
}

fn print_crews(crews: &Crews) {
    print(&crews.ground);
    for (crew, log) in crews.logs.iter().enumerate() {
        for entry in log.chunks(ENTRY) {
            println!("  crew {crew}, entry {entry:?}");
        }
    }
}

fn print_tally(tally: &Tally) {
    let Tally { cubes, grids, log_entries, quads, index_entries, words, plain_calls, refusals, .. } = tally;
    println!("with the Rust: {cubes} cubes, {grids} grids, {log_entries} log entries; {quads} quads, {index_entries} index entries, {words} words");
    for ((change, _), pairs) in PAIRED.iter().zip(&tally.pairs) {
        let Pairs { log_entries, went_and_drew, .. } = pairs;
        println!("of them {change}, each a pair for the Rust: {log_entries} log entries; on small grids a quad went and one was drawn by {went_and_drew}");
    }
    println!("Replaced by what is no cube: {} log entries", tally.replaced_by_no_cube);
    println!("with 01 read plainly: {plain_calls} calls, refusals 2 to 16: {:?}", &refusals[2..]);
    for (tested, updates) in MODES.iter().zip(&tally.updates) {
        let Updates { calls, answers, log_entries, quads, .. } = updates;
        let (refused, no_room) = (calls - answers[0], answers[NO_ROOM as usize]);
        println!("of them updates, {tested:?} tested: {calls} calls, {refused} refused ({no_room} NO_ROOM); {log_entries} log entries, {quads} quads");
    }
    for (tested, updates) in MODES.iter().zip(&tally.updates) {
        let Updates { mended, mended_replaced, .. } = updates;
        println!("demand 3, {tested:?} tested: {mended} logs, {mended_replaced} with Replaced entries, leave a mesh that passes the check");
    }
    let Tally { same_in_both, not_alike, left_wrong, mended_without_empty, .. } = tally;
    println!("of them with no empty type: {mended_without_empty} logs");
    println!("cubes that cover opposite sides alike: {same_in_both} logs, the same in both modes");
    println!("other cubes: {not_alike} honest logs, {left_wrong} left wrong by the source's mode");
    for ((change, _), Pairs { split, without_room, .. }) in PAIRED.iter().zip(&tally.pairs) {
        println!("{change} entries split in two: {split} logs, the same; NO_ROOM for one: {without_room} times");
    }
    for (tested, orders) in MODES.iter().zip(&tally.orders) {
        print_orders(&format!("two crews, {tested:?} tested"), orders);
    }
}

fn print_orders(crews: &str, orders: &Orders) {
    let Orders { pairs, longer, other_places, other_moved, one_without_room, both_without_room, neighbours, one_cell } = orders;
    println!("{crews}: {pairs} with an entry each and {longer} with longer logs leave the same faces in two orders; {other_places} in other places, {other_moved} with another moved");
    println!("{crews}, no room: {one_without_room} in one order alone, {both_without_room} in both");
    for (cells, touching) in [("neighbours across a face", neighbours), ("one cell", one_cell)] {
        let Touching { pairs, other_faces, not_passing } = touching;
        println!("{crews}, on {cells}: {pairs} pairs, {other_faces} with other faces, {not_passing} that do not pass the check");
    }
}
