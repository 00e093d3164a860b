//! The static library's update beside the same in plain Rust, `plain/src/fast.rs`, linked into the same program.
//!
//!     beside_plain [SECONDS [SEED]]
//!
//! How a row is timed stands in `src/rows.rs`. The library's code lies at each of the four places, the plain Rust's where the linker has put it. SECONDS (110)
//! is shared out among the rows. An edit's time is that of the call, less that of the tests alone, over the edits. The program panics if the two differ
//! in a word.

use oracle::calls::{Calls, Reading};
use oracle::cases::{Case, Random};
use oracle::grounds::{cubes_of, edits, half_full, noise, replacements, sides, terrain};
use oracle::library::placed::{Now0, Now16, Now32, Now48};
use oracle::rows::{mesh_of, Places, Row, Run};
use oracle::timing::time;
use plain::Tested;
use std::time::Duration;

const ROWS: u32 = 38;
const FAST: &dyn Calls = &Reading::FAST;
const PLACES: Places = [[&Now0, FAST], [&Now16, FAST], [&Now32, FAST], [&Now48, FAST]];

fn main() {
    Now0::assert_level();
    let mut arguments = std::env::args().skip(1).map(|argument| argument.parse().expect("a number"));
    let (seconds, seed) = (arguments.next().unwrap_or(110), arguments.next().unwrap_or(1));
    let mut bench = Bench { share: Duration::from_secs(seconds) / ROWS, rows: 0 };
    println!("Seed {seed}. A ratio is library / plain in a round, by medians.\n");
    println!("| | quads | library | plain | library / plain | ns an edit: library | plain | rounds |");
    println!("|---|---|---|---|---|---|---|---|");
    all_rows(&mut bench, &mut Random(seed));
    assert_eq!(bench.rows, ROWS);
}

fn all_rows(bench: &mut Bench, random: &mut Random) {
    for (name, dims) in [("16³", [16; 3]), ("32³", [32; 3])] {
        bench.updates(&format!("{name} half full"), &half_full(random, dims), random);
        bench.updates(&format!("{name} noise"), &noise(random, dims), random);
        bench.updates(&format!("{name} terrain"), &terrain(random, dims), random);
    }
    bench.updates("128×16×64 terrain", &terrain(random, [128, 16, 64]), random);
    bench.others("another 32³ terrain", &terrain(random, [32; 3]), random);
}

struct Bench {
    share: Duration,
    rows: u32,
}

impl Bench {
    /// The tests alone, and logs in both modes.
    fn updates(&mut self, name: &str, ground: &Case, random: &mut Random) {
        let tests = self.row(format!("tests alone (empty log), {name}"), ground.clone(), None);
        for (what, entries) in [("200 edits", 200), ("5,000 edits", 5000)] {
            let log = edits(random, ground, &cubes_of(ground), entries);
            for (mode, tested) in [("opposite", Tested::Opposite), ("itself", Tested::Itself)] {
                let case = Case { log: log.clone(), tested, ..ground.clone() };
                self.row(format!("{what} in one log, {name}, {mode}"), case, Some((&tests, entries)));
            }
        }
    }

    /// The tests alone, Sides entries, and Replaced ones.
    fn others(&mut self, name: &str, ground: &Case, random: &mut Random) {
        let tests = self.row(format!("tests alone (empty log), {name}"), ground.clone(), None);
        for (what, log) in [("Sides", sides(random, ground, 5000)), ("Replaced", replacements(random, ground, 5000))] {
            let case = Case { log, ..ground.clone() };
            self.row(format!("5,000 {what} in one log, {name}"), case, Some((&tests, 5000)));
        }
    }

    /// The case's log in one call. What the tests alone took and the number of edits tell the time of one.
    fn row(&mut self, name: String, case: Case, edits: Option<(&Run, usize)>) -> Run {
        let mesh = mesh_of(&case);
        let mut row = Row::update(PLACES[0], case, &mesh, edits.map_or(1, |(_, edits)| edits));
        row.compare(PLACES[0], &name);
        let run = row.time(&PLACES, self.share);
        let of_one = |of: fn(&Run) -> f64| {
            edits.map_or(String::new(), |(tests, edits)| format!("{:.0}", (of(&run) - of(tests)) * 1e9 / edits as f64))
        };
        println!(
            "| {name} | {} | {} | {} | {:.2} | {} | {} | {} |",
            row.quads,
            time(run.ours),
            time(run.other),
            run.ratio,
            of_one(|run| run.ours),
            of_one(|run| run.other),
            run.rounds,
        );
        self.rows += 1;
        run
    }
}
