//! The static library's speed beside that of a former one, linked into the same program.
//!
//!     beside [SECONDS [SEED]]
//!
//! How a row is timed stands in `src/rows.rs`; both libraries' code lies alike at each of the four places. A row that is slower than BOUND is timed
//! twice more, and the median of its three ratios counts. SECONDS (110) is shared out among the rows.
//!
//! The former library may be of level 2: its vertices are then joined and parted off the clock, and compared attribute by attribute. One up to level 4
//! has entries of twelve bytes, and is given the pair that a Replaced entry equals, Broken and then Added: 5,000 Replaced are 10,000 entries for it. One of
//! level 2 or 3 is given the pair that a Sides entry equals too, CullFaces and then AddFaces.
//!
//! The exit status is 0 if no row is slower than BOUND, else 1. The program panics if the two differ in a word.

use oracle::cases::{Case, Random};
use oracle::grounds::{cubes_of, edits, half_full, noise, replacements, sides, terrain};
use oracle::library::former;
use oracle::library::placed::Now0;
use oracle::rows::{mesh_of, Places, Row};
use oracle::timing::time;
use plain::Tested;
use std::process::ExitCode;
use std::time::Duration;

const BOUND: f64 = 1.05;
const ROWS: u32 = 62;
/// The calls of a log that is done an entry a call.
const WALK: usize = 200;

fn main() -> ExitCode {
    Now0::assert_level();
    let mut arguments = std::env::args().skip(1).map(|argument| argument.parse().expect("a number"));
    let (seconds, seed) = (arguments.next().unwrap_or(110), arguments.next().unwrap_or(1));
    let share = Duration::from_secs(seconds) / ROWS;
    let mut bench = Bench { places: former::places(), share, rows: 0, slower: vec![] };
    println!(
        "Seed {seed}. A ratio is now / former in a round, by medians. The former library is of level {}.\n",
        former::level()
    );
    println!("| | quads | former | now | now / former | rounds | |\n|---|---|---|---|---|---|---|");
    all_rows(&mut bench, &mut Random(seed));
    assert_eq!(bench.rows, ROWS);
    println!("\n{}", bench.verdict());
    ExitCode::from(!bench.slower.is_empty() as u8)
}

fn all_rows(bench: &mut Bench, random: &mut Random) {
    bench.row("a cube".into(), Row::cube());
    for (name, dims) in [("16³", [16; 3]), ("32³", [32; 3]), ("64³", [64; 3])] {
        bench.fresh(&format!("{name} terrain"), &terrain(random, dims));
        bench.fresh(&format!("{name} half full"), &half_full(random, dims));
    }
    bench.fresh("16×256×16 terrain", &terrain(random, [16, 256, 16]));
    bench.fresh("128×128×64 terrain", &terrain(random, [128, 128, 64]));
    for (name, dims) in [("16³", [16; 3]), ("32³", [32; 3])] {
        bench.updates(&format!("{name} half full"), &half_full(random, dims), random);
        bench.updates(&format!("{name} noise"), &noise(random, dims), random);
    }
    bench.updates("32³ terrain", &terrain(random, [32; 3]), random);
    bench.updates("128×16×64 terrain", &terrain(random, [128, 16, 64]), random);
    bench.sides("200 Sides, 32³ terrain", &terrain(random, [32; 3]), 200, random);
    bench.sides("5,000 Sides, 32³ terrain", &terrain(random, [32; 3]), 5000, random);
    bench.sides("5,000 Sides, 32³ half full", &half_full(random, [32; 3]), 5000, random);
    let ground = terrain(random, [32; 3]);
    bench.replaced("200 Replaced, 32³ terrain", &ground, 200, Tested::Opposite, random);
    bench.replaced("5,000 Replaced, 32³ terrain", &ground, 5000, Tested::Opposite, random);
    bench.replaced("5,000 Replaced, 32³ half full", &half_full(random, [32; 3]), 5000, Tested::Opposite, random);
    bench.replaced("5,000 Replaced, 32³ noise, itself", &noise(random, [32; 3]), 5000, Tested::Itself, random);
}

struct Bench {
    places: Places<'static>,
    share: Duration,
    rows: u32,
    slower: Vec<String>,
}

impl Bench {
    /// The mesh of a grid by Culling; by Naive too, if it is small.
    fn fresh(&mut self, name: &str, case: &Case) {
        self.row(format!("fresh, {name}"), Row::fresh(case, &mesh_of(case)));
        if case.grid.len() <= 32 * 32 * 32 {
            let naive = Case { naive: true, ..case.clone() };
            self.row(format!("fresh, {name}, Naive"), Row::fresh(&naive, &mesh_of(&naive)));
        }
    }

    /// Logs in both modes, and the check.
    fn updates(&mut self, name: &str, ground: &Case, random: &mut Random) {
        let mesh = mesh_of(ground);
        let cubes = cubes_of(ground);
        for (what, entries, each) in [("one edit", WALK, 1), ("200 edits", 200, 200), ("5,000 edits", 5000, 5000)] {
            let log = edits(random, ground, &cubes, entries);
            for (mode, tested) in [("opposite", Tested::Opposite), ("itself", Tested::Itself)] {
                let case = Case { log: log.clone(), tested, ..ground.clone() };
                self.row(format!("{what}, {name}, {mode}"), Row::update(self.places[0], case, &mesh, each));
            }
        }
        self.row(format!("check, {name}"), Row::check(ground, mesh));
    }

    /// Sides entries in one log; the side tested is nothing to them.
    fn sides(&mut self, name: &str, ground: &Case, entries: usize, random: &mut Random) {
        let case = Case { log: sides(random, ground, entries), ..ground.clone() };
        self.in_one_log(name, case, entries);
    }

    /// Replaced entries in one log.
    fn replaced(&mut self, name: &str, ground: &Case, entries: usize, tested: Tested, random: &mut Random) {
        let case = Case { log: replacements(random, ground, entries), tested, ..ground.clone() };
        self.in_one_log(name, case, entries);
    }

    fn in_one_log(&mut self, name: &str, case: Case, entries: usize) {
        let mesh = mesh_of(&case);
        self.row(name.into(), Row::update(self.places[0], case, &mesh, entries));
    }

    fn row(&mut self, name: String, mut row: Row) {
        row.compare(self.places[0], &name);
        let mut runs = vec![row.time(&self.places, self.share)];
        if runs[0].ratio > BOUND {
            runs.extend([(); 2].map(|()| row.time(&self.places, self.share)));
        }
        runs.sort_by(|run, other| run.ratio.total_cmp(&other.ratio));
        let ratios: Vec<String> = runs.iter().map(|run| format!("{:.2}", run.ratio)).collect();
        let run = &runs[runs.len() / 2];
        let slower = run.ratio > BOUND;
        println!(
            "| {name} | {} | {} | {} | {:.3} | {} | {}{} |",
            row.quads,
            time(run.other),
            time(run.ours),
            run.ratio,
            run.rounds,
            if slower { "SLOWER " } else { "" },
            if runs.len() > 1 { format!("of {}", ratios.join(", ")) } else { String::new() },
        );
        self.rows += 1;
        self.slower.extend(slower.then_some(name));
    }

    fn verdict(&self) -> String {
        match self.slower.len() {
            0 => format!("None of {} rows is slower than {BOUND} times the former library. Every word is the same.", self.rows),
            count => format!(
                "SLOWER than {BOUND} times the former library, {count} of {} rows: {}.",
                self.rows,
                self.slower.join("; ")
            ),
        }
    }
}
