//! The static library's speed beside the Rust's, and beside reading or setting the same bytes.
//!
//!     bench [SECONDS [SEED]]
//!
//! Every row is timed in rounds. In a round each subject has a turn of four runs, one after the other as a batch makes them, the first
//! subject last in every other round; a row's figure is the median of all runs. SECONDS (110) is shared out among the rows, set-up
//! included; each has three rounds at least. Before a row is timed,
//! the two answers are compared word for word. The last table holds the figures to their goals.

use oracle::calls::Calls;
use oracle::cases::{cube_of, Case, Random};
use oracle::entries::{at_level, split, ENTRY, MESHEMS_LEVEL};
use oracle::grounds::{edits, half_full, replacements, sides, terrain, ROCK};
use oracle::library::Library;
use oracle::room::{laid, MOST_DRAWN};
use oracle::rust::{self, cube, Registry, Words};
use oracle::timing::{median, time, timed};
use plain::Tested;
use std::hint::black_box;
use std::time::{Duration, Instant};

const ROWS: u32 = 21;
const MOST_ROUNDS: usize = 201;
const RUNS: usize = 4;

fn main() {
    Library::assert_level();
    let mut arguments = std::env::args().skip(1).map(|argument| argument.parse().expect("a number"));
    let (seconds, seed) = (arguments.next().unwrap_or(110), arguments.next().unwrap_or(1));
    let bench = Bench { share: Duration::from_secs(seconds) / ROWS };
    println!("{WHAT_IS_DONE}\nSeed {seed}.\n");
    let rows = rows(&bench, &mut Random(seed));
    println!("| | quads | Rust | library | Rust / library | MB | those bytes | library / bytes | rounds |");
    println!("|---|---|---|---|---|---|---|---|---|");
    rows.iter().for_each(Row::print);
    println!("\n| Goal | Asked | Measured | |\n|---|---|---|---|");
    goals(&rows).iter().for_each(Goal::print);
}

const WHAT_IS_DONE: &str = "\
The Rust: `mesh_grid` into lists that it allocates, and `update_mesh` after the log has been handed to `MeshMD::log`. A Sides entry is two for it,
CullFaces and then AddFaces, and so is a Replaced one, Broken and then Added.
The library: the C calls on lent lists; each tests its whole input first, an update the whole mesh it is given.
Those bytes: for a fresh mesh and a cube, setting every byte that the call writes; for an update and the check, summing every word that
its tests read, once a call. Rust and library start from equal meshes and end with equal ones. Freeing what the Rust allocated is timed
for a cube alone.
";

/// A figure of one row, in seconds.
struct Row {
    name: String,
    quads: u64,
    rust: Option<f64>,
    library: f64,
    bytes: usize,
    plain: f64,
    rounds: usize,
}

impl Row {
    fn print(&self) {
        let rust = self.rust.map_or("none".into(), time);
        let ratio = self.rust.map_or("".into(), |rust| format!("{:.1}", rust / self.library));
        let megabytes = self.bytes as f64 / 1e6;
        println!(
            "| {} | {} | {rust} | {} | {ratio} | {megabytes:.3} | {} | {:.1} | {} |",
            self.name,
            self.quads,
            time(self.library),
            time(self.plain),
            self.library / self.plain,
            self.rounds
        );
    }
}

struct Goal {
    what: &'static str,
    asked: String,
    measured: String,
    met: bool,
}

impl Goal {
    fn at_least(what: &'static str, bound: f64, measured: f64) -> Goal {
        let [asked, told] = [bound, measured].map(|times| format!("{times:.1} times"));
        Goal { what, asked: format!("at least {asked}"), measured: told, met: measured >= bound }
    }

    fn print(&self) {
        println!("| {} | {} | {} | {} |", self.what, self.asked, self.measured, if self.met { "met" } else { "missed" });
    }
}

fn goals(rows: &[Row]) -> Vec<Goal> {
    let row = |name: &str| rows.iter().find(|row| row.name == name).expect("a row of that name");
    let ratio = |name: &str| row(name).rust.expect("the Rust's figure") / row(name).library;
    let one = row("200 edits, one a call (each)");
    let (call, readings) = (one.library, one.library / one.plain);
    let check = row("check, 32³ terrain").library / row("fresh, 32³ terrain").library;
    vec![
        Goal::at_least("fresh mesh, 32³ terrain: the Rust's time over the library's", 37.0, ratio("fresh, 32³ terrain")),
        Goal::at_least("200 edits in one log: the same", 6.0, ratio("200 edits in one log")),
        Goal::at_least("5,000 edits in one log: the same", 15.0, ratio("5,000 edits in one log")),
        Goal {
            what: "a call with one edit, 32³ terrain",
            asked: "at most 33 µs × 1.5 = 49.5 µs".into(),
            measured: time(call),
            met: call <= 49.5e-6,
        },
        Goal {
            what: "the same, over one reading of what it has to validate",
            asked: "at most 2 × 1.5 = 3.0 times".into(),
            measured: format!("{readings:.1} times"),
            met: readings <= 3.0,
        },
        Goal {
            what: "the check, over a fresh mesh of the same ground",
            asked: "at most 1.2 × 1.5 = 1.8 times".into(),
            measured: format!("{check:.2} times"),
            met: check <= 1.8,
        },
    ]
}

fn rows(bench: &Bench, random: &mut Random) -> Vec<Row> {
    let mut rows = vec![];
    for (name, dims) in [("16³", [16; 3]), ("32³", [32; 3]), ("64³", [64; 3])] {
        rows.push(bench.fresh(format!("fresh, {name} terrain"), &terrain(random, dims)));
        rows.push(bench.fresh(format!("fresh, {name} half full"), &half_full(random, dims)));
    }
    rows.push(bench.fresh("fresh, 16×256×16 terrain".into(), &terrain(random, [16, 256, 16])));
    rows.push(bench.fresh("fresh, 128×128×64 terrain".into(), &terrain(random, [128, 128, 64])));

    let ground = terrain(random, [32; 3]);
    let [some, many] = [200, 5_000].map(|entries| Case { log: edits(random, &ground, &[ROCK], entries), ..ground.clone() });
    for (name, case) in [("200 edits", &some), ("5,000 edits", &many)] {
        rows.push(bench.update(format!("{name} in one log"), case, case.log.len()));
        rows.push(bench.update(format!("{name}, one a call (each)"), case, ENTRY));
    }
    // The ground covers opposite sides alike, so that the new mode too gives the Rust's mesh
    let itself = Case { tested: Tested::Itself, ..some };
    rows.push(bench.update("200 edits in one log, the side itself tested".into(), &itself, itself.log.len()));
    for (name, entries) in [("200 Sides", 200), ("5,000 Sides", 5_000)] {
        let case = Case { log: sides(random, &ground, entries), ..ground.clone() };
        rows.push(bench.update(format!("{name} in one log"), &case, case.log.len()));
    }
    for (name, entries) in [("200 Replaced", 200), ("5,000 Replaced", 5_000)] {
        let case = Case { log: replacements(random, &ground, entries), ..ground.clone() };
        rows.push(bench.update(format!("{name} in one log"), &case, case.log.len()));
        let pairs = Case { log: split(&case.log), ..case };
        rows.push(bench.update(format!("{name} in one log, as Broken and Added"), &pairs, pairs.log.len()));
    }
    rows.push(bench.check("check, 32³ terrain".into(), &ground));
    rows.push(bench.cube());
    assert_eq!(rows.len(), ROWS as usize);
    rows
}

struct Bench {
    share: Duration,
}

type Subject<'a> = &'a mut dyn FnMut() -> Duration;

impl Bench {
    /// The median time of each subject's runs, and the number of rounds. A subject answers how long its timed part took.
    fn interleaved<const N: usize>(&self, subjects: [Subject; N]) -> ([f64; N], usize) {
        let mut times = [(); N].map(|()| vec![]);
        let start = Instant::now();
        for round in 0..MOST_ROUNDS {
            if round >= 3 && start.elapsed() > self.share {
                break;
            }
            for turn in 0..N {
                let which = if round % 2 == 0 { turn } else { N - 1 - turn };
                times[which].extend((0..RUNS).map(|_| subjects[which]().as_secs_f64()));
            }
        }
        let rounds = times[0].len() / RUNS;
        (times.map(median), rounds)
    }

    fn fresh(&self, name: String, case: &Case) -> Row {
        let registry = Registry::of(&case.types);
        let expected = rust_mesh(case, &registry).words();
        let quads = expected.links.len();
        let mut room = room_for(quads, case);
        assert_eq!(Library.mesh_grid(case, &mut room).quads, quads as u64);
        assert!(room == expected, "{name}: the two meshes differ");
        let mut lists = room.clone();
        let ([rust, library, plain], rounds) = self.interleaved([
            &mut || timed(|| rust_mesh(case, &registry)),
            &mut || timed(|| Library.mesh_grid(case, &mut room)),
            &mut || timed(|| set(&mut lists)),
        ]);
        Row { name, quads: quads as u64, rust: Some(rust), library, bytes: bytes_of(&expected), plain, rounds }
    }

    /// A log in calls of `step` bytes each; the figures are those of one call.
    fn update(&self, name: String, case: &Case, step: usize) -> Row {
        let registry = Registry::of(&case.types);
        let mut meshed = rust_mesh(case, &registry);
        let fresh = meshed.words();
        meshed.update(&registry, &case.log);
        let expected = meshed.words();
        let parts: Vec<Vec<u8>> = case.log.chunks_exact(step).map(|part| at_level(MESHEMS_LEVEL, part)).collect();
        let most = fresh.links.len() + MOST_DRAWN * case.log.len() / ENTRY;
        let start = laid(&fresh, room_for(most, case));
        let mut call = Case { grid: vec![], log: vec![0; step], ..case.clone() };
        let mut mend = |room: &mut Words| {
            let mut quads = fresh.links.len() as u64;
            for part in case.log.chunks_exact(step) {
                call.log.copy_from_slice(part);
                let answer = Library.update_mesh(&call, room, quads);
                assert_eq!(answer.number, 0);
                quads = answer.quads;
            }
            quads
        };
        let mut room = start.clone();
        let quads = mend(&mut room);
        assert_eq!(quads, expected.links.len() as u64, "{name}");
        for ((word, list), (_, due)) in room.lists().into_iter().zip(expected.lists()) {
            assert!(list[..due.len()] == *due, "{name}: a {word} differs");
        }

        let Words { triangles, links, slots, .. } = fresh.clone();
        let tested = Words { triangles, links, slots, ..Words::default() };
        let ([rust, library, plain], rounds) = self.interleaved([
            &mut || {
                let mut meshed = rust_mesh(case, &registry);
                timed(|| parts.iter().for_each(|part| meshed.update_by_meshems(&registry, part)))
            },
            &mut || {
                room.clone_from(&start);
                timed(|| mend(&mut room))
            },
            &mut || timed(|| sum(&tested)),
        ]);
        let calls = (case.log.len() / step) as f64;
        let quads = fresh.links.len() as u64;
        Row { name, quads, rust: Some(rust / calls), library: library / calls, bytes: bytes_of(&tested), plain, rounds }
    }

    fn check(&self, name: String, case: &Case) -> Row {
        let mesh = rust_mesh(case, &Registry::of(&case.types)).words();
        let quads = mesh.links.len() as u64;
        assert_eq!(Library.check_mesh(case, &mesh, quads).number, 0);
        let ([library, plain], rounds) =
            self.interleaved([&mut || timed(|| Library.check_mesh(case, &mesh, quads)), &mut || timed(|| sum(&mesh))]);
        Row { name, quads, rust: None, library, bytes: bytes_of(&mesh), plain, rounds }
    }

    fn cube(&self) -> Row {
        const TIMES: u32 = 1000;
        let parameters = cube_of(1.0, 0);
        let expected = cube(&parameters);
        let mut out = vec![0; expected.len()];
        assert_eq!(Library.generate_voxel_mesh(&parameters, &mut out).number, 0);
        assert_eq!(out, expected);
        let mut set_out = out.clone();
        let ([rust, library, plain], rounds) = self.interleaved([
            &mut || timed(|| (0..TIMES).for_each(|_| drop(black_box(rust::voxel_mesh(black_box(&parameters)))))),
            &mut || timed(|| (0..TIMES).for_each(|_| _ = black_box(Library.generate_voxel_mesh(&parameters, &mut out)))),
            &mut || timed(|| (0..TIMES).for_each(|_| black_box(&mut set_out).fill(0))),
        ]);
        let [rust, library, plain] = [rust, library, plain].map(|seconds| seconds / TIMES as f64);
        Row { name: "a cube".into(), quads: 6, rust: Some(rust), library, bytes: 4 * expected.len(), plain, rounds }
    }
}

fn rust_mesh(case: &Case, registry: &Registry) -> rust::Meshed {
    rust::mesh(case.dims, &case.outer, &case.grid, registry, case.naive)
}

fn room_for(quads: usize, case: &Case) -> Words {
    let coloured = case.types.coloured as usize;
    Words {
        positions: vec![0; 12 * quads],
        normals: vec![0; 12 * quads],
        uvs: vec![0; 8 * quads],
        colours: vec![0; 16 * quads * coloured],
        triangles: vec![0; 6 * quads],
        links: vec![0; quads],
        slots: vec![0; 6 * case.grid.len()],
    }
}

fn bytes_of(mesh: &Words) -> usize {
    4 * mesh.lists().iter().map(|(_, list)| list.len()).sum::<usize>()
}

fn set(lists: &mut Words) {
    lists.lists_mut().into_iter().for_each(|list| black_box(list).fill(0));
}

fn sum(mesh: &Words) -> u32 {
    let total = |list: &[u32]| black_box(list).iter().fold(0, |sum: u32, &word| sum.wrapping_add(word));
    mesh.lists().into_iter().fold(0, |sum, (_, list)| sum.wrapping_add(total(list)))
}
