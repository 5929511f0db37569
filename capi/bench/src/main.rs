//! `bench [--quick]`: the library beside the same calls in plain Rust and in tuned Rust, reference/, a copy of the image and par2. Prints the tables of
//! docs/BENCHMARK.md.
mod measure;
mod par2;
mod plain;
mod taking_back;
mod tuned;
mod two_readings;
mod vaults;

use measure::{interleaved, restored, thread_time, Effort, Subject, Time};
use std::fs;
use std::hint::black_box;
use std::process::ExitCode;
use std::thread;
use std::time::Duration;
use taking_back::{case, Before};
use two_readings::{Loss, TwoReadings};
use vault_library::Header;
use vaults::{By, Job, Vault};

const SIZES: [(u32, u32); 4] = [(10, 128), (10, 3), (6, 3), (10, 1)];
/// The last is a recovery of an image that nothing is lost of, the usual case in use.
const OPERATIONS: [&str; 4] = ["opening", "write", "recovery", "intact"];
/// The sizes at which explaining is timed beside recovery.
const EXPLAINED: [(u32, u32); 2] = [(10, 128), (10, 3)];

/// The k at which taking back is timed beside decoding, and each s.
const TAKEN_BACK: (u32, [u32; 3]) = (10, [128, 3, 1]);

/// The implementations that are timed in turn.
const IN_TURN: [By; 3] = [By::Library, By::Plain, By::Tuned];

/// The times of one size: for each operation those of the three in turn, and the reference's; and that of a copy of the image.
struct Row {
    library: [Time; 4],
    plain: [Time; 4],
    tuned: [Time; 4],
    reference: [f64; 4],
    copy: Time,
}

/// A job of one implementation, by the operation's index.
fn subject<'a>(job: &'a Job, by: By, operation: usize) -> Subject<'a> {
    let mut vault = Vault::new(job);
    vault.open(by);
    Box::new(move || match operation {
        0 => vault.open(by),
        1 => vault.round(by, job),
        2 => vault.recover(by, job),
        _ => vault.recover_intact(by, job),
    })
}

/// How many calls an operation is: a round has n.
fn parts(job: &Job, operation: usize) -> usize {
    if operation == 1 {
        1 << job.k
    } else {
        1
    }
}

fn measured(job: &Job, effort: Effort) -> Row {
    job.check();
    let mut copied = job.image.clone();
    let copy: Subject = Box::new(|| {
        copied.copy_from_slice(black_box(&job.image));
        black_box(&mut copied);
    });
    let copy = interleaved(effort, vec![copy])[0];
    // One operation's subjects at a time: the buffers of the others would push theirs out of the caches.
    let times = [0, 1, 2, 3].map(|operation| {
        let subjects = IN_TURN.map(|by| subject(job, by, operation)).into();
        interleaved(effort, subjects)
    });
    let [library, plain, tuned] = [0, 1, 2]
        .map(|by| [0, 1, 2, 3].map(|operation| times[operation][by].part(parts(job, operation))));
    Row {
        copy,
        library,
        plain,
        tuned,
        reference: [0, 1, 2, 3].map(|operation| {
            let mut once = subject(job, By::Reference, operation);
            let start = thread_time();
            once();
            (thread_time() - start).as_secs_f64() / parts(job, operation) as f64
        }),
    }
}

/// A time with three figures, in a unit that fits.
fn time(seconds: f64) -> String {
    let (value, unit) = match seconds {
        x if x < 1e-6 => (x * 1e9, "ns"),
        x if x < 1e-3 => (x * 1e6, "us"),
        x if x < 1.0 => (x * 1e3, "ms"),
        x => (x, "s"),
    };
    let digits = if value < 10.0 {
        2
    } else if value < 100.0 {
        1
    } else {
        0
    };
    format!("{value:.digits$} {unit}")
}

fn both(times: Time) -> String {
    format!("{} ({})", time(times.median), time(times.best))
}

/// The processor's name, and the cores.
fn machine() -> String {
    let info = fs::read_to_string("/proc/cpuinfo").unwrap_or_default();
    let line = info.lines().find(|line| line.starts_with("model name"));
    let name = line.and_then(|line| line.split(": ").nth(1));
    let cores = thread::available_parallelism().map_or(1, usize::from);
    format!("{}, {cores} cores", name.unwrap_or("unknown processor"))
}

/// The ratio of two times, of their medians and of their best.
fn ratio(one: Time, other: Time) -> String {
    format!(
        "{:.2} ({:.2})",
        one.median / other.median,
        one.best / other.best
    )
}

fn print_row(job: &Job, row: &Row) {
    for (i, name) in OPERATIONS.iter().enumerate() {
        let (library, plain, tuned) = (row.library[i], row.plain[i], row.tuned[i]);
        let (to_plain, to_tuned) = (ratio(library, plain), ratio(library, tuned));
        let slower = row.reference[i] / library.median;
        // A write is far less than the image.
        let copies = match i {
            1 => String::new(),
            _ => format!("{:.1}", library.median / row.copy.median),
        };
        println!(
            "{:>4}{:>5}  {name:<9}{:>20}{:>20}{:>20}{to_plain:>14}{to_tuned:>15}{:>11}{slower:>9.0}{copies:>10}",
            job.k,
            job.s,
            both(library),
            both(plain),
            both(tuned),
            time(row.reference[i]),
        );
    }
}

/// The table of sizes; gives the times of each.
fn print_sizes(effort: Effort) -> [Row; SIZES.len()] {
    println!(
        "{:>4}{:>5}  {:<9}{:>20}{:>20}{:>20}{:>14}{:>15}{:>11}{:>9}{:>10}",
        "k",
        "s",
        "",
        "library",
        "plain Rust",
        "tuned Rust",
        "lib/plain",
        "lib/tuned",
        "reference",
        "ref/lib",
        "lib/copy"
    );
    let rows = SIZES.map(|(k, s)| {
        let job = Job::new(k, s);
        let row = measured(&job, effort);
        print_row(&job, &row);
        row
    });
    println!();
    for ((k, s), row) in SIZES.iter().zip(&rows) {
        let butterflies = f64::from(k << k) * f64::from(s + 1);
        println!(
            "k = {k}, s = {s}: a copy of the image {}; opening mixes {butterflies} word pairs, {:.0} million a second",
            time(row.copy.median),
            butterflies / row.library[0].median / 1e6
        );
    }
    rows
}

/// The line of striking: a round of strikes beside one of writes to the same records.
fn print_striking(effort: Effort) {
    let (k, s) = SIZES[0];
    let job = Job::new(k, s);
    let [mut striking, mut writing] = [(); 2].map(|()| Vault::new(&job));
    striking.open(By::Library);
    writing.open(By::Library);
    let times = interleaved(
        effort,
        vec![
            Box::new(|| striking.strike(&job)),
            Box::new(|| writing.round(By::Library, &job)),
        ],
    );
    let [strike, write] = [times[0], times[1]].map(|time| time.part(1 << k));
    let ratio = ratio(strike, write);
    println!(
        "k = {k}, s = {s}: a strike {}, {ratio} times a write",
        both(strike)
    );
}

/// The table of explaining and recovery from the same image; gives their ratio at each size.
fn print_explaining(effort: Effort) -> [f64; EXPLAINED.len()] {
    println!(
        "{:>4}{:>5}{:>20}{:>20}{:>22}",
        "k", "s", "explaining", "recovery", "explaining/recovery"
    );
    EXPLAINED.map(|(k, s)| {
        let job = Job::new(k, s);
        job.check_explained();
        let mut explaining = Vault::new(&job);
        let mut recovering = Vault::new(&job);
        let times = interleaved(
            effort,
            vec![
                Box::new(|| explaining.explain(&job)),
                Box::new(|| recovering.recover(By::Library, &job)),
            ],
        );
        println!(
            "{k:>4}{s:>5}{:>20}{:>20}{:>22}",
            both(times[0]),
            both(times[1]),
            ratio(times[0], times[1])
        );
        times[0].median / times[1].median
    })
}

/// The counts of a vault of 2^k records, and where its last write's record was written before, from the fewest stripes that are decoded to all.
fn taken_back(k: u32) -> [(u32, Before); 3] {
    let n = 1 << k;
    [
        (n / 2, Before::OnItsLevel),
        (n / 2, Before::Nowhere),
        (n - 1, Before::Nowhere),
    ]
}

/// Stripes in a few characters: levels in rising order, and the full stripe.
fn listed(k: u32, stripes: &[u32]) -> String {
    let levels: Vec<u32> = stripes.iter().copied().filter(|&l| l < k).collect();
    let name = match levels[..] {
        [] => String::new(),
        [level] => level.to_string(),
        [first, .., last] => format!("{first} to {last}"),
    };
    let full = stripes.contains(&k);
    name + if full { ", full" } else { "" }
}

/// The table of taking back and of the decoding of the same stripes; gives the greatest ratio at each s.
fn print_taking_back(effort: Effort) -> [f64; 3] {
    println!(
        "{:>4}{:>5}{:>6}  {:<14}{:>20}{:>20}{:>22}",
        "k", "s", "c", "stripes", "taking back", "decoding", "taking back/decoding"
    );
    let (k, sizes) = TAKEN_BACK;
    sizes.map(|s| {
        let ratios = taken_back(k).map(|(c, before)| {
            let (mut taking_back, mut decoding) = case(Header { k, s, c }, before);
            let [one, other] = restored(effort, [&mut taking_back, &mut decoding]);
            println!(
                "{k:>4}{s:>5}{c:>6}  {:<14}{:>20}{:>20}{:>22}",
                listed(k, &decoding.stripes),
                both(one),
                both(other),
                ratio(one, other)
            );
            one.median / other.median
        });
        ratios.into_iter().fold(0.0, f64::max)
    })
}

/// The table of recovery from two readings and of that from one with a pass over both; gives the greater ratio at each size.
fn print_two_readings(effort: Effort) -> [f64; SIZES.len()] {
    println!(
        "{:>4}{:>5}  {:<14}{:>20}{:>20}{:>22}",
        "k", "s", "lost in each", "two readings", "one + a pass", "two/(one + a pass)"
    );
    SIZES.map(|(k, s)| {
        let job = Job::new(k, s);
        let ratios = [(Loss::Half, "half"), (Loss::Nothing, "nothing")].map(|(loss, lost)| {
            let mut readings = TwoReadings::new(&job, loss);
            readings.check();
            let [mut two, mut one] = [readings.buffers(), readings.buffers()];
            let times = interleaved(
                effort,
                vec![
                    Box::new(|| readings.recover(&mut two)),
                    Box::new(|| readings.recover_one_and_compare(&mut one)),
                ],
            );
            println!(
                "{k:>4}{s:>5}  {lost:<14}{:>20}{:>20}{:>22}",
                both(times[0]),
                both(times[1]),
                ratio(times[0], times[1])
            );
            times[0].median / times[1].median
        });
        ratios.into_iter().fold(0.0, f64::max)
    })
}

/// Times of an operation at each k, and its growth from the k before; gives the last growth.
fn growth(effort: Effort, s: u32, operation: usize, name: &str) -> f64 {
    let jobs: Vec<Job> = (4..=10).map(|k| Job::new(k, s)).collect();
    let subjects = jobs.iter().map(|job| subject(job, By::Library, operation));
    let times = interleaved(effort, subjects.collect());
    print!("{s:>5}  {name:<9}");
    for time in &times {
        print!("{:>9}", crate::time(time.median));
    }
    print!("\n{:>25}", "");
    for pair in times.windows(2) {
        print!("{:>9.2}", pair[1].median / pair[0].median);
    }
    println!();
    let [.., before, last] = &times[..] else {
        unreachable!("there are several k");
    };
    last.median / before.median
}

/// The table of growth; gives that from k = 9 to 10 of opening at s = 128 and of recovery at s = 3.
fn print_growth(effort: Effort) -> [f64; 2] {
    print!("{:>5}  {:<9}", "s", "");
    for k in 4..=10 {
        print!("{:>9}", format!("k = {k}"));
    }
    println!();
    let [[opening, _], [_, recovery], _] = [128, 3, 1].map(|s| {
        let opening = growth(effort, s, 0, "opening");
        [opening, growth(effort, s, 2, "recovery")]
    });
    [opening, recovery]
}

fn print_par2(row: &Row) {
    if !par2::installed() {
        println!("par2 is not installed: not compared");
        return;
    }
    let runs: Vec<_> = (0..3)
        .map(|_| par2::times(&Job::new(10, 128).data()))
        .collect();
    let mut creates = Vec::new();
    let mut repairs = Vec::new();
    for run in runs {
        match run {
            Ok(times) => {
                creates.push(times.create.as_secs_f64());
                repairs.push(times.repair.as_secs_f64());
            }
            Err(error) => {
                println!("par2 failed: {error}");
                return;
            }
        }
    }
    for (name, mut times, library) in [
        ("create", creates, row.library[0]),
        ("repair", repairs, row.library[2]),
    ] {
        times.sort_by(f64::total_cmp);
        println!(
            "par2 {name}, 1,024 + 1,024 blocks of the data of k = 10, s = 128: {} ({}), {:.0} times the library's {}",
            time(times[1]),
            time(times[0]),
            times[1] / library.median,
            if name == "create" { "opening" } else { "recovery" }
        );
    }
}

/// What is held to a target, its ratio, and the most that it may be.
type Target = (&'static str, f64, f64);

/// The targets beside plain Rust at each size are on the best of the runs, since times vary from run to run, the best ones least; the others on medians.
fn beside_plain([wide, large, small, single]: &[Row; SIZES.len()]) -> [Target; 11] {
    let ratio = |row: &Row, i: usize| row.library[i].best / row.plain[i].best;
    let middle = |row: &Row, i: usize| row.library[i].median / row.plain[i].median;
    [
        ("opening / plain Rust", ratio(wide, 0), 0.57),
        ("opening / plain Rust at s = 3", ratio(large, 0), 0.5),
        ("opening / plain Rust at s = 1", ratio(single, 0), 0.36),
        ("opening / plain Rust at k = 6, s = 3", ratio(small, 0), 0.6),
        ("write / plain Rust", ratio(wide, 1), 0.8),
        ("write / plain Rust at s = 3", middle(large, 1), 1.1),
        ("write / plain Rust at k = 6, s = 3", middle(small, 1), 1.1),
        ("recovery / plain Rust", ratio(wide, 2), 0.62),
        ("recovery / plain Rust at s = 3", ratio(large, 2), 0.35),
        ("recovery / plain Rust at s = 1", ratio(single, 2), 0.3),
        (
            "recovery / plain Rust at k = 6, s = 3",
            ratio(small, 2),
            0.75,
        ),
    ]
}

/// The other targets.
fn beside_itself(
    [wide, large, small, single]: &[Row; SIZES.len()],
    explaining: [f64; EXPLAINED.len()],
    growth: [f64; 2],
    taking_back: [f64; 3],
    two_readings: [f64; SIZES.len()],
) -> [Target; 14] {
    let middle = |row: &Row, i: usize| row.library[i].median / row.plain[i].median;
    let intact = |row: &Row| row.library[3].median / row.library[2].median;
    let narrow = [large, small, single].map(|row| [0, 1, 2].map(|i| middle(row, i)));
    let narrow = narrow.as_flattened().iter().copied().fold(0.0, f64::max);
    let recovery = wide.library[2].median / wide.library[0].median;
    [
        ("intact / recovery", intact(wide), 0.85),
        ("intact / recovery at s = 3", intact(large), 0.85),
        ("narrow rows / plain Rust, worst", narrow, 1.4),
        ("recovery / opening", recovery, 8.0),
        ("explaining / recovery", explaining[0], 1.15),
        ("explaining / recovery at s = 3", explaining[1], 1.15),
        ("taking back / decoding, worst", taking_back[0], 1.3),
        (
            "taking back / decoding at s = 3, worst",
            taking_back[1],
            1.3,
        ),
        (
            "taking back / decoding at s = 1, worst",
            taking_back[2],
            1.3,
        ),
        ("two / one + a pass", two_readings[0], 1.2),
        ("two / one + a pass at s = 3", two_readings[1], 1.2),
        ("two / one + a pass at s = 1", two_readings[3], 1.2),
        ("opening at k = 10 / at k = 9", growth[0], 2.6),
        ("recovery at k = 10 / at k = 9, s = 3", growth[1], 2.6),
    ]
}

fn print_targets(targets: impl IntoIterator<Item = Target>) {
    for (what, is, most) in targets {
        let verdict = if is <= most { "met" } else { "MISSED" };
        println!("  {what:<38}{is:>6.2}, at most {most}: {verdict}");
    }
}

fn main() -> ExitCode {
    let words: Vec<String> = std::env::args().skip(1).collect();
    let quick = words == ["--quick"];
    if !words.is_empty() && !quick {
        eprintln!("usage: bench [--quick]");
        return ExitCode::from(2);
    }
    let effort = Effort {
        time: Duration::from_millis(if quick { 200 } else { 4000 }),
        least: if quick { 3 } else { 15 },
        most: 500,
    };
    println!("{}", machine());
    println!("library: rt lib (clang -O3); plain and tuned Rust: opt-level 3; all for x86-64-v2, which has SSE4");
    println!("processor's time, median (best) of runs in turn; a write is the mean over a round; recovery at c = n - 1, half of every stripe lost at");
    println!("random; intact: a recovery with nothing lost; reference/ runs once\n");
    let rows = print_sizes(effort);
    print_striking(effort);
    println!("\nexplaining beside recovery, both by the library, from the same image with the same positions lost\n");
    let explaining = print_explaining(effort);
    println!("\ntaking back the last of c writes beside decoding the same stripes in the image, both by the library, nothing lost\n");
    let taking_back = print_taking_back(effort);
    println!("\nrecovery from two readings beside recovery from the first and one pass that compares both images, c = n - 1\n");
    let two_readings = print_two_readings(effort);
    println!("\nthe library's growth with k, and its ratio to the size before (n log n: 2.22 from k = 9 to 10)\n");
    let growth = print_growth(effort);
    println!();
    print_par2(&rows[0]);
    println!("\ntargets at k = 10, s = 128 where no other k or s is named");
    print_targets(beside_plain(&rows));
    print_targets(beside_itself(
        &rows,
        explaining,
        growth,
        taking_back,
        two_readings,
    ));
    ExitCode::SUCCESS
}
