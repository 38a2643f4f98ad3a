//! Compares the proved library with Rust and with this machine.

#[cfg(feature = "rust-text")]
mod answer;
mod arcs;
mod bench;
#[cfg(feature = "rust-text")]
mod beside;
#[cfg(feature = "rust-text")]
mod boxed;
mod capi;
mod classes;
mod clock;
#[cfg(feature = "rust-text")]
mod crossing;
mod dxf;
mod expected;
#[cfg(feature = "rust-text")]
mod findings;
mod floats;
mod form;
#[cfg(feature = "rust-text")]
mod inputs;
#[cfg(feature = "rust-text")]
mod joints;
#[cfg(feature = "rust-text")]
mod large;
#[cfg(feature = "rust-text")]
mod lent;
#[cfg(feature = "rust-text")]
mod listed;
#[cfg(feature = "rust-text")]
mod listings;
mod met;
#[cfg(feature = "rust-text")]
mod month;
#[cfg_attr(not(feature = "rust-text"), allow(dead_code))]
mod numbers;
mod packed;
#[cfg(feature = "rust-text")]
mod pages;
#[cfg(feature = "rust-text")]
mod partings;
#[cfg(feature = "rust-text")]
mod plane;
#[cfg_attr(not(feature = "rust-text"), allow(dead_code))]
mod probe;
mod program;
mod record;
#[cfg(feature = "rust-text")]
mod release;
mod rng;
mod roots;
mod search;
#[cfg(feature = "rust-text")]
mod sieve;
#[cfg(feature = "rust-text")]
mod spans;
mod stack;
mod tally;
#[cfg(feature = "rust-text")]
mod text;
mod vertex;
mod views;

use std::env;
use std::path::Path;
use std::process::ExitCode;

const USAGE: &str = "\
usage: compare check [COUNT [SEED]]  compare each float function on COUNT random inputs (default 10485760, seed 1), and the
                                     root as compare roots; segments of a path and of its view, and filled parts of rows,
                                     on the stored layouts and on a quarter as many; as compare packed with a quarter of
                                     COUNT; as compare dxf with half of COUNT; each function of the plane on a quarter as many
                                     accepted ones, an eighth of all bit patterns, and some beside the
                                     limits; each kernel and the pair call until twice as many were answered, and on some
                                     that are refused; listings of whole paths until as many pairs were looked at, and on
                                     chosen ones; then as compare pages, as compare boxed, as compare month, as compare large,
                                     as compare joints, as compare findings, as compare release with a quarter of COUNT, and
                                     as compare edges with a tenth of COUNT, and as compare sieve and as compare spans with
                                     an 80th
       compare roots [COUNT [SEED]]  compare the root with the machine's own on COUNT patterns (default 10485760, seed 1): at
                                     every exponent its ends, random digits, squares of every count of digits, numbers
                                     next to ties, and the neighbours of these; subnormals of every count of digits
       compare edges [COUNT [SEED]]  compare the kernels, the pair call and listings on COUNT inputs an edge (default 1048576,
                                     seed 1): where two numbers that are compared, by the Rust or by a shortcut of ours,
                                     are all but equal
       compare sieve [COUNT [SEED]]  compare full listings where what makes them quick is on its edge: COUNT / 2 pairs on each
                                     side of each edge of the sieve of lines (default 1048576, seed 1), and as many in
                                     listings of each size about a block; rows at each place of a block; and listings with
                                     many rows, in each form and with rooms about them
       compare spans [COUNT [SEED]]  compare listings where the quick test of a line and an arc, or of two arcs, is on its edge:
                                     COUNT / 2 pairs on each side of each edge (default 1048576, seed 1), and as many
                                     of each sort all over a sheet
       compare pages [COUNT [SEED]]  compare pages of listings: every position on small paths, and chains of calls on random
                                     paths, a tenth of COUNT calls (default 10485760, seed 1)
       compare boxed [COUNT [SEED]]  compare boxed listings: on chosen paths, and on random ones until these have COUNT pairs
                                     (default 10485760, seed 1)
       compare month [COUNT [SEED]]  compare counted listings and joined reports: on chosen layouts with reports at each limit, on
                                     a month of 10,000 layouts, and on random ones until these have COUNT / 2 pairs (default
                                     10485760, seed 1)
       compare large [COUNT [SEED]]  compare the calls with arcs beyond a half circle: listings, pages, boxed and counted ones at
                                     each limit, on the longest paths, with faults, and on random paths until these have
                                     COUNT / 4 pairs; COUNT / 16 pairs of segments; and how far the halves of COUNT / 32 arcs
                                     lie from their circle (default 10485760, seed 1)
       compare joints [COUNT [SEED]] compare self listings where neighbours meet, full, paged and boxed: every short path on a
                                     small grid, if COUNT is at least 1048576, and COUNT / 512 drawn ones (default 10485760,
                                     seed 1)
       compare findings [COUNT [SEED]]
                                     compare the pair call with findings: on COUNT / 4 pairs, on damaged ones, and on at least
                                     as many made for rare cells, until each value came up a thousand times in each branch
                                     (default 10485760, seed 1; fewer times with a smaller COUNT)
       compare release [COUNT [SEED]]
                                     search for a breach of what the release form says, at the extremes, on COUNT answers of the
                                     library and of the Rust text: kernels, pair calls, and rows of listings (default 10485760,
                                     seed 1; at least 1048576)
       compare packed [COUNT [SEED]] compare the moves of layouts between text and packed form: on chosen texts and files, on
                                     COUNT / 10 drawn layouts both ways, and on as many damaged files (default 10485760,
                                     seed 1)
       compare dxf [COUNT [SEED]]    compare import and export of drawings, in both modes: on the stored bodies with every byte
                                     changed, removed and doubled, at every limit, on COUNT / 16 drawn bodies, on as many
                                     damaged ones and on as many paths (default 10485760, seed 1)
       compare drawings FOLDER       write the model's answer NAME.expected for each body NAME.body there
       compare dxf-bodies FOLDER [COUNT [SEED]]
                                     write COUNT drawn paths (default 1024, seed 1) there as our calls export them, NAME.body, and
                                     the bits of their numbers, NAME.bits
       compare movers FOLDER [COUNT [SEED]]
                                     hold the programs pack and unpack of a folder to the model, on chosen inputs and on COUNT
                                     drawn and damaged ones (default 2048, seed 1)
       compare search [COUNT [SEED]] try to break what is promised of lines on the grid, on COUNT pairs (default 25165824,
                                     seed 1)
       compare arcs [COUNT [SEED]]   count how often touching segments with arcs are missed, and how far from each other
                                     reported ones are, on COUNT pairs (default 11534336, seed 1)
       compare arcs climb [TURNS [SEED]]
                                     climb down to the least radii that are missed, by TURNS draws for each (default 1048576)
       compare arcs cures [COUNT [SEED]]
                                     ask again about the missed ones of COUNT pairs, in other ways; and up to which distance
                                     short parallel lines are reported
       compare listed PROGRAM [COUNT [SEED]]
                                     hold the program that lists to a model on COUNT inputs (default 3072, seed 1): layouts in
                                     their packed form, damaged files, texts; and on every damage of a byte of the first
                                     line. If PROGRAM is the word library, its call is asked instead, in one process
       compare layouts FOLDER        write the model's output NAME.out for each text NAME.txt of the form there
       compare own FOLDER PROGRAM    say for each text NAME.txt there whether the program that lists answers its packed form as the
                                     Rust text does
       compare beside [--epsilon E] [--closed] FILE...
                                     list somebody's own layouts with the Rust text and with the library, and print a table: rows,
                                     equal, different, refused with the place in words. FILE is a layout's text (.txt), a packed
                                     file (.packed), the body of one LWPOLYLINE (.body), which is listed with itself, or plain
                                     numbers (.numbers), which may be NaN; with another suffix its bytes tell. Plain numbers
                                     are a line `x y bulge` a vertex, with a trace behind it or without, and an empty line
                                     between two paths; a number is decimal, NaN, inf, or 0x and the 16 hex digits of its bits.
                                     Epsilon is 1/1024 if none is given; --closed closes all paths but a body's. Ends with status
                                     1 if something differs, else with 2 if a file cannot be read
       compare packed-layouts FOLDER write packed/NAME.packed for each text NAME.txt of the form there, NAME.expected for each
                                     other text, and packed/NAME.expected for each packed/NAME.packed that is no layout
       compare record FILE           write the recorded list for the program replay
       compare bench [PART...]       nanoseconds of processor time a call or a pair, ours beside the machine's own and the Rust's,
                                     the least of five rounds or more by turns; all parts, or some of: floats calls findings
                                     listings dense pages boxed month large packed dxf
       compare bench layouts FOLDER  write the layouts of the part dense to a folder, for other programs: NAME.first and
                                     NAME.second, a line a vertex";

const COUNT: u64 = 10 << 20;
const ON_AN_EDGE: u64 = 1 << 20;
const SEARCHED: u64 = 24 << 20;
const SEARCHED_ARCS: u64 = 11 << 20;
const CLIMBED: u64 = 1 << 20;
const LISTED: u64 = 3072;
const MOVED: u64 = 2048;
const EXPORTED: u64 = 1024;
const SEED: u64 = 1;
const BENCHES: [&str; 11] = [
    "floats", "calls", "findings", "listings", "dense", "pages", "boxed", "month", "large",
    "packed", "dxf",
];

fn main() -> ExitCode {
    let words: Vec<String> = env::args().skip(1).collect();
    let words: Vec<&str> = words.iter().map(String::as_str).collect();
    if let ["beside", ref rest @ ..] = words[..] {
        return list_beside(rest);
    }
    let done = match words[..] {
        ["check", ref numbers @ ..] => check(numbers),
        ["roots", ref numbers @ ..] => roots(numbers),
        ["edges", ref numbers @ ..] => edges(numbers),
        ["sieve", ref numbers @ ..] => sieve(numbers),
        ["spans", ref numbers @ ..] => spans(numbers),
        ["pages", ref numbers @ ..] => pages(numbers),
        ["boxed", ref numbers @ ..] => boxed(numbers),
        ["month", ref numbers @ ..] => month(numbers),
        ["large", ref numbers @ ..] => large(numbers),
        ["joints", ref numbers @ ..] => joints(numbers),
        ["findings", ref numbers @ ..] => findings(numbers),
        ["release", ref numbers @ ..] => release(numbers),
        ["packed", ref numbers @ ..] => packed(numbers),
        ["dxf", ref numbers @ ..] => dxf(numbers),
        ["drawings", folder] => drawings(Path::new(folder)),
        ["dxf-bodies", folder, ref numbers @ ..] => dxf_bodies(Path::new(folder), numbers),
        ["movers", folder, ref numbers @ ..] => movers(Path::new(folder), numbers),
        ["packed-layouts", folder] => packed_layouts(Path::new(folder)),
        ["search", ref numbers @ ..] => search(numbers),
        ["arcs", "climb", ref numbers @ ..] => climb_arcs(numbers),
        ["arcs", "cures", ref numbers @ ..] => cure_arcs(numbers),
        ["arcs", ref numbers @ ..] => search_arcs(numbers),
        ["listed", program, ref numbers @ ..] => listed(program, numbers),
        ["layouts", folder] => layouts(Path::new(folder)),
        ["own", folder, program] => own(Path::new(folder), program),
        ["record", file] => record(file),
        ["bench"] => time(&BENCHES),
        ["bench", "layouts", folder] => timed_layouts(Path::new(folder)),
        ["bench", ref parts @ ..] => time(parts),
        _ => Err(USAGE.to_string()),
    };
    match done {
        Ok(()) => ExitCode::SUCCESS,
        Err(why) => {
            eprintln!("{why}");
            ExitCode::FAILURE
        }
    }
}

fn check(numbers: &[&str]) -> Result<(), String> {
    let (count, seed) = count_and_seed(numbers, COUNT)?;
    let differences = floats::check(count, seed)
        + roots::check(count, seed)
        + views::check(count, seed)
        + packed::check(count / 4, seed)
        + dxf::check(count / 2, seed)
        + check_text(count, seed);
    match differences {
        0 => Ok(()),
        _ => Err(format!("{differences} differences")),
    }
}

fn roots(numbers: &[&str]) -> Result<(), String> {
    let (count, seed) = count_and_seed(numbers, COUNT)?;
    match roots::check(count, seed) {
        0 => Ok(()),
        differences => Err(format!("{differences} differences")),
    }
}

fn edges(numbers: &[&str]) -> Result<(), String> {
    let (count, seed) = count_and_seed(numbers, ON_AN_EDGE)?;
    match check_edges(count, seed) {
        0 => Ok(()),
        differences => Err(format!("{differences} differences")),
    }
}

fn sieve(numbers: &[&str]) -> Result<(), String> {
    let (count, seed) = count_and_seed(numbers, ON_AN_EDGE)?;
    match check_sieve(count, seed) {
        0 => Ok(()),
        differences => Err(format!("{differences} differences")),
    }
}

fn spans(numbers: &[&str]) -> Result<(), String> {
    let (count, seed) = count_and_seed(numbers, ON_AN_EDGE)?;
    match check_spans(count, seed) {
        0 => Ok(()),
        differences => Err(format!("{differences} differences")),
    }
}

fn pages(numbers: &[&str]) -> Result<(), String> {
    let (count, seed) = count_and_seed(numbers, COUNT)?;
    match check_pages(count, seed) {
        0 => Ok(()),
        differences => Err(format!("{differences} differences")),
    }
}

fn boxed(numbers: &[&str]) -> Result<(), String> {
    let (count, seed) = count_and_seed(numbers, COUNT)?;
    match check_boxed(count, seed) {
        0 => Ok(()),
        differences => Err(format!("{differences} differences")),
    }
}

fn month(numbers: &[&str]) -> Result<(), String> {
    let (count, seed) = count_and_seed(numbers, COUNT)?;
    match check_month(count, seed) {
        0 => Ok(()),
        differences => Err(format!("{differences} differences")),
    }
}

fn large(numbers: &[&str]) -> Result<(), String> {
    let (count, seed) = count_and_seed(numbers, COUNT)?;
    match check_large(count, seed) {
        0 => Ok(()),
        differences => Err(format!("{differences} differences")),
    }
}

fn joints(numbers: &[&str]) -> Result<(), String> {
    let (count, seed) = count_and_seed(numbers, COUNT)?;
    match check_joints(count, seed) {
        0 => Ok(()),
        differences => Err(format!("{differences} differences")),
    }
}

fn findings(numbers: &[&str]) -> Result<(), String> {
    let (count, seed) = count_and_seed(numbers, COUNT)?;
    match check_findings(count, seed) {
        0 => Ok(()),
        differences => Err(format!("{differences} differences")),
    }
}

fn release(numbers: &[&str]) -> Result<(), String> {
    let (count, seed) = count_and_seed(numbers, COUNT)?;
    match check_release(count, seed) {
        0 => Ok(()),
        wrong => Err(format!("{wrong} breaches, differences or absences")),
    }
}

fn packed(numbers: &[&str]) -> Result<(), String> {
    let (count, seed) = count_and_seed(numbers, COUNT)?;
    match packed::check(count, seed) {
        0 => Ok(()),
        differences => Err(format!("{differences} differences")),
    }
}

fn dxf(numbers: &[&str]) -> Result<(), String> {
    let (count, seed) = count_and_seed(numbers, COUNT)?;
    match dxf::check(count, seed) {
        0 => Ok(()),
        differences => Err(format!("{differences} differences")),
    }
}

fn drawings(folder: &Path) -> Result<(), String> {
    let [accepted, refused] = dxf::write(folder)?;
    println!("{accepted} bodies that are accepted, {refused} that are refused");
    Ok(())
}

fn dxf_bodies(folder: &Path, numbers: &[&str]) -> Result<(), String> {
    let (count, seed) = count_and_seed(numbers, EXPORTED)?;
    println!("{} bodies", dxf::export_to(folder, count, seed)?);
    Ok(())
}

fn movers(folder: &Path, numbers: &[&str]) -> Result<(), String> {
    let (count, seed) = count_and_seed(numbers, MOVED)?;
    match packed::check_programs(folder, count, seed)? {
        0 => Ok(()),
        differences => Err(format!("{differences} differences")),
    }
}

fn packed_layouts(folder: &Path) -> Result<(), String> {
    let packed::Written { packed, texts, files } = packed::write(folder)?;
    println!("{packed} packed layouts, {texts} texts and {files} files that are refused");
    Ok(())
}

fn search(numbers: &[&str]) -> Result<(), String> {
    let (count, seed) = count_and_seed(numbers, SEARCHED)?;
    match search::run(count, seed) {
        0 => Ok(()),
        broken => Err(format!("{broken} answers break the promise")),
    }
}

fn search_arcs(numbers: &[&str]) -> Result<(), String> {
    let (count, seed) = count_and_seed(numbers, SEARCHED_ARCS)?;
    match arcs::run(count, seed) {
        0 => Ok(()),
        broken => Err(format!("{broken} answers are not what the search allows")),
    }
}

fn climb_arcs(numbers: &[&str]) -> Result<(), String> {
    let (turns, seed) = count_and_seed(numbers, CLIMBED)?;
    arcs::climb(turns, seed);
    Ok(())
}

fn cure_arcs(numbers: &[&str]) -> Result<(), String> {
    let (count, seed) = count_and_seed(numbers, SEARCHED_ARCS)?;
    arcs::cures(count, seed);
    Ok(())
}

fn listed(program: &str, numbers: &[&str]) -> Result<(), String> {
    let (count, seed) = count_and_seed(numbers, LISTED)?;
    match check_program(program, count, seed)? {
        0 => Ok(()),
        differences => Err(format!("{differences} differences")),
    }
}

fn time(parts: &[&str]) -> Result<(), String> {
    for part in parts {
        match *part {
            "floats" => bench::run(),
            "calls" => time_calls(),
            "findings" => time_findings(),
            "listings" => time_listings(),
            "dense" => time_dense(),
            "pages" => time_pages(),
            "boxed" => time_boxed(),
            "month" => time_month(),
            "large" => time_large(),
            "packed" => packed::bench()?,
            "dxf" => dxf::bench(),
            _ => return Err(USAGE.to_string()),
        }
    }
    Ok(())
}

fn count_and_seed(numbers: &[&str], count: u64) -> Result<(u64, u64), String> {
    let number = |at: usize, default: u64| match numbers.get(at) {
        Some(word) => word
            .parse()
            .map_err(|_| format!("no number: {word}\n{USAGE}")),
        None => Ok(default),
    };
    if numbers.len() > 2 {
        return Err(USAGE.to_string());
    }
    Ok((number(0, count)?, number(1, SEED)?))
}

#[cfg(feature = "rust-text")]
fn check_text(count: u64, seed: u64) -> u64 {
    text::check()
        + partings::check()
        + plane::check(count, seed)
        + crossing::check(count, seed)
        + listings::check(count, seed)
        + check_pages(count, seed)
        + check_boxed(count, seed)
        + check_month(count, seed)
        + check_large(count, seed)
        + check_joints(count, seed)
        + check_findings(count, seed)
        + check_release(count / 4, seed)
        + check_edges(count / 10, seed)
        + check_sieve(count / 80, seed)
        + check_spans(count / 80, seed)
}

#[cfg(feature = "rust-text")]
fn check_edges(count: u64, seed: u64) -> u64 {
    crossing::check_edges(count, seed)
}

#[cfg(feature = "rust-text")]
fn check_sieve(count: u64, seed: u64) -> u64 {
    sieve::check(count, seed)
}

#[cfg(feature = "rust-text")]
fn check_spans(count: u64, seed: u64) -> u64 {
    spans::check(count, seed)
}

#[cfg(feature = "rust-text")]
fn check_pages(count: u64, seed: u64) -> u64 {
    pages::check(count, seed)
}

#[cfg(feature = "rust-text")]
fn check_boxed(count: u64, seed: u64) -> u64 {
    boxed::check(count, seed)
}

#[cfg(feature = "rust-text")]
fn check_month(count: u64, seed: u64) -> u64 {
    month::check(count, seed)
}

#[cfg(feature = "rust-text")]
fn check_large(count: u64, seed: u64) -> u64 {
    large::check(count, seed)
}

#[cfg(feature = "rust-text")]
fn check_joints(count: u64, seed: u64) -> u64 {
    joints::check(count, seed)
}

#[cfg(feature = "rust-text")]
fn check_findings(count: u64, seed: u64) -> u64 {
    findings::check(count, seed)
}

#[cfg(feature = "rust-text")]
fn check_release(count: u64, seed: u64) -> u64 {
    release::check(count, seed)
}

#[cfg(not(feature = "rust-text"))]
fn check_release(_count: u64, _seed: u64) -> u64 {
    println!("rust text not compiled in: nothing was compared with it");
    0
}

#[cfg(not(feature = "rust-text"))]
fn check_findings(_count: u64, _seed: u64) -> u64 {
    println!("rust text not compiled in: nothing was compared with it");
    0
}

#[cfg(not(feature = "rust-text"))]
fn check_text(_count: u64, _seed: u64) -> u64 {
    println!("rust text not compiled in: nothing was compared with it");
    0
}

#[cfg(not(feature = "rust-text"))]
fn check_edges(_count: u64, _seed: u64) -> u64 {
    println!("rust text not compiled in: nothing was compared with it");
    0
}

#[cfg(not(feature = "rust-text"))]
fn check_sieve(_count: u64, _seed: u64) -> u64 {
    println!("rust text not compiled in: nothing was compared with it");
    0
}

#[cfg(not(feature = "rust-text"))]
fn check_spans(_count: u64, _seed: u64) -> u64 {
    println!("rust text not compiled in: nothing was compared with it");
    0
}

#[cfg(not(feature = "rust-text"))]
fn check_pages(_count: u64, _seed: u64) -> u64 {
    println!("rust text not compiled in: nothing was compared with it");
    0
}

#[cfg(not(feature = "rust-text"))]
fn check_boxed(_count: u64, _seed: u64) -> u64 {
    println!("rust text not compiled in: nothing was compared with it");
    0
}

#[cfg(not(feature = "rust-text"))]
fn check_month(_count: u64, _seed: u64) -> u64 {
    println!("rust text not compiled in: nothing was compared with it");
    0
}

#[cfg(not(feature = "rust-text"))]
fn check_large(_count: u64, _seed: u64) -> u64 {
    println!("rust text not compiled in: nothing was compared with it");
    0
}

#[cfg(not(feature = "rust-text"))]
fn check_joints(_count: u64, _seed: u64) -> u64 {
    println!("rust text not compiled in: nothing was compared with it");
    0
}

#[cfg(feature = "rust-text")]
fn time_calls() {
    crossing::bench();
}

#[cfg(feature = "rust-text")]
fn time_findings() {
    findings::bench();
}

#[cfg(not(feature = "rust-text"))]
fn time_findings() {}

#[cfg(feature = "rust-text")]
fn time_listings() {
    listings::bench::run();
}

#[cfg(feature = "rust-text")]
fn time_dense() {
    listings::dense::run();
}

#[cfg(not(feature = "rust-text"))]
fn time_dense() {}

#[cfg(feature = "rust-text")]
fn timed_layouts(folder: &Path) -> Result<(), String> {
    println!("{} layouts", listings::dense::write(folder)?);
    Ok(())
}

#[cfg(not(feature = "rust-text"))]
fn timed_layouts(_folder: &Path) -> Result<(), String> {
    Err("rust text not compiled in: the layouts are drawn with it".to_string())
}

#[cfg(feature = "rust-text")]
fn time_pages() {
    pages::bench();
}

#[cfg(feature = "rust-text")]
fn time_boxed() {
    boxed::bench();
}

#[cfg(feature = "rust-text")]
fn time_month() {
    month::bench();
}

#[cfg(not(feature = "rust-text"))]
fn time_pages() {}

#[cfg(not(feature = "rust-text"))]
fn time_boxed() {}

#[cfg(not(feature = "rust-text"))]
fn time_month() {}

#[cfg(feature = "rust-text")]
fn time_large() {
    large::bench();
}

#[cfg(not(feature = "rust-text"))]
fn time_large() {}

#[cfg(not(feature = "rust-text"))]
fn time_calls() {}

#[cfg(not(feature = "rust-text"))]
fn time_listings() {}

#[cfg(feature = "rust-text")]
fn check_program(program: &str, count: u64, seed: u64) -> Result<u64, String> {
    listed::check(program, count, seed)
}

#[cfg(not(feature = "rust-text"))]
fn check_program(_program: &str, _count: u64, _seed: u64) -> Result<u64, String> {
    Err("rust text not compiled in: there is no model of the program".to_string())
}

#[cfg(feature = "rust-text")]
fn layouts(folder: &Path) -> Result<(), String> {
    println!("{} layouts", listed::write(folder)?);
    Ok(())
}

#[cfg(not(feature = "rust-text"))]
fn layouts(_folder: &Path) -> Result<(), String> {
    Err("rust text not compiled in: there is no model of the program".to_string())
}

#[cfg(feature = "rust-text")]
fn own(folder: &Path, program: &str) -> Result<(), String> {
    let own = listed::own(folder, program)?;
    let (same, different) = (own.same, own.different);
    println!("{same} the same, {different} different, {} not of the form", own.broken);
    match (same, different) {
        (_, 1..) => Err(format!("{different} layouts are answered differently")),
        (0, 0) => Err("no layout was compared".to_string()),
        _ => Ok(()),
    }
}

#[cfg(not(feature = "rust-text"))]
fn own(_folder: &Path, _program: &str) -> Result<(), String> {
    Err("rust text not compiled in: there is nothing to compare with".to_string())
}

/// It has a status of its own for a file that cannot be read, and for wrong words.
#[cfg(feature = "rust-text")]
fn list_beside(words: &[&str]) -> ExitCode {
    let status = beside::run(words).unwrap_or_else(|why| {
        eprintln!("{why}\n{}", beside::USAGE);
        beside::UNREAD
    });
    ExitCode::from(status)
}

#[cfg(not(feature = "rust-text"))]
fn list_beside(_words: &[&str]) -> ExitCode {
    eprintln!("rust text not compiled in: there is nothing to list beside");
    ExitCode::from(2)
}

fn record(file: &str) -> Result<(), String> {
    let records = record::write(Path::new(file)).map_err(|why| format!("{file}: {why}"))?;
    println!("{records} records");
    Ok(())
}
