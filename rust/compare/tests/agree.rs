//! Compares the two readers on every family of images, of extents in every format and of catalogs, and on
//! every family of volumes, and the two writers on every family of rows, on as many threads as there are
//! cores.

use compare::block::families::{BlockFamily, BLOCK_FAMILIES};
use compare::block::{BlockComparison, BlockTally};
use compare::catalog::families::{CatalogFamily, CATALOG_FAMILIES};
use compare::catalog::CatalogComparison;
use compare::families::{Family, FAMILIES};
use compare::write::families::{WriteFamily, WRITE_FAMILIES};
use compare::write::{WriteComparison, WriteTally};
use compare::{seed, Comparison, Tally};
use images::Format;
use std::sync::atomic::{AtomicUsize, Ordering};
use std::sync::Mutex;
use std::thread;
use std::time::Instant;

/// Fewer pairs than this, in any format, would be no comparison.
const LEAST_PAIRS: u64 = 10_000;

/// Nor would fewer blocks than this.
const LEAST_BLOCKS: u64 = 100_000;

/// Nor would fewer rows than this that were given each of the writer's numbers.
const LEAST_OF_NUMBER: u64 = 1_000;

/// What one thread compares at a time.
#[derive(Clone, Copy)]
enum Job {
    Extents(&'static Family, Format),
    Catalogs(&'static CatalogFamily),
    Blocks(&'static BlockFamily),
    Rows(&'static WriteFamily),
}

/// What was asked of a family: of images in a format, of volumes, or of rows.
enum Counted {
    Images(Format, Tally),
    Volumes(BlockTally),
    Rows(WriteTally),
}

/// A family, with what was asked and how long it took.
struct Part {
    family: &'static str,
    counted: Counted,
    seconds: f64,
}

fn main() {
    let seed = seed();
    println!("comparing the proved reader with the reference, seed {seed}");
    let parts = run_all(seed);
    let catalog_names = CATALOG_FAMILIES.iter().map(|family| family.name);
    for name in FAMILIES.iter().map(|family| family.name).chain(catalog_names) {
        print_sum(name, &parts, |part, _| part.family == name);
    }
    for format in Format::all().chain([Format::CATALOG]) {
        let Format { edition, tree, node_size } = format;
        let name = format!("{edition:?} {tree:?}, {node_size} bytes");
        let tally = print_sum(&name, &parts, |_, of| of == format);
        assert!(tally.pairs >= LEAST_PAIRS, "fewer than {LEAST_PAIRS} pairs of {name}");
    }
    let images = print_sum("all images", &parts, |_, _| true);
    for family in &BLOCK_FAMILIES {
        print_blocks(family.name, &parts, |part| part.family == family.name);
    }
    let volumes = print_blocks("all volumes", &parts, |_| true);
    assert!(volumes.blocks >= LEAST_BLOCKS, "fewer than {LEAST_BLOCKS} blocks");
    volumes.assert_every_answer();
    for family in &WRITE_FAMILIES {
        print_rows(family.name, &parts, |part| part.family == family.name);
    }
    let rows = print_rows("all rows", &parts, |_| true);
    rows.assert_every_answer(LEAST_OF_NUMBER);
    print_total(images);
    print_total_of_volumes(&volumes);
    print_total_of_rows(&rows);
    let seconds: f64 = parts.iter().map(|part| part.seconds).sum();
    println!("{seconds:.1} seconds, of all threads together");
}

/// The jobs are in the order of their families, so that those that take longest come first.
fn jobs() -> Vec<Job> {
    let catalogs = CATALOG_FAMILIES.iter().map(Job::Catalogs);
    let of_family = |family| Format::all().map(move |format| Job::Extents(family, format));
    let blocks = BLOCK_FAMILIES.iter().map(Job::Blocks);
    let rows = WRITE_FAMILIES.iter().map(Job::Rows);
    FAMILIES.iter().flat_map(of_family).chain(catalogs).chain(blocks).chain(rows).collect()
}

/// Threads of the usual stack size, as a caller's would be, take one job at a time.
fn run_all(seed: u64) -> Vec<Part> {
    let jobs = jobs();
    let next = AtomicUsize::new(0);
    let parts = Mutex::new(Vec::new());
    let workers = thread::available_parallelism().map_or(1, usize::from);
    thread::scope(|scope| {
        for _ in 0..workers {
            scope.spawn(|| {
                while let Some(&job) = jobs.get(next.fetch_add(1, Ordering::Relaxed)) {
                    let part = run(job, seed);
                    parts.lock().expect("no thread panicked").push(part);
                }
            });
        }
    });
    parts.into_inner().expect("no thread panicked")
}

fn run(job: Job, seed: u64) -> Part {
    let started = Instant::now();
    let (family, counted) = match job {
        Job::Extents(family, format) => {
            let mut comparison = Comparison::new(family.name, format);
            (family.run)(&mut comparison, format, seed);
            (family.name, Counted::Images(format, comparison.tally()))
        }
        Job::Catalogs(family) => {
            let mut comparison = CatalogComparison::new(family.name);
            (family.run)(&mut comparison, seed);
            (family.name, Counted::Images(Format::CATALOG, comparison.tally()))
        }
        Job::Blocks(family) => {
            let mut comparison = BlockComparison::new(family.name);
            (family.run)(&mut comparison, seed);
            (family.name, Counted::Volumes(comparison.tally()))
        }
        Job::Rows(family) => {
            let mut comparison = WriteComparison::new(family.name);
            (family.run)(&mut comparison, seed);
            (family.name, Counted::Rows(comparison.tally()))
        }
    };
    Part { family, counted, seconds: started.elapsed().as_secs_f64() }
}

/// Prints what the chosen parts come to that were asked of images, and says it.
fn print_sum(name: &str, parts: &[Part], is_chosen: impl Fn(&Part, Format) -> bool) -> Tally {
    let mut sum = Tally::default();
    let mut seconds = 0.0;
    for part in parts {
        match &part.counted {
            Counted::Images(format, tally) if is_chosen(part, *format) => {
                sum += *tally;
                seconds += part.seconds;
            }
            _ => {}
        }
    }
    let Tally { images, pairs, found, absent, seen, .. } = sum;
    println!(
        "{name:30}{images:9} images{pairs:9} pairs: {found:8} found{absent:8} absent{seen:8} seen{seconds:7.1} s"
    );
    sum
}

/// The same of volumes.
fn print_blocks(name: &str, parts: &[Part], is_chosen: impl Fn(&Part) -> bool) -> BlockTally {
    let mut sum = BlockTally::default();
    let mut seconds = 0.0;
    for part in parts.iter().filter(|part| is_chosen(part)) {
        if let Counted::Volumes(tally) = &part.counted {
            sum += tally;
            seconds += part.seconds;
        }
    }
    let BlockTally { volumes, blocks, .. } = sum;
    println!("{name:30}{volumes:9} volumes{blocks:8} blocks{seconds:7.1} s");
    sum
}

/// The same of rows.
fn print_rows(name: &str, parts: &[Part], is_chosen: impl Fn(&Part) -> bool) -> WriteTally {
    let mut sum = WriteTally::default();
    let mut seconds = 0.0;
    for part in parts.iter().filter(|part| is_chosen(part)) {
        if let Counted::Rows(tally) = &part.counted {
            sum += tally;
            seconds += part.seconds;
        }
    }
    let (targets, records) = (sum.targets(), sum.records);
    println!("{name:30}{targets:9} rows{records:11} records written{seconds:7.1} s");
    sum
}

fn print_total(total: Tally) {
    println!("{} images, {} image-and-key pairs, no difference", total.images, total.pairs);
    let Tally { by_hfs_calls, high_starts, unlisted, .. } = total;
    println!("{by_hfs_calls} questions to the calls for HFS too, {high_starts} start blocks of HFS above 65,535");
    println!("{unlisted} images under a form that is not listed");
    println!("{} rows of keys, {} keys in those answered", total.rows, total.row_keys);
    let Tally { too_few, enough, more, .. } = total;
    println!("working bytes lent: {too_few} times too few, {enough} just enough, {more} more");
}

fn print_total_of_volumes(total: &BlockTally) {
    let BlockTally { volumes, blocks, too_few, enough, more, .. } = total;
    println!("{volumes} volumes, {blocks} volume-and-block pairs, no difference");
    for (image, answers) in total.answers() {
        println!("answers that concern the {image}, by number: {answers:?}");
    }
    println!("working bytes lent for an image: {too_few} times too few, {enough} just enough, {more} more");
}

fn print_total_of_rows(total: &WriteTally) {
    let WriteTally { records, single_keys, .. } = total;
    println!("{} rows with a target each, no difference", total.targets());
    println!("{records} records written, {single_keys} of them looked up one by one too");
    println!("answers of the writers, by number: {:?}", total.answers());
}
