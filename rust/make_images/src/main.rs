//! Writes sample images to a folder, each with what the reference says of it, and rows of leaf records
//! with the images that it lays down from them.

mod catalogue;

use catalogue::{catalogue, Sample};
use images::{Format, Tree};
use reference::editions::{self, needed_work};
use reference::{catalog, listing, Verdict};
use std::path::{Path, PathBuf};
use std::process::ExitCode;
use std::{env, fs, io};

fn main() -> ExitCode {
    let mut arguments = env::args_os().skip(1);
    let (Some(folder), None) = (arguments.next(), arguments.next()) else {
        eprintln!("usage: make_images OUTDIR");
        return ExitCode::from(2);
    };
    match write_all(&PathBuf::from(folder)) {
        Ok(count) => {
            println!("{count} images");
            ExitCode::SUCCESS
        }
        Err(error) => {
            eprintln!("make_images: {error}");
            ExitCode::FAILURE
        }
    }
}

/// Writes every sample and one table of verdicts, as listings of long images say only `too long`.
fn write_all(folder: &Path) -> io::Result<usize> {
    fs::create_dir_all(folder)?;
    let samples = catalogue();
    let mut verdicts = String::new();
    for Sample { name, format, image, row } in &samples {
        fs::write(folder.join(format!("{name}.img")), image)?;
        if let Some(row) = row {
            fs::write(folder.join(format!("{name}.row")), row)?;
        }
        // The listing program reads extents of HFS only.
        if *format == Format::HFS {
            fs::write(folder.join(format!("{name}.expected")), listing(image))?;
        }
        let Verdict { number, place } = check(*format, image);
        verdicts += &format!("{name} {number} {} {}\n", place.node, place.offset);
    }
    fs::write(folder.join("verdicts.txt"), verdicts)?;
    Ok(samples.len())
}

/// What the reference says of an image in the format it is to be read in.
fn check(format: Format, image: &[u8]) -> Verdict {
    let node_size = format.node_size as u32;
    let mut work = vec![0; needed_work(node_size, image.len())];
    match format.tree {
        Tree::Extents => editions::check(format.edition_number(), node_size, image, &mut work),
        Tree::Catalog => catalog::check(image, &mut work),
    }
}
