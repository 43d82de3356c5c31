//! What a command line asks for.

use crate::arguments::Arguments;
use crate::extents::Fork;
use crate::form::Form;
use crate::name;
use crate::trouble::Trouble;
use hfs_btree::editions::Edition;
use std::ffi::OsStr;
use std::path::PathBuf;
use std::str::FromStr;

/// A command with all that it was given.
pub enum Command {
    Check { file: PathBuf, form: Form },
    List { file: PathBuf, form: Form },
    Find { file: PathBuf, key: Key },
    Salvage { file: PathBuf, key: Key },
    Block(BlockAsked),
    Write { row: PathBuf, out: PathBuf, nodes: u32 },
    Trees { volume: PathBuf, folder: PathBuf, extents_only: bool },
}

/// The key that a lookup or a salvage is asked for, and of which tree.
pub enum Key {
    Extents { edition: Edition, node_size: u32, file: u32, fork: Fork, start: u32 },
    Catalog(CatalogKey),
}

/// A parent number and a name.
pub struct CatalogKey {
    pub parent: u32,
    pub name: Vec<u8>,
}

/// A block of a fork, and the two trees by which it is found.
pub struct BlockAsked {
    pub catalog: PathBuf,
    pub extents: PathBuf,
    pub key: CatalogKey,
    pub fork: Fork,
    pub block: u16,
}

impl Key {
    pub fn form(&self) -> Form {
        match *self {
            Key::Extents { edition, node_size, .. } => Form::Extents(edition, node_size),
            Key::Catalog(_) => Form::Catalog,
        }
    }
}

impl Command {
    /// The command, and whether its answer is to be JSON.
    pub fn read(given: Arguments) -> Result<(Command, bool), Trouble> {
        let json = given.has("--json");
        let command = match &*given.command {
            "check" => of_tree(given).map(|(file, form)| Command::Check { file, form }),
            "list" => of_tree(given).map(|(file, form)| Command::List { file, form }),
            "find" => of_key(given).map(|(file, key)| Command::Find { file, key }),
            "salvage" => of_key(given).map(|(file, key)| Command::Salvage { file, key }),
            "block" => of_block(given),
            "write" => of_row(given),
            "trees" => of_volume(given),
            other => Err(Trouble::usage(format!("there is no command '{other}'"))),
        };
        Ok((command?, json))
    }
}

fn of_tree(given: Arguments) -> Result<(PathBuf, Form), Trouble> {
    given.allow(&["--catalog", "--plus"])?;
    let form = form_of(&given)?;
    let [file] = given.operands(["FILE"])?;
    Ok((file.into(), form))
}

fn of_key(given: Arguments) -> Result<(PathBuf, Key), Trouble> {
    match form_of(&given)? {
        Form::Extents(edition, node_size) => {
            given.allow(&["--plus"])?;
            let [path, file, fork, start] =
                given.operands(["FILE", "FILE-NUMBER", "data|resource", "START"])?;
            let (file, start) = (number("FILE-NUMBER", &file)?, number("START", &start)?);
            let fork = fork_of(&fork)?;
            Ok((path.into(), Key::Extents { edition, node_size, file, fork, start }))
        }
        Form::Catalog => {
            given.allow(&["--catalog", "--name-hex"])?;
            let hex = given.value("--name-hex").map(name::from_hex).transpose()?;
            let ([file, parent], name) = match hex {
                Some(name) => (given.operands(["FILE", "PARENT"])?, name),
                None => {
                    let [file, parent, name] = given.operands(["FILE", "PARENT", "NAME"])?;
                    ([file, parent], name::from_text(&name)?)
                }
            };
            let parent = number("PARENT", &parent)?;
            Ok((file.into(), Key::Catalog(CatalogKey { parent, name })))
        }
    }
}

fn of_block(given: Arguments) -> Result<Command, Trouble> {
    given.allow(&["--name-hex"])?;
    let hex = given.value("--name-hex").map(name::from_hex).transpose()?;
    let ([catalog, extents, parent, fork, block], name) = match hex {
        Some(name) => {
            let names = ["CATALOG", "EXTENTS", "PARENT", "data|resource", "BLOCK"];
            (given.operands(names)?, name)
        }
        None => {
            let names = ["CATALOG", "EXTENTS", "PARENT", "NAME", "data|resource", "BLOCK"];
            let [catalog, extents, parent, name, fork, block] = given.operands(names)?;
            ([catalog, extents, parent, fork, block], name::from_text(&name)?)
        }
    };
    Ok(Command::Block(BlockAsked {
        catalog: catalog.into(),
        extents: extents.into(),
        key: CatalogKey { parent: number("PARENT", &parent)?, name },
        fork: fork_of(&fork)?,
        block: number("BLOCK", &block)?,
    }))
}

fn of_row(given: Arguments) -> Result<Command, Trouble> {
    given.allow(&["--nodes"])?;
    let nodes = match given.value("--nodes") {
        Some(nodes) => number("--nodes", nodes)?,
        None => return Err(Trouble::usage("write takes --nodes N, the length of OUT in nodes")),
    };
    let [row, out] = given.operands(["ROW", "OUT"])?;
    Ok(Command::Write { row: row.into(), out: out.into(), nodes })
}

fn of_volume(given: Arguments) -> Result<Command, Trouble> {
    given.allow(&["--extents-only"])?;
    let extents_only = given.has("--extents-only");
    let [volume, folder] = given.operands(["VOLUME", "OUTDIR"])?;
    Ok(Command::Trees { volume: volume.into(), folder: folder.into(), extents_only })
}

/// Extents of HFS, unless the user says otherwise.
fn form_of(given: &Arguments) -> Result<Form, Trouble> {
    match (given.has("--catalog"), given.value("--plus")) {
        (false, None) => Ok(Form::HFS),
        (true, None) => Ok(Form::Catalog),
        (true, Some(_)) => {
            Err(Trouble::usage("--catalog reads catalogs of HFS alone, without --plus"))
        }
        (false, Some(size)) => {
            let reason = "--plus takes a node size: 512, 1024, 2048, 4096, 8192, 16384 or 32768";
            Form::plus(number("--plus", size)?).ok_or_else(|| Trouble::usage(reason))
        }
    }
}

fn fork_of(given: &OsStr) -> Result<Fork, Trouble> {
    match given.to_str() {
        Some("data") => Ok(Fork::Data),
        Some("resource") => Ok(Fork::Resource),
        _ => {
            let shown = given.to_string_lossy();
            Err(Trouble::usage(format!("the fork is data or resource, not '{shown}'")))
        }
    }
}

/// A decimal number, digits alone, up to the largest that the call takes.
fn number<Number: FromStr + Limit>(what: &str, given: &OsStr) -> Result<Number, Trouble> {
    let digits = given.to_str().filter(|text| text.bytes().all(|byte| byte.is_ascii_digit()));
    digits.and_then(|digits| digits.parse().ok()).ok_or_else(|| {
        let (most, shown) = (Number::MOST, given.to_string_lossy());
        Trouble::usage(format!("{what} is a number from 0 to {most}, not '{shown}'"))
    })
}

trait Limit {
    const MOST: u32;
}

impl Limit for u16 {
    const MOST: u32 = u16::MAX as u32;
}

impl Limit for u32 {
    const MOST: u32 = u32::MAX;
}
