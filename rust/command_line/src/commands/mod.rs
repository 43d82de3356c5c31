//! The commands: each reads its files, asks the proved reader or writer, and says the answer.

mod block;
mod catalog_pieces;
mod check;
mod find;
mod list;
mod list_line;
mod record;
mod refused;
mod salvage;
mod trees;
mod write;

use crate::command::Command;
use crate::output::Output;
use crate::trouble::{Status, Trouble};

pub fn run(command: Command, output: &mut Output) -> Result<Status, Trouble> {
    match command {
        Command::Check { file, form } => check::run(&file, form, output),
        Command::List { file, form } => list::run(&file, form, output),
        Command::Find { file, key } => find::run(&file, &key, output),
        Command::Salvage { file, key } => salvage::run(&file, &key, output),
        Command::Block(asked) => block::run(&asked, output),
        Command::Write { row, out, nodes } => write::run(&row, &out, nodes, output),
        Command::Trees { volume, folder, extents_only } => {
            trees::run(&volume, &folder, extents_only, output)
        }
    }
}
