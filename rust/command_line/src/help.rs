//! What `--help` and `--version` say.

use std::ffi::OsString;

const HELP: &str = "\
usage: hfs-btree COMMAND .. [--json]

  check FILE                 Is the tree sound? If not, its first fault.        0 sound, 1 not
  list FILE                  The leaf records of a sound tree.                  0, 1 not sound
  find FILE FILE-NUMBER data|resource START
  find --catalog FILE PARENT NAME
                             What a sound tree has under a key.                 0 found, 1 absent, 3 refused
  salvage FILE FILE-NUMBER data|resource START
  salvage --catalog FILE PARENT NAME
                             What any bytes still show under a key.             0 seen, 1 not seen, 3 refused
  block CATALOG EXTENTS PARENT NAME data|resource BLOCK
                             The volume block that holds a block of a file.     0, 1 no such block or key, 3 refused
  write ROW OUT --nodes N    A fresh tree of N nodes from a row of records.     0, 3 refused
  trees VOLUME OUTDIR        The two tree files of a raw HFS volume image.      0, 3 refused

options
  --catalog        FILE is a catalog of HFS, not an extents overflow file (check, list, find, salvage)
  --plus SIZE      FILE is of HFS Plus, with nodes of SIZE bytes (check, list, find, salvage)
  --name-hex HEX   the bytes of NAME, in its stead
  --nodes N        how many nodes of 512 bytes OUT is to have
  --extents-only   cut out the extents overflow file alone, sound or not
  --json           one object a line
  --               all words behind it are operands, also those that begin with a dash

NAME is text of characters that MacRoman has; a to z match in either case. An empty NAME asks for a thread.
Errors of files and usage are one line on standard error, with exit status 2. No file is ever overwritten.
docs/COMMANDS.md says more.";

/// The text to print where help or the version is asked for, before any operand but the command.
pub fn asked(given: &[OsString]) -> Option<&'static str> {
    let words = given.iter().take(2).take_while(|word| *word != "--");
    words.filter_map(|word| word.to_str()).find_map(|word| match word {
        "--help" | "-h" => Some(HELP),
        "--version" | "-V" => Some(concat!("hfs-btree ", env!("CARGO_PKG_VERSION"))),
        _ => None,
    })
}
