//! Files: read once and no further than needed, written whole or not at all.

use crate::form::Form;
use crate::trouble::Trouble;
use std::fs::{self, File, OpenOptions};
use std::io::{self, ErrorKind, Read, Write};
use std::path::{Path, PathBuf};
use std::process;

/// The bytes of an image; of a file longer than the longest image one byte more than that has, as any
/// such length is refused, whatever the bytes are.
pub fn read_image(path: &Path, form: Form) -> Result<Vec<u8>, Trouble> {
    read(path, form.most_bytes() + 1)
}

/// The bytes of a file, up to so many.
pub fn read(path: &Path, most: u64) -> Result<Vec<u8>, Trouble> {
    read_up_to(path, most).map_err(|error| Trouble::file(path, error))
}

fn read_up_to(path: &Path, most: u64) -> io::Result<Vec<u8>> {
    let file = File::open(path)?;
    let mut bytes = Vec::new();
    // A pipe has no length, and is read as far as it goes.
    bytes.try_reserve_exact(file.metadata()?.len().min(most) as usize)?;
    file.take(most).read_to_end(&mut bytes)?;
    Ok(bytes)
}

/// A file that is written beside its place and not yet there.
struct Draft {
    path: PathBuf,
    beside: PathBuf,
}

impl Draft {
    /// Writes the bytes beside the path, which must be free.
    fn write(path: PathBuf, bytes: &[u8]) -> Result<Draft, Trouble> {
        if fs::symlink_metadata(&path).is_ok() {
            return Err(Trouble::file(&path, "exists already"));
        }
        let (beside, mut file) =
            create_beside(&path).map_err(|error| Trouble::file(&path, error))?;
        let draft = Draft { path, beside };
        let written = file.write_all(bytes).and_then(|()| file.sync_all());
        written.map_err(|error| Trouble::file(&draft.path, error))?;
        Ok(draft)
    }

    /// Puts the file where it belongs, if that is still free.
    fn place(&self) -> io::Result<()> {
        match fs::hard_link(&self.beside, &self.path) {
            Err(error) if error.kind() == ErrorKind::AlreadyExists => Err(error),
            // Some file systems have no links; a rename could overwrite a file made at this very moment.
            Err(_) => fs::rename(&self.beside, &self.path),
            Ok(()) => Ok(()),
        }
    }
}

/// Makes an empty file in the folder of the path, under a name that nothing has there.
fn create_beside(path: &Path) -> io::Result<(PathBuf, File)> {
    let mut turn = 0;
    loop {
        let beside = path.with_file_name(format!(".hfs-btree-{}-{turn}.part", process::id()));
        match OpenOptions::new().write(true).create_new(true).open(&beside) {
            Err(error) if error.kind() == ErrorKind::AlreadyExists => turn += 1,
            made => return Ok((beside, made?)),
        }
    }
}

/// Writes a new file.
pub fn write(path: &Path, bytes: &[u8]) -> Result<New, Trouble> {
    let mut new = New::default();
    new.place(vec![Draft::write(path.to_path_buf(), bytes)?])?;
    Ok(new)
}

/// Writes new files into a folder, which is made if there is none, all or none.
pub fn write_into(folder: &Path, files: &[(&str, &[u8])]) -> Result<New, Trouble> {
    let mut new = New::default();
    match fs::create_dir(folder) {
        Ok(()) => new.folder = Some(folder.to_path_buf()),
        Err(error) if error.kind() == ErrorKind::AlreadyExists => {}
        Err(error) => return Err(Trouble::file(folder, error)),
    }
    let draft = |(name, bytes): &(&str, &[u8])| Draft::write(folder.join(name), bytes);
    new.place(files.iter().map(draft).collect::<Result<_, _>>()?)?;
    Ok(new)
}

/// Files that are new, and the folder that is: they go away again unless they are kept.
#[derive(Default)]
#[must_use]
pub struct New {
    files: Vec<PathBuf>,
    folder: Option<PathBuf>,
}

impl New {
    fn place(&mut self, drafts: Vec<Draft>) -> Result<(), Trouble> {
        for draft in drafts {
            draft.place().map_err(|error| Trouble::file(&draft.path, error))?;
            self.files.push(draft.path.clone());
        }
        Ok(())
    }

    /// Lets them stay, once the user has been told of them.
    pub fn keep(mut self) {
        self.files.clear();
        self.folder = None;
    }
}

impl Drop for New {
    fn drop(&mut self) {
        for file in &self.files {
            let _ = fs::remove_file(file);
        }
        if let Some(folder) = &self.folder {
            let _ = fs::remove_dir(folder);
        }
    }
}

impl Drop for Draft {
    /// Whatever becomes of the file, nothing stays beside it.
    fn drop(&mut self) {
        let _ = fs::remove_file(&self.beside);
    }
}
