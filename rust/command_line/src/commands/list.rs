//! `list`: the leaf records of a sound tree.

use super::check::not_sound;
use super::list_line::{CatalogLine, ExtentsLine};
use crate::fault::Fault;
use crate::files;
use crate::form::Form;
use crate::json::Object;
use crate::leaf_list::leaf_list;
use crate::output::{Output, Said};
use crate::trouble::{Status, Trouble};
use hfs_btree::editions::Edition;
use std::fmt;
use std::path::Path;

pub fn run(file: &Path, form: Form, output: &mut Output) -> Result<Status, Trouble> {
    let image = files::read_image(file, form)?;
    if let Some(fault) = Fault::of(form, &image, form.check(&image)) {
        return not_sound(fault, output);
    }
    output.text(&"verdict 0 0 0")?;
    output.text(&titles(form))?;
    let mut count = 0;
    for record in leaf_list(form, &image) {
        match form {
            Form::Extents(edition, _) => output.say(&ExtentsLine::read(edition, record))?,
            Form::Catalog => output.say(&CatalogLine::read(record))?,
        }
        count += 1;
    }
    output.say(&Total(count))?;
    Ok(Status::Yes)
}

fn titles(form: Form) -> String {
    let pairs = match form {
        Form::Catalog => return "parent name kind".to_string(),
        Form::Extents(Edition::Hfs, _) => 3,
        Form::Extents(Edition::HfsPlus, _) => 8,
    };
    let pairs: String = (1..=pairs).map(|i| format!(" s{i} n{i}")).collect();
    format!("file fork start{pairs}")
}

/// The last line, by which a script sees that it has them all.
struct Total(u64);

impl fmt::Display for Total {
    fn fmt(&self, f: &mut fmt::Formatter<'_>) -> fmt::Result {
        write!(f, "records {}", self.0)
    }
}

impl Said for Total {
    fn object(&self) -> Object {
        Object::new().with("records", self.0)
    }
}
