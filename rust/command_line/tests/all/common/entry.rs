//! The fields of a catalog record, as the reference reads them, as they are to be shown.

use super::answer::Shown;
use super::extents;
use super::json::{number, text, Value};
use super::names::{decoded, hex, quoted};
use reference::catalog::{Directory, Entry, File, Fork, Thread};

/// The fields of a record: for JSON, and as lines of text.
pub fn shown(data: &[u8]) -> Shown {
    let mut shown = Shown::default();
    match Entry::read(data).expect("a record of one of four types") {
        Entry::Directory(directory) => add_directory(&mut shown, &directory),
        Entry::File(file) => add_file(&mut shown, &file),
        Entry::DirectoryThread(thread) => add_thread(&mut shown, "directory thread", &thread),
        Entry::FileThread(thread) => add_thread(&mut shown, "file thread", &thread),
    }
    shown
}

/// The name of a thread; of a length above 31 the 31 bytes that there are.
pub fn thread_name(thread: &Thread) -> &[u8] {
    &thread.name[..usize::from(thread.name_length).min(31)]
}

fn add_directory(shown: &mut Shown, directory: &Directory) {
    add(shown, "kind", "directory", text("directory"));
    add_number(shown, "directory_number", directory.directory_id);
    add_number(shown, "entries", directory.valence);
    add_number(shown, "flags", directory.flags);
    add_dates(shown, [directory.created, directory.modified, directory.backed_up]);
    add_bytes(shown, "finder_info", &directory.finder_info);
    add_bytes(shown, "more_finder_info", &directory.more_finder_info);
}

fn add_file(shown: &mut Shown, file: &File) {
    add(shown, "kind", "file", text("file"));
    add_number(shown, "file_number", file.file_id);
    add_number(shown, "flags", file.flags);
    add_number(shown, "file_type", file.file_type);
    let names = ["first_block", "logical_length", "physical_length", "extents"];
    add_fork(shown, names.map(|name| format!("data_{name}")), &file.data_fork);
    add_fork(shown, names.map(|name| format!("resource_{name}")), &file.resource_fork);
    add_dates(shown, [file.created, file.modified, file.backed_up]);
    add_number(shown, "clump_size", file.clump_size);
    add_bytes(shown, "finder_info", &file.finder_info);
    add_bytes(shown, "more_finder_info", &file.more_finder_info);
}

fn add_fork(shown: &mut Shown, names: [String; 4], fork: &Fork) {
    add_number(shown, &names[0], fork.first_block);
    add_number(shown, &names[1], fork.logical_length);
    add_number(shown, &names[2], fork.physical_length);
    let pairs =
        fork.first_extents.map(|extent| [extent.first_block.into(), extent.block_count.into()]);
    add(shown, &names[3], &extents::shown(&pairs), extents::value(&pairs));
}

fn add_thread(shown: &mut Shown, kind: &str, thread: &Thread) {
    add(shown, "kind", kind, text(kind));
    add_number(shown, "thread_parent", thread.parent_id);
    add_number(shown, "thread_name_length", thread.name_length);
    let name = thread_name(thread);
    add(shown, "thread_name", &quoted(name), text(decoded(name)));
    // The bytes of a name are for scripts alone.
    shown.fields.push(("thread_name_hex".to_string(), text(hex(name))));
}

fn add_number(shown: &mut Shown, name: &str, value: impl Into<u64>) {
    let value = value.into();
    add(shown, name, &value.to_string(), number(value));
}

fn add_dates(shown: &mut Shown, dates: [u32; 3]) {
    for (name, seconds) in ["created", "modified", "backed_up"].into_iter().zip(dates) {
        add(shown, name, &dated(seconds), number(seconds));
    }
}

fn add_bytes(shown: &mut Shown, name: &str, bytes: &[u8]) {
    add(shown, name, &hex(bytes), text(hex(bytes)));
}

fn add(shown: &mut Shown, name: &str, line: &str, value: Value) {
    shown.lines.push(format!("{}: {line}", name.replace('_', " ")));
    shown.fields.push((name.to_string(), value));
}

/// Seconds from the start of 1904, as a number and by the calendar, counted in years from March on.
fn dated(seconds: u32) -> String {
    // From 1 March 1900 to 1 January 1904 are 1,401 days; 1900 itself had no leap day before March.
    let days = seconds / 86_400 + 1_401;
    let day_of_four_years = days % 1_461;
    let year_of_four = (day_of_four_years / 365).min(3);
    let day_of_year = day_of_four_years - 365 * year_of_four;
    // From March on five months have 153 days, over and over.
    let month_from_march = (5 * day_of_year + 2) / 153;
    let day = day_of_year - (153 * month_from_march + 2) / 5 + 1;
    let month = (month_from_march + 2) % 12 + 1;
    let year = 1_900 + 4 * (days / 1_461) + year_of_four + u32::from(month <= 2);
    let (hour, minute, second) = (seconds / 3_600 % 24, seconds / 60 % 60, seconds % 60);
    format!("{seconds} ({year}-{month:02}-{day:02} {hour:02}:{minute:02}:{second:02})")
}
