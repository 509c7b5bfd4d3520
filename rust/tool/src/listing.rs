//! How facts, entries, a file that was found and a wrapped file's header are shown: document 01's listing, tables for
//! people, JSON.

use mfs::{Entry, Facts, ForkFacts, Header, QuickFound};

use crate::dates;
use crate::json::Json;
use crate::names;

/// A count with its noun: `1 file`, `2 files`.
pub fn count(number: u64, noun: &str) -> String {
    let ending = if number == 1 { "" } else { "s" };
    format!("{number} {noun}{ending}")
}

/// Document 01's listing.
pub fn plain(facts: &Facts, entries: &[Entry]) -> Vec<u8> {
    let mut text = b"volume ".to_vec();
    text.extend(names::listed(&facts.name));
    let (files, free, blocks) = (facts.files, facts.free_blocks, facts.allocation_blocks);
    text.extend(format!(" files {files} free {free} of {blocks}\n").bytes());
    for entry in entries {
        let (data, resource) = (entry.data.logical, entry.resource.logical);
        let Entry {
            number,
            created,
            changed,
            ..
        } = entry;
        text.extend(format!("{number} {data} {resource} {created} {changed} ").bytes());
        text.extend(names::listed(&entry.name));
        text.push(b'\n');
    }
    text
}

/// The columns of the listing for people; those of numbers stand to the right.
const COLUMNS: [(&str, bool); 9] = [
    ("number", true),
    ("flags", false),
    ("type", false),
    ("creator", false),
    ("data", true),
    ("resource", true),
    ("created", false),
    ("changed", false),
    ("name", false),
];

/// The listing for people.
pub fn table(facts: &Facts, entries: &[Entry]) -> String {
    let mut rows = vec![COLUMNS.map(|(heading, _)| heading.to_string())];
    rows.extend(entries.iter().map(row));
    let mut widths = [0; 9];
    for row in &rows {
        for (width, cell) in widths.iter_mut().zip(row) {
            *width = cell.chars().count().max(*width);
        }
    }
    let mut text = String::new();
    for row in &rows {
        for ((cell, width), (heading, right)) in row.iter().zip(widths).zip(COLUMNS) {
            text.push_str(&match (heading, right) {
                ("name", _) => format!("{cell}\n"),
                (_, true) => format!("{cell:>width$}  "),
                (_, false) => format!("{cell:<width$}  "),
            });
        }
    }
    text.push_str(&format!(
        "{}, free {}\n",
        count(facts.files.into(), "file"),
        free(facts)
    ));
    text
}

/// A type or creator that was never set.
const ZEROS: &str = r"\x00\x00\x00\x00";

fn row(entry: &Entry) -> [String; 9] {
    let (kind, creator) = type_and_creator(entry);
    [
        entry.number.to_string(),
        if entry.is_locked() { "locked" } else { "-" }.to_string(),
        unless_zeros(kind),
        unless_zeros(creator),
        entry.data.logical.to_string(),
        entry.resource.logical.to_string(),
        dates::shown(entry.created),
        dates::shown(entry.changed),
        names::shown(&entry.name),
    ]
}

fn unless_zeros(four: String) -> String {
    if four == ZEROS {
        "-".to_string()
    } else {
        four
    }
}

/// The Finder's type and creator as text.
fn type_and_creator(entry: &Entry) -> (String, String) {
    let [a, b, c, d, e, f, g, h, ..] = entry.finder;
    (names::shown(&[a, b, c, d]), names::shown(&[e, f, g, h]))
}

/// The free space, in blocks and bytes.
fn free(facts: &Facts) -> String {
    let bytes = u64::from(facts.free_blocks) * u64::from(facts.block_size);
    let (free, all) = (facts.free_blocks, facts.allocation_blocks);
    format!("{free} of {all} blocks ({})", count(bytes, "byte"))
}

/// The line for a sound image.
pub fn sound(facts: &Facts) -> String {
    let (free, all) = (facts.free_blocks, facts.allocation_blocks);
    format!(
        "sound, {}, {free} of {all} blocks free",
        count(facts.files.into(), "file")
    )
}

/// The facts for people, one to a line.
pub fn facts(facts: &Facts) -> String {
    let locked = if facts.is_locked() { "yes" } else { "no" };
    let lines = [
        ("name", names::shown(&facts.name)),
        ("created", dates::shown(facts.created)),
        ("last backup", dates::shown(facts.backup)),
        ("locked", format!("{locked} (attributes {:04X} hex)", facts.attributes)),
        ("files", facts.files.to_string()),
        ("next file number", facts.next_number.to_string()),
        (
            "directory",
            format!(
                "from block {}, {}",
                facts.directory_start,
                count(facts.directory_length.into(), "block")
            ),
        ),
        (
            "allocation blocks",
            format!("{}, from block {}", facts.allocation_blocks, facts.allocation_start),
        ),
        ("block size", count(facts.block_size.into(), "byte")),
        ("free", free(facts)),
        ("clump size", count(facts.clump_size.into(), "byte")),
    ];
    lines.map(labelled).concat()
}

/// A file that was found by its name, for people, one fact to a line.
pub fn found(found: &QuickFound) -> String {
    let entry = &found.entry;
    let locked = if entry.is_locked() { "yes" } else { "no" };
    let (kind, creator) = type_and_creator(entry);
    let lines = [
        ("name", names::shown(&entry.name)),
        ("file number", entry.number.to_string()),
        ("place", format!("{}, counted from 0", found.place)),
        ("locked", format!("{locked} (flags {:02X} hex)", entry.flags)),
        ("type", unless_zeros(kind)),
        ("creator", unless_zeros(creator)),
        ("data fork", count(entry.data.logical.into(), "byte")),
        ("resource fork", count(entry.resource.logical.into(), "byte")),
        ("created", dates::shown(entry.created)),
        ("changed", dates::shown(entry.changed)),
        ("looked at", count(found.looked.into(), "directory block")),
    ];
    lines.map(labelled).concat()
}

/// A line with its label.
fn labelled((label, value): (&str, String)) -> String {
    match value.as_str() {
        "" => format!("{label}:\n"),
        _ => format!("{:<18} {value}\n", format!("{label}:")),
    }
}

/// A wrapped file's header for people, one fact to a line.
pub fn header(header: &Header) -> String {
    let tags = if header.has_tags { "with" } else { "without" };
    let lines = [
        ("wrapped", format!("Disk Copy 4.2, {tags} tags")),
        ("wrapped name", names::shown(&header.name)),
        ("format byte", format!("{:02X} hex", header.format)),
    ];
    lines.map(labelled).concat()
}

/// A wrapped file's header as JSON.
pub fn header_json(header: &Header) -> Json {
    Json::Object(vec![
        ("name", name_json(&header.name)),
        ("format", Json::number(header.format)),
        ("tags", Json::Bool(header.has_tags)),
    ])
}

/// The facts as JSON.
pub fn facts_json(facts: &Facts) -> Json {
    Json::Object(vec![
        ("name", name_json(&facts.name)),
        ("created", date_json(facts.created)),
        ("backup", date_json(facts.backup)),
        ("attributes", Json::number(facts.attributes)),
        ("locked", Json::Bool(facts.is_locked())),
        ("files", Json::number(facts.files)),
        ("next_number", Json::number(facts.next_number)),
        ("directory_start", Json::number(facts.directory_start)),
        ("directory_length", Json::number(facts.directory_length)),
        ("allocation_blocks", Json::number(facts.allocation_blocks)),
        ("allocation_start", Json::number(facts.allocation_start)),
        ("block_size", Json::number(facts.block_size)),
        ("free_blocks", Json::number(facts.free_blocks)),
        ("clump_size", Json::number(facts.clump_size)),
    ])
}

/// An entry as JSON.
pub fn entry_json(entry: &Entry) -> Json {
    let (kind, creator) = type_and_creator(entry);
    Json::Object(vec![
        ("number", Json::number(entry.number)),
        ("name", name_json(&entry.name)),
        ("flags", Json::number(entry.flags)),
        ("locked", Json::Bool(entry.is_locked())),
        ("type", Json::Text(kind)),
        ("creator", Json::Text(creator)),
        ("finder", Json::Text(names::hex(&entry.finder))),
        ("data", fork_json(entry.data)),
        ("resource", fork_json(entry.resource)),
        ("created", date_json(entry.created)),
        ("changed", date_json(entry.changed)),
    ])
}

/// A file that was found by its name, as the members of a JSON object.
pub fn found_json(found: &QuickFound) -> Vec<(&'static str, Json)> {
    vec![
        ("place", Json::number(found.place)),
        ("looked", Json::number(found.looked)),
        ("file", entry_json(&found.entry)),
    ]
}

fn fork_json(fork: ForkFacts) -> Json {
    Json::Object(vec![
        ("start", Json::number(fork.start)),
        ("logical", Json::number(fork.logical)),
        ("physical", Json::number(fork.physical)),
    ])
}

fn name_json(name: &[u8]) -> Json {
    Json::Object(vec![
        ("text", Json::Text(names::shown(name))),
        ("hex", Json::Text(names::hex(name))),
    ])
}

fn date_json(date: u32) -> Json {
    Json::Object(vec![
        ("text", Json::Text(dates::shown(date))),
        ("number", Json::number(date)),
    ])
}
