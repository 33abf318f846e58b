//! An image field by field: head, what all share, a line for each port, copy sets.

use crate::head;
use yarvelow::{fields, Field, Kind};

/// A value as it is shown: a set by its ports, anything else as a number.
pub fn shown(field: &Field, image: &[u8]) -> String {
    let value = field.value(image);
    if field.kind == Kind::Copies || field.name == "ACTIVE" {
        set(value)
    } else {
        value.to_string()
    }
}

/// The ports of a set, neighbours as a range: `{0-3 7}`.
fn set(mask: u64) -> String {
    let stands = |k: u32| k < 64 && mask >> k & 1 == 1;
    let mut parts = Vec::new();
    for first in (0..64).filter(|k| stands(*k) && (*k == 0 || !stands(k - 1))) {
        let last = (first..64).take_while(|k| stands(*k)).last();
        parts.push(match last {
            Some(last) if last > first => format!("{first}-{last}"),
            _ => first.to_string(),
        });
    }
    format!("{{{}}}", parts.join(" "))
}

/// All of it.
pub fn listing(image: &[u8]) -> String {
    let all: Vec<Field> = fields(image[1].into()).collect();
    let of = |copies: bool, ports: bool| -> Vec<Field> {
        let wanted = |field: &&Field| {
            (field.kind == Kind::Copies) == copies && field.port.is_some() == ports
        };
        all.iter().filter(wanted).copied().collect()
    };
    let (shared, ports) = (of(false, false), of(false, true));
    let (sets, sets_of_ports) = (of(true, false), of(true, true));
    [
        String::from("head at byte 0\n"),
        head::shown(image) + "\n\n",
        format!("shared at byte {}\n", shared[0].place),
        line(&shared, image) + "\n",
        format!("ports at byte {}\n", ports[0].place),
        table(&ports, image) + "\n",
        format!("copy sets at byte {}\n", sets[0].place),
        line(&sets, image) + "\n",
        table(&sets_of_ports, image),
    ]
    .concat()
}

/// The name of a field under the heading of its body.
fn short(field: &Field) -> &'static str {
    field.name.trim_start_matches("copy set of ")
}

/// Fields in a line, each after its name.
fn line(fields: &[Field], image: &[u8]) -> String {
    let parts = fields
        .iter()
        .map(|field| format!("{} {}", short(field), shown(field, image)));
    parts.collect::<Vec<_>>().join("  ") + "\n"
}

/// Fields of ports in columns under their names, a line for each port with the byte where its fields begin.
fn table(fields: &[Field], image: &[u8]) -> String {
    let records: Vec<&[Field]> = fields.chunk_by(|a, b| a.port == b.port).collect();
    let names = records[0].iter().map(|field| short(field).to_string());
    let mut rows: Vec<Vec<String>> = vec![["port", "byte"].map(String::from).into()];
    rows[0].extend(names);
    for record in &records {
        let (port, place) = (record[0].port.unwrap_or_default(), record[0].place);
        let values = record.iter().map(|field| shown(field, image));
        rows.push(
            [port.to_string(), place.to_string()]
                .into_iter()
                .chain(values)
                .collect(),
        );
    }
    let width = |column: usize| rows.iter().map(|row| row[column].len()).max().unwrap_or(0);
    let widths: Vec<usize> = (0..rows[0].len()).map(width).collect();
    // Numbers stand to the right of their column, sets to the left.
    let left = fields[0].kind == Kind::Copies;
    let cell = |(column, text): (usize, &String)| match widths[column] {
        width if left && column > 1 => format!("{text:<width$}"),
        width => format!("{text:>width$}"),
    };
    let lines = rows
        .iter()
        .map(|row| row.iter().enumerate().map(cell).collect::<Vec<_>>());
    lines
        .map(|cells| cells.join("  ").trim_end().to_string() + "\n")
        .collect()
}
