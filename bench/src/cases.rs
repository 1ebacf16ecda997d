//! What is timed: pages with their tables and packets.

use umarekoza_model::write_table;

const BLADE: &str = include_str!("../../examples/pages/blade-report.txt");

pub struct Case {
    pub name: String,
    pub page: Vec<u8>,
    pub table: Vec<u8>,
    pub packet: Vec<u8>,
}

impl Case {
    pub fn new(name: &str, page: String, packet: Vec<u8>) -> Self {
        let table = write_table(page.as_bytes(), usize::MAX).expect("a page of the bench is right");
        Case { name: name.to_string(), page: page.into_bytes(), table, packet }
    }

    /// The blade report with M1.
    pub fn blade() -> Self {
        Case::new("blade report", BLADE.to_string(), vec![0x62, 0x07, 0x01, 0x2C, 0xAA, 0xBB, 0x00, 0x09])
    }

    /// `fields` fields of a byte, four in a row and each with a constraint, on a page of about `length` bytes.
    pub fn constrained(fields: usize, length: usize) -> Self {
        let bare = constrained_page(fields, 0, 1).len();
        let remark = length.saturating_sub(bare) / fields;
        let page = constrained_page(fields, remark, 1);
        let name = format!("{fields} fields with constraints, {} bytes of text", page.len());
        Case::new(&name, page, (0..fields).map(|field| (3 * field % 251) as u8).collect())
    }

    /// The same of fields each of which reads itself alone, without remarks.
    pub fn alone(fields: usize) -> Self {
        let name = format!("{fields} fields that read themselves");
        let packet = (0..fields).map(|field| (3 * field % 251) as u8).collect();
        Case::new(&name, constrained_page(fields, 0, 0), packet)
    }

    /// `fields` fields of a bit whose names stand downwards, in rows of four lines.
    pub fn flags(fields: usize) -> Self {
        let names: Vec<String> = (0..fields).map(|field| format!("F{field:03}")).collect();
        let line = |names: &[String], letter: usize| {
            row(&names.iter().map(|name| (&name[letter..=letter], 1)).collect::<Vec<_>>())
        };
        let lines = |names: &[String]| [0, 1, 2, 3].map(|letter| line(names, letter)).join("\n");
        let rows: Vec<String> = names.chunks(32).map(lines).collect();
        let told: String = names.iter().map(|name| format!("{name}: 1 bit.\n")).collect();
        let page = page(&rows, &told);
        let name = format!("{fields} flags downwards, {} bytes of text", page.len());
        Case::new(&name, page, vec![0xA5; fields / 8])
    }

    /// `fields` fields of a byte, four in a row, each told on a line as short as may be.
    pub fn short(fields: usize) -> Self {
        let names: Vec<String> = (0..fields).map(|field| format!("F{field}")).collect();
        let cells = |four: &[String]| row(&four.iter().map(|name| (name.as_str(), 8)).collect::<Vec<_>>());
        let rows: Vec<String> = names.chunks(4).map(cells).collect();
        let told: String = names.iter().map(|name| format!("{name}: 1 byte.\n")).collect();
        let page = page(&rows, &told);
        let name = format!("{fields} fields on short lines, {} bytes of text", page.len());
        Case::new(&name, page, vec![0x5A; fields])
    }

    /// A packet of `length` bytes, nearly all of them in one measured field.
    pub fn long(length: usize) -> Self {
        let rows = [row(&[("Length", 16), ("Blade", 16)]), row_of("Samples"), row(&[("Sum", 32)])];
        let lines = "Length (N): 2 bytes.\nBlade: 2 bytes.\nSamples: N bytes.\nSum: 4 bytes.\n";
        let samples = length - 8;
        let mut packet = (samples as u16).to_be_bytes().to_vec();
        packet.resize(length, 0x5A);
        Case::new(&format!("packet of {length} bytes"), page(&rows, lines), packet)
    }
}

/// A page of fields that read themselves, and the field so many before.
fn constrained_page(fields: usize, remark: usize, before: usize) -> String {
    let names: Vec<String> = (0..fields).map(|field| format!("F{field}")).collect();
    let rows: Vec<String> = names
        .chunks(4)
        .map(|four| row(&four.iter().map(|name| (name.as_str(), 8)).collect::<Vec<_>>()))
        .collect();
    let mut lines = String::new();
    for (field, name) in names.iter().enumerate() {
        let earlier = &names[field.saturating_sub(before)];
        let line = format!("Field {field} ({name}): 1 byte; {name} <= 250 && {earlier} * 2 + 1 > 0.");
        lines += &match remark {
            0 => line + "\n",
            _ => format!("{line} {}\n", "x".repeat(remark - 1)),
        };
    }
    page(&rows, &lines)
}

/// A bit row of 32 bits.
pub fn row(cells: &[(&str, usize)]) -> String {
    let cells: Vec<String> =
        cells.iter().map(|(name, bits)| format!("{name:^width$}", width = 2 * bits - 1)).collect();
    format!("|{}|", cells.join("|"))
}

/// A long row.
fn row_of(name: &str) -> String {
    format!(":{name:^63}:")
}

pub fn page(rows: &[String], lines: &str) -> String {
    let border = format!("+{}", "-+".repeat(32));
    let tens: String =
        (0..32).map(|bit| if bit % 10 == 0 { format!("{} ", bit / 10) } else { "  ".into() }).collect();
    let units: String = (0..32).map(|bit| format!(" {}", bit % 10)).collect();
    let rows: String = rows.iter().map(|row| format!("{row}\n{border}\n")).collect();
    let head = format!("A Case is formatted as follows:\n\n {}\n{units}\n{border}\n", tens.trim_end());
    format!("{head}{rows}\nwhere:\n\n{lines}")
}

#[cfg(test)]
mod tests {
    use super::Case;
    use umarekoza::{FIELDS_MOST, PACKET_MOST, RUN_MOST, TEXT_MOST};
    use umarekoza_model::read_packet;

    #[test]
    fn cases_are_accepted() {
        let mut cases = vec![Case::blade(), Case::alone(FIELDS_MOST), Case::flags(FIELDS_MOST)];
        cases.push(Case::short(FIELDS_MOST));
        for doubling in 0..5 {
            cases.push(Case::constrained(8 << doubling, 1024 << doubling));
            cases.push(Case::long((512 << doubling).min(PACKET_MOST)));
        }
        for case in cases {
            let bits = 8 * case.packet.len() as u32;
            assert_eq!(
                read_packet(&case.table, &case.packet, RUN_MOST).map(|reading| reading.total),
                Ok(bits)
            );
            assert!(case.page.len() <= TEXT_MOST);
        }
        assert!(Case::constrained(FIELDS_MOST, TEXT_MOST).page.len() > 16_000);
    }
}
