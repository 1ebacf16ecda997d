//! The records of a table's fields, as they are put into another table.

/// Where the number of fields and the first part of a record stand, behind what comes before.
const ROW_BITS: usize = 4;
const PARTS: usize = 6;
const MEASURED: usize = 13;
const REST: usize = 14;
const NUMBER_CODE: u8 = 0x01;
const FIELD_CODE: u8 = 0x02;

/// The bits of a row of a good table.
pub fn row_bits(table: &[u8]) -> usize {
    number_at(table, ROW_BITS)
}

/// The records of all fields of a good table, each reference moved on by so many indexes.
pub fn moved_records(table: &[u8], by: usize) -> Vec<u8> {
    let mut moved = table.to_vec();
    let (start, mut at) = (number_at(table, 0), number_at(table, 0));
    while number_at(table, at) > PARTS {
        for expression in expressions(table, at) {
            move_references(&mut moved[expression], by as u8);
        }
        at += number_at(table, at);
    }
    moved.truncate(at);
    moved.split_off(start)
}

/// Where the expressions of the record at a place stand; an empty one is none.
fn expressions(table: &[u8], at: usize) -> Vec<std::ops::Range<usize>> {
    let behind = |part: usize| part + 2 + number_at(table, part);
    let kind = number_at(table, at + 2);
    let names = behind(behind(at + PARTS));
    let mut part = if kind == REST { names } else { names + 2 };
    let count = if kind == MEASURED { 3 } else { 2 };
    let mut next = || {
        let expression = part + 2..behind(part);
        part = behind(part);
        expression
    };
    (0..count).map(|_| next()).collect()
}

/// Every code but those of a number and of a field has nothing of its own behind it.
fn move_references(expression: &mut [u8], by: u8) {
    let mut at = 0;
    while at < expression.len() {
        match expression[at] {
            NUMBER_CODE => at += 5,
            FIELD_CODE => {
                expression[at + 1] += by;
                at += 2;
            }
            _ => at += 1,
        }
    }
}

fn number_at(table: &[u8], at: usize) -> usize {
    usize::from(u16::from_le_bytes([table[at], table[at + 1]]))
}

#[cfg(test)]
mod tests {
    use super::{moved_records, row_bits};
    use umarekoza::{count_fields, table_of, with_fields, without_fields};
    use umarekoza_model::generate::{table, Rng};

    const BLADE: &[u8] = include_bytes!("../../examples/pages/blade-report.txt");

    /// The records of the blade report stand in bytes 22 to 210; these are references.
    #[test]
    fn references_of_the_blade_report() {
        let table = table_of(BLADE).unwrap();
        assert_eq!(row_bits(&table), 16);
        assert_eq!(moved_records(&table, 0), table[22..211]);
        let mut moved = table[22..211].to_vec();
        // `V == 1` of Version, `N <= 20` of Cells, `L == 1` of Borrower, `N` of Readings.
        for (at, read) in [(46, 0), (100, 2), (158, 1), (187, 2)] {
            assert_eq!(table[at - 1..=at], [2, read]);
            moved[at - 22] += 120;
        }
        assert_eq!(moved_records(&table, 120), moved);
    }

    /// A page of one field of a byte.
    const TAG: &[u8] = b"A Tag is formatted as follows:\n\n 0\n 0 1 2 3 4 5 6 7\n+-+-+-+-+-+-+-+-+\n\
                         |     Q-9-Q     |\n+-+-+-+-+-+-+-+-+\n\nwhere:\n\nQ-9-Q: 1 byte.\n";

    /// The fields of a table are put in behind another field, which is then cut out: what is left is what there was.
    #[test]
    fn whatever_the_table() {
        let (mut rng, tag, mut found) = (Rng::new(1), table_of(TAG).unwrap(), 0);
        for _ in 0..3000 {
            let table = table(&mut rng);
            let Ok(count) = count_fields(&table) else { continue };
            let Ok(longer) = with_fields(&tag, 1, &moved_records(&table, 1)) else { continue };
            let left = without_fields(&longer, 0, 0).unwrap();
            let fields = |table: &[u8]| table[usize::from(table[0])..].to_vec();
            assert_eq!(fields(&left), fields(&table));
            assert_eq!(count_fields(&left), Ok(count));
            found += 1;
        }
        assert!(found > 100, "{found}");
    }
}
