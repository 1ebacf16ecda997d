//! Cases: a text, a table with a packet, a table for the converter, or a table with fields to be cut out or put in.

use std::fmt;
use umarekoza::PACKET_MOST;
use umarekoza_model::generate::{cut, old_table, packet, put, table, tail, text, Cut, Put, Rng};
use umarekoza_model::protocol::to_hex;

pub enum Case {
    Text(Vec<u8>),
    Packet { table: Vec<u8>, packet: Vec<u8> },
    Old(Vec<u8>),
    Cut(Cut),
    Put(Put),
}

impl Case {
    /// A generated case, good or damaged; now and then random bytes, or none.
    pub fn random(rng: &mut Rng) -> Self {
        if rng.one_in(3) {
            let text = if rng.one_in(50) { noise(rng) } else { text(rng) };
            return Case::Text(text);
        }
        if rng.one_in(6) {
            let table = if rng.one_in(50) { noise(rng) } else { old_table(rng) };
            return Case::Old(table);
        }
        if rng.one_in(4) {
            return Case::edit(rng);
        }
        if rng.one_in(30) {
            let (table, packet) = tail(rng);
            return Case::Packet { table, packet };
        }
        let table = if rng.one_in(50) { noise(rng) } else { table(rng) };
        let packet = if rng.one_in(60) { long_packet(rng) } else { packet(rng, &table) };
        Case::Packet { table, packet }
    }

    /// Fields to be cut out or put in; now and then a table or records that are random bytes.
    fn edit(rng: &mut Rng) -> Self {
        let (is_noise, by_noise) = (rng.one_in(30), rng.one_in(50));
        if rng.one_in(2) {
            let cut = cut(rng);
            return Case::Cut(if is_noise { Cut { table: noise(rng), ..cut } } else { cut });
        }
        let put = put(rng);
        let put = if by_noise { Put { records: noise(rng), ..put } } else { put };
        Case::Put(if is_noise { Put { table: noise(rng), ..put } } else { put })
    }
}

impl fmt::Display for Case {
    fn fmt(&self, to: &mut fmt::Formatter<'_>) -> fmt::Result {
        match self {
            Case::Text(text) => write!(to, "text {}", to_hex(text)),
            Case::Packet { table, packet } => write!(to, "table {} packet {}", to_hex(table), to_hex(packet)),
            Case::Old(table) => write!(to, "old table {}", to_hex(table)),
            Case::Cut(Cut { table, first, last }) => write!(to, "cut {first} {last} {}", to_hex(table)),
            Case::Put(Put { table, index, records }) => {
                write!(to, "put {index} {} {}", to_hex(table), to_hex(records))
            }
        }
    }
}

fn noise(rng: &mut Rng) -> Vec<u8> {
    let most = rng.pick([0, 60]);
    (0..rng.between(0, most)).map(|_| rng.byte()).collect()
}

/// Bytes at the limit of a packet, at that of document 01, between them or beyond.
fn long_packet(rng: &mut Rng) -> Vec<u8> {
    let length =
        rng.pick([2_047, 2_048, 2_049, 5_000, PACKET_MOST - 1, PACKET_MOST, PACKET_MOST + 1, 16_384]);
    rng.bytes(length)
}

#[cfg(test)]
mod tests {
    use super::{Case, Cut, Put};
    use std::ops::RangeInclusive;
    use umarekoza::RUN_MOST;
    use umarekoza_model::generate::Rng;
    use umarekoza_model::{
        check_table, convert_table, count_fields, cut_fields, put_fields, read_packet, write_table, Refusal,
    };

    /// A text or a table, an old one too, with its number of fields, or a packet with its number of bytes, and whether
    /// it is accepted. Of texts refused for their number of fields it is 129; of a table into which fields are put it
    /// is that of the longer one.
    type Seen = (&'static str, usize, bool);

    /// The number of fields that a table's head has.
    fn stated(table: &[u8]) -> usize {
        table.get(6..8).map_or(0, |two| usize::from(u16::from_le_bytes([two[0], two[1]])))
    }

    fn seen(case: &Case) -> Vec<Seen> {
        match case {
            Case::Old(table) => vec![("old", stated(table), convert_table(table, usize::MAX).is_ok())],
            Case::Cut(Cut { table, first, last }) => {
                vec![("cut", stated(table), cut_fields(table, *first, *last, usize::MAX).is_ok())]
            }
            Case::Put(Put { table, index, records }) => {
                match put_fields(table, *index, records, usize::MAX) {
                    Ok(longer) => vec![("put", stated(&longer), true)],
                    Err(_) => vec![("put", stated(table), false)],
                }
            }
            Case::Text(text) => match write_table(text, usize::MAX) {
                Ok(table) => vec![("text", count_fields(&table).unwrap(), true)],
                Err(Refusal { number: 4, .. }) => vec![("text", 129, false)],
                Err(_) => vec![],
            },
            Case::Packet { table, packet } => {
                let mut seen = vec![("table", stated(table), check_table(table).is_ok())];
                match read_packet(table, packet, RUN_MOST) {
                    Ok(_) => seen.push(("packet", packet.len(), true)),
                    Err(Refusal { number: 22, .. }) => seen.push(("packet", packet.len(), false)),
                    Err(_) => {}
                }
                seen
            }
        }
    }

    fn seen_in(rng: &mut Rng, cases: usize) -> Vec<Seen> {
        (0..cases).flat_map(|_| seen(&Case::random(rng))).collect()
    }

    /// What is at the limits of fields and packets, 128 and 8,191, and at those of document 01, 64 and 2,048.
    const FAR: [(&str, RangeInclusive<usize>, bool); 11] = [
        ("text", 65..=128, true),
        ("text", 129..=129, false),
        ("table", 65..=128, true),
        ("table", 129..=258, false),
        ("old", 2..=64, true),
        ("old", 65..=128, false),
        ("cut", 65..=128, true),
        ("put", 65..=128, true),
        ("packet", 2_047..=2_049, true),
        ("packet", 8_190..=8_191, true),
        ("packet", 8_192..=16_384, false),
    ];

    #[test]
    fn each_thousand_has_far_cases() {
        let mut rng = Rng::new(1);
        for block in 0..20 {
            let seen = seen_in(&mut rng, 1_000);
            for (what, numbers, accepted) in FAR {
                let is_one = |one: &Seen| one.0 == what && numbers.contains(&one.1) && one.2 == accepted;
                assert!(seen.iter().any(is_one), "block {block}: no {what} of {numbers:?}, {accepted}");
            }
        }
    }

    #[test]
    fn each_number_at_a_limit_turns_up() {
        let seen = seen_in(&mut Rng::new(2), 20_000);
        let accepted = |what, number| assert!(seen.contains(&(what, number, true)), "no {what} of {number}");
        for fields in [64, 65, 127, 128] {
            accepted("text", fields);
            accepted("table", fields);
        }
        for bytes in [2_047, 2_048, 2_049, 8_190, 8_191] {
            accepted("packet", bytes);
        }
        accepted("old", 64);
        accepted("cut", 128);
        accepted("put", 128);
        let refused = [
            ("table", 129),
            ("table", 130),
            ("table", 256),
            ("table", 257),
            ("packet", 8_192),
            ("old", 65),
            ("put", 128),
        ];
        for (what, number) in refused {
            assert!(seen.contains(&(what, number, false)), "no refused {what} of {number}");
        }
    }
}
