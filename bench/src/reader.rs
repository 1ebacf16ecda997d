//! The plain C reader.

use umarekoza_model::{check_table, read_packet};

extern "C" {
    fn plain_read(
        table: *const u8,
        packet: *const u8,
        packet_len: usize,
        run: *mut u32,
        constraints: i32,
    ) -> u32;
}

/// A good table and a packet that it accepts: what the plain reader can be trusted with.
pub struct Accepted {
    table: Vec<u8>,
    packet: Vec<u8>,
    run_len: usize,
}

impl Accepted {
    /// The table and the packet, if they are accepted.
    pub fn new(table: &[u8], packet: &[u8]) -> Option<Self> {
        check_table(table).ok()?;
        let reading = read_packet(table, packet, usize::MAX).ok()?;
        Some(Accepted { table: table.to_vec(), packet: packet.to_vec(), run_len: 4 * reading.fields.len() })
    }

    /// Reads the packet to the start of `run` and answers its bits. With `constraints`, they are tested too.
    pub fn read(&self, run: &mut [u32], constraints: bool) -> u32 {
        assert!(run.len() >= self.run_len);
        let Accepted { table, packet, .. } = self;
        let constraints = i32::from(constraints);
        // SAFETY: the table is good and the packet accepted, so the reader stays within both; `run` is long enough.
        unsafe { plain_read(table.as_ptr(), packet.as_ptr(), packet.len(), run.as_mut_ptr(), constraints) }
    }
}

#[cfg(test)]
mod tests {
    use super::Accepted;
    use umarekoza::RUN_MOST;
    use umarekoza_model::generate::{packet, table, Rng};
    use umarekoza_model::read_packet;

    #[test]
    fn reads_as_the_model_does() {
        let mut rng = Rng::new(7);
        let mut count = 0;
        for _ in 0..3000 {
            let table = table(&mut rng);
            let packet = packet(&mut rng, &table);
            let Some(accepted) = Accepted::new(&table, &packet) else { continue };
            let reading = read_packet(&table, &packet, RUN_MOST).unwrap();
            for constraints in [false, true] {
                let mut run = [0; RUN_MOST];
                assert_eq!(accepted.read(&mut run, constraints), reading.total);
                assert_eq!(run[..accepted.run_len], reading.fields.concat());
            }
            count += 1;
        }
        assert!(count > 500);
    }
}
