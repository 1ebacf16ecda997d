//! The calls that are timed, each of which sees to it that the answer is right.

use crate::cases::Case;
use crate::libraries::Library;
use crate::reader::Accepted;
use crate::rounds::Call;
use std::hint::black_box;
use umarekoza::{RUN_MOST, TABLE_MOST};

/// Each library is given the table of the page as it stores it itself.
pub fn check<'a>(library: &'a Library, case: &'a Case) -> Call<'a> {
    let table = library.table(&case.page);
    let length = table.len() as u64;
    Box::new(move || assert_eq!(black_box((library.check_table)(black_box(&table))), Some(length)))
}

pub fn read<'a>(library: &'a Library, case: &'a Case) -> Call<'a> {
    let (table, mut run) = (library.table(&case.page), vec![0; RUN_MOST]);
    Box::new(move || {
        let bits = (library.read_packet)(black_box(&table), black_box(&case.packet), &mut run);
        assert_eq!(black_box(bits), Some(8 * case.packet.len() as u64));
    })
}

pub fn write<'a>(library: &'a Library, case: &'a Case) -> Call<'a> {
    write_all(library, std::slice::from_ref(case))
}

/// The tables of all pages.
pub fn write_all<'a>(library: &'a Library, cases: &'a [Case]) -> Call<'a> {
    let mut out = vec![0; TABLE_MOST];
    let lengths: Vec<u64> = cases.iter().map(|case| library.table(&case.page).len() as u64).collect();
    Box::new(move || {
        for (case, due) in cases.iter().zip(&lengths) {
            let length = (library.write_table)(black_box(&case.page), &mut out);
            assert_eq!(black_box(length), Some(*due));
        }
    })
}

/// A table, a name, and the index of the field that has it.
pub struct Asked<'a> {
    pub table: &'a [u8],
    pub name: &'a [u8],
    pub index: u64,
}

pub fn find_all<'a>(library: &'a Library, asked: &'a [Asked]) -> Call<'a> {
    Box::new(move || {
        for Asked { table, name, index } in asked {
            let found = (library.find_field)(black_box(table), black_box(name));
            assert_eq!(black_box(found), Some(*index));
        }
    })
}

/// How often the last field is read.
pub fn count(case: &Case) -> Call<'_> {
    let last = umarekoza::count_fields(&case.table).map_or(0, |fields| fields - 1);
    Box::new(move || assert_eq!(black_box(umarekoza::count_readers(black_box(&case.table), last)), Ok(0)))
}

pub fn model_count(case: &Case) -> Call<'_> {
    let last = umarekoza_model::count_fields(&case.table).map_or(0, |fields| fields - 1);
    Box::new(move || {
        assert_eq!(black_box(umarekoza_model::count_readers(black_box(&case.table), last)), Ok(0));
    })
}

pub fn model_check(case: &Case) -> Call<'_> {
    Box::new(|| assert!(black_box(umarekoza_model::check_table(black_box(&case.table))).is_ok()))
}

pub fn model_read(case: &Case) -> Call<'_> {
    Box::new(|| {
        let reading = umarekoza_model::read_packet(black_box(&case.table), black_box(&case.packet), RUN_MOST);
        assert!(black_box(reading).is_ok());
    })
}

pub fn model_write(case: &Case) -> Call<'_> {
    Box::new(|| assert!(black_box(umarekoza_model::write_table(black_box(&case.page), TABLE_MOST)).is_ok()))
}

pub fn plain(case: &Case, constraints: bool) -> Call<'_> {
    let accepted = Accepted::new(&case.table, &case.packet).expect("a case of the bench is accepted");
    let mut run = vec![0; RUN_MOST];
    Box::new(move || {
        black_box(black_box(&accepted).read(&mut run, constraints));
    })
}
