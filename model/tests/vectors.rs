//! The model agrees with every line of the vectors.

use std::fs;
use std::path::Path;
use umarekoza_model::protocol::answer;

fn agrees(file: &str, count: usize) {
    let path = Path::new(env!("CARGO_MANIFEST_DIR")).join("../vectors").join(file);
    let lines = fs::read_to_string(&path).unwrap();
    assert_eq!(lines.lines().count(), count);
    for (number, line) in lines.lines().enumerate() {
        let (request, expected) = line.split_once('\t').unwrap();
        assert_eq!(answer(request), expected, "{file}, line {}: {request}", number + 1);
    }
}

#[test]
fn base2() {
    agrees("base2.tsv", 200);
}

#[test]
fn large() {
    agrees("large.tsv", 24);
}

#[test]
fn r1() {
    agrees("r1.tsv", 300);
}

#[test]
fn r9() {
    agrees("r9.tsv", 150);
}

#[test]
fn r4() {
    agrees("r4.tsv", 400);
}

#[test]
fn r5() {
    agrees("r5.tsv", 300);
}

#[test]
fn tables() {
    agrees("tables.tsv", 512);
}

#[test]
fn packets() {
    agrees("packets.tsv", 494);
}

#[test]
fn spelled() {
    agrees("spelled.tsv", 94);
}

#[test]
fn edge() {
    agrees("edge.tsv", 389);
}

#[test]
fn mutated() {
    agrees("mutated.tsv", 540);
}

#[test]
fn r10() {
    agrees("r10.tsv", 47);
}

#[test]
fn r2() {
    agrees("r2.tsv", 181);
}

#[test]
fn r7() {
    agrees("r7.tsv", 187);
}
