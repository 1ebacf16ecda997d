//! Packets written in hexadecimal, and dumps.

mod common;

use common::*;

#[test]
fn groups_and_separators() {
    let place = Place::new("groups");
    for right in [
        "62 07 01 2C AA BB 00 09\n",
        "6207 012c\r\n\taabb0009",
        "62:07:01:2c:aa:bb:00:09\n",
        "0x62, 0x07, 0x01, 0x2C,\n0xAA, 0xBB, 0x00, 0x09\n",
        "0x62070x",
    ] {
        let left = place.run_on(&["read", "--hex", "page", "-"], right.as_bytes());
        match right {
            "0x62070x" => {
                left.left(2, "", "umarekoza: standard input: line 1, column 8: `x` is no hexadecimal digit\n")
            }
            _ => left.accepted(M1_LISTING),
        }
    }
}

#[test]
fn digits_come_in_pairs_within_a_group() {
    let place = Place::new("pairs");
    let cases = [
        ("62 7 1", "line 1, column 4: an odd number of digits, 1: they come in pairs"),
        ("62 07\n012", "line 2, column 1: an odd number of digits, 3: they come in pairs"),
        ("62 07 0g", "line 1, column 8: `g` is no hexadecimal digit"),
        ("62;07", "line 1, column 3: `;` is no hexadecimal digit"),
        ("62,,07", "line 1, column 4: `,` stands between bytes only"),
        ("62 07:", "line 1, column 6: no byte follows `:`"),
        ("\x07", "line 1, column 1: the byte 07 is no hexadecimal digit"),
    ];
    for (written, wrong) in cases {
        place.put("packet", written);
        let message = format!("umarekoza: packet: {wrong}\n");
        place.run(&["read", "--hex", "page", "packet"]).left(2, "", &message);
        place.run(&["bytes", "--hex", "page", "packet", "Sum"]).left(2, "", &message);
    }
}

#[test]
fn dumps_are_read_by_their_columns() {
    let place = Place::new("dumps");
    let dump = "00000000: 6207 012c aabb 0009                      b..,....\n";
    place.run_on(&["read", "--hex", "page", "-"], dump.as_bytes()).accepted(M1_LISTING);
    let short = "00000000: 62 07 01  b..\n00000003: 2c aa bb  ,..\n00000006: 00 09     ..\n";
    place.run_on(&["read", "--hex", "page", "-"], short.as_bytes()).accepted(M1_LISTING);
    let cases = [
        (dump.replace("6207", "620"), "line 1, column 11: an odd number of digits, 3: they come in pairs"),
        (
            short.replace("00000003", "00000004"),
            "line 2, column 1: the offset is 4, and 3 is due: lines are missing",
        ),
        (
            short.replace("00000006: 00", "00"),
            "line 3, column 1: a line of a dump begins with its offset and `: `",
        ),
        (
            "00000000: 2c010762 0900bbaa                    b..,....\n".to_string(),
            "line 1, column 28: the text does not show these bytes: a dump as plain `xxd` prints it is due",
        ),
    ];
    for (written, wrong) in cases {
        let message = format!("umarekoza: standard input: {wrong}\n");
        place.run_on(&["read", "--hex", "page", "-"], written.as_bytes()).left(2, "", &message);
    }
}
