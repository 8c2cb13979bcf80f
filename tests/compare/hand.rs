//! Document 01's examples and some neighbours, reasoned by hand: first the reference is held
//! against them, then the program under test.

use crate::counts::Counts;
use crate::report::{compare, same};
use reference::announce::answer_line;
use reference::program::answer;
use std::path::Path;

/// One input and the output that document 01 gives for it.
struct Case {
    name: &'static str,
    input: Vec<u8>,
    output: &'static str,
}

/// Table A and its listing, as they stand in document 01.
pub const TABLE_A: &str =
    "01 01 01 02 02 01 03 01 00 03 00 01 04 01 25 13 00 14 00 FF 00 00 00 00 \
                           04 02 26 13 00 14 00 01 07 00 00 00";
const LISTING_A: &str = "v 1 0 fffffffa\nv 1 1 0000000a\nv 2 0 00000000\nv 1 2 ffffffff\n\
                         v 2 1 00000001\nt 2 1\nv 2 2 00000000\nend 3\n";

/// One word input, outputs y = 1 and z = 2, all words: the frame of P6 to P10.
const Y_AND_Z: &str = "01 01 01 02 02 01 03 01 00 03 01 00 ";
/// P10: y = at(z,1,7), z = at(y,-2,5).
const P10: &str = "04 01 14 02 01 07 00 00 00 04 02 14 01 FE 05 00 00 00";

pub fn check(program: &Path, counts: &mut Counts) -> Result<(), String> {
    check_announcements()?;
    for case in cases() {
        let text = answer(&case.input).text;
        let name = format!("the reference itself, {}", case.name);
        same(&name, &case.input, case.output.as_bytes(), text.as_bytes())?;
        compare(program, case.name, &case.input, None, counts)?;
    }
    Ok(())
}

/// P1, P8, P10 and the thirty-one inputs: numbers that the program doesn't print.
fn check_announcements() -> Result<(), String> {
    let p8 = format!("{Y_AND_Z} 04 01 14 01 FF 09 00 00 00 04 02 11 00 00 00 00");
    let p10 = format!("{Y_AND_Z} {P10}");
    let brim = format!(
        "0 0 look {} kept {}97 words 4096 room 10 closing 0",
        vec!["0"; 32].join(" "),
        "129 ".repeat(31)
    );
    let expectations = [
        ("P1", bytes(TABLE_A), "0 0 look 0 0 1 kept 2 1 1 words 4 room 26 closing 1"),
        ("P8", bytes(&p8), "0 0 look 0 0 0 kept 1 2 1 words 4 room 20 closing 0"),
        ("P10", bytes(&p10), "0 0 look 0 1 0 kept 1 2 1 words 4 room 20 closing 1"),
        ("thirty-one inputs, self at -96", thirty_one_inputs(-96), &brim),
        ("thirty-one inputs, self at -97", thirty_one_inputs(-97), "8 0"),
    ];
    for (name, table, expected) in expectations {
        let found = answer_line(&table);
        if found != expected {
            return Err(format!("the reference, {name}\nexpected {expected}\nfound    {found}"));
        }
    }
    Ok(())
}

fn cases() -> Vec<Case> {
    let case = |name, input, output| Case { name, input, output };
    let a = bytes(TABLE_A);
    let y_and_z = |equations: &str| bytes(&format!("{Y_AND_Z} {equations}"));
    let z_constant = "04 02 11 02 00 00 00";
    vec![
        case("P2 and P3", input_a(&[4294967290, 4, 3]), LISTING_A),
        // ahead(5, 7): 5 - 7 is 2^32 - 2, above 2^31 - 1.
        case("P4", input_a(&[5]), "v 1 0 00000005\nv 2 0 00000000\nend 1\n"),
        case(
            "P5",
            input(&ahead_of_two(), &[0x7FFFFFFF, 0, 0x80000000, 0, 0, 0x80000000, 0, !0]),
            P5,
        ),
        case("P6", input(&y_and_z(&format!("04 01 13 01 {z_constant}")), &[1]), "r 7 1\n"),
        case(
            "P7",
            input(&y_and_z(&format!("04 01 14 01 01 00 00 00 00 {z_constant}")), &[1]),
            "r 7 1\n",
        ),
        // y is its default at 0 and its own last value after that.
        case(
            "P8",
            input(&y_and_z(&format!("04 01 14 01 FF 09 00 00 00 {z_constant}")), &[1, 1]),
            "v 1 0 00000009\nv 2 0 00000002\nv 1 1 00000009\nv 2 1 00000002\nend 2\n",
        ),
        case(
            "P9",
            input(&y_and_z("04 01 14 02 01 00 00 00 00 04 02 14 01 FF 00 00 00 00"), &[1]),
            "r 7 1\n",
        ),
        // z is 5, 5, y(0); y is z(1), z(2), 7; y comes one turn later than z.
        case(
            "P10",
            input(&y_and_z(P10), &[1, 2, 3]),
            "v 2 0 00000005\nv 1 0 00000005\nv 2 1 00000005\nv 1 1 00000005\nv 2 2 00000005\n\
             v 1 2 00000007\nend 3\n",
        ),
        case(
            "P11",
            input(&quotient(), &[0, 0, 0x3F800000, 0]),
            "v 2 0 7fc00000\nv 2 1 7f800000\nend 2\n",
        ),
        case("thirty-one inputs, self at -96", input(&thirty_one_inputs(-96), &[]), "end 0\n"),
        case("thirty-one inputs, self at -97", input(&thirty_one_inputs(-97), &[]), "r 8 0\n"),
        case("no rows, then closing", input(&a, &[]), "end 0\n"),
        case("empty input", vec![], "s 0\n"),
        case("one byte of head", vec![0x60], "s 1\n"),
        case("first byte 61", vec![0x61], "r 3 0\n"),
        case("length 0", vec![0x60, 0, 0], "r 1 0\n"),
        case("length 4,097", vec![0x60, 0x01, 0x10], "r 1 0\n"),
        case("no byte of a table", vec![0x60, 0x00, 0x10], "s 3\n"),
        case("table cut", input(&a, &[])[..38].to_vec(), "s 38\n"),
        // 39 bytes of head and table, 4 of a row, 3 of a part row.
        case(
            "part row",
            input_a(&[5, 6])[..46].to_vec(),
            "v 1 0 00000005\ns 46\nv 2 0 00000000\nend 1\n",
        ),
        // A flag input and a trigger that repeats it; the row of 2 takes no position.
        case(
            "refused row",
            input(&bytes("01 01 01 01 02 00 03 00 01 04 01 13 00"), &[1, 2, 0]),
            "v 1 0 00000001\nt 1 0\nr 15 0\nv 1 1 00000000\nend 2\n",
        ),
    ]
}

const P5: &str = "v 2 0 00000001\nt 2 0\nv 2 1 00000000\nv 2 2 00000000\nv 2 3 00000001\nt 2 3\n\
                  end 4\n";

/// Two words and the trigger ahead(now(0), now(1)).
fn ahead_of_two() -> Vec<u8> {
    bytes("01 01 02 01 02 01 02 01 03 00 01 04 02 26 13 00 13 01")
}

/// Two levels and their quotient.
fn quotient() -> Vec<u8> {
    bytes("01 01 02 01 02 02 02 02 03 02 00 04 02 2E 13 00 13 01")
}

/// Thirty-one word inputs, each read at -128 by output 31, which also reads itself at `own`. Four
/// sums of eight references each keep it within 16 levels.
fn thirty_one_inputs(own: i8) -> Vec<u8> {
    let mut table = vec![0x01, 1, 31, 1];
    table.extend([0x02, 1].repeat(31));
    table.extend([0x03, 1, 0, 0x04, 31, 0x24, 0x24]);
    for eight in 0..4 {
        if eight == 2 {
            table.push(0x24);
        }
        table.extend([0x24; 7]);
        for stream in 8 * eight..8 * eight + 8 {
            let offset = if stream == 31 { own } else { -128 };
            table.extend([0x14, stream, offset as u8, 0, 0, 0, 0]);
        }
    }
    table
}

/// Head, table and rows, the rows' words one after another.
pub fn input(table: &[u8], words: &[u32]) -> Vec<u8> {
    let mut input = vec![0x60];
    input.extend((table.len() as u16).to_le_bytes());
    input.extend(table);
    input.extend(words.iter().flat_map(|word| word.to_le_bytes()));
    input
}

pub fn input_a(words: &[u32]) -> Vec<u8> {
    input(&bytes(TABLE_A), words)
}

/// The bytes of a listing in hex.
pub fn bytes(listing: &str) -> Vec<u8> {
    let byte = |pair| u8::from_str_radix(pair, 16).expect("two hex digits");
    listing.split_whitespace().map(byte).collect()
}
