//! The reader against 01's table, and the two readers against one another.

use harness::{
    damage,
    house::{self, CUT, FULL, Fault, SHAPE, TAG, WIRE},
    second_reader,
    system::System,
};

fn bytes(hex: &str) -> Vec<u8> {
    hex.split_whitespace().map(|byte| u8::from_str_radix(byte, 16).expect("hex")).collect()
}

fn refused(hex: &str, refusal: u8, offset: usize) {
    let file = bytes(hex);
    let expected = Fault { refusal, offset };
    assert_eq!(house::read(&file), Err(expected), "{hex}");
    assert_eq!(second_reader::read(&file), Err(expected), "{hex}");
}

#[test]
fn least_good_file() {
    assert_eq!(house::read(&bytes("01 02 00 01 00 07 00 00")), Ok(System::new(1)));
}

#[test]
fn the_first_operand_may_take_the_whole_payload() {
    refused("01 02 00 01 00 02 08 00 01 00 05 00 00 00 00 00 07 00 00", WIRE, 5);
}

#[test]
fn cut_comes_before_tag_and_tag_before_payload() {
    refused("", CUT, 0);
    refused("09 00", CUT, 0);
    refused("09 FF FF", TAG, 0);
    refused("01 02 00 01", CUT, 0);
    refused("01 02 00 01 00", CUT, 5);
    refused("01 02 00 01 00 01 02 00 01 00 07 00 00", TAG, 5);
}

#[test]
fn end_field() {
    refused("01 02 00 01 00 07 01 00 00", SHAPE, 5);
    refused("01 02 00 01 00 07 00 00 07", SHAPE, 8);
}

#[test]
fn wire_counts() {
    refused("01 02 00 00 00 07 00 00", FULL, 0);
    refused("01 02 00 01 10 07 00 00", FULL, 0);
    refused("01 01 00 01 07 00 00", SHAPE, 0);
    refused("01 03 00 00 00 00 07 00 00", SHAPE, 0);
}

#[test]
fn the_destination_comes_before_the_right_side() {
    refused("01 02 00 01 00 06 04 00 01 00 FF FF 07 00 00", WIRE, 5);
    refused("01 02 00 01 00 06 04 00 00 00 FF FF 07 00 00", SHAPE, 5);
}

#[test]
fn damaged_files_are_refused_as_they_were_damaged() {
    let read = damage::run(0, 60);
    assert_eq!(read.differences, 0);
    assert!(read.known > 50_000 && read.mutated > 10_000, "{read:?}");
    assert!((1..=6).all(|refusal| read.refused[refusal] > 100), "{read:?}");
}

#[test]
fn written_files_read_back() {
    for (name, system) in harness::examples::all() {
        let file = house::write(&system).expect("no field is too wide");
        assert_eq!(house::read(&file), Ok(system), "{name}");
    }
}
