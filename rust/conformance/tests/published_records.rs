//! Records as the source documents print them.

use conformance::generator::published::{
    pass_file, per_orbit_record, volume_header, volume_trailer,
};
use conformance::library::{INDEPENDENT, PROVED};
use crestulbino::{Kind, Versions};
use independent::label;
use independent::labelled::{check, leaves, read_row, Leaf};
use independent::orbit::{opening, Opening};
use independent::row_index::{self, Built};
use independent::window::{Nesting, Window};

const FIRST: label::Versions = label::Versions::First;

fn all_leaves(file: &[u8]) -> Vec<Leaf> {
    let passed: Result<Vec<Leaf>, _> = leaves(FIRST, file).unwrap().collect();
    passed.unwrap()
}

/// Value place, length, class and description of each row. Both implementations find its bytes
/// there, whether version 2 is allowed or not.
fn rows(file: &[u8]) -> Vec<(u64, u64, char, String)> {
    for (number, leaf) in all_leaves(file).iter().enumerate() {
        let (start, length) = (leaf.row.start as usize, leaf.row.length as usize);
        let told = [Versions::One, Versions::OneAndTwo].map(Kind::Labelled);
        for (library, kind) in [INDEPENDENT, PROVED]
            .iter()
            .flat_map(|l| told.map(|k| (l, k)))
        {
            let window = crestulbino::Window::new(0, length);
            let row = (library.read_row)(kind, file, number, window).unwrap();
            assert_eq!(
                (row.place, row.bytes),
                (start, &file[start..start + length])
            );
        }
    }
    all_leaves(file)
        .into_iter()
        .map(|leaf| {
            let description = String::from_utf8(leaf.label.description.to_vec()).unwrap();
            let class = char::from(leaf.label.class);
            (leaf.row.start, leaf.row.length, class, description)
        })
        .collect()
}

fn row(start: u64, length: u64, class: char, description: &str) -> (u64, u64, char, String) {
    (start, length, class, description.to_string())
}

#[test]
fn the_volume_header() {
    let header = volume_header();
    assert_eq!(header.len(), 409);
    assert_eq!(
        rows(&header),
        [row(40, 273, 'K', "HD00"), row(333, 76, 'R', "0003")]
    );
    // The byte ranges printed beside the fields.
    for (from, field) in [
        (40, "MAJOR_DATA_CODE="),
        (61, "MINOR_DATA_CODE="),
        (88, "MISSION_CODE="),
        (106, "TAPE_WRITE_DOY="),
        (142, "CRTE_SYS_CODE="),
        (161, "CRTE_SBSYS_CODE="),
        (183, "TAPE_CRTE_CODE="),
        (214, "TAPE_CRTE_MTHD_NAME="),
        (243, "TAPE_DENS_NUM="),
        (263, "PHYS_REC_LEN="),
        (283, "DATA_SRC_CODE="),
        (313, "CCSD1R000003"),
        (333, "DELIMITER=SMARKER"),
        (352, "PRODUCT_NAME="),
        (374, "TYPE="),
        (393, "PROTOCOL="),
    ] {
        assert!(header[from..].starts_with(field.as_bytes()), "{field}");
    }
    let window = read_row(FIRST, &header, 0, Window::new(61 - 40, 27)).unwrap();
    assert_eq!(window.place, 61);
    assert_eq!(window.bytes, b"MINOR_DATA_CODE=F00376.01\r\n");
}

#[test]
fn the_volume_trailer() {
    let trailer = volume_trailer();
    assert_eq!(trailer.len(), 136);
    assert_eq!(
        rows(&trailer),
        [row(40, 35, 'K', "HD00"), row(95, 41, 'R', "0003")]
    );
}

#[test]
fn both_records_end_to_end() {
    let file = [volume_header(), volume_trailer()].concat();
    let mut list = [0; 2];
    let built = Built {
        entries: 1,
        rows: 4,
    };
    assert_eq!(row_index::build(FIRST, &file, &mut list), Ok(built));
    assert_eq!(list, [20, 0]);
    for number in 0..4 {
        let window = Window::new(1, 20);
        let mut read = read_row(FIRST, &file, number, window).unwrap();
        let nesting = Nesting {
            depth: 2,
            outermost: if number < 2 { 0 } else { 409 },
        };
        assert_eq!(read.address.nesting.take(), Some(nesting));
        let jumped = row_index::jump(FIRST, &file, &list[..1], number, window);
        assert_eq!(jumped, Ok(read));
    }
}

#[test]
fn the_opening_stands_behind_the_secondary_header() {
    let mut block = vec![0x78, 0x01, 0, 0];
    block.extend([0x80, 0x40, 0, 0, 0, 0, 0, 0]);
    block.extend([0x80, 0xc0, 0, 0, 0, 0, 0, 0]);
    let record = per_orbit_record(&block);
    assert_eq!(rows(&record), [row(20, 520, 'I', "0104")]);
    let data = read_row(FIRST, &record, 0, Window::new(8, 512)).unwrap();
    assert_eq!(data.place, 28);
    let expected = Opening {
        orbit: 376,
        start: 1.0,
        stop: -1.0,
    };
    assert_eq!(opening(data.bytes), Ok(expected));
}

/// The printed example has 3,340 science and 418 engineering records behind
/// 27 header records.
#[test]
fn a_pass_file_of_the_printed_size() {
    let file = pass_file(3_340 + 418 + 27);
    assert_eq!(file.len(), 5_571_520);
    assert!(file.starts_with(b"CCSD1Z00000105571500NJPL1I00T00105571480"));
    assert_eq!(rows(&file), [row(40, 5_571_480, 'I', "T001")]);
    let last = read_row(FIRST, &file, 0, Window::new(5_571_479, 1)).unwrap();
    assert_eq!(last.place, 5_571_519);
    assert!(check(FIRST, &file[..file.len() - 1]).is_err());
}
