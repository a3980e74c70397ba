//! Records as the source documents print them, with their variable words
//! filled in: the volume header and trailer of a Magellan F-BIDR, and the
//! opening of a TOPEX pass file.

/// The 409 bytes of a volume header record.
pub fn volume_header() -> Vec<u8> {
    [
        "CCSD1Z000001",
        "00000389",
        "NJPL1K00HD00",
        "00000273",
        "MAJOR_DATA_CODE=SAR\r\n",
        "MINOR_DATA_CODE=F00376.01\r\n",
        "MISSION_CODE=MGN\r\n",
        "TAPE_WRITE_DOY=90/258-12:34:56.789\r\n",
        "CRTE_SYS_CODE=MOS\r\n",
        "CRTE_SBSYS_CODE=SDPS\r\n",
        "TAPE_CRTE_CODE=SDPS;0001.0012\r\n",
        "TAPE_CRTE_MTHD_NAME=OFFLINE\r\n",
        "TAPE_DENS_NUM=6250\r\n",
        "PHYS_REC_LEN=32500\r\n",
        "DATA_SRC_CODE=SAR_EDR.S01781\r\n",
        "CCSD1R000003",
        "00000076",
        "DELIMITER=SMARKER\r\n",
        "PRODUCT_NAME=F-BIDR \r\n",
        "TYPE=NJPL1I000104\r\n",
        "PROTOCOL=CCSDS\r\n",
    ]
    .concat()
    .into_bytes()
}

/// The 136 bytes of a volume trailer record.
pub fn volume_trailer() -> Vec<u8> {
    [
        "CCSD1Z000001",
        "00000116",
        "NJPL1K00HD00",
        "00000035",
        "TAPE_CLSD_DOY=90/258-23:45:01.234\r\n",
        "CCSD1R000003",
        "00000041",
        "DELIMITER=EMARKER\r\n",
        "PRODUCT_NAME=F-BIDR \r\n",
    ]
    .concat()
    .into_bytes()
}

/// A record of file 12: its label, the secondary header of eight bytes, and a
/// data block of 512 that begins with `opening`.
pub fn per_orbit_record(opening: &[u8]) -> Vec<u8> {
    let mut record = b"NJPL1I00010400000520".to_vec();
    // Type, length, orbit number, data class and annotation length.
    record.extend([1, 0, 4, 0, 0x78, 0x01, 1, 0]);
    record.extend(opening);
    record.resize(20 + 520, b' ');
    record
}

/// A pass file of so many records of 1,472 bytes, the first of which begins
/// with the pair of labels. The rest of it is blank.
pub fn pass_file(records: usize) -> Vec<u8> {
    let total = records * 1_472;
    let labels = format!("CCSD1Z000001{:08}NJPL1I00T001{:08}", total - 20, total - 40);
    let mut file = labels.into_bytes();
    file.resize(total, b' ');
    file
}
