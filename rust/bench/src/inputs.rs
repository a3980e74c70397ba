//! What is measured on. All of it is written before anything is measured.

/// The rows of the labelled file.
pub const ROWS: usize = 200_000;

/// The rows of the waveform file.
pub const WAVEFORM_ROWS: usize = 10_000;

/// The rows of the burst file, and the place of the first one.
pub const BURST_ROWS: usize = 10_000;
pub const BURST_START: usize = 1_272;

/// A small source of numbers (xorshift), the same each time.
pub struct Numbers(u64);

impl Numbers {
    pub fn new() -> Numbers {
        Numbers(0x9e37_79b9_7f4a_7c15)
    }

    pub fn below(&mut self, limit: usize) -> usize {
        self.0 ^= self.0 << 13;
        self.0 ^= self.0 >> 7;
        self.0 ^= self.0 << 17;
        (self.0 >> 11) as usize % limit
    }
}

/// How a length is written into a label's last eight bytes, and the version that this makes it.
#[derive(Clone, Copy)]
pub struct Form {
    version: u8,
    field: fn(usize) -> [u8; 8],
}

pub const DIGITS: Form = Form {
    version: b'1',
    field: |length| eight(format!("{length:08}")),
};

pub const SPACES_AND_DIGITS: Form = Form {
    version: b'1',
    field: |length| eight(format!("{length:8}")),
};

pub const BINARY: Form = Form {
    version: b'2',
    field: |length| (length as u64).to_be_bytes(),
};

fn eight(text: String) -> [u8; 8] {
    let bytes = text.into_bytes();
    bytes.try_into().expect("a length of eight bytes")
}

/// A labelled file of rows of 0 to 63 bytes: ten to a group, ten groups to a group.
pub fn labelled(numbers: &mut Numbers, form: Form) -> Vec<u8> {
    let mut file = Vec::new();
    let mut rows = 0;
    while rows < ROWS {
        let mut outer = Vec::new();
        for _ in 0..10 {
            let mut inner = Vec::new();
            for _ in 0..10 {
                let value = vec![b'v'; numbers.below(64)];
                object(b"NJPL.I00DEMO", &value, form, &mut inner);
                rows += 1;
            }
            object(b"CCSD.Z000001", &inner, form, &mut outer);
        }
        object(b"CCSD.Z000001", &outer, form, &mut file);
    }
    file
}

/// A labelled file of so many rows of any bytes, each of this size: ten to a group.
pub fn rows_of_size(numbers: &mut Numbers, rows: usize, size: usize) -> Vec<u8> {
    let mut file = Vec::new();
    for _ in 0..rows / 10 {
        let mut inside = Vec::new();
        for _ in 0..10 {
            let value: Vec<u8> = (0..size).map(|_| numbers.below(256) as u8).collect();
            object(b"NJPL.I00DEMO", &value, DIGITS, &mut inside);
        }
        object(b"CCSD.Z000001", &inside, DIGITS, &mut file);
    }
    file
}

fn object(head: &[u8; 12], value: &[u8], form: Form, file: &mut Vec<u8>) {
    file.extend(label(head, value.len(), form));
    file.extend(value);
}

fn label(head: &[u8; 12], length: usize, form: Form) -> [u8; 20] {
    let mut label = [0; 20];
    label[..12].copy_from_slice(head);
    label[4] = form.version;
    label[12..].copy_from_slice(&(form.field)(length));
    label
}

/// Labels of values of 0 to 63 bytes.
pub fn labels(numbers: &mut Numbers, count: usize, form: Form) -> Vec<[u8; 20]> {
    let lengths = (0..count).map(|_| numbers.below(64));
    lengths
        .map(|length| label(b"NJPL.I00DEMO", length, form))
        .collect()
}

pub fn waveform(numbers: &mut Numbers) -> Vec<u8> {
    let bytes = 0..WAVEFORM_ROWS * 2_080;
    bytes.map(|_| numbers.below(256) as u8).collect()
}

pub fn bursts(numbers: &mut Numbers) -> Vec<u8> {
    let bytes = 0..BURST_START + BURST_ROWS * 1_272;
    bytes.map(|_| numbers.below(256) as u8).collect()
}

/// VAX D numbers, none of them reserved.
pub fn vax_numbers(numbers: &mut Numbers, count: usize) -> Vec<[u8; 8]> {
    let mut number = || {
        let mut bytes = [0; 8].map(|_: u8| numbers.below(256) as u8);
        bytes[1] |= 0x40;
        bytes
    };
    (0..count).map(|_| number()).collect()
}
