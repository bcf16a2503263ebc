//! Writes the points that are run on both sides, one line for each, to
//! standard output.

use reference::{checksum, clock::Clock, frame, Refusal};

/// The SCSI read command of RFC 3720, B.4.
const READ_COMMAND: [u8; 48] = [
    0x01, 0xC0, 0, 0, 0, 0, 0, 0, 0, 0, 0, 0, 0, 0, 0, 0, 0x14, 0, 0, 0, 0, 0, 4, 0, 0, 0, 0, 0x14,
    0, 0, 0, 0x18, 0x28, 0, 0, 0, 0, 0, 0, 0, 2, 0, 0, 0, 0, 0, 0, 0,
];

fn main() {
    print_checksums();
    println!("clock at L = 65535, send at P: {}", send_at_p());
    print_frames();
    print_limits();
    println!("fmix32(0): {:08x}", checksum::fmix32(0));
}

fn print_checksums() {
    let ascending: Vec<u8> = (0..32).collect();
    let descending: Vec<u8> = (0..32).rev().collect();
    let inputs: [(&str, &[u8]); 5] = [
        ("32 bytes of 00", &[0; 32]),
        ("32 bytes of ff", &[0xFF; 32]),
        ("00 to 1f", &ascending),
        ("1f to 00", &descending),
        ("the read command", &READ_COMMAND),
    ];
    for (name, bytes) in inputs {
        println!("crc32c of {name}: {:08x}", checksum::crc32c(bytes));
    }
}

/// With the clock that is handed back.
fn send_at_p() -> String {
    let clock = Clock {
        phys: 1000,
        logical: u16::MAX,
        ..Clock::fresh(1)
    };
    let (answer, after) = match clock.send(clock.phys) {
        Ok(after) => ("a stamp".to_string(), after),
        Err(refusal) => (refused(refusal), clock),
    };
    let Clock {
        phys,
        logical,
        node,
        skew,
    } = after;
    format!("{answer}, clock {phys} {logical} {node} {skew}")
}

fn print_frames() {
    let mut out = [0; frame::FRAME_MAX];
    let answer = frame::write_get(&mut out, b"k1");
    println!("get k1: {}\n{}", wrote(answer, &out), hex(&out[..11]));
    let mut out = [0; frame::FRAME_MAX];
    let answer = frame::write_not_found(&mut out);
    println!("not found: {}\n{}", wrote(answer, &out), hex(&out[..8]));
}

fn print_limits() {
    for length in [512, 513] {
        let mut out = [0; frame::FRAME_MAX];
        let answer = frame::write_value(&mut out, &vec![b'v'; length]);
        println!("value of {length}: {}", wrote(answer, &out));
    }
    for length in [64, 65] {
        let mut out = [0; frame::FRAME_MAX];
        let answer = frame::write_get(&mut out, &vec![b'k'; length]);
        println!("key of {length}: {}", wrote(answer, &out));
    }
}

/// What a writer answered, and the checksum of the whole buffer.
fn wrote(answer: Result<usize, Refusal>, out: &[u8]) -> String {
    let answer = match answer {
        Ok(length) => format!("{length} bytes"),
        Err(refusal) => refused(refusal),
    };
    format!("{answer}, buffer {:08x}", checksum::crc32c(out))
}

fn refused(refusal: Refusal) -> String {
    format!("refusal {}", refusal.number())
}

fn hex(bytes: &[u8]) -> String {
    bytes.iter().map(|byte| format!("{byte:02x}")).collect()
}
