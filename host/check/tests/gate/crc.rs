//! K9: the CRC-32 of model and plain, each with code of its own, against the published check value and gzip's.

use check::rng::Rng;
use std::io::{ErrorKind, Write};
use std::process::{Command, Stdio};

/// The CRC that both say.
fn agreed(bytes: &[u8]) -> u32 {
    let sum = model::edition::crc(bytes);
    assert_eq!(plain::crc(bytes), sum.to_le_bytes(), "{bytes:?}");
    sum
}

/// What gzip writes of these bytes, if there is a gzip: its output ends with their CRC and their number, four bytes each.
fn gzip(bytes: &[u8]) -> Option<u32> {
    let run = Command::new("gzip").args(["-c", "-1"]).stdin(Stdio::piped()).stdout(Stdio::piped()).spawn();
    let mut run = match run {
        Err(error) if error.kind() == ErrorKind::NotFound => return None,
        run => run.expect("gzip runs"),
    };
    run.stdin.take().expect("piped").write_all(bytes).expect("gzip reads");
    let output = run.wait_with_output().expect("gzip ends").stdout;
    let (_, [sum @ .., n0, n1, n2, n3]) = output.split_last_chunk::<8>().expect("a trailer");
    assert_eq!(u32::from_le_bytes([*n0, *n1, *n2, *n3]) as usize, bytes.len());
    Some(u32::from_le_bytes(*sum))
}

#[test]
fn the_published_check_value() {
    assert_eq!(agreed(b"123456789"), 0xCBF4_3926);
}

/// Every byte alone, stretches of one byte, all lengths of a frame's bytes, and longer ones: 0xFF and 0x00 among them.
#[test]
fn as_gzip_has_it() {
    let mut rng = Rng::new(9);
    let random: Vec<Vec<u8>> = (0..=60).map(|size| rng.bytes(size * 5)).collect();
    let alike = [0x00, 0xFF, 0xFE, 0x01].into_iter().flat_map(|byte| [1, 4, 5, 247].map(|size| vec![byte; size]));
    let all: Vec<u8> = (0..=255).collect();
    for bytes in alike.chain(random).chain([all, rng.bytes(65_536)]) {
        let Some(sum) = gzip(&bytes) else {
            eprintln!("there is no gzip to compare with");
            return;
        };
        assert_eq!(agreed(&bytes), sum, "{bytes:?}");
    }
}

/// The two against each other, on many more.
#[test]
fn model_and_plain() {
    let mut rng = Rng::new(10);
    for byte in 0..=255 {
        agreed(&[byte]);
    }
    for _ in 0..20_000 {
        let size = rng.below(260);
        agreed(&rng.bytes(size));
    }
}
