//! A picture of all blocks, a letter for each byte.

use crate::say::count;
use crate::survey::{Side, sides};
use model::block::{Block, HEADER, Replay};
use model::frame::{Body, Frame, Id};

pub const LEGEND: &str = concat!(
    "  H header     S settled value   P pending change   C commit, abort, reset\n",
    "  x used up    T torn frame      w being written    ? foreign   . blank\n",
    "  In front of each row: where it starts, counted from the image's start.\n",
);

const ROW: usize = 64;
const BLANK: char = '.';

pub fn picture(image: &[u8], blocks: u8) -> String {
    sides(image, blocks).iter().map(|side| format!("{}\n{}", side.name(), rows(side))).collect()
}

/// A block in rows; blank rows that follow each other are told in one.
pub fn rows(side: &Side) -> String {
    let letters = letters(side);
    let rows: Vec<&[char]> = letters.chunks(ROW).collect();
    let mut at = side.base;
    let mut picture = String::new();
    for rows in rows.chunk_by(|row, next| blank(row) && blank(next)) {
        let bytes = rows.iter().map(|row| row.len()).sum();
        let row =
            if blank(rows[0]) { format!("{} blank", count(bytes, "byte")) } else { rows[0].iter().collect() };
        picture += &format!("  {at:>5}  {row}\n");
        at += bytes;
    }
    picture
}

fn blank(row: &[char]) -> bool {
    row.iter().all(|letter| *letter == BLANK)
}

fn letters(side: &Side) -> Vec<char> {
    let programmed = |letter| -> Vec<char> {
        side.bytes.iter().map(|byte| if *byte == 0xFF { BLANK } else { letter }).collect()
    };
    match &side.block {
        Block::Blank => programmed(BLANK),
        Block::InProgress => programmed('w'),
        Block::Foreign => programmed('?'),
        Block::Valid(journal) => {
            let mut letters = programmed('T');
            letters[..HEADER].fill('H');
            let replay = model::block::replay(journal);
            for frame in &journal.frames {
                letters[frame.place.clone()].fill(letter(frame, &replay));
            }
            letters
        }
    }
}

fn letter(frame: &Frame, replay: &Replay) -> char {
    match &frame.body {
        Body::Commit(_) | Body::Abort(_) | Body::Reset => 'C',
        _ if replay.pending.contains(frame) => 'P',
        Body::Put(_, Id(id), value) | Body::Settled(Id(id), value)
            if replay.settled[usize::from(*id)].as_ref() == Some(value) =>
        {
            'S'
        }
        _ => 'x',
    }
}

#[cfg(test)]
mod tests {
    use super::*;
    use model::block;
    use model::edition::Edition::First;
    use model::frame::{Host, abort, closed, commit, delete, put, reset, settled};

    const HEAD: [u8; 16] = [16, 0, 1, 0x4A, 0xFE, 255, 255, 255, 0xFC, 255, 255, 255, 255, 255, 255, 255];

    fn side(bytes: &[u8]) -> Side<'_> {
        Side { word: "half", number: 0, base: 0, bytes, block: block::read(bytes) }
    }

    fn text(bytes: &[u8]) -> String {
        letters(&side(bytes)).into_iter().collect()
    }

    fn valid(frames: &[Vec<u8>], size: usize) -> Vec<u8> {
        let mut block = [HEAD.to_vec(), frames.concat()].concat();
        block.resize(size, 0xFF);
        block
    }

    #[test]
    fn a_letter_for_each_kind_of_byte() {
        let (zero, one) = (Host(0), Host(1));
        let frames = [
            settled(First, Id(1), b"a"),
            settled(First, Id(2), b""),
            put(First, zero, Id(2), b"b"),
            commit(First, zero),
            put(First, one, Id(3), b""),
            abort(First, one),
            delete(First, zero, Id(1)),
            closed(6),
            reset(First),
            delete(First, one, Id(1)),
            vec![9, 0, 1],
        ];
        let first = "HHHHHHHHHHHHHHHH SSSSSSSS xxxxxxx SSSSSSSSS CCCCCC xxxxxxxx CCCCCC";
        let expected = format!("{first} xxxxxxxx xxxxxx CCCCC PPPPPPPP TTT");
        assert_eq!(text(&valid(&frames, 112)).trim_end_matches('.'), expected.replace(' ', ""));
    }

    #[test]
    fn other_blocks() {
        let mut block = [0xFF; 20];
        assert_eq!(text(&block), "....................");
        block[8] = 0xFE;
        assert_eq!(text(&block), "........w...........");
        block[8] = 0x00;
        assert_eq!(text(&block), "........?...........");
    }

    #[test]
    fn only_blank_rows_are_folded() {
        // A value of 0xFF bytes fills the third row: it is written, so it is drawn.
        let frames =
            [settled(First, Id(1), &[0; 41]), settled(First, Id(2), &[0; 57]), settled(First, Id(3), &[255; 64])];
        let block = valid(&frames, 448);
        let full = |letters: &str| letters.repeat(64);
        let drawn = [
            format!("      0  {}{}\n", "H".repeat(16), "S".repeat(48)),
            format!("     64  {}\n    128  {}\n", full("S"), full("S")),
            format!("    192  {}{}\n    256  192 bytes blank\n", "S".repeat(7), ".".repeat(57)),
        ];
        assert_eq!(rows(&side(&block)), drawn.concat());
        let mut cut = [0xFF; 256];
        (cut[8], cut[255]) = (0xFE, 0);
        let [first, last] = [8, 63].map(|at| format!("{}w{}", ".".repeat(at), ".".repeat(63 - at)));
        let drawn = format!("      0  {first}\n     64  128 bytes blank\n    192  {last}\n");
        assert_eq!(rows(&side(&cut)), drawn);
        let blank = Side { word: "half", number: 1, base: 256, bytes: &[0xFF; 256], block: Block::Blank };
        assert_eq!(rows(&blank), "    256  256 bytes blank\n");
    }
}
