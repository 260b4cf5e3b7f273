//! Images of more than two blocks (K14): scripts, and what `show` says to people.

use super::{COMMIT, HEADER, PUT, check, image_of, run};

/// A header of time 2.
const SECOND: &str = "1000014afdfffffffcffffffffffffff";
const NO_ERASE: &str = "the next step is no erase";

fn hex(image: &[u8]) -> String {
    image.iter().map(|byte| format!("{byte:02x}")).collect()
}

/// Lines that cannot be read are answered with where they stand, which is filled in here.
fn check_lines(pairs: &[(&str, &str)]) {
    let answers = pairs.iter().zip(1..).map(|((line, answer), number)| match answer.strip_prefix("? ") {
        Some(why) => (*line, format!("? line {number}: {why}")),
        None => (*line, answer.to_string()),
    });
    let answers: Vec<_> = answers.collect();
    check(&answers.iter().map(|(line, answer)| (*line, &answer[..])).collect::<Vec<_>>());
}

/// The desk's own example: a put cut after three bytes, a step under another number of blocks, equal times, a cut format.
#[test]
fn three_blocks() {
    check(&[
        ("new 768 3", "ok"),
        ("format", "more"),
        ("run", "0 steps=13"),
        ("record", "idle len=768 half=0 end=16 blocks=3 edition=1 pending=0,0,0,0"),
        ("req 0 0800010105004142 0", "more"),
        ("step 3", "more"),
        ("blocks 2", "ok"),
        ("step", "11"),
        ("blocks 3", "ok"),
        ("mount", "more"),
        ("run", "0 steps=3"),
        ("record", "idle len=768 half=0 end=26 blocks=3 edition=1 pending=0,0,0,0"),
        ("poke 512 1000014afefffffffc", "ok"),
        ("mount", "3 half=0 fault=time place=4"),
        ("poke 512 1000014afdfffffffc", "ok"),
        ("mount", "more"),
        ("format", "more"),
        ("step 2", "more"),
        ("mount", "0"),
    ]);
}

/// 4 comes before 5 and 11, 5 before 11. What is refused stays as it was, and goes on under the right number.
#[test]
fn calls_under_another_number() {
    check(&[
        ("new 768 3", "ok"),
        ("format", "more"),
        ("run", "0 steps=13"),
        ("req 0 0800010105004142 0", "more"),
        ("step 3", "more"),
        ("blocks 2", "ok"),
        ("step", "11"),
        ("run", "11 steps=0"),
        ("req 0 0500060101 14", "5"),
        ("blocks 0", "ok"),
        ("step", "11"),
        ("req 0 0500060101 14", "4"),
        ("blocks 3", "ok"),
        ("run", "0 steps=7"),
        // blocks of 128 bytes
        ("blocks 6", "ok"),
        ("req 0 0500060101 14", "4"),
        ("blocks 2", "ok"),
        ("req 0 0500060101 14", "11"),
        ("req 0 060005010500 0", "11"),
        ("req 0 - 0", "11"),
        // A record without a job has no step to refuse.
        ("step", "0"),
        ("run", "0 steps=0"),
        ("blocks 3", "ok"),
        ("req 0 04000301 0", "more"),
        ("run", "0 steps=6"),
        ("read 2 060005010500", "0 at=23 len=2"),
        ("idle 768 0 32 place=5:16 blocks=2", "ok"),
        ("read 0 060005010500", "11"),
        ("poke 512 1000014afefffffffc", "ok"),
        ("mount", "3 half=0 fault=time place=4"),
        ("new 512 17", "ok"),
        ("mount", "4"),
    ]);
}

/// The lengths that each number of blocks allows: S is a multiple of 128 from 256 up.
#[test]
fn lengths_and_numbers() {
    for (length, blocks, allowed) in [
        (768, 3, true),
        (1_152, 3, true),
        (1_024, 3, false),
        (1_920, 5, true),
        (4_096, 16, true),
        (65_536, 16, true),
        (65_536, 7, false),
        (64_512, 7, true),
        (4_352, 17, false),
        (256, 1, false),
        (65_280, 255, false),
        (0, 0, false),
        (512, 0, false),
    ] {
        let format = if allowed { "more" } else { "4" };
        let steps = format!("0 steps={}", if allowed { blocks + 10 } else { 0 });
        check(&[(&format!("new {length} {blocks}"), "ok"), ("format", format), ("run", &steps)]);
    }
    check(&[("new 512", "ok"), ("format", "more"), ("run", "0 steps=12")]);
    for blocks in 2..=16 {
        let (new, steps) = (format!("new {} {blocks}", 384 * blocks), format!("0 steps={}", blocks + 10));
        let record = format!("idle len={} half=0 end=16 blocks={blocks} edition=1 pending=0,0,0,0", 384 * blocks);
        check(&[(&new, "ok"), ("format", "more"), ("run", &steps), ("record", &record)]);
    }
}

#[test]
fn numbers_and_fields_that_cannot_be_read() {
    check_lines(&[
        ("new 1024 4", "ok"),
        ("format", "more"),
        ("run", "0 steps=14"),
        ("new 512 256", "? 256 is more than 255"),
        ("image ff x", "? x is no number"),
        ("new 512 2 2", "? new goes with LEN [BLOCKS]"),
        ("load /dev/null 2 2", "? load goes with FILE [BLOCKS]"),
        ("blocks", "? blocks goes with BLOCKS"),
        ("blocks 256", "? 256 is more than 255"),
        ("blocks -", "? - is no number"),
        ("idle 512 0 16 blocks=256", "? 256 is more than 255"),
        ("idle 512 0 16 blocks=", "? blocks= is no field of a record"),
        ("idle 512 0 16 blocks", "? blocks is no field of a record"),
        ("idle 512 0 16 \"blocks=2\"", "? \"blocks=2\" is no field of a record"),
        ("idle 512 0 16 2", "? 2 is no field of a record"),
        ("idle 512 0 16 edition=0", "? 0 is less than 1"),
        ("idle 512 0 16 edition=3", "? 3 is more than 2"),
        ("idle 512 0 16 edition=", "? edition= is no field of a record"),
        ("idle 512 0 16 edition=1 edition=2", "? edition=2 is there twice"),
        ("idle 512 0 16 blocks=2 blocks=2", "? blocks=2 is there twice"),
        ("idle 512 0 16 pending=0,0,0,0 pending=0,0,0,0", "? pending=0,0,0,0 is there twice"),
        ("idle 512 0 16 blocks=2 pending=0,0,0,0 edition=1 blocks=2", "? blocks=2 is there twice"),
        ("idle 512 0 16 pending=", "? pending= is no field of a record"),
        ("idle 512 0 16 pending=0", "? 0 is not four numbers with commas between them"),
        ("idle 512 0 16 pending=0,0,0", "? 0,0,0 is not four numbers with commas between them"),
        ("idle 512 0 16 pending=0,0,0,0,0", "? 0,0,0,0,0 is not four numbers with commas between them"),
        ("idle 512 0 16 pending=0,0,65536,0", "? 65536 is more than 65535"),
        ("idle 512 0 16 pending=0,0,-1,0", "? -1 is no number"),
        ("record", "idle len=1024 half=0 end=16 blocks=4 edition=1 pending=0,0,0,0"),
        ("put 0 1 -", "more"),
    ]);
}

/// What `record` prints puts that record back; without its field the number is the board's.
#[test]
fn records_there_and_back() {
    check(&[
        ("new 1024 4", "ok"),
        ("format", "more"),
        ("run", "0 steps=14"),
        ("idle 1024 3 99 blocks=0", "ok"),
        ("record", "idle len=1024 half=3 end=99 blocks=0 edition=1 pending=0,0,0,0"),
        ("req 0 04000301 0", "11"),
        ("idle 1024 0 16 blocks=255", "ok"),
        ("record", "idle len=1024 half=0 end=16 blocks=255 edition=1 pending=0,0,0,0"),
        ("idle 1024 0 16", "ok"),
        ("record", "idle len=1024 half=0 end=16 blocks=4 edition=1 pending=0,0,0,0"),
        ("req 0 04000301 0", "0"),
        ("blocks 2", "ok"),
        ("record", "idle len=1024 half=0 end=16 blocks=4 edition=1 pending=0,0,0,0"),
        ("idle 1024 0 16", "ok"),
        ("record", "idle len=1024 half=0 end=16 blocks=2 edition=1 pending=0,0,0,0"),
        // Blocks 2 and 3 are one half now, and blank.
        ("req 0 04000301 0", "0"),
        // An image has two blocks if nothing else is said, whatever the one before had.
        ("blocks 4", "ok"),
        ("image ff", "ok"),
        ("idle 1 0 0", "ok"),
        ("record", "idle len=1 half=0 end=0 blocks=2 edition=1 pending=0,0,0,0"),
        ("image ff 9", "ok"),
        ("idle 1 0 0", "ok"),
        ("record", "idle len=1 half=0 end=0 blocks=9 edition=1 pending=0,0,0,0"),
        ("load /dev/null", "ok"),
        ("idle 1 0 0", "ok"),
        ("record", "idle len=1 half=0 end=0 blocks=2 edition=1 pending=0,0,0,0"),
    ]);
}

/// A transfer goes to the next block, round to 0, and its erase is that of the block it came from.
#[test]
fn transfers_go_round() {
    // Half a block, aborted: the next such put begins with a transfer of nothing, 16 - 5 steps.
    let (value, put) = ("77".repeat(120), format!("put 2 5 {}", "77".repeat(120)));
    let mut lines = vec![("new 1024 4", "ok"), ("format", "more"), ("run", "0 steps=14")];
    lines.extend([(&put[..], "more"), ("run", "0 steps=128")]);
    let records = [1, 2, 3, 0, 1]
        .map(|block| format!("idle len=1024 half={block} end=144 blocks=4 edition=1 pending=0,0,128,0"));
    for record in &records {
        lines.extend([("abort 2", "more"), ("run", "0 steps=6"), (&put, "more"), ("run", "0 steps=139")]);
        lines.push(("record", record));
    }
    let last = format!("1000014af9fffffffcffffffffffffff80000100020500{value}fe");
    let image = format!("image={}", hex(&image_of(256, ["", &last, "", ""])));
    lines.push(("dump", &image));
    check(&lines);
}

/// A mount erases every block that is not blank beside the current one, in number order; each of these erases can be cut.
#[test]
fn power_lost_inside_the_erases_of_a_mount() {
    let before = format!("image {} 4", hex(&image_of(256, ["00", SECOND, HEADER, "fffffffffffffffffe"])));
    let raised = format!("image={}", hex(&image_of(256, ["01", SECOND, "", "fffffffffffffffffe"])));
    check_lines(&[
        (&before, "ok"),
        ("mount", "more"),
        ("cut-erase 01", "ok"),
        ("record", "unmounted"),
        ("mount", "more"),
        ("blocks 2", "ok"),
        ("cut-erase 01", &format!("? {NO_ERASE}")),
        ("blocks 4", "ok"),
        ("record", "job"),
        ("step", "more"),
        ("cut-erase ff", "ok"),
        ("poke 0 01", "ok"),
        ("dump", &raised),
        ("mount", "more"),
        ("run", "0 steps=2"),
        ("cut-erase ff", &format!("? {NO_ERASE}")),
        ("record", "idle len=1024 half=1 end=16 blocks=4 edition=1 pending=0,0,0,0"),
    ]);
}

/// A format erases by number, but the block with the store last.
#[test]
fn the_order_of_a_formats_erases() {
    let before = format!("image {} 4", hex(&image_of(256, ["00", HEADER, SECOND, "00"])));
    let left = format!("image={}", hex(&image_of(256, ["", "", SECOND, ""])));
    check(&[
        (&before, "ok"),
        ("format", "more"),
        ("step 3", "more"),
        ("dump", &left),
        ("mount", "0"),
        ("record", "idle len=1024 half=2 end=16 blocks=4 edition=1 pending=0,0,0,0"),
        ("format", "more"),
        ("run", "0 steps=14"),
        ("record", "idle len=1024 half=0 end=16 blocks=4 edition=1 pending=0,0,0,0"),
    ]);
}

fn show(blocks: &str, image: &[u8]) -> (i32, String) {
    let (status, report, errors) = run(&["show", blocks, "-"], image);
    assert_eq!(errors, "");
    assert!(report.lines().all(|line| line.len() <= 80), "{report}");
    (status, report)
}

#[test]
fn a_whole_report() {
    let image = image_of(256, ["00", &format!("{SECOND}{PUT}{COMMIT}"), HEADER, ""]);
    let expected = format!(
        "standard input: 1,024 bytes, 4 blocks of 256

  H header     S settled value   P pending change   C commit, abort, reset
  x used up    T torn frame      w being written    ? foreign   . blank
  In front of each row: where it starts, counted from the image's start.

block 0: foreign: power was lost while it was being erased, or it is damaged
  the header's length at byte 0 is not 16
      0  ?{}
     64  192 bytes blank

block 1, current: valid, edition 1, time 2
  2 frames up to byte 288, the rest is blank
    256  HHHHHHHHHHHHHHHHSSSSSSSSSSCCCCCC................................
    320  192 bytes blank

block 2, older: valid, edition 1, time 1
  no frames up to byte 528, the rest is blank
    512  HHHHHHHHHHHHHHHH................................................
    576  192 bytes blank

block 3: blank
    768  256 bytes blank

Settled in block 1: 1 object; 25 of 256 bytes used
   id     at  bytes  value
    5    279      2  \"AB\"

Pending in block 1: no changes

mount answers more (255 in C), and 0, done, after 2 steps.
It erases the foreign block.
Block 1 is then current.
",
        ".".repeat(63)
    );
    assert_eq!(show("--blocks=4", &image), (0, expected));
}

/// What follows a refusal's number, or a mount, in a report of blocks of 256 bytes.
#[test]
fn what_a_mount_says() {
    let refused = |why: &str| {
        format!("\nmount answers 3, foreign.\n{why}.\nOnly a format helps, and it loses all objects.\n")
    };
    let [newer, old] = [SECOND, HEADER];
    let two_foreign = "mount answers more (255 in C), and 0, done, after 2 steps.
It erases the foreign blocks.\nBlock 2 is then current.\n";
    let none = "\nmount answers 2, no store. No block is valid. A format makes an empty store.\n";
    for (blocks, status, end) in [
        (["", "00", "00"], 1, &refused("block 1: the header's length at byte 0 is not 16")[..]),
        ([old, newer, old], 1, &refused("block 0: the time at byte 4 is another block's too")),
        (["00", newer, newer], 1, &refused("block 1: the time at byte 4 is another block's too")),
        (["00", "00", old], 0, two_foreign),
        (["", "fffffffffffffffffe", ""], 1, none),
        (["", "", old], 0, "\nmount answers 0, done, without a step.\nBlock 2 is then current.\n"),
    ] {
        let (found, report) = show("--blocks=3", &image_of(256, blocks));
        assert!(found == status && report.ends_with(end), "{report}");
    }
    // The newest block's objects are listed, also where two others have equal times.
    let (_, report) = show("--blocks=3", &image_of(256, [old, &format!("{newer}{PUT}{COMMIT}"), old]));
    assert!(
        report.contains("block 1: valid, edition 1, time 2\n") && report.contains("Settled in block 1: 1 object;"),
        "{report}"
    );
    assert_eq!(report.matches("Settled").count(), 1);
}

/// Whichever block is current, of sixteen: its objects, its journal and its picture, with places counted from the image's start.
#[test]
fn objects_of_every_block() {
    for block in 0..16 {
        let mut image = vec![0xFF; 4_096];
        let frames = super::unhex(&format!("{HEADER}{PUT}{COMMIT}"));
        image[256 * block..][..frames.len()].copy_from_slice(&frames);
        let (status, report, _) = run(&["show", "--journal", "--blocks=16", "-"], &image);
        assert_eq!(status, 0);
        let base = 256 * block;
        let row = format!("{}{}{}{}", "H".repeat(16), "S".repeat(10), "C".repeat(6), ".".repeat(32));
        for expected in [
            format!(
                "\nblock {block}, current: valid, edition 1, time 1\n  2 frames up to byte {}, the rest is blank\n",
                base + 32
            ),
            format!("\n  {base:>5}  {row}\n"),
            format!("\nJournal of block {block}: 2 frames\n  {:>5}  host 2  put 5 = \"AB\"\n", base + 16),
            format!("\n  {:>5}  host 2  commit\n", base + 26),
            format!("\nSettled in block {block}: 1 object; 25 of 256 bytes used\n"),
            format!("\n    5  {:>5}      2  \"AB\"\n", base + 23),
            format!("\nPending in block {block}: no changes\n"),
            format!("\nBlock {block} is then current.\n"),
        ] {
            assert!(report.contains(&expected), "{expected}{report}");
        }
        assert_eq!(report.matches(": blank\n").count(), 15);
    }
}

#[test]
fn numbers_that_are_shown() {
    let refused = "mount answers 4, image length. It must be 2 to 16 blocks of one size, a
multiple of 128 from 256 up, and 65,536 bytes at most.\n";
    for blocks in [0, 1, 3, 17, 255] {
        let expected = format!("standard input: 512 bytes\n\n{refused}");
        assert_eq!(show(&format!("--blocks={blocks}"), &[0xFF; 512]), (1, expected));
    }
    let image = image_of(256, [HEADER, ""]);
    assert_eq!(show("--blocks=2", &image).1, run(&["show", "-"], &image).1);
    assert_eq!(show("--blocks=2", &image).0, 0);
    let mut image = vec![0; 65_536];
    assert_eq!(show("--blocks=16", &image).0, 1);
    image.fill(0xFF);
    image[61_440..61_456].copy_from_slice(&super::unhex(HEADER));
    let (status, report) = show("--blocks=16", &image);
    assert!(status == 0 && report.contains("65,536 bytes, 16 blocks of 4,096\n"), "{report}");
    assert!(report.contains("block 15, current: valid, edition 1, time 1\n"), "{report}");
    for (option, why) in [
        ("--blocks=", "--blocks= goes with a number from 0 to 255, not \n"),
        ("--blocks=256", "--blocks= goes with a number from 0 to 255, not 256\n"),
        ("--blocks=\u{1b}", "--blocks= goes with a number from 0 to 255, not \\u{1b}\n"),
        (
            "--blocks",
            "show has no option --blocks\nusage: desk show [--hex] [--journal] [--blocks=N] [--at=BYTE] [--length=BYTES] FILE\n",
        ),
        (
            "--hex=4",
            "show has no option --hex=4\nusage: desk show [--hex] [--journal] [--blocks=N] [--at=BYTE] [--length=BYTES] FILE\n",
        ),
    ] {
        assert_eq!(run(&["show", option, "-"], b""), (2, String::new(), format!("desk: {why}")));
    }
}
