//! The command as its user meets it: what it prints, its exit status, and what it leaves on disk.

use crate::run;
use reading::layout::{encode_all, Instruction, Opcode};
use std::ffi::OsString;
use std::fs;
use std::path::PathBuf;
use std::sync::atomic::{AtomicUsize, Ordering};

/// A folder of its own for each test, gone afterwards.
struct Desk {
    folder: PathBuf,
}

/// Exit status, standard output, standard error.
type Answer = (u8, String, String);

impl Desk {
    fn new() -> Desk {
        static NEXT: AtomicUsize = AtomicUsize::new(0);
        let number = NEXT.fetch_add(1, Ordering::Relaxed);
        let folder = std::env::temp_dir().join(format!("gussetglen-fill-{}-{number}", std::process::id()));
        fs::create_dir_all(&folder).expect("a folder for the test");
        Desk { folder }
    }

    fn path(&self, name: &str) -> PathBuf {
        self.folder.join(name)
    }

    /// The document's batch: rows (0,0,9,0) and (0,4,0,0), with AssertZero 0 path 11 and AssertZero 1 path 12.
    fn with_the_documents_batch() -> Desk {
        let desk = Desk::new();
        desk.put_program(&[
            Instruction::assertion(Opcode::AssertZero, &[0], 11),
            Instruction::assertion(Opcode::AssertZero, &[1], 12),
        ]);
        desk.put_values(&[0, 0, 9, 0, 0, 4, 0, 0]);
        desk
    }

    fn put_program(&self, program: &[Instruction]) {
        fs::write(self.path("program"), encode_all(program)).expect("written");
    }

    fn put_values(&self, words: &[u64]) {
        let bytes: Vec<u8> = words.iter().flat_map(|word| word.to_le_bytes()).collect();
        fs::write(self.path("values"), bytes).expect("written");
    }

    fn fill(&self, rows: &str, width: &str, cap: &str, cuts: &str) -> Answer {
        let [program, values, output] = ["program", "values", "output"].map(|name| self.path(name).into_os_string());
        let arguments = [program, rows.into(), width.into(), values, cap.into(), cuts.into(), output];
        command(&arguments)
    }

    fn output(&self) -> Option<Vec<u64>> {
        let bytes = fs::read(self.path("output")).ok()?;
        assert_eq!(bytes.len() % 8, 0);
        Some(bytes.chunks_exact(8).map(|word| u64::from_le_bytes(word.try_into().expect("8 bytes"))).collect())
    }
}

impl Drop for Desk {
    fn drop(&mut self) {
        let _ = fs::remove_dir_all(&self.folder);
    }
}

fn command(arguments: &[OsString]) -> Answer {
    let (mut out, mut err) = (Vec::new(), Vec::new());
    let status = run(arguments, &mut out, &mut err);
    (status, String::from_utf8(out).expect("text"), String::from_utf8(err).expect("text"))
}

fn words(arguments: &[&str]) -> Answer {
    command(&arguments.iter().map(OsString::from).collect::<Vec<_>>())
}

#[test]
fn with_no_arguments_the_sample_is_filled() {
    let expected = "\
sample: 12 parcels with 4 readings each, in hundredths of a degree, against a lower and an upper limit; at most 2 kept failures
filled: 12 parcels, 20 rows, in 4 stripes; positions are counted from 0
stripe from batch position 0, 4 parcels: no parcel fails
stripe from batch position 4, 4 parcels: its lowest failing parcel is stripe position 2, 3 violations
stripe from batch position 8, 2 parcels: its lowest failing parcel is stripe position 1, 1 violation
stripe from batch position 10, 2 parcels: its lowest failing parcel is stripe position 0, 2 violations
lowest failing parcel: batch position 6, counted from the batch's start
  that is stripe position 2, counted from its stripe's start, which is batch position 4
  3 violations in all, 2 failures kept
  instruction 14, AssertEqCond, path spec 3: words 0x0000000000000343 and 0x0000000000000320
  instruction 20, AssertEqCond, path spec 5: words 0x000000000000038e and 0x0000000000000320
in degrees: path spec 3 is reading 1 against the upper limit, 8.35 against 8.00
in degrees: path spec 5 is reading 2 against the upper limit, 9.10 against 8.00
";
    assert_eq!(words(&[]), (0, expected.to_string(), String::new()));
}

#[test]
fn the_samples_files_are_filled_by_the_command_that_is_told() {
    let desk = Desk::new();
    let folder = desk.folder.to_str().expect("text");
    let (status, told, err) = words(&["sample", folder]);
    assert_eq!((status, err.as_str()), (0, ""));
    let line = told.lines().last().expect("the command");
    let arguments: Vec<&str> = line.strip_prefix("./fill ").expect("a command").split(' ').collect();
    let (status, told, err) = words(&arguments);
    assert_eq!((status, err.as_str()), (0, ""));
    let sample = words(&[]).1;
    for same in told.lines().filter(|line| !line.starts_with("written")) {
        assert!(sample.lines().any(|line| line == same), "{same}");
    }
    // parcel 6, reading 1, ordered: 835 above 2^63; its borrow against the upper limit is in the last rows' words
    let filled = fs::read(desk.path("filled.words")).expect("written");
    assert_eq!(filled.len(), 20 * 12 * 8);
    let before = fs::read(desk.path("values.words")).expect("written");
    let untouched_rows = 9 * 12 * 8;
    assert_eq!(filled[..untouched_rows], before[..untouched_rows]);
    assert_ne!(filled[untouched_rows..], before[untouched_rows..]);
    // the averages above the lower limit: parcel 0's, and none of parcel 10, whose logger never woke
    let average = |parcel: usize| filled[8 * (17 * 12 + parcel)..][..8].to_vec();
    assert_eq!(average(0), 249u64.to_le_bytes());
    assert_eq!(average(10), u64::MAX.to_le_bytes());
}

#[test]
fn the_documents_batch_is_told_from_both_starts() {
    let desk = Desk::with_the_documents_batch();
    let (status, told, err) = desk.fill("2", "4", "1", "2");
    assert_eq!((status, err.as_str()), (0, ""));
    let expected = format!(
        "\
filled: 4 parcels, 2 rows, in 2 stripes; positions are counted from 0
stripe from batch position 0, 2 parcels: its lowest failing parcel is stripe position 1, 1 violation
stripe from batch position 2, 2 parcels: its lowest failing parcel is stripe position 0, 1 violation
lowest failing parcel: batch position 1, counted from the batch's start
  that is stripe position 1, counted from its stripe's start, which is batch position 0
  1 violation in all, 1 failure kept
  instruction 1, AssertZero, path spec 12: words 0x0000000000000004 and 0x0000000000000000
written: 8 words, 64 bytes, to {}
",
        desk.path("output").display()
    );
    assert_eq!(told, expected);
    assert_eq!(desk.output(), Some(vec![0, 0, 9, 0, 0, 4, 0, 0]));
}

#[test]
fn every_cut_tells_the_same_parcel_and_writes_the_same_words() {
    let desk = Desk::new();
    desk.put_program(&[
        Instruction::plain(Opcode::IaddCinCout, &[2, 3], &[0, 1, 0]),
        Instruction::assertion(Opcode::AssertFalse, &[2], 7),
        Instruction::assertion(Opcode::AssertZero, &[3], 8),
    ]);
    let mut values = vec![1, 1, 1 << 63, 3, 4];
    values.extend([2, 4, 8, 1, 4, 0, 0, 0, 0, 0, 9, 9, 9, 9, 9]);
    desk.put_values(&values);
    let (_, whole, _) = desk.fill("4", "5", "2", "none");
    let filled = desk.output().expect("written");
    assert_eq!(filled[10..15], [3, 5, (1 << 63) + 9, 4, 8]);
    let lowest = |told: &str| {
        let line = told.lines().find(|line| line.starts_with("lowest")).expect("a failing parcel").to_string();
        let records: Vec<String> = told.lines().filter(|line| line.contains("Assert")).map(str::to_string).collect();
        (line, records)
    };
    assert!(whole.contains("batch position 2, counted from the batch's start"), "{whole}");
    for cuts in ["0", "5", "1", "2", "3", "1,1,1", "0,1,2,3,4,5", "2,3", "every=1", "every=2", "every=9"] {
        fs::remove_file(desk.path("output")).expect("there");
        let (status, told, err) = desk.fill("4", "5", "2", cuts);
        assert_eq!((status, err.as_str()), (0, ""), "{cuts}");
        assert_eq!(lowest(&told), lowest(&whole), "{cuts}");
        assert_eq!(desk.output().as_ref(), Some(&filled), "{cuts}");
    }
}

#[test]
fn where_no_parcel_fails_it_says_so() {
    let desk = Desk::with_the_documents_batch();
    desk.put_values(&[0; 8]);
    let (status, told, err) = desk.fill("2", "4", "1", "none");
    assert_eq!((status, err.as_str()), (0, ""));
    assert!(told.lines().any(|line| line == "no parcel fails"), "{told}");
    assert!(!told.contains("lowest failing parcel:"), "{told}");
}

#[test]
fn many_stripes_are_counted() {
    let desk = Desk::with_the_documents_batch();
    let mut values = vec![0; 80];
    values[33] = 1;
    desk.put_values(&values);
    let (_, told, _) = desk.fill("2", "40", "1", "every=1");
    assert!(told.contains("in 40 stripes;"), "{told}");
    assert!(told.contains("and 24 stripes more; parcels fail in 1 of all"), "{told}");
    assert!(told.contains("lowest failing parcel: batch position 33,"), "{told}");
}

/// A refusal: its line, status 1, and an output that stood there before stays as it was.
#[track_caller]
fn refused(desk: &Desk, job: [&str; 4], line: &str) {
    let [rows, width, cap, cuts] = job;
    assert_eq!(desk.fill(rows, width, cap, cuts), (1, String::new(), format!("fill: refused, number {line}\n")));
    assert_eq!(desk.output(), None);
    fs::write(desk.path("output"), 5u64.to_le_bytes()).expect("written");
    assert_eq!(desk.fill(rows, width, cap, cuts).0, 1);
    assert_eq!(desk.output(), Some(vec![5]));
    fs::remove_file(desk.path("output")).expect("there");
}

#[test]
fn refusals_of_shape_and_cap() {
    let desk = Desk::with_the_documents_batch();
    refused(&desk, ["8193", "0", "0", "none"], "1, BadShape, no offset (8193 rows, 0 parcels)");
    refused(&desk, ["0", "4097", "0", "none"], "1, BadShape, no offset (0 rows, 4097 parcels)");
    let far = usize::MAX.to_string();
    refused(&desk, [&far, &far, "0", "none"], &format!("1, BadShape, no offset ({far} rows, {far} parcels)"));
    let short = "1, BadShape, no offset (3 rows x 4 parcels are 12 words, and VALUES has 8)";
    refused(&desk, ["3", "4", "1", "none"], short);
    let long = "1, BadShape, no offset (1 row x 4 parcels are 4 words, and VALUES has more than 4)";
    refused(&desk, ["1", "4", "1", "none"], long);
    refused(&desk, ["2", "4", "257", "none"], "2, BadCap, no offset (the cap is 257)");
    refused(&desk, ["2", "4", &far, "none"], &format!("2, BadCap, no offset (the cap is {far})"));
    // the shape is judged before the cap, and the cap before the program
    desk.put_program(&[Instruction::shift(0, 1, 0, 64)]);
    refused(&desk, ["3", "4", "257", "none"], short);
    refused(&desk, ["2", "4", "257", "none"], "2, BadCap, no offset (the cap is 257)");
    refused(&desk, ["2", "4", "1", "none"], "7, BadShift, offset 0 bytes from the program's start");
}

#[test]
fn refusals_of_the_program() {
    let desk = Desk::with_the_documents_batch();
    let good = Instruction::assertion(Opcode::AssertZero, &[0], 0).encode();
    let bad = [
        (vec![0x04], "4, UnknownOpcode"),
        (vec![0x31], "5, NotCarried"),
        (vec![0x01, 0, 0], "6, Truncated"),
        (Instruction::shift(0, 1, 4, 32).encode(), "7, BadShift"),
        (Instruction::hint(9, &[], &[0], &[1]).encode(), "8, BadHint"),
        (Instruction::shift(1, 1, 4, 31).encode(), "10, Overlap"),
    ];
    let place = "offset 9 bytes from the program's start";
    for (bytes, name) in bad {
        fs::write(desk.path("program"), [good.clone(), bytes].concat()).expect("written");
        refused(&desk, ["2", "4", "1", "2"], &format!("{name}, {place}"));
    }
    let past_the_rows = Instruction::shift(2, 1, 4, 31).encode();
    fs::write(desk.path("program"), [good.clone(), past_the_rows].concat()).expect("written");
    refused(&desk, ["2", "4", "1", "2"], &format!("9, BadRegister, {place} (ROWS is 2)"));
    fs::write(desk.path("program"), vec![0; 65_537]).expect("written");
    refused(&desk, ["2", "4", "1", "2"], "3, TooLong, no offset");
}

/// A file without an end is not read to its end.
#[test]
fn files_without_an_end() {
    let desk = Desk::with_the_documents_batch();
    let [program, values, output] = ["program", "values", "output"].map(|name| desk.path(name).into_os_string());
    let job = |program: &OsString, values: &OsString| {
        let [rows, width, cap, cuts] = ["2", "4", "1", "none"].map(OsString::from);
        command(&[program.clone(), rows, width, values.clone(), cap, cuts, output.clone()])
    };
    let endless = OsString::from("/dev/zero");
    let line = |rest: &str| (1, String::new(), format!("fill: refused, number {rest}\n"));
    assert_eq!(job(&endless, &values), line("3, TooLong, no offset"));
    let shape = "1, BadShape, no offset (2 rows x 4 parcels are 8 words, and VALUES has more than 8)";
    assert_eq!(job(&program, &endless), line(shape));
    assert_eq!(desk.output(), None);
}

/// No job: a line that names what is wrong, status 2, nothing written.
#[track_caller]
fn no_job(desk: &Desk, job: [&str; 4], part_of_the_line: &str) {
    let [rows, width, cap, cuts] = job;
    let (status, out, err) = desk.fill(rows, width, cap, cuts);
    assert_eq!((status, out.as_str()), (2, ""));
    assert!(err.starts_with("fill: ") && err.contains(part_of_the_line), "{err}");
    assert_eq!(err.lines().count(), 1, "{err}");
    assert_eq!(desk.output(), None);
}

#[test]
fn arguments_that_are_no_job() {
    let desk = Desk::with_the_documents_batch();
    for bad in ["", "x", "-1", "+1", " 1", "1.0", "0x10", "99999999999999999999999"] {
        no_job(&desk, [bad, "4", "1", "2"], "ROWS: ");
        no_job(&desk, ["2", bad, "1", "2"], "WIDTH: ");
        no_job(&desk, ["2", "4", bad, "2"], "CAP: ");
        no_job(&desk, ["2", "4", "1", bad], "CUTS: ");
    }
    for bad in ["1,", ",", "1,,2", "1 2", "every", "every=", "every=0", "every=-1", "None"] {
        no_job(&desk, ["2", "4", "1", bad], "CUTS: ");
    }
    no_job(&desk, ["2", "4", "1", "5"], "CUTS: a stripe cannot start at batch position 5: the batch has 4 parcels");
    let falling = "CUTS: a stripe cannot start at batch position 2: the one in front of it starts at batch position 3";
    no_job(&desk, ["2", "4", "1", "1,3,2"], falling);
    for count in [1, 3, 6, 8] {
        let (status, out, err) = words(&vec!["1"; count]);
        assert_eq!((status, out.as_str()), (2, ""));
        assert!(err.contains(&format!("and {count} came")), "{err}");
    }
}

#[test]
fn files_that_are_no_job() {
    let desk = Desk::with_the_documents_batch();
    fs::write(desk.path("values"), [0; 61]).expect("written");
    no_job(&desk, ["2", "4", "1", "2"], "values: 5 bytes are left after 7 words of 8 bytes");
    fs::remove_file(desk.path("values")).expect("there");
    no_job(&desk, ["2", "4", "1", "2"], "values: ");
    fs::remove_file(desk.path("program")).expect("there");
    no_job(&desk, ["2", "4", "1", "2"], "program: ");
    let desk = Desk::with_the_documents_batch();
    fs::create_dir(desk.path("output")).expect("made");
    let (status, out, err) = desk.fill("2", "4", "1", "2");
    assert_eq!((status, out.as_str()), (2, ""));
    assert!(err.contains("output: "), "{err}");
}

#[test]
fn the_empty_program_writes_the_values_as_they_came() {
    let desk = Desk::with_the_documents_batch();
    desk.put_program(&[]);
    let (status, told, _) = desk.fill("2", "4", "0", "none");
    assert_eq!(status, 0);
    assert!(told.contains("no parcel fails"));
    assert_eq!(desk.output(), Some(vec![0, 0, 9, 0, 0, 4, 0, 0]));
    desk.put_values(&[]);
    assert_eq!(desk.fill("0", "0", "0", "none").0, 0);
    assert_eq!(desk.output(), Some(Vec::new()));
}

#[test]
fn help_tells_the_arguments() {
    for word in ["--help", "-h", "help"] {
        let (status, told, err) = words(&[word]);
        assert_eq!((status, err.as_str()), (0, ""));
        assert!(told.contains("fill PROGRAM ROWS WIDTH VALUES CAP CUTS OUTPUT"));
    }
}
