//! The safe calls: each answer, each refusal, and what becomes of the buffers that are lent.

use rutksmeln::{
    list, look_up, open, owned, read, scan, scan_query, widths, write, Call, Comparison, Query, Reason, Refusal, Shape, Test, COMPARISONS,
};

const TWO_ROWS: [u8; 28] = [0x00, 0x80, 0xA0, 0x00, 0x0B, 0, 0, 0, 0, 0, 0, 0, 2, 0, 0, 0, 1, 0, 1, 0, 4, 0, 0, 0, 0x42, 0x53, 0x4C, 0x31];
const TEN_ROWS: [u64; 20] = [100, 5, 511, 4, 512, 4, 513, 1, 2047, 5, 0, 5, 600, 0, 300, 5, 520, 5, 515, 5];
const TWO_TESTS: &[u8] = b"segment 8\n0 < 512\n1 = 5\n";

fn ten_rows() -> Vec<u8> {
    owned::write(10, &[11, 3], &TEN_ROWS).unwrap()
}

fn refusal(call: Call, number: u64, place: u64, need: u64) -> Refusal {
    Refusal { call, number, place, need }
}

/// The two rows with one byte replaced, counted from the end.
fn changed(from_the_end: usize, byte: u8) -> Vec<u8> {
    let mut file = TWO_ROWS.to_vec();
    file[28 - from_the_end] = byte;
    file
}

#[test]
fn opening_answers_rows_and_columns() {
    assert_eq!(open(&TWO_ROWS), Ok(Shape { rows: 2, columns: 1 }));
    assert_eq!(open(&ten_rows()), Ok(Shape { rows: 10, columns: 2 }));
    assert_eq!(open(&owned::write(0, &[1], &[]).unwrap()), Ok(Shape { rows: 0, columns: 1 }));
}

#[test]
fn opening_refuses_by_1_to_7() {
    let number = |file: &[u8]| open(file).unwrap_err().number;
    assert_eq!(number(&[]), 1);
    assert_eq!(number(&TWO_ROWS[..27]), 1);
    assert_eq!(number(&changed(1, 0x32)), 1);
    assert_eq!(number(&changed(10, 2)), 2);
    assert_eq!(number(&changed(13, 1)), 3);
    assert_eq!(number(&changed(12, 0)), 4);
    assert_eq!(number(&[&[0], &TWO_ROWS[..]].concat()), 5);
    assert_eq!(number(&changed(24, 33)), 6);
    assert_eq!(number(&changed(16, 1)), 7);
    let mut second_unfit = ten_rows();
    second_unfit[39] = 1;
    assert_eq!(open(&second_unfit), Err(refusal(Call::Open, 6, 1, 0)));
}

#[test]
fn widths_are_those_of_the_columns() {
    let mut out = [77; 3];
    assert_eq!(widths(&ten_rows(), &mut out), Ok(2));
    assert_eq!(out, [11, 3, 77]);
    assert_eq!(widths(&ten_rows(), &mut out[..2]), Ok(2));
    let every: Vec<u8> = (1..=32).collect();
    assert_eq!(owned::widths(&owned::write(0, &every, &[]).unwrap()), Ok(every));
}

#[test]
fn widths_refuse_and_leave_the_buffer() {
    let file = ten_rows();
    let mut out = [77; 1];
    let mut refused = |file: &[u8]| widths(file, &mut out).unwrap_err();
    assert_eq!(refused(b""), refusal(Call::Widths, 1, 0, 0));
    assert_eq!(refused(&file[1..]), refusal(Call::Widths, 5, 0, 0));
    assert_eq!(refused(&changed(24, 33)), refusal(Call::Widths, 6, 0, 0));
    assert_eq!(refused(&file), refusal(Call::Widths, 10, 0, 2));
    assert_eq!(widths(&file, &mut []), Err(refusal(Call::Widths, 10, 0, 2)));
    assert_eq!(owned::widths(b""), Err(refusal(Call::Widths, 1, 0, 0)));
    assert_eq!(out, [77]);
}

#[test]
fn writing_fills_the_beginning_of_the_buffer() {
    let mut out = [77; 30];
    assert_eq!(write(2, &[11], &[5, 1024], &mut out), Ok(28));
    assert_eq!(out[..28], TWO_ROWS);
    assert_eq!(out[28..], [77, 77]);
}

#[test]
fn writing_refuses_and_leaves_the_buffer() {
    let mut out = [77; 27];
    let mut refused = |rows, widths: &[u8], codes: &[u64]| write(rows, widths, codes, &mut out).unwrap_err();
    assert_eq!(refused(1_048_577, &[], &[]), refusal(Call::Write, 3, 0, 0));
    assert_eq!(refused(usize::MAX, &[], &[]), refusal(Call::Write, 3, 0, 0));
    assert_eq!(refused(2, &[], &[]), refusal(Call::Write, 4, 0, 0));
    assert_eq!(refused(2, &[8; 33], &[]), refusal(Call::Write, 4, 0, 0));
    assert_eq!(refused(2, &[8, 33], &[]), refusal(Call::Write, 6, 1, 0));
    assert_eq!(refused(2, &[11], &[2048]), refusal(Call::Write, 9, 0, 0));
    assert_eq!(refused(2, &[11], &[5, 2048]), refusal(Call::Write, 8, 1, 0));
    assert_eq!(refused(2, &[11], &[5, 1024]), refusal(Call::Write, 10, 0, 28));
    assert_eq!(out, [77; 27]);
}

#[test]
fn reading_answers_size_and_tests() {
    let tests =
        vec![Test { column: 0, comparison: Comparison::Less, literal: 512 }, Test { column: 1, comparison: Comparison::Equal, literal: 5 }];
    assert_eq!(read(TWO_TESTS), Ok(Query { size: 8, tests }));
    assert_eq!(read(b"segment 7\n"), Ok(Query { size: 7, tests: vec![] }));
}

#[test]
fn what_is_printed_is_read_again() {
    let test = |(i, &comparison)| Test { column: i as u64, comparison, literal: u64::from(u32::MAX) - i as u64 };
    let query = Query { size: 64, tests: COMPARISONS.iter().enumerate().map(test).collect() };
    assert_eq!(read(query.to_string().as_bytes()), Ok(query));
}

#[test]
fn a_query_is_parsed_by_the_reader() {
    let text = std::str::from_utf8(TWO_TESTS).unwrap();
    assert_eq!(text.parse::<Query>(), read(TWO_TESTS));
    assert_eq!(text.parse::<Query>().unwrap().to_string(), text);
    assert_eq!("segment 8".parse::<Query>(), Err(refusal(Call::Read, 17, 0, 0)));
}

#[test]
fn a_text_that_looks_right_is_malformed_at_its_line() {
    let malformed = [
        ("segment 8\r\n", 0),
        ("\u{FEFF}segment 8\n", 0),
        ("segment 8\n0 < 5", 1),
        ("segment 8\n\n0 < 5\n", 1),
        ("segment 8\n0 <  5\n", 1),
        ("segment 8\n0 < 5\n0 < 05\n", 2),
        ("segment 8\n0 < 4294967296\n", 1),
    ];
    for (text, line) in malformed {
        assert_eq!(text.parse::<Query>(), Err(refusal(Call::Read, 17, line, 0)), "{text:?}");
    }
    let said = "".parse::<Query>().unwrap_err().sentence();
    for cause in ["CR LF", "byte order mark", "missing last line feed", "empty line", "second space", "leading zeros", "2^32"] {
        assert!(said.contains(cause), "{cause}: {said}");
    }
}

#[test]
fn reading_refuses_by_17_and_11() {
    assert_eq!(read(b""), Err(refusal(Call::Read, 17, 0, 0)));
    assert_eq!(read(b"segment 8\n0 < 512\n1 = 05\n"), Err(refusal(Call::Read, 17, 2, 0)));
    let tests = |count| ["segment 8\n", &"0 < 1\n".repeat(count)].concat();
    assert_eq!(read(tests(16).as_bytes()).unwrap().tests.len(), 16);
    assert_eq!(read(tests(17).as_bytes()), Err(refusal(Call::Read, 11, 0, 0)));
}

#[test]
fn scanning_answers_bits_matches_and_counts() {
    let mut bits = [77; 3];
    let scanned = scan(&ten_rows(), TWO_TESTS, &mut bits).unwrap();
    assert_eq!(bits, [0xA1, 0x00, 77]);
    assert_eq!((scanned.matches, scanned.total), (3, 22));
    assert_eq!(scanned.counts[..2], [12, 10]);
    assert_eq!(scanned.counts[2..], [0; 14]);
}

#[test]
fn scanning_without_rows_or_tests() {
    let nothing = owned::write(0, &[11], &[]).unwrap();
    let (bits, scanned) = owned::scan(&nothing, b"segment 8\n0 < 512\n").unwrap();
    assert_eq!((bits, scanned.matches, scanned.total), (vec![], 0, 0));
    let (bits, scanned) = owned::scan(&ten_rows(), b"segment 8\n").unwrap();
    assert_eq!((bits, scanned.matches, scanned.total), (vec![0xFF, 0x03], 10, 0));
}

#[test]
fn scanning_refuses_the_text_then_the_file_then_the_tests_and_leaves_the_buffer() {
    let file = ten_rows();
    let mut bits = [77; 1];
    let mut refused = |file: &[u8], text: &[u8]| scan(file, text, &mut bits).unwrap_err();
    assert_eq!(refused(b"", b"segment"), refusal(Call::Scan, 17, 0, 0));
    assert_eq!(refused(b"", b"segment 7\n"), refusal(Call::Scan, 1, 0, 0));
    assert_eq!(refused(&file, b"segment 7\n9 = 9\n"), refusal(Call::Scan, 14, 0, 0));
    assert_eq!(refused(&file, b"segment 8\n0 < 1\n2 = 9\n1 = 8\n"), refusal(Call::Scan, 12, 1, 0));
    assert_eq!(refused(&file, b"segment 8\n0 < 1\n1 = 8\n2 = 9\n"), refusal(Call::Scan, 13, 1, 0));
    assert_eq!(refused(&file, TWO_TESTS), refusal(Call::Scan, 10, 0, 2));
    assert_eq!(bits, [77]);
}

#[test]
fn scanning_by_a_query_is_scanning_by_its_text() {
    let query = read(TWO_TESTS).unwrap();
    let mut bits = [77; 3];
    assert_eq!(scan_query(&ten_rows(), &query, &mut bits), scan(&ten_rows(), TWO_TESTS, &mut [0; 2]));
    assert_eq!(bits, [0xA1, 0x00, 77]);
    assert_eq!(owned::scan_query(&ten_rows(), &query), owned::scan(&ten_rows(), TWO_TESTS));
    assert_eq!(scan_query(&ten_rows(), &query, &mut [0; 1]), Err(refusal(Call::Scan, 10, 0, 2)));
}

#[test]
fn a_query_that_no_text_has_is_refused_at_its_line() {
    let test = |column, literal| Test { column, comparison: Comparison::Less, literal };
    let refused = |size, tests| scan_query(&ten_rows(), &Query { size, tests }, &mut [0; 2]).unwrap_err();
    assert_eq!(refused(1 << 32, vec![]), refusal(Call::Scan, 17, 0, 0));
    assert_eq!(refused(8, vec![test(0, 5), test(0, 1 << 32)]), refusal(Call::Scan, 17, 2, 0));
    assert_eq!(refused(8, vec![test(u64::MAX, 5)]), refusal(Call::Scan, 17, 1, 0));
    assert_eq!(refused(8, vec![test(0, 5); 17]), refusal(Call::Scan, 11, 0, 0));
}

#[test]
fn finding_answers_the_rows_that_meet_every_test() {
    let find = |file: &[u8], text: &str| owned::find(file, &text.parse().unwrap());
    assert_eq!(find(&ten_rows(), "segment 8\n0 < 512\n1 = 5\n"), Ok(vec![0, 5, 7]));
    assert_eq!(find(&ten_rows(), "segment 8\n0 > 2046\n1 = 4\n"), Ok(vec![]));
    assert_eq!(find(&ten_rows(), "segment 64\n"), Ok((0..10).collect()));
    assert_eq!(find(&owned::write(0, &[11], &[]).unwrap(), "segment 8\n"), Ok(vec![]));
    assert_eq!(find(&ten_rows(), "segment 8\n0 < 1\n2 = 9\n"), Err(refusal(Call::Scan, 12, 1, 0)));
    assert_eq!(find(b"", "segment 8\n"), Err(refusal(Call::Scan, 1, 0, 0)));
}

#[test]
fn listing_answers_the_rows_whose_bit_is_set() {
    let mut rows = [77; 4];
    assert_eq!(list(10, &[0xA1, 0x00], &mut rows), Ok(3));
    assert_eq!(rows, [0, 5, 7, 77]);
}

#[test]
fn listing_refuses_and_leaves_the_buffer() {
    let mut rows = [77; 2];
    let mut refused = |rows_of, bits: &[u8]| list(rows_of, bits, &mut rows).unwrap_err();
    assert_eq!(refused(1_048_577, &[]), refusal(Call::List, 3, 0, 0));
    assert_eq!(refused(usize::MAX, &[]), refusal(Call::List, 3, 0, 0));
    assert_eq!(refused(10, &[0xA1]), refusal(Call::List, 16, 0, 0));
    assert_eq!(refused(10, &[0xFF, 0x07]), refusal(Call::List, 16, 0, 0));
    assert_eq!(refused(10, &[0xA1, 0x00]), refusal(Call::List, 10, 0, 3));
    assert_eq!(rows, [77; 2]);
}

#[test]
fn looking_up_answers_a_code_for_each_row() {
    let mut codes = [77; 4];
    assert_eq!(look_up(&ten_rows(), 0, &[7, 0, 7], &mut codes), Ok(3));
    assert_eq!(codes, [300, 100, 300, 77]);
    assert_eq!(owned::look_up(&ten_rows(), 1, &[]), Ok(vec![]));
}

#[test]
fn looking_up_refuses_and_leaves_the_buffer() {
    let file = ten_rows();
    let mut codes = [77; 1];
    let mut refused = |file: &[u8], column, rows: &[u32]| look_up(file, column, rows, &mut codes).unwrap_err();
    assert_eq!(refused(&file[1..], 0, &[0]), refusal(Call::LookUp, 5, 0, 0));
    assert_eq!(refused(&file, 2, &[10]), refusal(Call::LookUp, 12, 0, 0));
    assert_eq!(refused(&file, usize::MAX, &[0]), refusal(Call::LookUp, 12, 0, 0));
    assert_eq!(refused(&file, 1, &[0, 10, u32::MAX]), refusal(Call::LookUp, 15, 1, 0));
    assert_eq!(refused(&file, 1, &[0, 1]), refusal(Call::LookUp, 10, 0, 2));
    assert_eq!(codes, [77]);
}

#[test]
fn vectors_hold_what_was_written_and_no_more() {
    assert_eq!(owned::write(2, &[11], &[5, 1024]), Ok(TWO_ROWS.to_vec()));
    assert_eq!(owned::list(10, &[0xA1, 0x00]), Ok(vec![0, 5, 7]));
    assert_eq!(owned::look_up(&TWO_ROWS, 0, &[1, 0]), Ok(vec![1024, 5]));
    assert_eq!(owned::write(2, &[11], &[5]), Err(refusal(Call::Write, 9, 0, 0)));
}

#[test]
fn every_number_has_a_name_and_a_sentence_of_its_own() {
    let sentences: Vec<String> = (1..=17).map(|number| refusal(Call::Scan, number, 0, 0).sentence()).collect();
    for (at, sentence) in sentences.iter().enumerate() {
        assert!(sentence.ends_with('.') && !sentence.contains("none of this library"), "{sentence}");
        assert!(!sentences[..at].contains(sentence), "{sentence}");
        let number = at as u64 + 1;
        assert_eq!(refusal(Call::Scan, number, 0, 0).reason().map(Reason::number), Some(number));
    }
    assert_eq!((Reason::of(0), Reason::of(18), Reason::of(u64::MAX)), (None, None, None));
    assert_eq!((Reason::NoRegister as u64, Reason::OutputTooShort as u64, Reason::MalformedText as u64), (1, 10, 17));
    assert_eq!(refusal(Call::Open, 18, 0, 0).reason(), None);
    assert_eq!(refusal(Call::Open, 18, 0, 0).sentence(), "Number 18 is none of this library's.");
    assert!(refusal(Call::Open, 6, 31, 0).to_string().starts_with("open refused 6 at 31: Column 31, from 0, "));
    assert!(refusal(Call::Write, 10, 0, 28).sentence().contains("28"));
}

#[test]
fn a_sentence_speaks_of_what_was_called() {
    let said = |answer: Result<usize, Refusal>| answer.unwrap_err().to_string();
    assert_eq!(
        scan(&ten_rows(), b"segment 8\n0 < 1\n2 = 9\n", &mut []).unwrap_err().to_string(),
        "scan refused 12 at 1: Test 1, from 0, is of a column that the register does not have: columns are numbered from 0."
    );
    assert_eq!(
        said(look_up(&ten_rows(), 2, &[], &mut [])),
        "lookup refused 12 at 0: The register does not have this column: columns are numbered from 0."
    );
    assert_eq!(
        said(write(1, &[8, 33], &[], &mut [])),
        "write refused 6 at 1: Column 1, from 0, has a width outside 1 to 32: correct the width."
    );
    for number in [1, 2, 3, 4, 5, 6, 7, 12, 15, 10] {
        let sentence = refusal(Call::LookUp, number, 0, 0).sentence().to_lowercase();
        assert!(!sentence.contains("query") && !sentence.contains("test"), "{sentence}");
    }
    let calls = [Call::Open, Call::Widths, Call::Write, Call::Read, Call::Scan, Call::List, Call::LookUp];
    assert_eq!(calls.map(|call| call.to_string()).join(" "), "open widths write read scan list lookup");
}
