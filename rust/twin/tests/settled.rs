//! The settled examples, asked of the twin alone: what the library is compared with must itself be right.

const TWO_ROWS: [u8; 28] = [0x00, 0x80, 0xA0, 0x00, 0x0B, 0, 0, 0, 0, 0, 0, 0, 2, 0, 0, 0, 1, 0, 1, 0, 4, 0, 0, 0, 0x42, 0x53, 0x4C, 0x31];
const TEN_ROWS: [u64; 20] = [100, 5, 511, 4, 512, 4, 513, 1, 2047, 5, 0, 5, 600, 0, 300, 5, 520, 5, 515, 5];

fn written(rows: usize, widths: &[u8], codes: &[u64]) -> Vec<u8> {
    let mut out = vec![0; 1000];
    let reply = twin::write(rows, widths, codes, &mut out);
    assert_eq!(reply[..3], [0, 0, 0]);
    out.truncate(reply[3] as usize);
    out
}

fn scanned(text: &str, rows: usize) -> (Vec<u8>, u64, u64, [u64; 2]) {
    let file = if rows == 0 { written(0, &[11], &[]) } else { written(10, &[11, 3], &TEN_ROWS) };
    let mut bits = vec![77; rows.div_ceil(8)];
    let reply = twin::scan(&file, text.as_bytes(), &mut bits);
    assert_eq!(reply[..3], [0, 0, 0]);
    assert_eq!(reply[7..], [0; 14]);
    (bits, reply[3], reply[4], [reply[5], reply[6]])
}

#[test]
fn pads_do_not_show_in_a_code() {
    for (last, pad) in [(0x80, "clean"), (0x9F, "dirty")] {
        let mut file = written(1, &[11], &[0]);
        file[..2].copy_from_slice(&[0x0F, last]);
        let mut codes = [77; 1];
        assert_eq!(twin::look_up(&file, 0, &[0], &mut codes), [0, 0, 0, 1], "{pad}");
        assert_eq!(codes, [124], "{pad}");
    }
}

#[test]
fn two_rows_have_one_file() {
    assert_eq!(written(2, &[11], &[5, 1024]), TWO_ROWS);
    assert_eq!(twin::open(&TWO_ROWS), [0, 0, 0, 2, 1]);
    assert_eq!(twin::open(&TWO_ROWS[..27]), [1, 0, 0, 0, 0]);
    assert_eq!(twin::open(&[&[0], &TWO_ROWS[..]].concat()), [5, 0, 0, 0, 0]);
}

#[test]
fn widths_stand_in_the_directory() {
    let mut out = [77; 3];
    assert_eq!(twin::widths(&TWO_ROWS, &mut out), [0, 0, 0, 1]);
    assert_eq!(out, [11, 77, 77]);
    let file = written(10, &[11, 3], &TEN_ROWS);
    assert_eq!(twin::widths(&file, &mut out[..1]), [10, 0, 2, 0]);
    assert_eq!(twin::widths(&TWO_ROWS[..27], &mut out), [1, 0, 0, 0]);
    assert_eq!(out, [11, 77, 77]);
    assert_eq!(twin::widths(&file, &mut out[..2]), [0, 0, 0, 2]);
    assert_eq!(out, [11, 3, 77]);
}

#[test]
fn bytes_are_unsigned_and_literals_below_two_to_the_width() {
    let file = written(1, &[8], &[128]);
    let asked = |text: &str| twin::scan(&file, text.as_bytes(), &mut [0]);
    assert_eq!(asked("segment 8\n0 < 127\n")[..4], [0, 0, 0, 0]);
    assert_eq!(asked("segment 8\n0 < 255\n")[..4], [0, 0, 0, 1]);
    assert_eq!(asked("segment 8\n0 < 256\n")[..4], [13, 0, 0, 0]);
}

#[test]
fn ten_rows_are_scanned() {
    assert_eq!(scanned("segment 8\n0 < 512\n1 = 5\n", 10), (vec![0xA1, 0], 3, 22, [12, 10]));
    assert_eq!(scanned("segment 8\n0 < 512\n", 10).3, [20, 0]);
    assert_eq!(scanned("segment 8\n1 = 5\n0 < 512\n", 10), (vec![0xA1, 0], 3, 22, [10, 12]));
    assert_eq!(scanned("segment 16\n0 < 512\n1 = 5\n", 10), (vec![0xA1, 0], 3, 30, [20, 10]));
    assert_eq!(scanned("segment 8\n", 10), (vec![0xFF, 3], 10, 0, [0, 0]));
    assert_eq!(scanned("segment 8\n0 < 512\n", 0), (vec![], 0, 0, [0, 0]));
}

#[test]
fn bits_are_listed() {
    let mut rows = [77; 4];
    assert_eq!(twin::list(10, &[0xA1, 0], &mut rows), [0, 0, 0, 3]);
    assert_eq!(rows, [0, 5, 7, 77]);
    assert_eq!(twin::list(10, &[0xFF, 7], &mut rows), [16, 0, 0, 0]);
}

#[test]
fn limits_are_accepted_and_one_more_is_not() {
    assert_eq!(twin::list(1_048_577, &[], &mut [])[0], 3);
    assert_eq!(twin::list(1_048_576, &[0; 131_072], &mut []), [0; 4]);
    assert_eq!(twin::write(0, &[32], &[], &mut [0; 24]), [0, 0, 0, 24]);
    assert_eq!(twin::write(0, &[32, 33], &[], &mut []), [6, 1, 0, 0]);
    assert_eq!(twin::widths(&written(0, &[32; 32], &[]), &mut [0; 31]), [10, 0, 32, 0]);
    let tests = |count| ["segment 8\n", &"0 < 1\n".repeat(count)].concat();
    assert_eq!(twin::read(tests(16).as_bytes())[..5], [0, 0, 0, 8, 16]);
    assert_eq!(twin::read(tests(17).as_bytes()), {
        let mut refused = [0; 53];
        refused[0] = 11;
        refused
    });
}

#[test]
fn the_first_malformed_line_is_named() {
    let cases: [(&str, u64); 12] = [
        ("", 0),
        ("\n", 0),
        ("segment 8", 0),
        ("segment  8\n", 0),
        ("Segment 8\n", 0),
        ("segment 08\n", 0),
        ("segment 4294967296\n", 0),
        ("segment 8\n\n", 1),
        ("segment 8\n0 < 5", 1),
        ("segment 8\n0 < 5\n+1 < 5\n", 2),
        ("segment 8\n0 <> 5\n0 < 05\n", 1),
        ("segment 8\n0 < 5\r\n", 1),
    ];
    for (text, place) in cases {
        assert_eq!(twin::read(text.as_bytes())[..5], [17, place, 0, 0, 0], "{text:?}");
    }
}
