//! Each call made of the library and of the twin on the same input, and everything compared: every element of the reply, of each
//! buffer and of what stands around them. What is lent to be read must not change either.

use rutksmeln::{raw, Call, Refusal};

use crate::chance::Chance;
use crate::lent::{Element, Guards, Lent};
use crate::tally::Tally;

/// What was answered, or how library and twin differ.
pub type Verdict<T> = Result<T, String>;

/// What a scan answered, and the bytes of its buffer.
#[derive(Clone, Debug, PartialEq, Eq)]
pub struct Scan {
    pub reply: [u64; 21],
    pub out: Vec<u8>,
}

pub struct Bench {
    pub chance: Chance,
    pub guards: Guards,
    pub tally: Tally,
}

impl Bench {
    pub fn open(&mut self, file: &[u8]) -> Verdict<[u64; 5]> {
        let (lent, before) = self.lent(file);
        let (mut reply, mut expected) = self.blank(raw::OPEN_REPLY);
        // SAFETY: what is lent is good for its length, and the reply has its elements.
        unsafe { raw::bsl_open(lent.part().as_ptr(), file.len(), reply.part_mut().as_mut_ptr()) };
        let answer = twin::open(file);
        expected.part_mut().copy_from_slice(&answer);
        let differs = [reply.difference("reply", &expected), lent.difference("file", &before)];
        self.judge(Call::Open, answer[0], &differs, || format!("file {}", hex(file)))?;
        self.judge_safe(&answer, Call::Open, || rutksmeln::open(file).map(|shape| vec![shape.rows as u64, shape.columns as u64]))?;
        Ok(answer)
    }

    /// The answer, and the bytes of the buffer after it.
    pub fn widths(&mut self, file: &[u8], room: usize) -> Verdict<([u64; 4], Vec<u8>)> {
        let (lent, before) = self.lent(file);
        let (mut out, mut expected_out) = self.blank(room);
        let (mut reply, mut expected) = self.blank(raw::WIDTHS_REPLY);
        // SAFETY: what is lent is good for its length, and the reply has its elements.
        unsafe { raw::bsl_widths(lent.part().as_ptr(), file.len(), out.part_mut().as_mut_ptr(), room, reply.part_mut().as_mut_ptr()) };
        let answer = twin::widths(file, expected_out.part_mut());
        expected.part_mut().copy_from_slice(&answer);
        let differs = [reply.difference("reply", &expected), out.difference("out", &expected_out), lent.difference("file", &before)];
        self.judge(Call::Widths, answer[0], &differs, || format!("file {} room {room}", hex(file)))?;
        self.judge_safe(&answer, Call::Widths, || rutksmeln::widths(file, &mut vec![0; room]).map(|columns| vec![columns as u64]))?;
        Ok((answer, out.part().to_vec()))
    }

    /// The answer, and the bytes of the buffer after it.
    pub fn write(&mut self, rows: usize, widths: &[u8], codes: &[u64], room: usize) -> Verdict<([u64; 4], Vec<u8>)> {
        let (lent_widths, widths_before) = self.lent(widths);
        let (lent_codes, codes_before) = self.lent(codes);
        let (mut out, mut expected_out) = self.blank(room);
        let (mut reply, mut expected) = self.blank(raw::WRITE_REPLY);
        // SAFETY: what is lent is good for its length, and the reply has its elements.
        unsafe {
            raw::bsl_write(
                rows,
                lent_widths.part().as_ptr(),
                widths.len(),
                lent_codes.part().as_ptr(),
                codes.len(),
                out.part_mut().as_mut_ptr(),
                room,
                reply.part_mut().as_mut_ptr(),
            )
        };
        let answer = twin::write(rows, widths, codes, expected_out.part_mut());
        expected.part_mut().copy_from_slice(&answer);
        let differs = [
            reply.difference("reply", &expected),
            out.difference("out", &expected_out),
            lent_widths.difference("widths", &widths_before),
            lent_codes.difference("codes", &codes_before),
        ];
        self.judge(Call::Write, answer[0], &differs, || format!("rows {rows} widths {widths:?} codes {codes:?} room {room}"))?;
        self.judge_safe(&answer, Call::Write, || {
            rutksmeln::write(rows, widths, codes, &mut vec![0; room]).map(|bytes| vec![bytes as u64])
        })?;
        Ok((answer, out.part().to_vec()))
    }

    pub fn read(&mut self, text: &[u8]) -> Verdict<[u64; 53]> {
        let (lent, before) = self.lent(text);
        let (mut reply, mut expected) = self.blank(raw::READ_REPLY);
        // SAFETY: what is lent is good for its length, and the reply has its elements.
        unsafe { raw::bsl_read(lent.part().as_ptr(), text.len(), reply.part_mut().as_mut_ptr()) };
        let answer = twin::read(text);
        expected.part_mut().copy_from_slice(&answer);
        let differs = [reply.difference("reply", &expected), lent.difference("text", &before)];
        self.judge(Call::Read, answer[0], &differs, || format!("text {}", quoted(text)))?;
        self.judge_safe(&answer, Call::Read, || {
            let query = rutksmeln::read(text)?;
            let mut values = vec![query.size, query.tests.len() as u64];
            for test in query.tests {
                values.extend([test.column, test.comparison as u64, test.literal]);
            }
            Ok(values)
        })?;
        Ok(answer)
    }

    pub fn scan(&mut self, file: &[u8], text: &[u8], room: usize) -> Verdict<Scan> {
        let (lent_file, file_before) = self.lent(file);
        let (lent_text, text_before) = self.lent(text);
        let (mut out, mut expected_out) = self.blank(room);
        let (mut reply, mut expected) = self.blank(raw::SCAN_REPLY);
        // SAFETY: what is lent is good for its length, and the reply has its elements.
        unsafe {
            raw::bsl_scan(
                lent_file.part().as_ptr(),
                file.len(),
                lent_text.part().as_ptr(),
                text.len(),
                out.part_mut().as_mut_ptr(),
                room,
                reply.part_mut().as_mut_ptr(),
            )
        };
        let answer = twin::scan(file, text, expected_out.part_mut());
        expected.part_mut().copy_from_slice(&answer);
        let differs = [
            reply.difference("reply", &expected),
            out.difference("out", &expected_out),
            lent_file.difference("file", &file_before),
            lent_text.difference("text", &text_before),
        ];
        self.judge(Call::Scan, answer[0], &differs, || format!("file {} text {} room {room}", hex(file), quoted(text)))?;
        self.judge_safe(&answer, Call::Scan, || {
            let mut out = vec![0; room];
            let scanned = match rutksmeln::read(text) {
                Ok(query) => rutksmeln::scan_query(file, &query, &mut out)?,
                Err(_) => rutksmeln::scan(file, text, &mut out)?,
            };
            let mut values = vec![scanned.matches as u64, scanned.total];
            values.extend(scanned.counts);
            Ok(values)
        })?;
        Ok(Scan { reply: answer, out: out.part().to_vec() })
    }

    /// The answer, and the elements of the buffer after it.
    pub fn list(&mut self, rows: usize, bits: &[u8], room: usize) -> Verdict<([u64; 4], Vec<u32>)> {
        let (lent, before) = self.lent(bits);
        let (mut out, mut expected_out) = self.blank(room);
        let (mut reply, mut expected) = self.blank(raw::LIST_REPLY);
        // SAFETY: what is lent is good for its length, and the reply has its elements.
        unsafe { raw::bsl_list(rows, lent.part().as_ptr(), bits.len(), out.part_mut().as_mut_ptr(), room, reply.part_mut().as_mut_ptr()) };
        let answer = twin::list(rows, bits, expected_out.part_mut());
        expected.part_mut().copy_from_slice(&answer);
        let differs = [reply.difference("reply", &expected), out.difference("out", &expected_out), lent.difference("bits", &before)];
        self.judge(Call::List, answer[0], &differs, || format!("rows {rows} bits {} room {room}", hex(bits)))?;
        self.judge_safe(&answer, Call::List, || rutksmeln::list(rows, bits, &mut vec![0; room]).map(|listed| vec![listed as u64]))?;
        Ok((answer, out.part().to_vec()))
    }

    /// The answer, and the elements of the buffer after it.
    pub fn look_up(&mut self, file: &[u8], column: usize, rows: &[u32], room: usize) -> Verdict<([u64; 4], Vec<u64>)> {
        let (lent_file, file_before) = self.lent(file);
        let (lent_rows, rows_before) = self.lent(rows);
        let (mut out, mut expected_out) = self.blank(room);
        let (mut reply, mut expected) = self.blank(raw::LOOKUP_REPLY);
        // SAFETY: what is lent is good for its length, and the reply has its elements.
        unsafe {
            raw::bsl_lookup(
                lent_file.part().as_ptr(),
                file.len(),
                column,
                lent_rows.part().as_ptr(),
                rows.len(),
                out.part_mut().as_mut_ptr(),
                room,
                reply.part_mut().as_mut_ptr(),
            )
        };
        let answer = twin::look_up(file, column, rows, expected_out.part_mut());
        expected.part_mut().copy_from_slice(&answer);
        let differs = [
            reply.difference("reply", &expected),
            out.difference("out", &expected_out),
            lent_file.difference("file", &file_before),
            lent_rows.difference("rows", &rows_before),
        ];
        self.judge(Call::LookUp, answer[0], &differs, || format!("file {} column {column} rows {rows:?} room {room}", hex(file)))?;
        self.judge_safe(&answer, Call::LookUp, || {
            rutksmeln::look_up(file, column, rows, &mut vec![0; room]).map(|codes| vec![codes as u64])
        })?;
        Ok((answer, out.part().to_vec()))
    }

    /// What is lent to be read, and what it must be after the call.
    fn lent<T: Element>(&mut self, content: &[T]) -> (Lent<T>, Lent<T>) {
        let lent = Lent::holding(&mut self.chance, self.guards, content);
        let before = lent.clone();
        (lent, before)
    }

    /// What is lent to be written, once for the library and once for the twin.
    fn blank<T: Element>(&mut self, length: usize) -> (Lent<T>, Lent<T>) {
        let blank = Lent::blank(&mut self.chance, self.guards, length);
        (blank.clone(), blank)
    }

    /// Counts a compared call, or says how it differs.
    fn judge(&mut self, call: Call, number: u64, differs: &[Option<String>], input: impl FnOnce() -> String) -> Verdict<()> {
        self.tally.add(call, number);
        let found: Vec<&str> = differs.iter().flatten().map(String::as_str).collect();
        match found.is_empty() {
            true => Ok(()),
            false => Err(format!("{call} differs: {}\ninput: {}", found.join("; "), input())),
        }
    }

    /// At times, the same call by the safe function of the crate.
    fn judge_safe<const N: usize>(
        &mut self,
        answer: &[u64; N],
        call: Call,
        safe: impl FnOnce() -> Result<Vec<u64>, Refusal>,
    ) -> Verdict<()> {
        if !self.chance.one_in(16) {
            return Ok(());
        }
        let mut told = [0; N];
        match safe() {
            Err(refusal) if refusal.call != call => return Err(format!("the safe {call} is refused as another call: {refusal}")),
            Err(refusal) => told[..3].copy_from_slice(&[refusal.number, refusal.place, refusal.need]),
            Ok(values) => told[3..3 + values.len()].copy_from_slice(&values),
        }
        match told == *answer {
            true => Ok(()),
            false => Err(format!("the safe {call} differs: twin {answer:?}, library {told:?}")),
        }
    }
}

pub fn hex(bytes: &[u8]) -> String {
    bytes.iter().map(|byte| format!("{byte:02X}")).collect()
}

pub fn quoted(text: &[u8]) -> String {
    format!("\"{}\"", text.escape_ascii())
}
