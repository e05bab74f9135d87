//! The calls as C makes them, for those who want every element of a reply. `include/rutksmeln.h` says what each keeps to; the
//! functions at the top of this crate are the safe way to make them.
//!
//! What a caller has to see to: a pointer is good for as many elements as the length behind it says, and `reply` for as many as the
//! constant says; `out` and `reply` overlap nothing else that is lent.

/// Elements of the reply of [`bsl_open`]: number, place, need, rows, columns.
pub const OPEN_REPLY: usize = 5;
/// Elements of the reply of [`bsl_widths`]: number, place, need, columns.
pub const WIDTHS_REPLY: usize = 4;
/// Elements of the reply of [`bsl_write`]: number, place, need, bytes.
pub const WRITE_REPLY: usize = 4;
/// Elements of the reply of [`bsl_read`]: number, place, need, size, count, and 16 times column, comparison, literal.
pub const READ_REPLY: usize = 53;
/// Elements of the reply of [`bsl_scan`]: number, place, need, matches, total, and 16 counts.
pub const SCAN_REPLY: usize = 21;
/// Elements of the reply of [`bsl_list`]: number, place, need, rows listed.
pub const LIST_REPLY: usize = 4;
/// Elements of the reply of [`bsl_lookup`]: number, place, need, codes.
pub const LOOKUP_REPLY: usize = 4;

extern "C" {
    /// Opens a register.
    pub fn bsl_open(file: *const u8, length: usize, reply: *mut u64);
    /// Tells the bits of each column of a register.
    pub fn bsl_widths(file: *const u8, length: usize, out: *mut u8, out_length: usize, reply: *mut u64);
    /// Writes a register from codes, row after row.
    pub fn bsl_write(
        rows: usize,
        widths: *const u8,
        columns: usize,
        codes: *const u64,
        codes_length: usize,
        out: *mut u8,
        out_length: usize,
        reply: *mut u64,
    );
    /// Reads the text of a query.
    pub fn bsl_read(text: *const u8, length: usize, reply: *mut u64);
    /// Scans a register for the rows that meet every test of a query.
    pub fn bsl_scan(file: *const u8, length: usize, text: *const u8, text_length: usize, out: *mut u8, out_length: usize, reply: *mut u64);
    /// Lists the rows whose bit is set.
    pub fn bsl_list(rows: usize, bits: *const u8, bits_length: usize, out: *mut u32, out_length: usize, reply: *mut u64);
    /// Looks up a column's code in each row of a list.
    pub fn bsl_lookup(
        file: *const u8,
        length: usize,
        column: usize,
        rows: *const u32,
        rows_length: usize,
        out: *mut u64,
        out_length: usize,
        reply: *mut u64,
    );
}
