//! The reader of books: the checks of document 02, request 1, one after another. The first that fails answers.

use super::bits::letters;
use super::measures::pattern;
use super::plan::{stride, Given};
use super::refusals::{accepted, of_sizes};
use super::smallest::smallest;

/// What a header says.
#[derive(Clone, Copy, Debug, PartialEq, Eq)]
pub struct Header {
    pub n: usize,
    pub g: usize,
    pub r: usize,
    pub count: usize,
}

/// What the checks find in a book: what its header says, or the number of the header; then the columns of its entries, or their number.
pub struct Judged {
    header: Result<Header, u8>,
    entries: Result<Vec<Vec<u32>>, u8>,
}

impl Judged {
    /// How many places of a list the count of the header takes, N columns and a mask of two bytes an entry, 0 if the header is refused.
    pub fn places(&self) -> usize {
        self.header.map_or(0, |header| header.count * stride(header.n))
    }

    /// What is read into a list of this many places, or the number of the first check that fails.
    pub fn read(&self, places: usize) -> Result<(Header, &[Vec<u32>]), u8> {
        let header = self.header?;
        if places < self.places() {
            return Err(8);
        }
        self.entries.as_ref().map(|entries| (header, &entries[..])).map_err(|&number| number)
    }
}

/// The body of the record at the start of these bytes, and the bytes after it. 10 if there is none or it is cut off, 11 if its kind is another.
fn record(bytes: &[u8], kind: usize, length: usize) -> Result<(&[u8], &[u8]), u8> {
    let (&found, rest) = bytes.split_first().ok_or(10)?;
    if usize::from(found) != kind {
        return Err(11);
    }
    rest.split_at_checked(length).ok_or(10)
}

/// Numbers of 16 bits, low byte first.
fn numbers(bytes: &[u8]) -> Vec<u32> {
    bytes.chunks(2).map(|pair| u32::from(pair[0]) + 0x100 * u32::from(pair[1])).collect()
}

/// The header, and the bytes after it.
fn header(book: &[u8]) -> Result<(Header, &[u8]), u8> {
    let (body, rest) = record(book, 0x01, 5)?;
    let [n, g, r] = [body[0], body[1], body[2]].map(usize::from);
    match of_sizes(n, g) {
        0 if !(3..=16).contains(&r) => Err(3),
        0 => Ok((Header { n, g, r, count: numbers(&body[3..])[0] as usize }, rest)),
        number => Err(number),
    }
}

/// The counts for lengths 3 to N of a plan; none if its columns are no smallest form of N and G whose words all have at least R letters.
fn counts(header: Header, columns: &[u32]) -> Option<Vec<u32>> {
    let Header { n, g, r, .. } = header;
    let plan = accepted(&Given::columns(n, g, columns, 0)).ok()?;
    let long = plan.words.iter().all(|&word| letters(word) >= r);
    (long && smallest(n - g, columns) == columns).then(|| pattern(n, &plan.words).into_iter().skip(2).collect())
}

/// The columns of the entry at the start of these bytes, and the bytes after it.
fn entry<'a>(header: Header, before: Option<&Vec<u32>>, bytes: &'a [u8]) -> Result<(Vec<u32>, &'a [u8]), u8> {
    let n = header.n;
    let (body, rest) = record(bytes, 0x20 + n, n)?;
    let columns: Vec<u32> = body.iter().map(|&column| column.into()).collect();
    if before.is_some_and(|before| *before >= columns) {
        return Err(12);
    }
    let counts = counts(header, &columns).ok_or(12)?;
    let (body, rest) = record(rest, 0x40 + n, 2 * counts.len())?;
    if numbers(body) != counts {
        return Err(12);
    }
    Ok((columns, rest))
}

/// The entries that the header counts, after which nothing may follow.
fn entries(header: Header, mut rest: &[u8]) -> Result<Vec<Vec<u32>>, u8> {
    let mut entries: Vec<Vec<u32>> = Vec::new();
    for _ in 0..header.count {
        let (columns, after) = entry(header, entries.last(), rest)?;
        entries.push(columns);
        rest = after;
    }
    if rest.is_empty() {
        Ok(entries)
    } else {
        Err(10)
    }
}

/// What the checks find in a book.
pub fn judge(book: &[u8]) -> Judged {
    match header(book) {
        Ok((header, rest)) => Judged { header: Ok(header), entries: entries(header, rest) },
        Err(number) => Judged { header: Err(number), entries: Err(number) },
    }
}
