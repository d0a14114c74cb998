//! The model: the row table, the plain lookup, building the index and lookup
//! through it.
//!
//! Written word for word from document 01 ("Blocks", "Views and addresses") and
//! from request 1 of document 02 as it is read here (docs/DECISIONS.md, "The
//! index"). Quoted words are theirs. Nothing here is made to be fast.

/// "A row per block [...] holds seven u64 numbers: code (first byte most
/// significant), address, index, count, [...]".
const NUMBERS_PER_ROW: usize = 7;
const CODE: usize = 0;
const ADDRESS: usize = 1;

#[derive(Clone, Copy, PartialEq, Eq, Debug)]
pub enum Refusal {
    /// 13, "row or part not there".
    NotThere,
    /// 14, "no bucket or index tables too short", with the numbers needed.
    NoIndex { buckets: u64, rows: u64 },
}

#[derive(Clone, Copy, PartialEq, Eq, Debug)]
pub enum Finding {
    Null,
    Row(u64),
    Missing,
}

#[derive(Clone, Copy, PartialEq, Eq, Debug)]
pub enum Kind {
    Rend,
    Test,
    Glob,
    Data,
    Dna1,
    Principal,
    /// "a number that is none of the block codes above"
    Unknown,
}

/// "A row's kind follows from its code number alone".
pub fn kind(code: u64) -> Kind {
    if code > 0xffff_ffff {
        Kind::Unknown
    } else if code == code_number(b"REND") {
        Kind::Rend
    } else if code == code_number(b"TEST") {
        Kind::Test
    } else if code == code_number(b"GLOB") {
        Kind::Glob
    } else if code == code_number(b"DATA") {
        Kind::Data
    } else if code == code_number(b"DNA1") {
        Kind::Dna1
    } else if code % 0x1_0000 == 0 {
        // "Any two bytes then two zeros: Principal"
        Kind::Principal
    } else {
        Kind::Unknown
    }
}

/// "code (first byte most significant)"
pub const fn code_number(bytes: &[u8; 4]) -> u64 {
    u32::from_be_bytes(*bytes) as u64
}

/// "Any table has its length divided by the numbers per row, rounded down, as
/// rows".
pub fn table_rows(table: &[u64]) -> u64 {
    (table.len() / NUMBERS_PER_ROW) as u64
}

/// Asked only of a row that the table has.
pub fn code(table: &[u64], row: u64) -> u64 {
    table[row as usize * NUMBERS_PER_ROW + CODE]
}

/// Asked only of a row that the table has.
pub fn address(table: &[u64], row: u64) -> u64 {
    table[row as usize * NUMBERS_PER_ROW + ADDRESS]
}

/// "Lookup takes the table and a row count (13 first, if the table has fewer
/// rows). Address 0: Null. Otherwise the number, from 0, of the first Principal
/// or Subsidiary (DATA) row with that address [...]; else Missing."
pub fn plain_lookup(table: &[u64], rows: u64, asked: u64) -> Result<Finding, Refusal> {
    check_rows(table, rows)?;
    if asked == 0 {
        return Ok(Finding::Null);
    }
    for row in 0..rows {
        if matches(table, row, asked) {
            return Ok(Finding::Row(row));
        }
    }
    Ok(Finding::Missing)
}

/// "All rows are chained, whatever their kind, by address modulo the bucket
/// count: a head or link is the number, plus 1, of the next row of that bucket,
/// 0 at the end; the chains rise. Numbers past those used are unchanged; a
/// refusal writes nothing."
pub fn build(
    table: &[u64],
    rows: u64,
    buckets: u64,
    heads: &mut [u64],
    links: &mut [u64],
) -> Result<(), Refusal> {
    check_rows(table, rows)?;
    check_index(rows, buckets, heads, links)?;
    for bucket in 0..buckets {
        let chain = chain_of_bucket(table, rows, buckets, bucket);
        heads[bucket as usize] = number_plus_1(chain.first());
        for (place, row) in chain.iter().enumerate() {
            links[*row as usize] = number_plus_1(chain.get(place + 1));
        }
    }
    Ok(())
}

/// "Each number that is followed is first asked whether it lies in the row count
/// and rises over the one before (the first has nothing to rise over), and only
/// then whether it matches; whether a row belongs to the bucket is not asked; a
/// matching row's own link is not read."
pub fn index_lookup(
    table: &[u64],
    rows: u64,
    buckets: u64,
    heads: &[u64],
    links: &[u64],
    asked: u64,
) -> Result<Finding, Refusal> {
    check_rows(table, rows)?;
    check_index(rows, buckets, heads, links)?;
    if asked == 0 {
        return Ok(Finding::Null);
    }
    let mut before = None;
    let mut number = heads[(asked % buckets) as usize];
    while number != 0 {
        if !lies_in_rows(number, rows) || !rises(number, before) {
            return Err(Refusal::NotThere);
        }
        let row = number - 1;
        if matches(table, row, asked) {
            return Ok(Finding::Row(row));
        }
        before = Some(number);
        number = links[row as usize];
    }
    Ok(Finding::Missing)
}

/// "13 where the row table has fewer rows than the count".
fn check_rows(table: &[u64], rows: u64) -> Result<(), Refusal> {
    if table_rows(table) < rows {
        Err(Refusal::NotThere)
    } else {
        Ok(())
    }
}

/// "14 where the bucket count is 0 or one of the two tables is too short, always
/// carrying two numbers, the buckets needed (at least 1) and the row count".
/// There is "a head for each bucket, a link for each row".
fn check_index(rows: u64, buckets: u64, heads: &[u64], links: &[u64]) -> Result<(), Refusal> {
    let heads_too_short = (heads.len() as u64) < buckets;
    let links_too_short = (links.len() as u64) < rows;
    if buckets == 0 || heads_too_short || links_too_short {
        Err(Refusal::NoIndex {
            buckets: buckets.max(1),
            rows,
        })
    } else {
        Ok(())
    }
}

/// The rows of one bucket, in rising order. The bucket count is not 0.
fn chain_of_bucket(table: &[u64], rows: u64, buckets: u64, bucket: u64) -> Vec<u64> {
    (0..rows)
        .filter(|row| address(table, *row) % buckets == bucket)
        .collect()
}

/// A head or link: the row's number plus 1, or 0 where there is no row.
fn number_plus_1(row: Option<&u64>) -> u64 {
    match row {
        Some(row) => row + 1,
        None => 0,
    }
}

/// A head or link that is not 0 names the row `number - 1`.
fn lies_in_rows(number: u64, rows: u64) -> bool {
    number <= rows
}

fn rises(number: u64, before: Option<u64>) -> bool {
    match before {
        Some(before) => number > before,
        None => true,
    }
}

/// "A match is what the plain lookup would take at that row: a Principal or DATA
/// row with just that address."
fn matches(table: &[u64], row: u64, asked: u64) -> bool {
    let kind = kind(code(table, row));
    (kind == Kind::Principal || kind == Kind::Data) && address(table, row) == asked
}
