//! Document 02, requests 02 and 14, in plain Rust: a side sheet behind the audio, written, read and mended.

/// Where the records of a good sheet start, how many there are, and the side.
#[derive(Clone, Copy, Debug, PartialEq)]
pub struct Found {
    pub start: usize,
    pub records: usize,
    pub side: u8,
}

fn word(bytes: &[u8]) -> u32 {
    u32::from_le_bytes(bytes[..4].try_into().unwrap())
}

/// The 32-bit wrapping sum of all record bytes.
fn sum(records: &[u8]) -> u32 {
    records.iter().fold(0, |sum: u32, byte| sum.wrapping_add(*byte as u32))
}

/// A record of this side, silent or heard, with two zeros.
fn good(record: &[u8], side: u8) -> bool {
    record[4] <= 1 && record[5] == side && record[6] == 0 && record[7] == 0
}

pub fn read(file: &[u8]) -> Result<Found, u32> {
    let Some((before, trailer)) = file.split_last_chunk::<16>() else { return Err(31) };
    let (distance, number) = (word(trailer) as u64, word(&trailer[4..]) as u64);
    if distance != 8 * number || distance > before.len() as u64 {
        return Err(32);
    }
    let side = trailer[8];
    if side > 1 || trailer[9..12] != [0; 3] {
        return Err(33);
    }
    let start = before.len() - distance as usize;
    let records = &before[start..];
    if !records.chunks_exact(8).all(|record| good(record, side)) {
        return Err(34);
    }
    if sum(records) != word(&trailer[12..]) {
        return Err(35);
    }
    Ok(Found { start, records: number as usize, side })
}

/// Frame number, and 2^32 more where it was heard.
pub fn entry(file: &[u8], index: u64) -> Result<u64, u32> {
    let found = read(file)?;
    if index >= found.records as u64 {
        return Err(5);
    }
    let record = &file[found.start + 8 * index as usize..];
    Ok(word(record) as u64 + ((record[4] as u64) << 32))
}

pub fn write(out: &mut [u8], side: u32, entries: &[u64]) -> u32 {
    if entries.len() >= 536_870_912 {
        return 32;
    }
    if side > 1 {
        return 33;
    }
    if entries.iter().any(|entry| entry >> 32 > 1) {
        return 34;
    }
    let end = 8 * entries.len();
    if out.len() < end + 16 {
        return 36;
    }
    let (records, rest) = out.split_at_mut(end);
    lay(records, side, entries);
    trailer(rest, records, side as u8);
    0
}

fn lay(records: &mut [u8], side: u32, entries: &[u64]) {
    for (record, entry) in records.chunks_exact_mut(8).zip(entries) {
        record[..4].copy_from_slice(&(*entry as u32).to_le_bytes());
        record[4..].copy_from_slice(&[(entry >> 32) as u8, side as u8, 0, 0]);
    }
}

/// Records alone: so many there are with these, and the sum of their bytes.
pub fn records(out: &mut [u8], side: u32, entries: &[u64], count: u64, passed: u64) -> Result<[u64; 2], u32> {
    let count = u128::from(count) + entries.len() as u128;
    if count >= 536_870_912 {
        return Err(32);
    }
    if side > 1 {
        return Err(33);
    }
    if entries.iter().any(|entry| entry >> 32 > 1) {
        return Err(34);
    }
    let records = out.get_mut(..8 * entries.len()).ok_or(36u32)?;
    lay(records, side, entries);
    Ok([count as u64, (passed as u32).wrapping_add(sum(records)).into()])
}

/// A trailer alone.
pub fn trailer_of(out: &mut [u8], side: u32, count: u64, sum: u64) -> u32 {
    if count >= 536_870_912 {
        return 32;
    }
    if side > 1 {
        return 33;
    }
    let Some(out) = out.first_chunk_mut::<16>() else { return 36 };
    let words = [8 * count as u32, count as u32, side, sum as u32];
    out.iter_mut().zip(words.iter().flat_map(|word| word.to_le_bytes())).for_each(|(to, byte)| *to = byte);
    0
}

/// The 16 bytes behind some records.
pub fn trailer(out: &mut [u8], records: &[u8], side: u8) {
    out[..4].copy_from_slice(&(records.len() as u32).to_le_bytes());
    out[4..8].copy_from_slice(&(records.len() as u32 / 8).to_le_bytes());
    out[8..12].copy_from_slice(&[side, 0, 0, 0]);
    out[12..16].copy_from_slice(&sum(records).to_le_bytes());
}

/// Document 02, request 14: the file with its sheet mended, and how many records that has. The audio ends at `place`.
pub fn mend(file: &[u8], place: u64) -> Result<(Vec<u8>, usize), u32> {
    if place > file.len() as u64 {
        return Err(37);
    }
    let place = place as usize;
    if let Ok(found) = read(file) {
        if found.start == place {
            return Ok((file.to_vec(), found.records));
        }
    }
    let side = file.get(place + 5).copied().filter(|side| *side <= 1).ok_or(38u32)?;
    let records = file[place..].chunks_exact(8).take_while(|record| good(record, side)).count();
    if records == 0 {
        return Err(38);
    }
    if records >= 536_870_912 {
        return Err(32);
    }
    let end = place + 8 * records;
    let mut mended = file[..end].to_vec();
    mended.resize(end + 16, 0);
    let (front, rest) = mended.split_at_mut(end);
    trailer(rest, &front[place..], side);
    Ok((mended, records))
}
