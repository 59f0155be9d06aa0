//! A plain reader and writer of edit files, each in one pass, into vectors that grow. The reader accepts what document 01
//! accepts; which line or number a refusal carries is not held to it.

use oracle::flat::{ITEM_STRIDE, NUMBER, TEXT};

const ORIGINAL: usize = 65_535;
const ITEMS: usize = 8_192;
const POINTS: usize = 131_070;

#[derive(Debug, PartialEq, Eq)]
pub struct EditFile {
    pub items: Vec<i64>,
    pub text: Vec<u32>,
}

struct Reader<'a> {
    rest: &'a [u8],
    line: usize,
}

impl Reader<'_> {
    fn key(&mut self, key: &[u8]) -> Result<(), usize> {
        self.rest = self.rest.strip_prefix(key).ok_or(self.line)?;
        Ok(())
    }

    fn next(&mut self) -> Result<u8, usize> {
        let (&byte, rest) = self.rest.split_first().ok_or(self.line)?;
        self.rest = rest;
        Ok(byte)
    }

    /// A decimal number of at most `limit`, and the end of its line.
    fn number(&mut self, limit: usize) -> Result<usize, usize> {
        let first = self.next()?;
        if !first.is_ascii_digit() {
            return Err(self.line);
        }
        let mut number = usize::from(first - b'0');
        loop {
            match self.next()? {
                b'\n' => break,
                digit @ b'0'..=b'9' if first != b'0' => {
                    number = number * 10 + usize::from(digit - b'0');
                }
                _ => return Err(self.line),
            }
            if number > limit {
                return Err(self.line);
            }
        }
        if number > limit {
            return Err(self.line);
        }
        self.line += 1;
        Ok(number)
    }

    /// Code points in hexadecimal with one space between, and the end of their line.
    fn points(&mut self, text: &mut Vec<u32>) -> Result<(), usize> {
        loop {
            let mut number = 0;
            let mut digits = 0;
            let end = loop {
                let value = match self.next()? {
                    digit @ b'0'..=b'9' => digit - b'0',
                    digit @ b'a'..=b'f' => digit - b'a' + 10,
                    end => break end,
                };
                if digits == 1 && number == 0 || digits == 6 {
                    return Err(self.line);
                }
                number = number * 16 + u32::from(value);
                digits += 1;
            };
            if digits == 0 || char::from_u32(number).is_none() || text.len() == POINTS {
                return Err(self.line);
            }
            text.push(number);
            match end {
                b' ' => {}
                b'\n' => break,
                _ => return Err(self.line),
            }
        }
        self.line += 1;
        Ok(())
    }
}

/// The items and the text, or the first bad line.
pub fn read(bytes: &[u8]) -> Result<EditFile, usize> {
    let mut reader = Reader {
        rest: bytes,
        line: 1,
    };
    reader.key(b"form=1\n")?;
    reader.line += 1;
    reader.key(b"original=")?;
    let original = reader.number(ORIGINAL)?;
    reader.key(b"result=")?;
    let result = reader.number(usize::MAX / 16)?;
    reader.key(b"items=")?;
    let count = reader.number(ITEMS)?;

    let mut items = Vec::with_capacity(ITEM_STRIDE * count);
    let mut text = Vec::new();
    let (mut kept, mut dropped) = (0, 0);
    let mut after_keep = false;
    for _ in 0..count {
        let line = reader.line;
        let left = ORIGINAL - kept - dropped;
        match reader.rest.first() {
            Some(b'k') if !after_keep => {
                reader.key(b"keep=")?;
                let length = reader.number(left)?;
                if length == 0 {
                    return Err(line);
                }
                kept += length;
                items.extend([NUMBER, length as i64, 0]);
                after_keep = true;
            }
            Some(b'd') => {
                reader.key(b"drop=")?;
                let length = reader.number(left)?;
                if length == 0 {
                    return Err(line);
                }
                dropped += length;
                items.extend([NUMBER, -(length as i64), 0]);
                after_keep = false;
            }
            Some(b'a') => {
                reader.key(b"add=")?;
                let start = text.len();
                reader.points(&mut text)?;
                items.extend([TEXT, start as i64, (text.len() - start) as i64]);
                after_keep = false;
            }
            _ => return Err(line),
        }
    }

    let line = reader.line;
    reader.key(b"end=")?;
    if reader.number(ITEMS)? != count {
        return Err(line);
    }
    if !reader.rest.is_empty() {
        return Err(reader.line);
    }
    if kept + dropped != original {
        return Err(2);
    }
    if kept + text.len() != result {
        return Err(3);
    }
    Ok(EditFile { items, text })
}

/// The bytes, or the number of a refusal.
pub fn write(items: &[i64], text: &[u32]) -> Result<Vec<u8>, u64> {
    let records = items.chunks_exact(ITEM_STRIDE);
    let (mut kept, mut dropped, mut added) = (0u64, 0u64, 0u64);
    let mut after_keep = false;
    if records.len() > ITEMS || text.len() > POINTS {
        return Err(3);
    }
    for item in records.clone() {
        let keep = item[0] == NUMBER && item[1] > 0;
        match item[0] {
            NUMBER if item[1] == 0 || keep && after_keep => return Err(1),
            NUMBER if keep => kept += item[1].unsigned_abs(),
            NUMBER => dropped += item[1].unsigned_abs().min(1 << 20),
            TEXT => {
                let (Ok(start), Ok(length)) = (usize::try_from(item[1]), usize::try_from(item[2]))
                else {
                    return Err(1);
                };
                if length == 0 || start > text.len() || length > text.len() - start {
                    return Err(1);
                }
                added += length as u64;
            }
            _ => return Err(1),
        }
        if kept + dropped > ORIGINAL as u64 || added > POINTS as u64 {
            return Err(3);
        }
        after_keep = keep;
    }
    if text.iter().any(|&point| char::from_u32(point).is_none()) {
        return Err(4);
    }

    let mut out = Vec::with_capacity(64 + 12 * records.len() + 3 * text.len());
    out.extend_from_slice(b"form=1\noriginal=");
    decimal(kept + dropped, &mut out);
    out.extend_from_slice(b"result=");
    decimal(kept + added, &mut out);
    out.extend_from_slice(b"items=");
    decimal(records.len() as u64, &mut out);
    for item in records.clone() {
        if item[0] == NUMBER {
            out.extend_from_slice(if item[1] > 0 { b"keep=" } else { b"drop=" });
            decimal(item[1].unsigned_abs(), &mut out);
            continue;
        }
        out.extend_from_slice(b"add");
        let mut before = b'=';
        for &point in &text[item[1] as usize..][..item[2] as usize] {
            out.push(before);
            hexadecimal(point, &mut out);
            before = b' ';
        }
        out.push(b'\n');
    }
    out.extend_from_slice(b"end=");
    decimal(records.len() as u64, &mut out);
    Ok(out)
}

/// A number and the end of its line.
fn decimal(mut number: u64, out: &mut Vec<u8>) {
    let mut digits = [b'\n'; 21];
    let mut at = 20;
    loop {
        at -= 1;
        digits[at] = b'0' + (number % 10) as u8;
        number /= 10;
        if number == 0 {
            break;
        }
    }
    out.extend_from_slice(&digits[at..]);
}

fn hexadecimal(number: u32, out: &mut Vec<u8>) {
    let mut digits = 8 - (number | 1).leading_zeros() / 4;
    while digits > 0 {
        digits -= 1;
        out.push(b"0123456789abcdef"[(number >> (4 * digits) & 15) as usize]);
    }
}

#[cfg(test)]
mod tests {
    use oracle::paper::{edit_file, refusal::AMPLE};

    /// Every beginning of two files, and both with every bit flipped.
    #[test]
    fn accepts_what_the_paper_accepts() {
        let mut accepted = 0;
        for file in ["laptop", "panel"] {
            let file = std::fs::read(format!("../examples/{file}.edit")).expect("an example");
            let beginnings = (0..=file.len()).map(|end| file[..end].to_vec());
            let flipped = (0..8 * file.len()).map(|bit| {
                let mut flipped = file.clone();
                flipped[bit / 8] ^= 1 << (bit % 8);
                flipped
            });
            for bytes in beginnings.chain(flipped) {
                let ours = super::read(&bytes).map(|file| (file.items, file.text));
                let paper = edit_file::read(&bytes, AMPLE, AMPLE);
                let paper = paper.map(|file| (file.items, file.text));
                assert_eq!(ours.ok(), paper.ok(), "{}", String::from_utf8_lossy(&bytes));
                accepted += usize::from(super::read(&bytes).is_ok());
            }
        }
        assert!(accepted > 2, "{accepted}");
    }
}
