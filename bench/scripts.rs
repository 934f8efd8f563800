//! The work of bench/scripts in Rust: loads a dataset with the columns id, x, y, w, then prints it, or does
//! `update P where x > 0 set y = x * 3 + i0 % 7` and prints the sum of y. With the feature `crates` it reads by the crate csv and
//! writes by the crate itoa, else by the standard library alone.
//!
//! usage: scripts_rs print FILE | scripts_rs update FILE

use std::error::Error;
use std::io::{self, BufWriter, Write};

const HEADER: &str = "id,x,y,w";

struct Row {
    id: u32,
    x: i32,
    y: i64,
    w: u16,
}

fn number<T: std::str::FromStr>(field: Option<&[u8]>) -> Result<T, Box<dyn Error>>
where
    T::Err: Error + 'static,
{
    Ok(std::str::from_utf8(field.ok_or("a row is short")?)?.parse()?)
}

fn row<'a>(mut fields: impl Iterator<Item = &'a [u8]>) -> Result<Row, Box<dyn Error>> {
    Ok(Row {
        id: number(fields.next())?,
        x: number(fields.next())?,
        y: number(fields.next())?,
        w: number(fields.next())?,
    })
}

#[cfg(not(feature = "crates"))]
mod texts {
    use super::*;

    pub fn load(bytes: &[u8]) -> Result<Vec<Row>, Box<dyn Error>> {
        let mut lines = bytes.split(|&byte| byte == b'\n');
        if lines.next() != Some(HEADER.as_bytes()) {
            return Err("the header is another".into());
        }
        lines
            .filter(|line| !line.is_empty())
            .map(|line| row(line.split(|&byte| byte == b',')))
            .collect()
    }

    pub fn print(rows: &[Row], out: &mut impl Write) -> io::Result<()> {
        writeln!(out, "{HEADER}")?;
        for Row { id, x, y, w } in rows {
            writeln!(out, "{id},{x},{y},{w}")?;
        }
        Ok(())
    }
}

#[cfg(feature = "crates")]
mod texts {
    use super::*;

    pub fn load(bytes: &[u8]) -> Result<Vec<Row>, Box<dyn Error>> {
        let mut reader = csv::Reader::from_reader(bytes);
        if !reader
            .byte_headers()?
            .iter()
            .eq(HEADER.split(',').map(str::as_bytes))
        {
            return Err("the header is another".into());
        }
        let mut record = csv::ByteRecord::new();
        let mut rows = Vec::new();
        while reader.read_byte_record(&mut record)? {
            rows.push(row(record.iter())?);
        }
        Ok(rows)
    }

    pub fn print(rows: &[Row], out: &mut impl Write) -> io::Result<()> {
        let mut digits = itoa::Buffer::new();
        writeln!(out, "{HEADER}")?;
        for row in rows {
            out.write_all(digits.format(row.id).as_bytes())?;
            out.write_all(b",")?;
            out.write_all(digits.format(row.x).as_bytes())?;
            out.write_all(b",")?;
            out.write_all(digits.format(row.y).as_bytes())?;
            out.write_all(b",")?;
            out.write_all(digits.format(row.w).as_bytes())?;
            out.write_all(b"\n")?;
        }
        Ok(())
    }
}

fn update(rows: &mut [Row], out: &mut impl Write) -> io::Result<()> {
    for (i, row) in rows.iter_mut().enumerate() {
        if row.x > 0 {
            row.y = i64::from(row.x) * 3 + i as i64 % 7;
        }
    }
    writeln!(
        out,
        "{}",
        rows.iter().map(|row| i128::from(row.y)).sum::<i128>()
    )
}

fn main() -> Result<(), Box<dyn Error>> {
    let words: Vec<String> = std::env::args().skip(1).collect();
    let [work, file] = words.as_slice() else {
        return Err("usage: scripts_rs print FILE | scripts_rs update FILE".into());
    };
    let mut rows = texts::load(&std::fs::read(file)?)?;
    let mut out = BufWriter::new(io::stdout().lock());
    match work.as_str() {
        "print" => texts::print(&rows, &mut out)?,
        _ => update(&mut rows, &mut out)?,
    }
    out.flush()?;
    Ok(())
}
