//! The hearing file: its tests, the rows that it holds, and the writer.

use super::numbers::*;
use super::RowLists;

/// A file whose length goes with its header: n heads and m records.
#[derive(Clone, Copy)]
pub struct File<'a> {
    heads: &'a [[u8; 2]],
    records: &'a [[u8; 4]],
}

/// A record's target.
fn target(record: [u8; 4]) -> u16 {
    u16::from_le_bytes([record[0], record[1]])
}

/// The number of the record after this one on its chain.
fn next(record: [u8; 4]) -> u16 {
    u16::from_le_bytes([record[2], record[3]])
}

/// The bytes of a file with n vertices and m edges.
pub fn file_length(n: usize, m: usize) -> usize {
    2 * (2 + n + 2 * m)
}

impl<'a> File<'a> {
    /// The tests that look at no chain: 1, 2, 1, 4, 3.
    pub fn open(bytes: &'a [u8]) -> Result<Self, usize> {
        let Some((&[n0, n1, m0, m1], body)) = bytes.split_first_chunk::<4>() else {
            return Err(LENGTH);
        };
        let n = usize::from(u16::from_le_bytes([n0, n1]));
        let m = usize::from(u16::from_le_bytes([m0, m1]));
        if n == 0 || n > MOST_VERTICES || m > MOST_EDGES {
            return Err(SIZE);
        }
        if bytes.len() != file_length(n, m) {
            return Err(LENGTH);
        }
        let (heads, records) = body.split_at(2 * n);
        let file = File {
            heads: heads.as_chunks().0,
            records: records.as_chunks().0,
        };
        file.scan()?;
        Ok(file)
    }

    pub fn n(&self) -> usize {
        self.heads.len()
    }

    pub fn m(&self) -> usize {
        self.records.len()
    }

    /// Every index against m, then every target against n.
    fn scan(&self) -> Result<(), usize> {
        let (n, m) = (self.n() as u16, self.m() as u16);
        let mut stray_index = false;
        let mut stray_target = false;
        for &head in self.heads {
            stray_index |= u16::from_le_bytes(head) > m;
        }
        for &record in self.records {
            stray_index |= next(record) > m;
            stray_target |= target(record) >= n;
        }
        if stray_index {
            return Err(INDEX);
        }
        if stray_target {
            return Err(TARGET);
        }
        Ok(())
    }

    /// Writes the rows, if each record lies on one chain, once. Leaves the first m marks 0.
    pub fn unchain(&self, rows: &mut RowLists) -> Result<(), usize> {
        let marks = &mut rows.marks[..self.m()];
        marks.fill(0);
        let walked = self.walk(marks);
        if walked.is_ok() {
            self.write_rows(marks, rows.offsets, rows.targets);
        }
        marks.fill(0);
        walked
    }

    /// Marks every record that the chains reach: the first with 1, the next with 2, and so on.
    fn walk(&self, marks: &mut [u16]) -> Result<(), usize> {
        let mut reached = 0;
        for &head in self.heads {
            let mut index = u16::from_le_bytes(head);
            while index != 0 {
                let place = usize::from(index) - 1;
                if marks[place] != 0 {
                    return Err(TWICE);
                }
                reached += 1;
                marks[place] = reached;
                index = next(self.records[place]);
            }
        }
        if usize::from(reached) < self.m() {
            return Err(NEVER);
        }
        Ok(())
    }

    /// Each target goes where its record's mark says: no chain is followed again.
    fn write_rows(&self, marks: &[u16], offsets: &mut [u16], targets: &mut [u16]) {
        let targets = &mut targets[..self.m()];
        for (&record, &mark) in self.records.iter().zip(marks) {
            targets[usize::from(mark) - 1] = target(record);
        }
        let mut end = self.m() as u16;
        offsets[self.n()] = end;
        for (&head, offset) in self.heads.iter().zip(offsets).rev() {
            let index = u16::from_le_bytes(head);
            if index != 0 {
                end = marks[usize::from(index) - 1] - 1;
            }
            *offset = end;
        }
    }
}

/// The reader's number, n and m.
pub fn read(bytes: &[u8], rows: &mut RowLists) -> [u32; 3] {
    match read_rows(bytes, rows) {
        Ok(file) => [DONE as u32, file.n() as u32, file.m() as u32],
        Err(number) => [number as u32, 0, 0],
    }
}

fn read_rows<'a>(bytes: &'a [u8], rows: &mut RowLists) -> Result<File<'a>, usize> {
    let file = File::open(bytes)?;
    if rows.short(file.n(), file.m()) {
        return Err(SHORT);
    }
    file.unchain(rows)?;
    Ok(file)
}

/// The writer: records are numbered in row order.
pub fn write(offsets: &[u16], targets: &[u16], bytes: &mut [u8]) -> usize {
    if malformed(offsets, targets) {
        return ROWS;
    }
    let (n, m) = (offsets.len() - 1, targets.len());
    if bytes.len() < file_length(n, m) {
        return SHORT;
    }
    let (header, body) = bytes[..file_length(n, m)].split_at_mut(4);
    header[..2].copy_from_slice(&(n as u16).to_le_bytes());
    header[2..].copy_from_slice(&(m as u16).to_le_bytes());
    let (heads, records) = body.split_at_mut(2 * n);
    let records = records.as_chunks_mut::<4>().0;
    for (head, row) in heads.as_chunks_mut().0.iter_mut().zip(offsets.windows(2)) {
        *head = write_row(row[0].into(), row[1].into(), targets, records).to_le_bytes();
    }
    DONE
}

/// Writes the records of one row and returns its head.
fn write_row(start: usize, end: usize, targets: &[u16], records: &mut [[u8; 4]]) -> u16 {
    for place in start..end {
        let next = if place + 1 < end { place as u16 + 2 } else { 0 };
        let (target, next) = (targets[place].to_le_bytes(), next.to_le_bytes());
        records[place] = [target[0], target[1], next[0], next[1]];
    }
    if start < end {
        start as u16 + 1
    } else {
        0
    }
}

/// The writer's 11.
fn malformed(offsets: &[u16], targets: &[u16]) -> bool {
    let (Some(&first), Some(&last)) = (offsets.first(), offsets.last()) else {
        return true;
    };
    let (n, m) = (offsets.len() - 1, targets.len());
    n == 0
        || n > MOST_VERTICES
        || m > MOST_EDGES
        || first != 0
        || usize::from(last) != m
        || !offsets.is_sorted()
        || targets.iter().any(|&target| usize::from(target) >= n)
}
