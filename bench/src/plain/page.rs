//! The pages of request 2.1: lines of 20 characters and a line feed.

use super::check::judge;
use super::numbers::*;
use super::{Labels, RowLists};

const LINE: usize = 21;
const VERTICES: usize = 50;

/// The bytes of all pages of n vertices.
pub fn page_length(n: usize) -> usize {
    LINE * (n + n.div_ceil(VERTICES))
}

/// The number of the call for pages.
pub fn page(
    file: &[u8],
    source: usize,
    labels: Labels,
    rows: &mut RowLists,
    bytes: &mut [u8],
) -> usize {
    let n = match judge(file, source, labels, rows) {
        Ok(n) => n,
        Err(number) => return number,
    };
    if bytes.len() < page_length(n) {
        return SHORT;
    }
    let mut lines = bytes[..page_length(n)].as_chunks_mut::<LINE>().0.iter_mut();
    let mut put = |line| *lines.next().expect("a line for each vertex and page") = line;
    for vertex in 0..n {
        if vertex % VERTICES == 0 {
            put(heading(vertex / VERTICES + 1));
        }
        put(vertex_line(
            vertex,
            labels.distances[vertex],
            labels.parents[vertex],
        ));
    }
    DONE
}

fn blank_line() -> [u8; LINE] {
    let mut line = [b' '; LINE];
    line[LINE - 1] = b'\n';
    line
}

/// Line one of a page.
fn heading(page: usize) -> [u8; LINE] {
    let mut line = blank_line();
    line[..10].copy_from_slice(b"HOPS page ");
    put_number(&mut line[10..20], page);
    line
}

fn vertex_line(vertex: usize, distance: u16, parent: u16) -> [u8; LINE] {
    let mut line = blank_line();
    put_number(&mut line[0..5], vertex);
    put_label(&mut line[6..13], distance);
    put_label(&mut line[14..20], parent);
    line
}

fn put_label(columns: &mut [u8], label: u16) {
    if label == UNSET {
        columns[columns.len() - 1] = b'-';
    } else {
        put_number(columns, label.into());
    }
}

/// A number in decimal, right-aligned.
fn put_number(columns: &mut [u8], number: usize) {
    let mut rest = number;
    for column in columns.iter_mut().rev() {
        *column = b'0' + (rest % 10) as u8;
        rest /= 10;
        if rest == 0 {
            break;
        }
    }
}
