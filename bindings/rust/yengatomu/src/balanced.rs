//! Balanced lines, paragraph by paragraph.
use crate::raw::{Calls, Slot};
use crate::text::{Slice, Unit};
use crate::{Error, Line};

/// The balanced lines of a text.
pub(crate) fn lines<'t, S: ?Sized + Slice>(slot: &Slot, text: &'t S, columns: u32) -> Result<Vec<Line<'t, S>>, Error> {
    let (mut lines, mut rest, mut start) = (Vec::new(), text, 0);
    let (mut ends, mut widths) = (vec![0; 64], vec![0; 64]);
    loop {
        let count = paragraph(slot, text.units(), start, columns, &mut ends, &mut widths)?;
        if count == 0 {
            return Ok(lines);
        }
        for (&end, &width) in ends[..count].iter().zip(&widths) {
            let (line, behind) = rest.split(end - start);
            lines.push(Line { start, text: line, columns: width });
            (rest, start) = (behind, end);
        }
    }
}

/// Finds the lines of the paragraph behind a place, and returns how many it has. Buffers that are too short grow.
fn paragraph<U: Unit>(
    slot: &Slot,
    text: &[U],
    from: usize,
    columns: u32,
    ends: &mut Vec<usize>,
    widths: &mut Vec<usize>,
) -> Result<usize, Error> {
    let count = Calls::wrap_balanced(slot, text, from, columns, ends, widths).ok_or(Error::OutOfMemory)?;
    if count <= ends.len() {
        return Ok(count);
    }
    ends.resize(count, 0);
    widths.resize(count, 0);
    Calls::wrap_balanced(slot, text, from, columns, ends, widths).ok_or(Error::OutOfMemory)
}
