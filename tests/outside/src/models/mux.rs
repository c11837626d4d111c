//! "Fixed-select mux": a part of one of two control traces.

/// The refusal's number, or the selected trace's number, and the part's first cycle and count. The part is to be copied into so
/// much room.
pub fn mux_static(
    lengths: [usize; 2],
    select: u8,
    first: usize,
    count: usize,
    room: usize,
) -> Result<(usize, usize, usize), u8> {
    if room < count {
        return Err(7);
    }
    let trace = usize::from(select);
    let cycles = *lengths.get(trace).ok_or(8)?;
    let end = first.checked_add(count).ok_or(8)?;
    if count > 0 && end <= cycles {
        Ok((trace, first, count))
    } else {
        Err(8)
    }
}
