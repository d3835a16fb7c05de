//! Many files in one input, as panel_files reads them: each behind its length in two bytes, the low one first.

/// Puts one more file behind the others. It has at most 65,535 bytes.
pub fn put_frame(out: &mut Vec<u8>, file: &[u8]) {
    let length = u16::try_from(file.len()).expect("a frame holds at most 65,535 bytes");
    out.extend(length.to_le_bytes());
    out.extend_from_slice(file);
}

/// The files of all whole frames.
pub fn frames(input: &[u8]) -> impl Iterator<Item = &[u8]> {
    let mut rest = input;
    std::iter::from_fn(move || {
        let (&length, behind) = rest.split_first_chunk::<2>()?;
        let (file, behind) = behind.split_at_checked(u16::from_le_bytes(length).into())?;
        rest = behind;
        Some(file)
    })
}
