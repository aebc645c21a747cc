//! Fields: a tag, a length of two bytes, high byte first, and that many bytes.

/// The bytes of a tag and a length.
pub const HEADER: usize = 3;

/// The tag and the length of each field of a message, in order.
pub type Layout = [(u8, usize)];

/// Where the contents of the field with this index start.
pub const fn contents_start(layout: &Layout, index: usize) -> usize {
    let mut start = HEADER;
    let mut before = 0;
    while before < index {
        start += layout[before].1 + HEADER;
        before += 1;
    }
    start
}

/// The length of a whole message.
pub const fn whole(layout: &Layout) -> usize {
    contents_start(layout, layout.len()) - HEADER
}

/// The header of a field.
pub const fn header(tag: u8, length: usize) -> [u8; HEADER] {
    [tag, (length >> 8) as u8, length as u8]
}

/// Whether the message has exactly these fields and nothing after them.
#[inline(always)]
pub fn has_layout(message: &[u8], layout: &Layout) -> bool {
    let mut start = 0;
    for &(tag, length) in layout {
        if message.get(start..start + HEADER) != Some(&header(tag, length)[..]) {
            return false;
        }
        start += HEADER + length;
    }
    message.len() == start
}

/// The length that a header tells, and none where the header is not whole.
pub fn told_length(input: &[u8]) -> Option<usize> {
    let header = input.get(..HEADER)?;
    Some(usize::from(header[1]) << 8 | usize::from(header[2]))
}

/// The first field's tag and contents and what follows it, or none where it is not whole.
pub fn split_field(input: &[u8]) -> Option<(u8, &[u8], &[u8])> {
    let end = HEADER + told_length(input)?;
    let contents = input.get(HEADER..end)?;
    Some((input[0], contents, &input[end..]))
}

/// Appends a field of at most 65,535 bytes.
pub fn push_field(out: &mut Vec<u8>, tag: u8, contents: &[u8]) {
    assert!(contents.len() <= usize::from(u16::MAX), "a field holds at most 65535 bytes");
    out.extend_from_slice(&header(tag, contents.len()));
    out.extend_from_slice(contents);
}

#[cfg(test)]
mod tests {
    use super::*;

    #[test]
    fn lengths_have_their_high_byte_first() {
        let mut out = Vec::new();
        push_field(&mut out, 0x76, &[7; 258]);
        assert_eq!(out[..4], [0x76, 1, 2, 7]);
        assert_eq!(split_field(&out), Some((0x76, &[7; 258][..], &[][..])));
        assert_eq!(split_field(&out[..260]), None);
        assert_eq!(split_field(&out[..2]), None);
    }

    #[test]
    fn layouts_are_exact() {
        let layout = [(1, 2), (4, 0)];
        assert_eq!(whole(&layout), 8);
        assert_eq!(contents_start(&layout, 1), 8);
        let message = [1, 0, 2, 9, 9, 4, 0, 0];
        assert!(has_layout(&message, &layout));
        assert!(!has_layout(&message[..7], &layout));
        assert!(!has_layout(&[1, 0, 2, 9, 9, 4, 0, 0, 0], &layout));
        assert!(!has_layout(&[1, 0, 2, 9, 9, 5, 0, 0], &layout));
    }
}
