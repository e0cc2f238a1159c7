//! Streams of plan files, each file with its length in front as 4 bytes little-endian.

/// Adds a file at the end of the stream.
pub fn add(stream: &mut Vec<u8>, file: &[u8]) {
    stream.extend((file.len() as u32).to_le_bytes());
    stream.extend(file);
}

/// The stream's first file and what comes after it; none if it is cut short.
pub fn first_file(stream: &[u8]) -> Option<(&[u8], &[u8])> {
    let (length, rest) = stream.split_first_chunk()?;
    rest.split_at_checked(u32::from_le_bytes(*length) as usize)
}
