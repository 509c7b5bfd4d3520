//! Wrapped files, laid out by document 02 without the baseline's code.

use super::{get2, put2, put4};

pub const HEADER: usize = 84;
pub const DATA: usize = 409_600;
pub const TAGS: usize = 9_600;

/// A wrapped file of an image: the name's field with its length byte, the format byte, and the tags, which may be none.
pub fn wrapped(image: &[u8], name: &[u8; 64], format: u8, tags: &[u8]) -> Vec<u8> {
    let mut file = vec![0; HEADER];
    file[..64].copy_from_slice(name);
    put4(&mut file, 64, image.len() as u32);
    put4(&mut file, 68, tags.len() as u32);
    file[81] = format;
    put2(&mut file, 82, 0x0100);
    file.extend(image);
    file.extend(tags);
    put_checksums(&mut file);
    file
}

/// Makes both checksums of a file right that is as long as a wrapped one.
pub fn put_checksums(file: &mut [u8]) {
    let (data, tags) = file[HEADER..].split_at(DATA);
    let tag_sum = if tags.is_empty() { 0 } else { sum(&tags[12..]) };
    let data_sum = sum(data);
    put4(file, 72, data_sum);
    put4(file, 76, tag_sum);
}

fn sum(bytes: &[u8]) -> u32 {
    let mut sum = 0_u64;
    for at in (0..bytes.len()).step_by(2) {
        sum = (sum + u64::from(get2(bytes, at))) % (1 << 32);
        sum = sum / 2 + sum % 2 * (1 << 31);
    }
    sum as u32
}
