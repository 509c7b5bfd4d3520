//! Document 02's wrapped files: Disk Copy 4.2 files of 400K disks. A call on one is the call on the image inside.

use super::layout::{get_u16, get_u32, put_u16, put_u32};
use super::types::{Form, Refusal};
use super::volume::Volume;

const HEADER: usize = 84;
const DATA: usize = 409_600;
const TAGS: usize = 9_600;
const LONGEST_FILE_NAME: usize = 63;
const LAST_WORD: u16 = 0x0100;

/// The tags' first bytes, which their checksum leaves out.
const LEFT_OUT: usize = 12;

/// Where the header's fields stand.
mod header_at {
    pub const NAME_LENGTH: usize = 0;
    pub const NAME: usize = 1;
    pub const DATA_SIZE: usize = 64;
    pub const TAG_SIZE: usize = 68;
    pub const DATA_CHECKSUM: usize = 72;
    pub const TAG_CHECKSUM: usize = 76;
    pub const ENCODING: usize = 80;
    pub const FORMAT: usize = 81;
    pub const LAST_WORD: usize = 82;
}

impl Form {
    /// The image that a call is made on: checks 22, 23 and 24.
    pub fn image(self, file: &[u8]) -> Result<&[u8], Refusal> {
        match self {
            Form::Bare => Ok(file),
            Form::Wrapped => {
                check_container(file)?;
                Ok(&file[HEADER..HEADER + DATA])
            }
        }
    }

    /// Makes a change of the image, and renews its checksum where it is wrapped.
    pub fn change(self, file: &mut [u8], call: impl FnOnce(&mut [u8]) -> Result<(), Refusal>) -> Result<(), Refusal> {
        match self {
            Form::Bare => call(file),
            Form::Wrapped => {
                check_container(file)?;
                let data = &mut file[HEADER..HEADER + DATA];
                call(data)?;
                let sum = checksum(data);
                put_u32(file, header_at::DATA_CHECKSUM, sum);
                Ok(())
            }
        }
    }
}

/// Each big-endian word is added to the sum, which is then turned right by one bit.
fn checksum(bytes: &[u8]) -> u32 {
    bytes.chunks_exact(2).fold(0, |sum: u32, word| {
        sum.wrapping_add(u32::from(get_u16(word, 0))).rotate_right(1)
    })
}

fn check_container(file: &[u8]) -> Result<(), Refusal> {
    if file.len() != HEADER + DATA && file.len() != HEADER + DATA + TAGS {
        return Err(Refusal::Container);
    }
    let tags = &file[HEADER + DATA..];
    let fits = usize::from(file[header_at::NAME_LENGTH]) <= LONGEST_FILE_NAME
        && get_u32(file, header_at::DATA_SIZE) as usize == DATA
        && get_u32(file, header_at::TAG_SIZE) as usize == tags.len()
        && file[header_at::ENCODING] == 0
        && get_u16(file, header_at::LAST_WORD) == LAST_WORD;
    if !fits {
        return Err(Refusal::Container);
    }
    if get_u32(file, header_at::DATA_CHECKSUM) != checksum(&file[HEADER..HEADER + DATA]) {
        return Err(Refusal::DataChecksum);
    }
    let tag_checksum = tags.get(LEFT_OUT..).map_or(0, checksum);
    if get_u32(file, header_at::TAG_CHECKSUM) != tag_checksum {
        return Err(Refusal::TagChecksum);
    }
    Ok(())
}

/// Fills the buffer with a wrapped file of an image, without tags.
pub fn wrap(image: &[u8], name: &[u8], format: u8, buffer: &mut [u8]) -> Result<(), Refusal> {
    if image.len() != DATA || buffer.len() != HEADER + DATA || name.len() > LONGEST_FILE_NAME {
        return Err(Refusal::Container);
    }
    Volume::open(image)?;

    let (header, data) = buffer.split_at_mut(HEADER);
    header.fill(0);
    header[header_at::NAME_LENGTH] = name.len() as u8;
    header[header_at::NAME..header_at::NAME + name.len()].copy_from_slice(name);
    put_u32(header, header_at::DATA_SIZE, DATA as u32);
    put_u32(header, header_at::DATA_CHECKSUM, checksum(image));
    header[header_at::FORMAT] = format;
    put_u16(header, header_at::LAST_WORD, LAST_WORD);
    data.copy_from_slice(image);
    Ok(())
}

#[cfg(test)]
mod tests {
    use super::*;
    use crate::baseline::{check, delete};
    use crate::images;

    fn file(tags: &[u8]) -> Vec<u8> {
        let mut name = [0xEE; 64];
        name[0] = 63;
        images::wrapped(&images::one_fork(), &name, 0x12, tags)
    }

    /// The number of a file with another byte.
    fn number(mut file: Vec<u8>, at: usize) -> u8 {
        file[at] ^= 0x40;
        Form::Wrapped.image(&file).map_or_else(Refusal::number, |_| 0)
    }

    #[test]
    fn checksums() {
        let rows: [(&[u8], u32); 6] = [
            (&[], 0),
            (&[0, 1], 0x8000_0000),
            (&[0, 1, 0, 0], 0x4000_0000),
            (&[0xFF, 0xFF, 0xFF, 0xFF], 0x4000_BFFF),
            (&[0, 1, 0x80, 0], 0x4000_4000),
            (&[0, 2, 0x80, 1], 0x0000_4001),
        ];
        for (bytes, sum) in rows {
            assert_eq!(checksum(bytes), sum, "{bytes:?}");
        }
        // FFFF8000 hex after 17 words, and the next one makes the sum wrap
        let wraps = [[0, 1]; 17].into_iter().chain([[0xFF, 0xFF]]).flatten();
        assert_eq!(checksum(&wraps.collect::<Vec<_>>()), 0x8000_3FFF);
    }

    #[test]
    fn refused_by_the_header_and_the_checksums() {
        let tags: Vec<u8> = (0..TAGS).map(|i| (i % 251) as u8).collect();
        for file in [file(&[]), file(&tags)] {
            assert_eq!(
                check(Form::Wrapped.image(&file).unwrap()).map(|facts| facts.files),
                Ok(1)
            );
            for (at, refused) in [
                (0, 22),
                (64, 22),
                (71, 22),
                (72, 23),
                (79, 24),
                (80, 22),
                (82, 22),
                (83, 22),
            ] {
                assert_eq!(number(file.clone(), at), refused, "{at}");
            }
            for at in [1, 63, 81] {
                assert_eq!(number(file.clone(), at), 0, "{at}");
            }
            assert_eq!(number(file.clone(), HEADER + DATA - 1), 23);
            assert_eq!(number(file[1..].to_vec(), 9), 22);
        }
        for (at, refused) in [(0, 0), (11, 0), (12, 24), (TAGS - 1, 24)] {
            assert_eq!(number(file(&tags), HEADER + DATA + at), refused, "{at}");
        }
        assert_eq!(number(file(&tags)[..HEADER + DATA].to_vec(), 1), 22);
        assert_eq!(number(file(&tags[..4_800]), 1), 22);
        assert_eq!(number(images::one_fork(), 1), 22);
    }

    #[test]
    fn a_change_renews_the_data_checksum_alone() {
        let mut changed = file(&[7; TAGS]);
        Form::Wrapped
            .change(&mut changed, |image| delete(image, b"WHOLE"))
            .unwrap();
        let mut image = images::one_fork();
        delete(&mut image, b"WHOLE").unwrap();
        let mut name = [0xEE; 64];
        name[0] = 63;
        assert_eq!(changed, images::wrapped(&image, &name, 0x12, &[7; TAGS]));
        let before = changed.clone();
        let refused = Form::Wrapped.change(&mut changed, |image| delete(image, b"WHOLE"));
        assert_eq!((refused, changed), (Err(Refusal::NoSuchFile), before));
    }

    #[test]
    fn wraps() {
        let image = images::one_fork();
        let mut buffer = vec![0xEE; HEADER + DATA];
        for length in [0, 1, 63] {
            let mut name = [0; 64];
            name[0] = length as u8;
            name[1..=length].fill(b'n');
            assert_eq!(wrap(&image, &vec![b'n'; length], 0x02, &mut buffer), Ok(()));
            assert_eq!(buffer, images::wrapped(&image, &name, 0x02, &[]));
        }
        buffer.fill(0xEE);
        let mut bad = image.clone();
        bad[1024] = 0;
        assert_eq!(wrap(&bad, b"", 0, &mut buffer), Err(Refusal::Signature));
        assert_eq!(wrap(&bad, &[b'n'; 64], 0, &mut buffer), Err(Refusal::Container));
        assert_eq!(wrap(&bad[512..], b"", 0, &mut buffer), Err(Refusal::Container));
        assert_eq!(wrap(&bad, b"", 0, &mut buffer[1..]), Err(Refusal::Container));
        assert!(buffer.iter().all(|&byte| byte == 0xEE));
    }
}
