//! Images of volumes, laid out by document 01 without the baseline's code, and wrapped files.

mod crowded;
mod shapes;
mod wrapped;

pub use crowded::{crowded, names_at, numbers_at};
pub use shapes::shapes;
#[cfg(test)]
pub use shapes::{hall, one_fork};
pub use wrapped::{put_checksums, wrapped, DATA, HEADER, TAGS};

/// The volume information that a maker chooses; the counts follow from the files.
#[derive(Clone, Debug)]
pub struct Geometry {
    pub image_blocks: usize,
    pub attributes: u16,
    pub directory_start: usize,
    pub directory_length: usize,
    pub allocation_start: usize,
    pub block_size: usize,
    pub allocation_blocks: usize,
    pub clump_size: u32,
    pub next_number: u32,
    pub name: Vec<u8>,
}

#[derive(Clone, Debug, Default)]
pub struct ForkSpec {
    pub logical: usize,
    pub blocks: Vec<u16>,
}

#[derive(Clone, Debug)]
pub struct FileSpec {
    pub flags: u8,
    pub finder: [u8; 16],
    pub number: u32,
    pub data: ForkSpec,
    pub resource: ForkSpec,
    pub created: u32,
    pub changed: u32,
    pub name: Vec<u8>,
}

impl FileSpec {
    pub fn empty(number: u32, name: &[u8]) -> FileSpec {
        FileSpec {
            flags: 0x80,
            finder: [0; 16],
            number,
            data: ForkSpec::default(),
            resource: ForkSpec::default(),
            created: 2_500_000_000,
            changed: 2_500_600_000,
            name: name.to_vec(),
        }
    }

    /// The bytes of its entry.
    pub fn size(&self) -> usize {
        (51 + self.name.len()).div_ceil(2) * 2
    }

    fn put(&self, image: &mut [u8], at: usize, block_size: usize) {
        image[at] = self.flags;
        image[at + 1] = 0;
        image[at + 2..at + 18].copy_from_slice(&self.finder);
        put4(image, at + 18, self.number);
        put_fork(image, at + 22, &self.data, block_size);
        put_fork(image, at + 32, &self.resource, block_size);
        put4(image, at + 42, self.created);
        put4(image, at + 46, self.changed);
        image[at + 50] = self.name.len() as u8;
        image[at + 51..at + 51 + self.name.len()].copy_from_slice(&self.name);
    }
}

pub fn put2(image: &mut [u8], at: usize, value: u16) {
    image[at] = (value / 256) as u8;
    image[at + 1] = (value % 256) as u8;
}

pub fn put4(image: &mut [u8], at: usize, value: u32) {
    put2(image, at, (value / 65_536) as u16);
    put2(image, at + 2, (value % 65_536) as u16);
}

pub fn get2(image: &[u8], at: usize) -> u16 {
    u16::from(image[at]) * 256 + u16::from(image[at + 1])
}

pub fn get4(image: &[u8], at: usize) -> u32 {
    u32::from(get2(image, at)) * 65_536 + u32::from(get2(image, at + 2))
}

fn put_fork(image: &mut [u8], at: usize, fork: &ForkSpec, block_size: usize) {
    put2(image, at, fork.blocks.first().copied().unwrap_or(0));
    put4(image, at + 2, fork.logical as u32);
    put4(image, at + 6, (fork.blocks.len() * block_size) as u32);
}

/// Stores a block's map entry: the map is a row of half-bytes, three to an entry.
pub fn put_map(image: &mut [u8], block: u16, value: u16) {
    let first = (usize::from(block) - 2) * 3;
    for (i, half) in [value / 256, value / 16 % 16, value % 16].into_iter().enumerate() {
        let at = 1088 + (first + i) / 2;
        if (first + i).is_multiple_of(2) {
            image[at] = image[at] % 16 + 16 * half as u8;
        } else {
            image[at] = image[at] / 16 * 16 + half as u8;
        }
    }
}

/// The image of a volume, each file in the directory block that goes with it. `fill` is for the bytes that the volume
/// does not fix.
pub fn build(geometry: &Geometry, files: &[(usize, FileSpec)], fill: &mut dyn FnMut(&mut [u8])) -> Vec<u8> {
    let mut image = vec![0; geometry.image_blocks * 512];
    fill(&mut image);
    put_facts(&mut image, geometry, files);
    put_directory(&mut image, geometry, files);
    put_blocks(&mut image, geometry, files);
    image
}

fn put_facts(image: &mut [u8], geometry: &Geometry, files: &[(usize, FileSpec)]) {
    put2(image, 1024, 0xD2D7);
    put4(image, 1026, 2_400_000_000);
    put4(image, 1030, 2_450_000_000);
    put2(image, 1034, geometry.attributes);
    put2(image, 1036, files.len() as u16);
    put2(image, 1038, geometry.directory_start as u16);
    put2(image, 1040, geometry.directory_length as u16);
    put2(image, 1042, geometry.allocation_blocks as u16);
    put4(image, 1044, geometry.block_size as u32);
    put4(image, 1048, geometry.clump_size);
    put2(image, 1052, geometry.allocation_start as u16);
    put4(image, 1054, geometry.next_number);
    image[1060] = geometry.name.len() as u8;
    image[1061..1061 + geometry.name.len()].copy_from_slice(&geometry.name);
}

fn put_directory(image: &mut [u8], geometry: &Geometry, files: &[(usize, FileSpec)]) {
    let directory = geometry.directory_start * 512;
    let mut ends = vec![0; geometry.directory_length];
    for (block, file) in files {
        file.put(image, directory + block * 512 + ends[*block], geometry.block_size);
        ends[*block] += file.size();
    }
    for (block, &end) in ends.iter().enumerate() {
        assert!(end <= 512, "the files of a directory block fit");
        if end < 512 {
            image[directory + block * 512 + end] &= 0x7F;
        }
    }
}

/// The map and the count of free blocks.
fn put_blocks(image: &mut [u8], geometry: &Geometry, files: &[(usize, FileSpec)]) {
    for block in 2..geometry.allocation_blocks as u16 + 2 {
        put_map(image, block, 0);
    }
    let mut used = 0;
    for fork in files.iter().flat_map(|(_, file)| [&file.data, &file.resource]) {
        used += fork.blocks.len();
        for pair in fork.blocks.windows(2) {
            put_map(image, pair[0], pair[1]);
        }
        if let Some(&last) = fork.blocks.last() {
            put_map(image, last, 1);
        }
    }
    put2(image, 1058, (geometry.allocation_blocks - used) as u16);
}

/// Puts each file in the first directory block that has room behind the files before it.
fn in_order(geometry: &Geometry, files: Vec<FileSpec>) -> Vec<(usize, FileSpec)> {
    let (mut block, mut end) = (0, 0);
    files
        .into_iter()
        .map(|file| {
            if end + file.size() > 512 {
                block += 1;
                end = 0;
            }
            assert!(block < geometry.directory_length, "the directory has room");
            end += file.size();
            (block, file)
        })
        .collect()
}

/// The next file number above those of the files.
fn next_number(files: &[FileSpec]) -> u32 {
    files.iter().map(|file| file.number).max().unwrap_or(0) + 1
}
