//! Where slots and buckets lie in an image, and how they are read and written.

#[derive(Clone, Copy)]
pub struct Options {
    pub key_size: u64,
    pub index_size: u64,
    pub slot_capacity: u64,
    pub user_version: u64,
    pub ordered: u64,
    pub role: u64,
}

pub const CAPACITY_LIMIT: u64 = 1_048_576;
pub const BUCKET_LIMIT: u64 = 4_194_304;

pub const HEADER_SIZE: usize = 256;
pub const BUCKET_SIZE: usize = 16;
pub const KEY_AT: usize = 8;

/// Values of slot_plus1; any other is FULL.
pub const EMPTY: u64 = 0;
pub const TOMBSTONE: u64 = u64::MAX;

#[derive(Clone, Copy)]
pub struct Layout {
    pub key_size: usize,
    pub index_size: usize,
    pub slot_size: usize,
    pub slot_capacity: usize,
    pub bucket_count: usize,
    pub buckets_offset: usize,
    pub total_size: usize,
    pub ordered: bool,
}

pub fn u32_at(bytes: &[u8], at: usize) -> u32 {
    u32::from_le_bytes(bytes[at..at + 4].try_into().unwrap())
}

pub fn u64_at(bytes: &[u8], at: usize) -> u64 {
    u64::from_le_bytes(bytes[at..at + 8].try_into().unwrap())
}

pub fn put_u64(bytes: &mut [u8], at: usize, value: u64) {
    bytes[at..at + 8].copy_from_slice(&value.to_le_bytes());
}

fn up_to_8(size: usize) -> usize {
    (size + 7) / 8 * 8
}

fn bucket_in(bytes: &[u8]) -> (u64, u64) {
    (u64_at(bytes, 0), u64_at(bytes, 8))
}

impl Options {
    /// Whether an image may be opened with them; a slot_capacity of 0 is as the header says.
    pub fn allowed(&self) -> bool {
        (1..=64).contains(&self.key_size)
            && self.index_size <= 256
            && self.slot_capacity <= CAPACITY_LIMIT
            && self.ordered <= 1
            && self.role <= 2
    }

    pub fn slot_size(&self) -> usize {
        KEY_AT + up_to_8(self.key_size as usize) + 8 + up_to_8(self.index_size as usize)
    }
}

impl Layout {
    /// Of an image that is made with these options, which are within the sizes.
    pub fn of(options: &Options) -> Layout {
        let slot_capacity = options.slot_capacity as usize;
        Layout::with(
            options,
            slot_capacity,
            (2 * slot_capacity).next_power_of_two(),
        )
    }

    /// Of an image with so many slots and buckets.
    pub fn with(options: &Options, slot_capacity: usize, bucket_count: usize) -> Layout {
        let slot_size = options.slot_size();
        let buckets_offset = HEADER_SIZE + slot_capacity * slot_size;
        Layout {
            key_size: options.key_size as usize,
            index_size: options.index_size as usize,
            slot_size,
            slot_capacity,
            bucket_count,
            buckets_offset,
            total_size: buckets_offset + bucket_count * BUCKET_SIZE,
            ordered: options.ordered == 1,
        }
    }

    pub fn revision_at(&self) -> usize {
        KEY_AT + up_to_8(self.key_size)
    }

    pub fn index_at(&self) -> usize {
        self.revision_at() + 8
    }

    /// The key of a slot or of a record, which are laid out alike.
    pub fn key_in<'a>(&self, slot: &'a [u8]) -> &'a [u8] {
        &slot[KEY_AT..KEY_AT + self.key_size]
    }

    pub fn slot<'a>(&self, image: &'a [u8], slot: usize) -> &'a [u8] {
        let at = HEADER_SIZE + slot * self.slot_size;
        &image[at..at + self.slot_size]
    }

    pub fn slot_mut<'a>(&self, image: &'a mut [u8], slot: usize) -> &'a mut [u8] {
        let at = HEADER_SIZE + slot * self.slot_size;
        &mut image[at..at + self.slot_size]
    }

    /// All slots, those not given out too.
    pub fn slots<'a>(&self, image: &'a [u8]) -> impl Iterator<Item = &'a [u8]> {
        image[HEADER_SIZE..self.buckets_offset].chunks_exact(self.slot_size)
    }

    pub fn home(&self, hash: u64) -> usize {
        hash as usize & (self.bucket_count - 1)
    }

    pub fn next_bucket(&self, bucket: usize) -> usize {
        (bucket + 1) & (self.bucket_count - 1)
    }

    /// hash64 and slot_plus1 of a bucket.
    pub fn bucket(&self, image: &[u8], bucket: usize) -> (u64, u64) {
        let at = self.buckets_offset + bucket * BUCKET_SIZE;
        bucket_in(&image[at..at + BUCKET_SIZE])
    }

    /// The same of all buckets.
    pub fn buckets<'a>(&self, image: &'a [u8]) -> impl Iterator<Item = (u64, u64)> + 'a {
        let buckets = &image[self.buckets_offset..];
        buckets.chunks_exact(BUCKET_SIZE).map(bucket_in)
    }

    pub fn put_bucket(&self, image: &mut [u8], bucket: usize, hash64: u64, slot_plus1: u64) {
        let at = self.buckets_offset + bucket * BUCKET_SIZE;
        let words = &mut image[at..at + BUCKET_SIZE];
        put_u64(words, 0, hash64);
        put_u64(words, 8, slot_plus1);
    }
}
