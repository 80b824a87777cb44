//! The header: its test, and its fields as a commit reads and writes them.

use super::digests::{Crc32c, OneTable};
use super::layout::{
    put_u64, u32_at, u64_at, Layout, Options, BUCKET_LIMIT, CAPACITY_LIMIT, HEADER_SIZE,
};

pub const DONE: u32 = 0;
pub const NEEDS_REBUILD: u32 = 1;
pub const INCOMPATIBLE: u32 = 2;
pub const INVALIDATED: u32 = 3;
pub const BUSY: u32 = 4;
pub const FULL: u32 = 5;
pub const OUT_OF_ORDER: u32 = 6;
pub const INVALID_INPUT: u32 = 7;
pub const NOT_PRESENT: u32 = 9;
pub const CREATE_IT: u32 = 10;

const STATE_CLEAN: u32 = 0;
const STATE_INVALIDATED: u32 = 1;
const STATE_DIRTY: u32 = 2;

const NO_WRITER_KNOWN: u64 = 0;
const ANOTHER_WRITER: u64 = 1;

const VERSION_AT: usize = 0x04;
const HEADER_SIZE_AT: usize = 0x08;
const KEY_SIZE_AT: usize = 0x0C;
const INDEX_SIZE_AT: usize = 0x10;
const SLOT_SIZE_AT: usize = 0x14;
const HASH_ALG_AT: usize = 0x18;
const FLAGS_AT: usize = 0x1C;
const SLOT_CAPACITY_AT: usize = 0x20;
const SLOT_HIGHWATER_AT: usize = 0x28;
const LIVE_COUNT_AT: usize = 0x30;
const USER_VERSION_AT: usize = 0x38;
const GENERATION_AT: usize = 0x40;
const BUCKET_COUNT_AT: usize = 0x48;
const BUCKET_USED_AT: usize = 0x50;
const BUCKET_TOMBSTONES_AT: usize = 0x58;
const SLOTS_OFFSET_AT: usize = 0x60;
const BUCKETS_OFFSET_AT: usize = 0x68;
const HEADER_CRC32C_AT: usize = 0x70;
const STATE_AT: usize = 0x74;
const RESERVED_AT: usize = 0xC0;

/// What an image that passes the header test says of itself.
pub struct Header {
    pub layout: Layout,
    pub slot_highwater: usize,
    pub live_count: usize,
    pub bucket_tombstones: usize,
    generation: u64,
    state: u32,
}

fn refuse_if(wrong: bool, number: u32) -> Result<(), u32> {
    if wrong {
        Err(number)
    } else {
        Ok(())
    }
}

fn header_crc<C: Crc32c>(image: &[u8]) -> u32 {
    let mut header = [0; HEADER_SIZE];
    header.copy_from_slice(&image[..HEADER_SIZE]);
    header[GENERATION_AT..GENERATION_AT + 8].fill(0);
    header[HEADER_CRC32C_AT..HEADER_CRC32C_AT + 4].fill(0);
    C::of(&header)
}

/// Writes the CRC.
fn seal(image: &mut [u8]) {
    let crc = header_crc::<OneTable>(image);
    image[HEADER_CRC32C_AT..HEADER_CRC32C_AT + 4].copy_from_slice(&crc.to_le_bytes());
}

/// Gives an image that holds no key the layout's number of buckets, which may be another one than create gives it.
pub fn set_buckets(image: &mut Vec<u8>, layout: &Layout) {
    image.resize(layout.total_size, 0);
    put_u64(image, BUCKET_COUNT_AT, layout.bucket_count as u64);
    seal(image);
}

/// Tests 3 to 7: what the header says by itself.
fn written_test<C: Crc32c>(image: &[u8], options: &Options) -> Result<(), u32> {
    let known_format = image.starts_with(b"SLC1")
        && u32_at(image, VERSION_AT) == 1
        && u32_at(image, HEADER_SIZE_AT) as usize == HEADER_SIZE
        && u32_at(image, HASH_ALG_AT) == 1;
    refuse_if(!known_format, INCOMPATIBLE)?;
    if u64_at(image, GENERATION_AT) % 2 == 1 {
        return Err(if options.role == ANOTHER_WRITER {
            BUSY
        } else {
            NEEDS_REBUILD
        });
    }
    let crc = u32_at(image, HEADER_CRC32C_AT);
    refuse_if(crc != header_crc::<C>(image), NEEDS_REBUILD)?;
    let reserved = &image[RESERVED_AT..HEADER_SIZE];
    let unknown = u32_at(image, FLAGS_AT) > 1
        || reserved.iter().any(|&byte| byte != 0)
        || u32_at(image, STATE_AT) > STATE_DIRTY;
    refuse_if(unknown, INCOMPATIBLE)?;
    refuse_if(u32_at(image, STATE_AT) == STATE_INVALIDATED, INVALIDATED)
}

/// Tests 8 and 9: that the header fits the options; the layout that it gives.
fn layout_test(image: &[u8], options: &Options) -> Result<Layout, u32> {
    let capacity = u64_at(image, SLOT_CAPACITY_AT);
    let bucket_count = u64_at(image, BUCKET_COUNT_AT);
    let agrees = u64::from(u32_at(image, KEY_SIZE_AT)) == options.key_size
        && u64::from(u32_at(image, INDEX_SIZE_AT)) == options.index_size
        && u32_at(image, SLOT_SIZE_AT) as usize == options.slot_size()
        && match options.slot_capacity {
            0 => (1..=CAPACITY_LIMIT).contains(&capacity),
            given => capacity == given,
        }
        && u64_at(image, USER_VERSION_AT) == options.user_version
        && u64::from(u32_at(image, FLAGS_AT)) == options.ordered;
    refuse_if(!agrees, INCOMPATIBLE)?;
    let power = bucket_count.is_power_of_two();
    refuse_if(power && bucket_count > BUCKET_LIMIT, INCOMPATIBLE)?;
    refuse_if(!power || bucket_count <= capacity, NEEDS_REBUILD)?;
    Ok(Layout::with(
        options,
        capacity as usize,
        bucket_count as usize,
    ))
}

/// Tests 10 and 11: that it fits the image's length and itself.
fn extent_test(image: &[u8], layout: &Layout) -> Result<(), u32> {
    let extends = u64_at(image, SLOTS_OFFSET_AT) as usize == HEADER_SIZE
        && u64_at(image, BUCKETS_OFFSET_AT) as usize == layout.buckets_offset
        && image.len() == layout.total_size;
    refuse_if(!extends, NEEDS_REBUILD)?;
    let used = u64_at(image, BUCKET_USED_AT);
    let highwater = u64_at(image, SLOT_HIGHWATER_AT);
    let counts = u64_at(image, LIVE_COUNT_AT) == used
        && used.saturating_add(u64_at(image, BUCKET_TOMBSTONES_AT)) <= highwater
        && highwater <= layout.slot_capacity as u64;
    refuse_if(!counts, NEEDS_REBUILD)
}

impl Header {
    /// The header test, in the specification's order, its CRC in one of the ways.
    pub fn judge<C: Crc32c>(image: &[u8], options: &Options) -> Result<Header, u32> {
        refuse_if(!options.allowed(), INVALID_INPUT)?;
        refuse_if(image.is_empty(), CREATE_IT)?;
        refuse_if(image.len() < HEADER_SIZE, NEEDS_REBUILD)?;
        written_test::<C>(image, options)?;
        let layout = layout_test(image, options)?;
        extent_test(image, &layout)?;
        let state = u32_at(image, STATE_AT);
        let left_dirty = state == STATE_DIRTY && options.role == NO_WRITER_KNOWN;
        refuse_if(left_dirty, NEEDS_REBUILD)?;
        Ok(Header {
            layout,
            slot_highwater: u64_at(image, SLOT_HIGHWATER_AT) as usize,
            live_count: u64_at(image, LIVE_COUNT_AT) as usize,
            bucket_tombstones: u64_at(image, BUCKET_TOMBSTONES_AT) as usize,
            generation: u64_at(image, GENERATION_AT),
            state,
        })
    }

    /// The header test, and the tests of role, state and generation that come next where fields are changed.
    pub fn judge_change(image: &[u8], options: &Options) -> Result<Header, u32> {
        let header = Header::judge::<OneTable>(image, options)?;
        refuse_if(options.role == ANOTHER_WRITER, BUSY)?;
        refuse_if(options.role == NO_WRITER_KNOWN, INVALID_INPUT)?;
        refuse_if(header.state == STATE_CLEAN, INVALID_INPUT)?;
        refuse_if(header.generation == u64::MAX - 1, NEEDS_REBUILD)?;
        Ok(header)
    }

    /// Writes the counters, the next generation and the CRC.
    pub fn publish(&self, image: &mut [u8]) {
        put_u64(image, SLOT_HIGHWATER_AT, self.slot_highwater as u64);
        put_u64(image, LIVE_COUNT_AT, self.live_count as u64);
        put_u64(image, BUCKET_USED_AT, self.live_count as u64);
        put_u64(image, BUCKET_TOMBSTONES_AT, self.bucket_tombstones as u64);
        put_u64(image, GENERATION_AT, self.generation + 2);
        seal(image);
    }
}
