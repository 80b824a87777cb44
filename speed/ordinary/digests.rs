//! FNV-1a of 64 bits, and CRC32-C in three ways.

pub fn fnv1a64(bytes: &[u8]) -> u64 {
    bytes.iter().fold(14695981039346656037, |hash, &byte| {
        (hash ^ u64::from(byte)).wrapping_mul(1099511628211)
    })
}

/// A way to form a CRC32-C.
pub trait Crc32c {
    fn of(bytes: &[u8]) -> u32;
}

/// A byte a step, by one table of 256 entries, as it is usually written.
pub struct OneTable;

/// Eight bytes a step, by eight such tables.
pub struct EightTables;

/// Eight bytes a step, by the instruction that the processor has for it.
pub struct Instruction;

static TABLES: [[u32; 256]; 8] = tables();

/// Of each byte, what it makes of a state, and behind it what one zero byte more makes of that, up to seven.
const fn tables() -> [[u32; 256]; 8] {
    let mut tables = [[0; 256]; 8];
    let mut byte = 0;
    while byte < 256 {
        let mut crc = byte as u32;
        let mut bit = 0;
        while bit < 8 {
            crc = (crc >> 1) ^ (0x82F63B78 * (crc & 1));
            bit += 1;
        }
        tables[0][byte] = crc;
        byte += 1;
    }
    let mut zeros = 1;
    while zeros < 8 {
        let mut byte = 0;
        while byte < 256 {
            let crc = tables[zeros - 1][byte];
            tables[zeros][byte] = (crc >> 8) ^ tables[0][(crc & 0xFF) as usize];
            byte += 1;
        }
        zeros += 1;
    }
    tables
}

fn by_bytes(state: u32, bytes: &[u8]) -> u32 {
    bytes.iter().fold(state, |crc, &byte| {
        (crc >> 8) ^ TABLES[0][usize::from(crc as u8 ^ byte)]
    })
}

impl Crc32c for OneTable {
    fn of(bytes: &[u8]) -> u32 {
        !by_bytes(u32::MAX, bytes)
    }
}

/// The words of eight bytes, and the bytes behind them.
fn words(bytes: &[u8]) -> (impl Iterator<Item = u64> + '_, &[u8]) {
    let words = bytes.chunks_exact(8);
    let rest = words.remainder();
    (
        words.map(|word| u64::from_le_bytes(word.try_into().unwrap())),
        rest,
    )
}

impl Crc32c for EightTables {
    fn of(bytes: &[u8]) -> u32 {
        let (words, rest) = words(bytes);
        let state = words.fold(u32::MAX, |crc, word| {
            let bytes = (word ^ u64::from(crc)).to_le_bytes();
            let entries = bytes.iter().zip(TABLES.iter().rev());
            entries.fold(0, |crc, (&byte, table)| crc ^ table[usize::from(byte)])
        });
        !by_bytes(state, rest)
    }
}

#[cfg(target_arch = "x86_64")]
mod machine {
    pub fn has_instruction() -> bool {
        is_x86_feature_detected!("sse4.2")
    }

    /// The processor must have the instruction.
    #[target_feature(enable = "sse4.2")]
    pub unsafe fn after_words(state: u32, words: impl Iterator<Item = u64>) -> u32 {
        let mut crc = u64::from(state);
        for word in words {
            crc = std::arch::x86_64::_mm_crc32_u64(crc, word);
        }
        crc as u32
    }
}

#[cfg(target_arch = "aarch64")]
mod machine {
    pub fn has_instruction() -> bool {
        std::arch::is_aarch64_feature_detected!("crc")
    }

    /// The processor must have the instruction.
    pub unsafe fn after_words(state: u32, words: impl Iterator<Item = u64>) -> u32 {
        let mut crc = state;
        for word in words {
            std::arch::asm!(
                ".arch_extension crc",
                "crc32cx {crc:w}, {crc:w}, {word}",
                crc = inout(reg) crc,
                word = in(reg) word,
                options(pure, nomem, nostack)
            );
        }
        crc
    }
}

pub use machine::has_instruction;

impl Crc32c for Instruction {
    /// `has_instruction` is asked first.
    fn of(bytes: &[u8]) -> u32 {
        let (words, rest) = words(bytes);
        let state = unsafe { machine::after_words(u32::MAX, words) };
        !by_bytes(state, rest)
    }
}
