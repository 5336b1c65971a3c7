//! The words of an input: 8 bytes each, little-endian. Numbers are kept by
//! their bits, so that every NaN arrives as it was meant.

/// The longest list that is read.
pub const LONGEST_LIST: u64 = 8192;

/// The longest output or scratch that is lent: the scratch at n = 64.
pub const LONGEST_LENT: u64 = 8704;

/// A call, good or refused.
pub enum Call {
    Root(u64),
    Ratio([u64; 4]),
    /// Operations 3 to 8 are all a number, n, some lists, and then some whole numbers (lengths of
    /// what is lent, or a row number).
    Sized {
        number: u64,
        n: u64,
        lists: Vec<Vec<u64>>,
        last: Vec<u64>,
    },
}

impl Call {
    pub fn write(&self, bytes: &mut Vec<u8>) {
        match self {
            Call::Root(x) => words(bytes, &[1, *x]),
            Call::Ratio(numbers) => {
                words(bytes, &[2]);
                words(bytes, numbers);
            }
            Call::Sized {
                number,
                n,
                lists,
                last,
            } => {
                words(bytes, &[*number, *n]);
                for list in lists {
                    words(bytes, &[list.len() as u64]);
                    words(bytes, list);
                }
                words(bytes, last);
            }
        }
    }
}

pub fn words(bytes: &mut Vec<u8>, words: &[u64]) {
    for word in words {
        bytes.extend(word.to_le_bytes());
    }
}

/// What is left of an input. Each reading gives nothing where it ends too early.
pub(crate) struct Reader<'a>(pub(crate) &'a [u8]);

impl Reader<'_> {
    pub(crate) fn word(&mut self) -> Option<u64> {
        let (word, rest) = self.0.split_first_chunk()?;
        self.0 = rest;
        Some(u64::from_le_bytes(*word))
    }

    pub(crate) fn number(&mut self) -> Option<f64> {
        self.word().map(f64::from_bits)
    }
}
