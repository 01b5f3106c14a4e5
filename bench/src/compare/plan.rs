//! Which random files are compared.

use crate::limits::MAX_RECORDS;
use crate::rng::Rng;

/// So many files end with the longest ones.
const MANY: usize = 1_000;
/// Of a hundred files that are counted as files, how many end early.
const CUT_SHORT: i32 = 40;

/// A file to be made, named by what it is made from.
#[derive(Clone, Copy)]
pub struct Made {
    style: &'static str,
    seed: u64,
    count: usize,
    make: Make,
}

/// Makes the file of a style and a seed, for a number of lines.
type Make = fn(&'static str, u64, usize) -> Vec<u8>;

impl Made {
    pub fn name(&self) -> String {
        format!("{}-{}-{}", self.style, self.seed, self.count)
    }

    pub fn file(&self) -> Vec<u8> {
        (self.make)(self.style, self.seed, self.count)
    }
}

/// What a comparison goes through, each with its style and number of lines.
pub struct Plan {
    /// A round of files, which is repeated.
    pub round: &'static [(&'static str, usize)],
    /// Files at the sheet's limit, which a plan of many lines ends with; a
    /// difference in a short file is shrunk sooner. What is over the limit has
    /// no line.
    pub longest: &'static [(&'static str, usize)],
    pub make: Make,
}

impl Plan {
    /// The files for so many lines of sheets, the first of them from `seed`. That
    /// one is empty.
    pub fn files(&self, lines: usize, seed: u64) -> Vec<Made> {
        let at_limit: usize = self.longest.iter().map(|(_, count)| count.min(&MAX_RECORDS)).sum();
        let long = lines >= 2 * at_limit;
        let mut left = if long { lines - at_limit } else { lines };
        let mut parts = vec![("mixed", 0)];
        for (style, count) in self.round.iter().cycle() {
            if left == 0 {
                break;
            }
            parts.push((*style, left.min(*count)));
            left -= left.min(*count);
        }
        if long {
            parts.extend(self.longest);
        }
        self.numbered(parts, seed)
    }

    /// So many files, the first of them from `seed` and empty. Some are as long as
    /// the round says, the others end before that. Very many end with the longest.
    pub fn so_many(&self, files: usize, seed: u64) -> Vec<Made> {
        let longest = if files >= MANY { self.longest } else { &[] };
        let (mut parts, mut rng) = (vec![("mixed", 0)], Rng::new(seed));
        let usual = (files - longest.len()).saturating_sub(parts.len());
        for (style, most) in self.round.iter().cycle().take(usual) {
            let short = rng.chance(CUT_SHORT);
            parts.push((*style, if short { rng.range(1, *most as i32) as usize } else { *most }));
        }
        parts.extend(longest);
        parts.truncate(files);
        self.numbered(parts, seed)
    }

    fn numbered(&self, parts: Vec<(&'static str, usize)>, seed: u64) -> Vec<Made> {
        // Past the largest seed they begin anew at 0.
        let made = |(number, (style, count))| {
            let seed = seed.wrapping_add(number as u64);
            Made { style, seed, count, make: self.make }
        };
        parts.into_iter().enumerate().map(made).collect()
    }
}
