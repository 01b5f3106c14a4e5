//! Random record files, for comparing one router with another, and (`drawn`)
//! random files of records and drawn wires.
//!
//! A style repeats its episode, each on a board of its own, until the file is
//! as long as wanted. The maker keeps a board beside the file, so that it can
//! aim: at ids in use, at sides that already stand, at pins across a block. About a
//! third of the lays and asks of every style are kinds 9 and 8.

mod aim;
mod bricks;
mod broken;
pub mod crowd;
pub mod drawn;
mod episodes;
mod maker;
mod maze;
mod pins;
mod stairs;

use maker::Maker;

pub struct Style {
    pub name: &'static str,
    pub about: &'static str,
    episode: fn(&mut Maker),
}

pub const STYLES: [Style; 12] = [
    Style { name: "small", about: "dense boards of up to 14 x 14", episode: episodes::small },
    Style {
        name: "history",
        about: "long histories on up to 200 x 200: undo, take-out, ids and room used again",
        episode: episodes::history,
    },
    Style {
        name: "large",
        about: "boards of up to 30000 x 30000, clearance up to 200",
        episode: episodes::large,
    },
    Style { name: "widest", about: "many asks on 30000 x 30000", episode: episodes::widest },
    Style {
        name: "full",
        about: "boards that stay near 46 blocks and 32 kept changes",
        episode: episodes::full,
    },
    Style {
        name: "maze",
        about: "wires of about 24 runs, boards of about 46 blocks, stairs",
        episode: maze::maze,
    },
    Style {
        name: "flush",
        about: "coordinates that touch, abut and lie flush with the edge",
        episode: episodes::flush,
    },
    Style {
        name: "broken",
        about: "malformed records of every sort, records before bounds, a short last piece",
        episode: broken::broken,
    },
    Style {
        name: "bricks",
        about: "keep-outs that share sides: rows, L and T shapes, wires along them, pins on seams",
        episode: bricks::bricks,
    },
    Style { name: "mixed", about: "all of the above in turn", episode: mixed },
    Style {
        name: "long",
        about: "one nearly full board for the whole file, however long",
        episode: episodes::long,
    },
    Style {
        name: "pins",
        about: "pins inside keep-outs and wires' boxes that overlap, and on their sides",
        episode: pins::pins,
    },
];

/// Records of a file if nothing else is asked for.
pub const DEFAULT_COUNT: usize = 2_000;
/// Of a hundred files, how many have records before any bounds.
const EARLY: i32 = 75;

impl Style {
    pub fn named(name: &str) -> Option<&'static Style> {
        STYLES.iter().chain(&crowd::OWN_STYLES).find(|style| style.name == name)
    }

    /// The file of a seed, with `count` records.
    pub fn file(&self, seed: u64, count: usize) -> Vec<u8> {
        series(seed, &[(self, count)])
    }

    /// Repeats the episode until the maker has the records that it wants.
    fn fill(&self, maker: &mut Maker) {
        while maker.left() > 0 {
            (self.episode)(maker);
        }
    }
}

/// One file of several styles, each with its number of records. In most files
/// some records come before any bounds.
pub fn series(seed: u64, parts: &[(&Style, usize)]) -> Vec<u8> {
    let mut maker = Maker::new(seed);
    for (number, (style, count)) in parts.iter().enumerate() {
        maker.want(*count);
        if number == 0 && maker.rng.chance(EARLY) {
            broken::before_bounds(&mut maker);
        }
        style.fill(&mut maker);
    }
    maker.file()
}

fn mixed(maker: &mut Maker) {
    let others = [
        episodes::small,
        episodes::history,
        episodes::large,
        episodes::widest,
        episodes::full,
        maze::maze,
        episodes::flush,
        broken::broken,
        bricks::bricks,
    ];
    maker.rng.pick(&others)(maker)
}
