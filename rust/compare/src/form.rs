//! The edition and the node size that a question names.

use images::{Format, Rng};

/// An edition and a node size, listed or not.
#[derive(Clone, Copy, Debug, PartialEq, Eq)]
pub struct Form {
    pub edition: u32,
    pub node_size: u32,
}

impl From<Format> for Form {
    fn from(format: Format) -> Form {
        Form::new(format.edition_number(), format.node_size as u32)
    }
}

impl Form {
    pub const HFS: Form = Form::new(0, 512);

    /// Forms right beside the listed ones, or like them in some of their bits.
    pub const UNLISTED: [Form; 21] = [
        Form::new(1, 0),
        Form::new(1, 1),
        Form::new(1, 256),
        Form::new(1, 511),
        Form::new(1, 513),
        Form::new(1, 1_536),
        Form::new(1, 32_767),
        Form::new(1, 32_769),
        Form::new(1, 65_536),
        Form::new(1, 65_536 + 4_096),
        Form::new(1, 1 << 31),
        Form::new(1, u32::MAX),
        Form::new(0, 0),
        Form::new(0, 511),
        Form::new(0, 1_024),
        Form::new(0, 32_768),
        Form::new(0, 65_536 + 512),
        Form::new(2, 512),
        Form::new(256, 512),
        Form::new(0x0100_0001, 4_096),
        Form::new(u32::MAX, 512),
    ];

    pub const fn new(edition: u32, node_size: u32) -> Form {
        Form { edition, node_size }
    }

    /// Any form, more often than not with an edition that there is or a power of two.
    pub fn any(rng: &mut Rng) -> Form {
        let edition = [rng.index(3) as u32, rng.next_u64() as u32][rng.index(2)];
        let node_size = [1 << rng.index(32), rng.next_u64() as u32][rng.index(2)];
        Form::new(edition, node_size)
    }
}
