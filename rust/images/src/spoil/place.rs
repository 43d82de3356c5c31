//! Where in an image the table puts a fault.

use crate::format::Format;

/// A node and a byte offset in it.
#[derive(Clone, Copy, Debug, PartialEq, Eq)]
pub struct Place {
    pub node: u32,
    pub offset: u32,
}

impl Place {
    /// The place of a fault that the table puts nowhere else.
    pub const START: Place = Place::of_node(0);

    pub const fn of_node(node: u32) -> Place {
        Place { node, offset: 0 }
    }

    /// The place of the byte that stands at `at` in the image.
    pub const fn of_byte(format: Format, at: usize) -> Place {
        let Format { node_size, .. } = format;
        Place { node: (at / node_size) as u32, offset: (at % node_size) as u32 }
    }
}
