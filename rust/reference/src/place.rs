//! Where in an image an answer points.

/// A node and a byte offset in it.
#[derive(Clone, Copy, Debug, PartialEq, Eq)]
pub struct Place {
    pub node: u32,
    pub offset: u32,
}

impl Place {
    /// The start of the image, which also stands for no place in particular.
    pub const START: Place = Place::of_node(0);

    pub const fn of_node(node: u32) -> Place {
        Place::in_node(node, 0)
    }

    /// The offset counts from the start of the node, so it is below the node size.
    pub const fn in_node(node: u32, offset: usize) -> Place {
        Place { node, offset: offset as u32 }
    }
}
