//! One question about an image, and what is shown when two readers differ on it.

use crate::form::Form;
use crate::seed::{seed, SEED_VARIABLE};
use crate::shown::show;
use std::fmt::{self, Debug, Display};

/// What an image is taken for.
#[derive(Clone, Copy)]
pub enum Tree {
    Extents(Form),
    Catalog,
}

impl Tree {
    pub fn node_size(self) -> u32 {
        match self {
            Tree::Extents(form) => form.node_size,
            Tree::Catalog => 512,
        }
    }
}

impl Display for Tree {
    fn fmt(&self, f: &mut fmt::Formatter<'_>) -> fmt::Result {
        match self {
            Tree::Extents(Form { edition, node_size }) => {
                write!(f, "edition {edition}, node size {node_size}")
            }
            Tree::Catalog => write!(f, "catalog"),
        }
    }
}

#[derive(Clone, Copy)]
pub struct Question<'a, A> {
    /// The family of images that it belongs to.
    pub family: &'static str,
    pub tree: Tree,
    pub image: &'a [u8],
    pub asked: A,
}

impl<'a, A> Question<'a, A> {
    /// The same question about something else that the readers leave.
    pub fn about<B>(&self, asked: B) -> Question<'a, B> {
        Question { family: self.family, tree: self.tree, image: self.image, asked }
    }
}

impl<A: Debug> Question<'_, A> {
    /// Stops the run unless the reader of this name says what the proved one does.
    pub fn same<T: Debug + PartialEq>(&self, got: &T, reader: &str, said: &T) {
        if got != said {
            let Question { family, tree, asked, .. } = self;
            let shown = show(&format!("{family}_{tree}"), self.image);
            let seed = seed();
            panic!(
                "{family}: the readers differ on {asked:?}, {tree}\n  \
                 proved: {got:?}\n  {reader}: {said:?}\n  {shown}\n  {SEED_VARIABLE}={seed}"
            );
        }
    }
}

#[cfg(test)]
mod tests {
    use super::{Form, Question, Tree};

    #[test]
    #[should_panic(expected = "the readers differ on \"check\", edition 0, node size 512")]
    fn a_difference_stops_the_run() {
        let (tree, asked) = (Tree::Extents(Form::HFS), "check");
        let question = Question { family: "difference", tree, image: &[1, 2], asked };
        question.same(&3, "reference", &4);
    }
}
