//! A refusal: of the asked key, or of an image that did not pass.

use crate::fault::Fault;
use crate::json::Object;
use crate::output::{Output, Said};
use crate::trouble::{Status, Trouble};
use crate::volume::Wrong;
use std::fmt;

/// Says why nothing is answered.
pub fn refuse(fault: Fault, output: &mut Output) -> Result<Status, Trouble> {
    output.say(&Refused { image: None, fault })?;
    Ok(Status::Refused)
}

/// Says why nothing is answered, and which of several images that concerns.
pub fn refuse_image(
    image: &'static str,
    fault: Fault,
    output: &mut Output,
) -> Result<Status, Trouble> {
    output.say(&Refused { image: Some(image), fault })?;
    Ok(Status::Refused)
}

/// Says why nothing is cut out of a volume.
pub fn refuse_volume(wrong: Wrong, output: &mut Output) -> Result<Status, Trouble> {
    output.say(&wrong)?;
    Ok(Status::Refused)
}

struct Refused {
    image: Option<&'static str>,
    fault: Fault,
}

impl fmt::Display for Refused {
    fn fmt(&self, f: &mut fmt::Formatter<'_>) -> fmt::Result {
        write!(f, "refused: ")?;
        if let Some(image) = self.image {
            write!(f, "{image} tree: ")?;
        }
        write!(f, "{}", self.fault)
    }
}

impl Said for Refused {
    fn object(&self) -> Object {
        let object = Object::new().with("answer", "refused");
        let object = match self.image {
            Some(image) => object.with("image", image),
            None => object,
        };
        object.and(self.fault.object())
    }
}
