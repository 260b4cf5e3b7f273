//! What model, library and plain say of an image that a mount refuses (K5).

use library::Library;
use model::Model;
use plain::Plain;
use store::{Answer, Fault, Store, hex};

/// Mount's refusal, 0 if it would be accepted, and where the image broke: all three say the same.
pub fn agreed(image: &[u8], blocks: u8) -> (Answer, Option<Fault>) {
    agreed_by(&Model, &Library::linked(), &Plain, image, blocks)
}

/// The same of any three stores.
pub fn agreed_by(
    model: &impl Store,
    library: &impl Store,
    plain: &impl Store,
    image: &[u8],
    blocks: u8,
) -> (Answer, Option<Fault>) {
    let expected = model.fault(image, blocks);
    let said = [("the library", library.fault(image, blocks)), ("the plain program", plain.fault(image, blocks))];
    for (name, said) in said {
        assert!(
            said == expected,
            "{name} says {said:?}, the model {expected:?}\nimage {} {blocks}\nmount",
            hex::show(image)
        );
    }
    let (answer, fault) = expected;
    assert_eq!(fault.is_some(), answer == Answer::FOREIGN, "{answer}, yet {fault:?}");
    expected
}
