//! Every question for a slave's channel place.

use crate::jobs::{Calls, Model};
use crate::library::{self, Library};

/// Asks for every slave ID in chains of every length up to 300 and of some far
/// past it; says whether all are answered alike.
pub fn channel_places() -> bool {
    let far = [1 << 8, 1 << 16, (1 << 32) + 1, usize::MAX];
    let chains = || (0..=300).chain(far);
    let questions = || chains().flat_map(|slaves| (0..=u8::MAX).map(move |id| (id, slaves)));
    let answers = |id, slaves| (Model.channel_of(id, slaves), Library.channel_of(id, slaves));
    let wrong = questions().find(|&(id, slaves)| {
        let (model, library) = answers(id, slaves);
        model != library
    });
    if let Some((id, slaves)) = wrong {
        let (model, library) = answers(id, slaves);
        let said = format!("the model says {model:?}, the library {library:?}");
        println!("DIFFERENCE at channel ID {id}, {slaves} slaves: {said}");
    }
    println!("channel places: {} questions, model against {}", questions().count(), library::NAME);
    wrong.is_none()
}
