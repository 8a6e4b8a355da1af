//! Every call that takes a list, on the stored session of 4,096, 4,097 and 700 matrices in a commitment.
use batch::Session;
use session::replay;

mod batch;
mod elements;
mod session;
mod shape;

#[test]
fn stored_lists_of_many_matrices() {
    let mut session = Session::default();
    let replayed = replay("many", |name, numbers| session.reply(name, numbers));
    assert_eq!(replayed, 96);
    assert_eq!((session.refused[1], session.accepted), (14, 2));
}
