//! The stored answers: sessions for the programs `console` and `methods`, and texts for the program `plan`.
mod field;
mod first;
mod many;
mod plan_texts;
mod plans;
mod run_refusals;
mod runs;
mod session;
mod shapes;
mod stacking;
mod tables;
mod verdict_refusals;
mod verdicts;
mod views;

pub use plan_texts::plan_texts;
pub use session::Session;

/// All sessions, in the order of the layers.
pub fn sessions() -> Vec<Session> {
    let cases = shapes::cases();
    vec![
        field::session(),
        tables::session(),
        plans::session(),
        stacking::session(),
        runs::session(&cases),
        verdicts::session(&cases),
        first::session(),
        many::session(),
        views::session(),
        runs::by_methods(&cases),
    ]
}
