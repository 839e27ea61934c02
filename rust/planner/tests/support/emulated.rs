//! How far the tests go where the library is emulated.

/// How many inputs a test makes: fewer where each call goes to an emulated process.
pub fn number_of_inputs(usual: usize, emulated: usize) -> usize {
    match klumdray::LINKED {
        "emulated" => emulated,
        _ => usual,
    }
}
