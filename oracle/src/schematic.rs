//! Stands for the original's certificate checker, which no answer of ours depends on.

#[derive(Default)]
pub struct Report;

pub fn check(_theory: &str, _goals: &str, _proof: &[u8]) -> Result<Report, String> {
    Ok(Report)
}
