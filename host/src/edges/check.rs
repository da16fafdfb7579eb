//! What a call must come to.

use crate::calls::{refused, Checked, Refused};

pub fn same<T: PartialEq + std::fmt::Debug>(ours: T, expected: T) -> Result<(), String> {
    match ours == expected {
        true => Ok(()),
        false => Err(format!("{ours:?}, expected {expected:?}")),
    }
}

pub fn told(refusal: Refused) -> String {
    format!("{refusal:?}")
}

pub fn refused_with(outcome: Checked, number: u32, line: u32) -> Result<(), String> {
    same(outcome?, Err(refused(number, line)))
}

pub fn writes(outcome: Checked, out: &[u8], text: &[u8]) -> Result<(), String> {
    let ours = &out[..outcome?.map_err(told)?];
    match ours == text {
        true => Ok(()),
        false => {
            let first = &ours[..ours.len().min(200)];
            Err(format!("ours {}", String::from_utf8_lossy(first)))
        }
    }
}
