//! The form of a listing, which the crate and the oracle each have a type for.

use oracle::Form;

/// As the crate has it.
pub fn of_crate(form: Form) -> pekonusit::Form {
    match form {
        Form::Plain => pekonusit::Form::Plain,
        Form::Numbered => pekonusit::Form::Numbered,
    }
}
