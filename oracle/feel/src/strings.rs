//! Stand-in for `strings.rs`, which is not among the published files: the trait they implement.

/// Conversion to FEEL text.
pub trait ToFeelString {
    fn to_feel_string(&self) -> String;
}
