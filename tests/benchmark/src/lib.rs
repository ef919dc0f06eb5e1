//! Instructions and time of the proved code and of the independent program on the same surveys.
pub mod measure;
pub mod records;
pub mod stages;
pub mod surveys;
