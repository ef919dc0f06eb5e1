//! Test input made from a seed: the same seed gives the same input.

pub mod cases;
pub mod checks;
pub mod damage;
pub mod edges;
pub mod rng;
pub mod rows;
pub mod sizes;
pub mod spectra;
pub mod surveys;
pub mod wild;
pub mod writer;

pub use cases::{member_in_case, one_case, storey_in_case, survey_in_case};
pub use checks::{check_header, check_member, check_storey};
pub use damage::{any_file, damage, lent_bytes, lent_rows};
pub use edges::{edge_member, edge_member_for, is_wall, load_case, range};
pub use rng::Rng;
pub use rows::surveys_at_rows;
pub use sizes::{bytes_of, file_len, member_bytes, members_most, sheet_len, INPUT_MOST};
pub use spectra::{map_coefficients, period, site_class, usage};
pub use surveys::{any_form, valid_survey, valid_survey_of};
pub use wild::{wild_header, wild_member, wild_storey, wild_survey};
pub use writer::{
    file_of, member_lines, number_field, raw_field, survey_lines, write_survey, Line,
};

pub use independent::{Header, LoadCase, Member, Storey, Survey};
