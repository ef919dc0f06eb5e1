//! Risk verdict for low-rise reinforced concrete: a second program after
//! document 01, with requests N1, N2, N3, N6, N7, N8 and N10 of document 02, for
//! comparison.
//!
//! NOTES.md lists the points that the papers leave open and what the requests
//! changed.

mod fraction;
pub mod lines;
pub mod members;
pub mod reading;
pub mod records;
pub mod report;
pub mod spectrum;
pub mod storeys;
pub mod writing;

pub use fraction::Fraction;
pub use members::{judge_member, MemberFinding};
pub use reading::{read, Survey};
pub use records::{Header, LoadCase, Member, Refusal, Storey};
pub use report::{determine, report};
pub use spectrum::{site, site_table, spectrum, Motion, SiteFinding};
pub use storeys::{
    judge_building, judge_storey, BuildingFinding, StoreyCaseFinding, StoreyFinding,
};
pub use writing::write_survey;
