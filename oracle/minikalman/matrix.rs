//! `build.sh` copies the original files to `target/oracle/files`.

#[path = "../../target/oracle/files/matrix/data_type.rs"]
pub mod data_type;
#[path = "../../target/oracle/files/matrix/row_major.rs"]
pub mod row_major;
#[path = "../../target/oracle/files/matrix/traits.rs"]
pub mod traits;

pub use data_type::*;
pub use row_major::*;
pub use traits::*;
