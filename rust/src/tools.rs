//! The tools around the proved operations: reports, other formats, stored facts, the page's drawing. They are tested, not proved:
//! where one says what an operation says, it has asked that operation of [`proved`](crate::proved), and what it does with the
//! answer is held to separately written readers and to the simulator.

pub use crate::blif::{blif, care_model};
pub use crate::cell_table::{cell_table, CellTable, RowError, TableError};
pub use crate::circle::circle;
pub use crate::copies::{copies, schedule, Copied};
pub use crate::export::{module_name, Labels, ModuleName, OUTPUT_SUFFIX};
pub use crate::fit::cells_of_blif;
pub use crate::from_blif::{from_blif, FromBlif};
pub use crate::hint::hint;
pub use crate::location::Location;
pub use crate::names::{Names, NamesError};
pub use crate::opening::Opening;
pub use crate::pins::PinsError;
pub use crate::verilog::verilog;
pub use crate::visible::visible;
pub use crate::{audit, blif_model, declarations, design, drawing, json, orders, second_look};
