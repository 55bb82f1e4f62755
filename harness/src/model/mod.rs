//! The model, one idea to a file, from bytes up to the printing program.

pub mod append;
pub mod checksum;
pub mod column;
pub mod entry;
pub mod fresh;
pub mod header;
pub mod layout;
pub mod measure;
pub mod payload;
pub mod planner;
pub mod read;
pub mod record;
pub mod refusal;
pub mod report;
pub mod run;
pub mod shape;
pub mod step;
pub mod survey;
pub mod witness;

pub use append::append;
pub use checksum::checksum;
pub use column::{read_column, write_column};
pub use entry::{judge_entry, write_entry, EntryState};
pub use fresh::fresh_image;
pub use header::{judge_header, write_header};
pub use layout::{
    card_len, cluster_len, entry_offset, header_len, image_len, image_offset, record_offset,
    witness_len, ENTRY_LEN, HEADER_LEN, HEADER_LEN_2, MAX_PAYLOAD, MAX_REPLICAS, MAX_SLOTS,
    MIN_REPLICAS, RECORD_LEN,
};
pub use measure::{cluster_size, entry_at, image_at, image_size, record_at};
pub use payload::{has_payload, payload};
pub use planner::{plan, Answer};
pub use read::{judge_image, read, Log, Verdict};
pub use record::{judge_record, write_record, RecordState, BLANK_RECORD};
pub use refusal::Refusal;
pub use report::report;
pub use run::{run, RunAnswer, RunEnd};
pub use shape::{index_of, Shape, LAST_INDEX};
pub use step::{apply, next_store, step, Next, StepAnswer, Store, StoreKind};
pub use survey::{survey, ReplicaRow, Survey};
pub use witness::{witness_append, witness_read};
