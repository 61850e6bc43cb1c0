//! All tests, as one program.

mod attack;
mod binary;
mod calls;
mod checks;
mod drawn;
mod easy_errors;
mod examples;
mod fields;
mod generated;
mod nine;
mod past_f;
mod plain;
mod refusals;
mod shrunk;
mod sizes;
mod stored;
mod text;
mod vectors;
mod wrong;
