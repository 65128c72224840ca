//! The crate against the library, with nothing from outside the package: the worked example, routes, paths
//! on the wire, the writer of books, refusals, text forms.

mod book;
#[cfg(feature = "alloc")]
mod combine;
mod common;
mod refusal;
mod routes;
mod text;
mod wire;
mod worked;
