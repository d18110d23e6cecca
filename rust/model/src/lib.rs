//! A model of the shared plan store, written from documents 01 and 02 alone: the calls on a store kept in vectors
//! (`store`), script lines (`script`), random scripts and calls (`generate`), the plain run (`serial`), what charts
//! promise (`charts`), planning desks (`desk`), which joins of lock rows a run meets (`joined`), and the soundness and
//! the meaning of lent words (`words`).

#![forbid(unsafe_code)]

pub mod charts;
pub mod count;
pub mod desk;
pub mod generate;
pub mod joined;
pub mod record;
pub mod reply;
pub mod script;
pub mod serial;
pub mod sound;
pub mod store;
#[cfg(test)]
mod tests;
pub mod words;
