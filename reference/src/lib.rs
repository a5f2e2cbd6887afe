//! A second program that reads the definitions of document 01, and of the
//! requests that have landed, directly.
//!
//! [`model`] has the operations and the programs, naive and quantifier by
//! quantifier; [`generate`] makes the inputs on which it is compared.
//!
//! Public names are those of document 01. Inside, names are the field's:
//!
//! | document 01        | here                     |
//! |--------------------|--------------------------|
//! | rule               | rule (a DAG in a table) |
//! | controller         | controller                |
//! | recording          | recording                    |
//! | run mark           | scheduled                |
//! | own, foreign atom  | output, input atom       |
//! | place              | position                 |
//! | tolerant           | stutter tolerant         |
//! | lent space         | the caller's buffer      |

#![forbid(unsafe_code)]
#![warn(missing_docs)]

pub mod generate;
pub mod model;
