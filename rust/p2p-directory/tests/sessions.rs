//! The exports of the library, called with valid and with invalid requests.

#[macro_use]
mod each_pair;
mod methods;
mod random;
mod session_tests;
mod table;
