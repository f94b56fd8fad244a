//! A second implementation of the calls of document 01 and of the change requests that README.md
//! names, written from the papers alone and in the plainest way, so that another implementation can
//! be compared with it line by line.

// From the bottom up: cipher and hash, then packets, then sessions, then the call script.
pub mod aes;
pub mod gcm;
pub mod hmac;
pub mod keystream;
pub mod refusal;
pub mod sha1;
pub mod suite;

pub mod elements;
pub mod header;
pub mod index;
pub mod packet;

pub mod session;

pub mod count;
pub mod hex;
pub mod lines;
pub mod parts;
pub mod script;
pub mod stretch;
pub mod suite_parts;
pub mod words;

pub mod random;
