//! What the crate's format module expects around it, and no more; and of its frames what docs/MIGRATION.md asks them.

use std::collections::BTreeMap;
use std::fmt;
use std::path::PathBuf;

#[allow(dead_code, unused_imports)]
pub mod format;

/// A stand-in for a decoded frame. The port takes over no frames, and the crate's own type is not among the sources.
pub struct Frame<'a> {
    pub index: u64,
    pub level: Option<Level>,
    pub timestamp: Option<&'a str>,
    pub message: &'a str,
}

impl<'a> Frame<'a> {
    pub fn index(&self) -> u64 {
        self.index
    }
    pub fn level(&self) -> Option<Level> {
        self.level
    }
    pub fn display_timestamp(&'a self) -> Option<impl fmt::Display + 'a> {
        self.timestamp
    }
    pub fn display_message(&'a self) -> impl fmt::Display + 'a {
        self.message
    }
}

/// A stand-in for the level of a frame.
#[derive(Clone, Copy)]
pub enum Level {
    Trace,
    Debug,
    Info,
    Warn,
    Error,
}

/// A stand-in for the place where a frame comes from.
pub struct Location {
    pub file: PathBuf,
    pub line: u64,
    pub module: String,
}

pub type Locations = BTreeMap<u64, Location>;

fn timestamp_and_level_from_frame(frame: &Frame<'_>) -> (String, Option<log::Level>) {
    let level = frame.level.map(|level| match level {
        Level::Trace => log::Level::Trace,
        Level::Debug => log::Level::Debug,
        Level::Info => log::Level::Info,
        Level::Warn => log::Level::Warn,
        Level::Error => log::Level::Error,
    });
    (frame.timestamp.unwrap_or_default().to_string(), level)
}

pub struct Payload {
    pub level: Option<log::Level>,
    pub timestamp: String,
}

/// A device's record: a host's record cannot lack a level, so level and timestamp stand beside it.
pub struct DefmtRecord<'a> {
    pub log_record: &'a log::Record<'a>,
    pub payload: Payload,
}

impl<'a> DefmtRecord<'a> {
    pub fn level(&self) -> Option<log::Level> {
        self.payload.level
    }
    pub fn timestamp(&self) -> &str {
        &self.payload.timestamp
    }
    pub fn args(&self) -> &fmt::Arguments<'a> {
        self.log_record.args()
    }
    pub fn module_path(&self) -> Option<&'a str> {
        self.log_record.module_path()
    }
    pub fn file(&self) -> Option<&'a str> {
        self.log_record.file()
    }
    pub fn line(&self) -> Option<u32> {
        self.log_record.line()
    }
}
