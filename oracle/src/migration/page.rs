use defmt_decoder::{Frame, Locations};
use pralakuon::{Formatter, FormatterConfig, HostFormatter, HostRecord, Level, Record, Refusal, Settings};
use std::io::Write;
use std::sync::{Mutex, PoisonError};

/// The two formatters by one template. What is wrong with the template is said here.
fn formatters(template: &str, settings: Settings) -> Result<(Formatter, HostFormatter), Refusal> {
    let config = FormatterConfig::custom(template).with_settings(settings);
    Ok((Formatter::new(config)?, HostFormatter::new(config)?))
}

/// The line of a frame.
fn frame_line(formatter: &Formatter, frame: &Frame, locations: &Locations) -> Result<String, Refusal> {
    let message = frame.display_message().to_string();
    let timestamp = frame.display_timestamp().map(|time| time.to_string()).unwrap_or_default();
    let location = locations.get(&frame.index());
    let file = location.map(|location| location.file.display().to_string());
    let record = Record::print(&message)
        .with_level(frame.level().map(device_level))
        .with_timestamp(&timestamp)
        .with_file(file.as_deref())
        .with_line(location.and_then(|location| u32::try_from(location.line).ok()))
        .with_module_path(location.map(|location| location.module.as_str()));
    formatter.format(&record)
}

/// The level of a frame.
fn device_level(level: defmt_parser::Level) -> Level {
    match level {
        defmt_parser::Level::Error => Level::Error,
        defmt_parser::Level::Warn => Level::Warn,
        defmt_parser::Level::Info => Level::Info,
        defmt_parser::Level::Debug => Level::Debug,
        defmt_parser::Level::Trace => Level::Trace,
    }
}

/// A record of the `log` crate. It has no text but arguments, so the text that is made of them is lent beside it.
fn host_record<'a>(record: &log::Record<'a>, message: &'a str) -> HostRecord<'a> {
    HostRecord::new(host_level(record.level()), message)
        .with_file(record.file())
        .with_line(record.line())
        .with_module_path(record.module_path())
}

/// A level of the `log` crate.
fn host_level(level: log::Level) -> Level {
    match level {
        log::Level::Error => Level::Error,
        log::Level::Warn => Level::Warn,
        log::Level::Info => Level::Info,
        log::Level::Debug => Level::Debug,
        log::Level::Trace => Level::Trace,
    }
}

/// A logger of the `log` crate that writes lines to a file, a terminal or the like.
struct HostLogger<W> {
    formatter: HostFormatter,
    out: Mutex<W>,
}

impl<W: Write + Send> log::Log for HostLogger<W> {
    fn enabled(&self, _: &log::Metadata) -> bool {
        true
    }

    fn log(&self, record: &log::Record) {
        let message = record.args().to_string();
        let mut out = self.out.lock().unwrap_or_else(PoisonError::into_inner);
        if let Err(error) = self.formatter.write_line(&host_record(record, &message), &mut *out) {
            eprintln!("a record was not logged: {error}");
        }
    }

    fn flush(&self) {
        if let Err(error) = self.out.lock().unwrap_or_else(PoisonError::into_inner).flush() {
            eprintln!("the log was not flushed: {error}");
        }
    }
}
