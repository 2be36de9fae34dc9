//! The eight built-in templates, for the device and for the host.

use pralakuon::{
    check, names_timestamp, Formatter, FormatterConfig, FormatterFormat, HostFormatter, HostRecord, Level, Record,
    Refusal, Settings,
};

fn device_record() -> Record<'static> {
    Record::new(Level::Info, "hello")
        .with_file("/head/src/gauge.rs")
        .with_line(8)
        .with_module_path("gauge::read")
        .with_timestamp("0.25")
}

fn host_record() -> HostRecord<'static> {
    HostRecord::new(Level::Warn, "closed").with_file("/tablet/src/app.rs").with_line(40).with_module_path("tablet::app")
}

/// With location, with timestamp, the device's line, the host's line.
const DEFAULT: [(bool, bool, &str, &str); 4] = [
    (false, false, "INFO  hello", "WARN  closed (HOST)"),
    (false, true, "0.25 INFO  hello", "<time> WARN  closed (HOST)"),
    (
        true,
        false,
        "INFO  hello\n└─ gauge::read @ /head/src/gauge.rs:8   ",
        "WARN  closed\n└─ tablet::app @ /tablet/src/app.rs:40   (HOST)",
    ),
    (
        true,
        true,
        "0.25 INFO  hello\n└─ gauge::read @ /head/src/gauge.rs:8   ",
        "<time> WARN  closed\n└─ tablet::app @ /tablet/src/app.rs:40   (HOST)",
    ),
];

const ONE_LINE: [(bool, bool, &str, &str); 4] = [
    (false, false, "[INFO ] hello", "[WARN ] closed (HOST)"),
    (false, true, "0.25 [INFO ] hello", "<time> [WARN ] closed (HOST)"),
    (true, false, "[INFO ] hello (gauge head/src/gauge.rs:8)", "[WARN ] closed (tablet tablet/src/app.rs:40) (HOST)"),
    (
        true,
        true,
        "0.25 [INFO ] hello (gauge head/src/gauge.rs:8)",
        "<time> [WARN ] closed (tablet tablet/src/app.rs:40) (HOST)",
    ),
];

fn config(format: FormatterFormat, with_timestamp: bool) -> FormatterConfig {
    let config = FormatterConfig::new(format);
    if with_timestamp {
        config.with_timestamp()
    } else {
        config
    }
}

fn shows(config: FormatterConfig, device_line: &str, host_line: &str) {
    let (device, host) = (Formatter::new(config).unwrap(), HostFormatter::new(config).unwrap());
    assert_eq!(device.format(&device_record()).as_deref(), Ok(device_line));
    assert_eq!(host.format(&host_record()).as_deref(), Ok(host_line));
    for (template, names) in [(device.template(), device.names_timestamp()), (host.template(), host.names_timestamp())]
    {
        // Nothing of a built-in template is dropped, so that the strict edition reads it, too.
        for settings in [Settings::PLAIN, Settings::PLAIN.with_strict(true)] {
            assert_eq!(check(template.as_bytes(), settings), Ok(()));
            assert_eq!(names_timestamp(template.as_bytes(), settings), Ok(config.is_timestamp_available));
        }
        assert_eq!(names, config.is_timestamp_available);
    }
    let strict = config.with_strict();
    assert_eq!(Formatter::new(strict).unwrap().format(&device_record()).as_deref(), Ok(device_line));
    assert_eq!(HostFormatter::new(strict).unwrap().format(&host_record()).as_deref(), Ok(host_line));
}

#[test]
fn the_default_format() {
    for (with_location, with_timestamp, device, host) in DEFAULT {
        shows(config(FormatterFormat::Default { with_location }, with_timestamp), device, host);
    }
}

#[test]
fn the_one_line_format() {
    for (with_location, with_timestamp, device, host) in ONE_LINE {
        shows(config(FormatterFormat::OneLine { with_location }, with_timestamp), device, host);
    }
}

#[test]
fn the_one_line_format_is_bold_and_dimmed() {
    let format = FormatterFormat::OneLine { with_location: true };
    let config = config(format, false).with_settings(Settings::CRATE_COLOUR);
    let line = Formatter::new(config).unwrap().format(&device_record()).unwrap();
    let level = "\x1b[1m[\x1b[32mINFO \x1b[0m\x1b[1m]\x1b[0m";
    let location = "\x1b[2m(\x1b[1mgauge\x1b[0m\x1b[2m head/src/gauge.rs:8)\x1b[0m";
    assert_eq!(line, format!("{level} hello {location}"));
}

#[test]
fn the_builder_chooses_as_the_original_does() {
    assert_eq!(FormatterConfig::default().format, FormatterFormat::Default { with_location: false });
    let located = FormatterConfig::default().with_location();
    assert_eq!(located.format, FormatterFormat::Default { with_location: true });
    let one_line = FormatterFormat::from_string("oneline", false).unwrap();
    assert_eq!(one_line, FormatterFormat::OneLine { with_location: false });
    assert_eq!(config(one_line, false).with_location().format, FormatterFormat::OneLine { with_location: true });
    assert_eq!(FormatterFormat::from_string("Default", false), None);
    assert_eq!(FormatterFormat::get_options().collect::<Vec<_>>(), ["default", "oneline"]);
    // A template of one's own takes neither location nor time.
    let own = FormatterConfig::custom("{s}").with_location().with_timestamp();
    assert_eq!(own.format, FormatterFormat::Custom("{s}"));
    assert_eq!(Formatter::new(own).unwrap().template(), "{s}");
}

#[test]
fn names_of_formats_are_text_in_a_template() {
    shows(FormatterConfig::custom("oneline"), ONE_LINE[2].2, ONE_LINE[2].3);
    for name in FormatterFormat::get_options() {
        assert_eq!(Formatter::new(config(FormatterFormat::Custom(name), false)), Err(Refusal::NoMessage));
    }
}
