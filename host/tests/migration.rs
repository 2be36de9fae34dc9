//! docs/MIGRATION.md has the code that oracle/ compiles and runs: all of it, in this order, and no other.

const PAGE: &str = include_str!("../../docs/MIGRATION.md");
const CODE: &str = include_str!("../../oracle/src/migration/page.rs");

#[test]
fn the_page_quotes_the_code_that_is_run() {
    let blocks: Vec<&str> =
        PAGE.split("```rust\n").skip(1).map(|rest| rest.split("```").next().unwrap_or_default()).collect();
    assert_eq!(blocks.join("\n"), CODE);
}
