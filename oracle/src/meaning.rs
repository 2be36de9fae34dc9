//! Writes a crate of definitions that has the checker compute the meaning on cases of the stored list.

use crate::sample::{self, Stored};
use crate::sheet::Sheet;
use std::fmt::Write as _;
use std::path::Path;
use std::{fs, io};

/// Longer sheets take the checker minutes.
const LONGEST: usize = 1200;

/// So many cases stand in one statement.
const TOGETHER: usize = 10;

struct Case {
    sheet: Vec<u8>,
    output: Vec<u8>,
    /// With 17, which the output alone does not tell.
    place: Option<usize>,
}

/// `crates`: the repository's folder of crates; `folder`: where the new crate goes; every `step`th case of the list.
pub fn run(list: &str, crates: &str, folder: &str, step: usize) -> io::Result<()> {
    let all = cases(&fs::read(list)?);
    let picked: Vec<&Case> = all.iter().filter(|case| case.sheet.len() < LONGEST).step_by(step.max(1)).collect();
    let specs = Path::new(folder).join("specs");
    fs::create_dir_all(Path::new(folder).join("src"))?;
    fs::create_dir_all(&specs)?;
    fs::write(Path::new(folder).join("src/lib.rt"), "// The meaning, computed on answers of the crate.\n")?;
    fs::write(specs.join("Lib.antt"), "pub mod Sampled\n")?;
    fs::write(specs.join("Sampled.antt"), statement(&picked, &computing(Path::new(crates))?))?;
    println!("{} of {} cases", picked.len(), all.len());
    Ok(())
}

/// What the port must print; listed differences that are no refusals are left out.
fn cases(list: &[u8]) -> Vec<Case> {
    let output = |stored: &Stored| match stored.number {
        0 => stored.output.to_vec(),
        number => format!("! {number}\n").into_bytes(),
    };
    let told = sample::stored(list).into_iter().filter(|stored| stored.number != sample::LISTED);
    let place = |stored: &Stored| sample::place(&Sheet::read(stored.sheet)?);
    told.map(|stored| Case { sheet: stored.sheet.to_vec(), output: output(&stored), place: place(&stored) }).collect()
}

/// The crates whose definitions have to be opened: each names what it computes by in its file `Computing`.
fn computing(crates: &Path) -> io::Result<Vec<String>> {
    let has = |krate: &String| crates.join(krate).join("specs/Computing.antt").exists();
    Ok(sorted(crates)?.into_iter().filter(has).collect())
}

fn sorted(folder: &Path) -> io::Result<Vec<String>> {
    let mut names: Vec<String> =
        fs::read_dir(folder)?.filter_map(|entry| entry.ok()?.file_name().into_string().ok()).collect();
    names.sort();
    Ok(names)
}

fn statement(picked: &[&Case], crates: &[String]) -> String {
    let mut text = String::from(
        "-- The meaning, computed on answers of the crate.
use Rattle.std.specs.Prelude.{ℕ, ◌≡◌, refl, List, [], ◌∷◌}
use Rattle.refusals.specs.declared.Refusal.{Refusal}
use Rattle.answer.specs.Answers.{Outcome, refused}
use Rattle.outcomes.specs.Program.{output, session_text}
",
    );
    for krate in crates {
        writeln!(text, "use Rattle.{krate}.specs.Computing as {krate}_computing").unwrap();
    }
    let names: Vec<String> = crates.iter().map(|krate| format!("{krate}_computing.computes")).collect();
    for (list, of, one) in [("outputs", "(List ℕ)", "output"), ("outcomes", "Outcome", "session_text")] {
        writeln!(
            text,
            "
{list} : List (List ℕ) → List {of}
unfolding {}
{list} [] = []
{list} (d ∷ ds) = {one} d ∷ {list} ds",
            names.join(" ")
        )
        .unwrap();
    }
    let told: Vec<_> = picked.iter().map(|case| (&case.sheet[..], bytes(&case.output))).collect();
    compute(&mut text, "outputs", &told);
    let placed = picked.iter().filter_map(|case| Some((&case.sheet[..], dropped(case.place?))));
    compute(&mut text, "outcomes", &placed.collect::<Vec<_>>());
    text
}

/// That the definition gives for each sheet what is said beside it.
fn compute(text: &mut String, list: &str, cases: &[(&[u8], String)]) {
    for (i, cases) in cases.chunks(TOGETHER).enumerate() {
        let sheets: Vec<String> = cases.iter().map(|(sheet, _)| bytes(sheet)).collect();
        let said: Vec<&str> = cases.iter().map(|(_, said)| &said[..]).collect();
        write!(
            text,
            "
{list}_{i} : {list} ({} ∷ []) ≡ {} ∷ []
unfolding {list}
{list}_{i} = refl
",
            sheets.join(" ∷ "),
            said.join(" ∷ ")
        )
        .unwrap();
    }
}

fn dropped(place: usize) -> String {
    format!("refused (Refusal.Dropped {place})")
}

fn bytes(list: &[u8]) -> String {
    let numbers: String = list.iter().map(|byte| format!("{byte} ∷ ")).collect();
    format!("({numbers}[])")
}
