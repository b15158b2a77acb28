//! Compiles a copy of the Rust sources with probes in it, for counting what a corpus reaches. The
//! copy is made at build time; each probe of probes.txt has to find its place exactly once.

include!("../build/sources.rs");

/// Lines of a source file and what takes their place.
#[derive(Default)]
struct Probe<'a> {
    place: Vec<&'a str>,
    put: Vec<&'a str>,
}

/// The probes of one file.
fn probes<'a>(text: &'a str, file: &str) -> Vec<Probe<'a>> {
    let mut probes = Vec::new();
    let mut now = "";
    for line in text.lines() {
        if let Some(name) = line.strip_prefix("in ") {
            now = name;
        } else if let Some(place) = line.strip_prefix("-") {
            // the first line after those put in begins another probe
            if probes.last().is_none_or(|p: &Probe| !p.put.is_empty()) && now == file {
                probes.push(Probe::default());
            }
            probes.last_mut().filter(|_| now == file).into_iter().for_each(|p| p.place.push(place));
        } else if let Some(put) = line.strip_prefix("+ ") {
            probes.last_mut().filter(|_| now == file).into_iter().for_each(|p| p.put.push(put));
        }
    }
    probes
}

/// The source with one probe put in.
fn probed(source: &[String], probe: &Probe, file: &str) -> Vec<String> {
    let lines = probe.place.len();
    let same = |at: &usize| {
        source[*at..*at + lines]
            .iter()
            .zip(&probe.place)
            .all(|(line, place)| line.trim() == place.trim())
    };
    let places: Vec<usize> = (0..=source.len() - lines).filter(same).collect();
    let [at] = places[..] else {
        eprintln!("{file}.rs has {} places for a probe, not 1: {:?}", places.len(), probe.place);
        std::process::exit(1);
    };
    let mut text = source[..at].to_vec();
    for put in &probe.put {
        match *put {
            "@" => text.extend_from_slice(&source[at..at + lines]),
            _ => text.push(put.replace("probe::", "crate::probe::")),
        }
    }
    text.extend_from_slice(&source[at + lines..]);
    text
}

fn main() {
    println!("cargo:rerun-if-changed=probes.txt");
    let text = std::fs::read_to_string("probes.txt").expect("probes.txt");
    let from = sources();
    let out = std::path::PathBuf::from(std::env::var("OUT_DIR").unwrap());
    for file in FILES {
        let name = format!("{file}.rs");
        let source = std::fs::read_to_string(from.join(&name)).expect("a source");
        let lines: Vec<String> = source.lines().map(str::to_string).collect();
        let lines =
            probes(&text, file).iter().fold(lines, |lines, probe| probed(&lines, probe, file));
        std::fs::write(out.join(&name), lines.join("\n") + "\n").expect("a probed source");
    }
    write_modules(&out);
}
