//! Makes the recorded cases that the gate replays.
use crate::cases::tape::Tape;
use crate::cases::*;
use std::path::Path;

type Recorder = fn(&mut Tape);

const ALL: [(&str, Recorder); 16] = [
    ("chroma_qp", chroma_qp::record),
    ("avail", avail::record),
    ("ranks", ranks::record),
    ("gather", gather::record),
    ("predict", predict::record),
    ("recon_block", recon::record_block),
    ("recon_plane", recon::record_plane),
    ("deblock", deblock_cases::record),
    ("bands", bands_cases::record),
    ("driver", driver_cases::record),
    ("mend", mend::record),
    ("pack", pack::record),
    ("rows", rows::record),
    ("sheet", sheet::record),
    ("streams", streams::record),
    ("screen", screen::record),
];

/// Records one name, or all of them, each to its replay's folder where the repository has one. True if the Rust and the model never differed.
pub fn record(name: &str, dir: &Path) -> std::io::Result<bool> {
    let mut agreed = true;
    let mut known = false;
    for (each, recorder) in ALL {
        let dir = match name {
            "all" => dir.join(format!("replay_{each}")),
            _ if name == each => dir.to_path_buf(),
            _ => continue,
        };
        known = true;
        if name == "all" && !dir.is_dir() {
            continue;
        }
        let mut tape = Tape::new(each);
        recorder(&mut tape);
        // A recording that the Rust and the model do not agree on is not written.
        if tape.report() {
            tape.save(&dir)?;
        } else {
            agreed = false;
        }
    }
    if !known {
        println!("nothing is called {name}");
    }
    Ok(known && agreed)
}

/// Records damaged headers alone, for a run of the replay that is not part of the gate.
pub fn headers(count: usize, seed: u64, dir: &Path) -> std::io::Result<bool> {
    let mut tape = Tape::new("streams");
    streams::headers(&mut tape, count, seed);
    let good = tape.report();
    tape.save(dir)?;
    Ok(good)
}
