//! `pyh show`: a drawing of the tree, or the refusal.
use crate::arguments::{Command, Wanted};
use crate::output::{say, why, Output};
use crate::terminal::Look;
use crate::{drawing, names, report, scripts, ACCEPTED, REFUSED, TROUBLE};
use std::ffi::OsStr;
use std::io::ErrorKind;
use tarbucket::Reader;

pub const COMMAND: Command = Command {
    name: "show",
    summary: "draws a script's tree, or shows where and why it is refused",
    usage: "usage: pyh show [FILE]...",
    about: ABOUT,
    listed: "",
    notes: NOTES,
    options: &[],
    run: show,
};

const ABOUT: &str = "\
Draws the tree of each script that is accepted, the parts of a node indented
below it. A Float is shown as it is written; its value follows in parentheses
where that has another text: 0.10 (0.1). A Tuple over one value comes from a
comma behind it: `x = 1,` is a Tuple, `x = 1` is none. Of a script that is
refused it shows the line with a caret under the place, and says why. Where no
FILE is named, and for -, it reads standard input.
";

const NOTES: &str = "\
Colours are there on a terminal, unless NO_COLOR is set.
";

fn show(wanted: &Wanted) -> Result<u8, String> {
    scripts::input_once(&wanted.names)?;
    let names = match wanted.names[..] {
        [] => vec![OsStr::new(scripts::INPUT)],
        ref names => names.to_vec(),
    };
    let look = Look::of(&std::io::stdout());
    let mut reader = Reader::new();
    let mut out = Output::new();
    let mut src = Vec::new();
    let mut status = ACCEPTED;
    for name in &names {
        if let Err(e) = scripts::read(name, &mut src) {
            let advice = if e.kind() == ErrorKind::IsADirectory { ": 'pyh check' takes folders" } else { "" };
            out.flush();
            say(&format!("pyh: {}: {}{advice}", names::shown(name), why(&e)));
            status = TROUBLE;
            continue;
        }
        if names.len() > 1 {
            out.write(&format!("== {}\n", names::shown(name)));
        }
        match reader.read(&src) {
            Ok(tree) => out.write(&drawing::drawing(&tree, &look)),
            Err(e) => {
                status = status.max(REFUSED);
                out.write(&report::text(None, &src, e, &look));
            }
        }
        if out.is_lost() {
            break;
        }
    }
    Ok(out.end(status))
}
