#!/bin/sh
# Builds wrong copies of pyh: the stored cases must find each, and nothing in a copy that has no edit. It wants what pyh/test.sh wants, and about
# an hour.
#
#     pyh/wrong.sh           all
#     pyh/wrong.sh FILE...   those with an edit in these files of pyh/src
set -eu
files=" $* "
cd "$(dirname "$0")/.."
tools/staticlib.sh >/dev/null
root=$PWD
out=$root/target/wrong_pyh
export TARBUCKET_LIB="$root/target/staticlib"
count=0

# copy FILE EDIT
copy() {
    rm -rf "$out/pyh"
    mkdir -p "$out/pyh"
    ln -sfn "$root/bindings" "$out/bindings"
    cp -r pyh/Cargo.toml pyh/Cargo.lock pyh/src "$out/pyh"
    sed "$2" "pyh/src/$1" >"$out/pyh/src/$1"
    RUSTFLAGS=-Awarnings cargo build --quiet --offline --release --manifest-path "$out/pyh/Cargo.toml" --target-dir "$out/target"
}

# wrong WHAT FILE EDIT
wrong() {
    case $files in *" $2 "* | "  ") ;; *) return 0 ;; esac
    copy "$2" "$3"
    if cmp -s "pyh/src/$2" "$out/pyh/src/$2"; then
        echo "$1: the edit changes nothing"
        exit 1
    fi
    if PYH=$out/target/release/pyh pyh/test.sh >"$out/log" || ! grep -q '^FAILED' "$out/log"; then
        echo "$1: NOT FOUND"
        exit 1
    fi
    printf '%s: %s\n' "$1" "$(grep -m 1 '^FAILED' "$out/log")"
    count=$((count + 1))
}

copy main.rs ''
PYH=$out/target/release/pyh pyh/test.sh

wrong "columns in bytes" excerpt.rs 's/let column = .*/let column = place.min(to) - from + 1;/'
wrong "lines from 0" excerpt.rs 's/count() + 1;$/count();/'
wrong "a line cut without regard to the terminal" excerpt.rs 's/look.columns.map_or(WIDEST, .*/WIDEST;/'
wrong "marks that take a column" excerpt.rs 's/_ if within(&NONE, c) => 0/_ if within(\&NONE, c) => 1/'
wrong "wide characters that take one" excerpt.rs 's/_ if within(&WIDE, c) => 2/_ if within(\&WIDE, c) => 1/'
wrong "vowels of old Hangul that take a column" widths.rs 's/(0xD7B0, 0xD7C6)/(0xD7B0, 0xD7B0)/'
wrong "signs before numbers that take none" widths.rs 's/(0x5C7, 0x5C7)/(0x5C7, 0x605)/'
wrong "anchors of annotations, as they are" widths.rs 's/(0xFFF0, 0xFFFB)/(0xFFF0, 0xFFF8)/'
wrong "what no one sees, as it is" excerpt.rs 's/    within(&UNSEEN, c)/    false/'
wrong "a line cut between a letter and its mark" excerpt.rs 's/^    let left = left + cells.*//'
wrong "a name cut between a letter and its mark" excerpt.rs 's/columns(\*c) > 0/true/'
wrong "a mark at the place that stands on what is before it" excerpt.rs 's/cells.insert(place, .*//'
wrong "names of ASCII alone" source.rs 's/ || b > 127$//'
wrong "no character that can stand in a name alone" character.rs 's/if !continues(c)/if true/'
wrong "control characters of a script as they are" excerpt.rs "s/0x80..=0x9F => ('▯', 1),//"
wrong "sentences broken within words" excerpt.rs 's/let Some(widest) = widest else .*/let widest = usize::MAX;/'
wrong "quotes in json as they are" json.rs "s/'\"' | '..' =>/'\\\\\\\\' =>/"
wrong "a name with the bytes lost" names.rs 's/"..x{byte:02X}"/"?"/'
wrong "a name's control characters as they are" names.rs 's/c.is_control() ||//'
wrong "two names that look alike" names.rs "s/ || c == '..' {/ {/"
wrong "a Float's spelling taken from the node's span" drawing.rs 's/node.spelling().expect("a Float has one")/node.text()/'
wrong "a Float's spelling lost" drawing.rs 's/"Float {spelling} ({value})"/"Float {value}"/'
wrong "a Float's value lost" drawing.rs 's/"Float {spelling} ({value})"/"Float {spelling}"/'
wrong "a Float's value where it is written so" drawing.rs 's/None if spelling == value/None if false/'
wrong "a value without its dot" drawing.rs 's/if !digits.contains/if false \&\& !digits.contains/'
wrong "a long spelling of a Float, whole" drawing.rs 's/"Float {front}… ({value})"/"Float {} ({value})", { let _ = front; \&spelling }/'
wrong "the longest spelling that is shown whole, cut" drawing.rs 's/cut(&spelling, LONGEST)/cut(\&(spelling.clone() + "0"), LONGEST)/'
wrong "a long spelling's value without its dot" drawing.rs 's/"Float {front}… ({value})"/"Float {front}… ({})", value.trim_end_matches(".0")/'
wrong "a tuple of one drawn as its member" drawing.rs 's/let (text, parts) = .*/let node = match node.shape() { Shape::Tuple { mut members } => members.next().filter(|_| members.next().is_none()).unwrap_or(node), _ => node }; &/'
wrong "colours in a pipe" terminal.rs 's/colours: columns.is_some() \&\& moves()/colours: moves()/'
wrong "NO_COLOR not asked for" terminal.rs 's/ \&\& var_os("NO_COLOR").is_none()//'
wrong "NO_COLOR asked for a value" terminal.rs 's/var_os("NO_COLOR").is_none()/var_os("NO_COLOR").is_none_or(|v| v.is_empty())/'
wrong "a terminal without a name taken for one that has colours" terminal.rs 's/is_some_and(|term| term != "dumb" \&\& !term.is_empty())/is_none_or(|term| term != "dumb")/'
wrong "progress that stays" progress.rs 's/if self.drawn.take().is_some()/if false/'
wrong "progress in a file" progress.rs 's/columns(&io::stderr()).is_some() \&\&//'
wrong "progress for one script" progress.rs 's/of > FEW/of > 0/'
wrong "progress that stands still" progress.rs 's/from_millis(50)/from_secs(3600)/'
wrong "a panic where errors can't be written" output.rs 's/let _ = writeln!(io::stderr(), /eprintln!(/'
wrong "a closed pipe that is an error" output.rs 's/ if e.kind() != ErrorKind::BrokenPipe//'
wrong "a full device that is none" output.rs 's/e.kind() != ErrorKind::BrokenPipe/false/'
wrong "an output that can't be written taken for one that can" output.rs 's/let file = .*/let file = File::options().write(true).open("\/dev\/stdout").unwrap_or_else(|_| File::create("\/dev\/null").unwrap());/'
wrong "no status of its own for what can't be read" check.rs 's/_ => TROUBLE/_ => REFUSED/'
wrong "messages before what stood before them" check.rs 's/            self.out.flush();$//'
wrong "totals of a check that was cut" check.rs 's/if !self.out.is_lost() {/if true {/'
wrong "an input that can't be read taken for an empty script" scripts.rs 's/(&\*stream(0)).take(most)/io::stdin().take(most)/'
wrong "an empty folder taken for a good one" scripts.rs 's/if all\[before..\].iter().all(.*/if false {/'
wrong "a folder that can't be read passed over" scripts.rs 's/Err(e) => What::Trouble(why(&e)),/Err(_) => continue,/'
wrong "links followed" scripts.rs 's/_ if kind.is_dir() => entries/_ if path.is_dir() => entries/'
wrong "links passed over in silence" scripts.rs 's/Some(end) if end.is_dir() => .*/Some(end) if end.is_dir() => {}/'
wrong "folders in no order" scripts.rs 's/b.0.as_os_str().cmp(a.0.as_os_str())/a.0.as_os_str().cmp(b.0.as_os_str())/'
wrong "small letters alone" scripts.rs 's/.eq_ignore_ascii_case(b".pyh")/.eq(b".pyh")/'
wrong "a pipe that is waited for" scripts.rs 's/Some(end) if !end.is_file() =>/Some(_) if false =>/'
wrong "standard input twice" scripts.rs 's/0 | 1 => Ok/0 | 1 | 2 => Ok/'
wrong "options behind --" arguments.rs 's/if bytes == b"--" {/if bytes == b"--" { continue;/'
wrong "the first option for the nearest" arguments.rs 's/names.min_by_key(.*/{ let mut names = names; names.next().expect("there are names") };/'
wrong "a nearest that is not near" arguments.rs 's/if other \&\& wrong == .*/if false {/'
wrong "the first format counts" arguments.rs 's/self.chosen.iter().rev()/self.chosen.iter()/'
wrong "a remedy that was not tried" misfit.rs 's/Ok(_) => Some(usize::MAX),/_ => Some(usize::MAX),/'
wrong "no remedy that leads to a later refusal" misfit.rs 's/=> Some(e.place()),/=> None,/'
wrong "no remedy that leads to the script's end" misfit.rs 's/Error::Cut { .. } | //'
wrong "no remedy that leads to a value that is missing" misfit.rs 's/Error::Missing { .. } | //'
wrong "a remedy that fits, but leads no further" misfit.rs 's/self.reach(&part, new) > Some/self.reach(\&part, new) >= Some/'
wrong "a line of a string taken for a comment" misfit.rs 's/if end <= self.place - self.line.len()/if code(self.line).is_empty()/'
wrong "brackets from the outermost on" ending.rs 's/self.before.open.iter().rev()/self.before.open.iter()/'
wrong "brackets that are all named" ending.rs 's/NAMED: usize = 4/NAMED: usize = 400/'
wrong "brackets at the script's end" ending.rs 's/locate(self.src, at)/locate(self.src, self.src.len())/'
wrong "more wanted where a bracket can be closed" ending.rs 's/|bracket| self.fits(&\[bracket.closer as u8\])/|_| false/'
wrong "a bracket closed where a value is missing" ending.rs 's/|bracket| self.fits(&\[bracket.closer as u8\])/|_| true/'
wrong "a block at the script's end" ending.rs 's/line_number(self.src, header.start)/line_number(self.src, self.src.len())/'
wrong "a block that is missing taken for one that was begun" ending.rs 's/{ "missing" } else/{ "not finished" } else/'
wrong "a value that may be no value" ending.rs "s/if self.fits(b.''.)/if true/"
wrong "a colon that does not fit" ending.rs 's/if self.fits(b":")/if true/'
wrong "an empty tuple for each )" ending.rs 's/ && self.fits(b")")//'
wrong "None for all that is missing" ending.rs 's/self.last() == "`return`"/true/'
wrong "the script's end taken for a line's" ending.rs 's/None => format!("The script ends here, but {}.", .*/None => "A value is missing at the end of this line.".to_string(),/'
wrong "a block's end within a line taken for the line's" ending.rs "s/Some(b'.n') => format/Some(_) => format/"
wrong "a lambda's colon taken for a block's" before.rs 's/if self.lambdas > 0/if false/'
wrong "a pair's colon taken for a block's" before.rs 's/b":" if self.open.is_empty()/b":"/'
wrong "half a tuple taken for a whole one" before.rs 's/ && !bracket.behind_value => / \&\& false => /'
wrong "a call taken for half a tuple" before.rs 's/ && !bracket.behind_value => / => /'
wrong "not taken for a function" before.rs 's/ && !OTHERS.contains(&token)//'
wrong "if taken for a function" before.rs 's/ && !HEADERS.contains(&token)//'
wrong "two commas taken for a value that is missing" comma.rs 's/^            b"," => .*//'
wrong "a comma of the line above taken for one of this line" comma.rs 's/let is_first = .*/let is_first = false;/'
wrong "a comma of the first line taken for one with a line above" comma.rs 's/^            b"" => .*//'
wrong "no value missing where the comma does not fit behind it" comma.rs 's/>= Some(self.place + 2)/> Some(self.place + 2)/'
wrong "a name missing where the comma does not fit behind it" comma.rs 's/_ if self.helps(.*, b" a")/_ if self.fits(b" a")/'
wrong "a block's colon taken for a pair's" comma.rs 's/is_brace \&\& //'
wrong "a tuple where a bracket is missing" comma.rs 's/ && tuple >= closed//'
wrong "a bracket missing in a tuple of an index in a list" comma.rs 's/let Some(end) = .* else {/let Some(end) = None::<usize> else {/'
wrong "a tuple behind each if" comma.rs 's/.is_some_and(|from| self.helps(from..from, b" ("))/.is_some()/'
wrong "the value of for taken for its name" comma.rs 's/ && self.src.first.end..last.start..trim_ascii().is_empty()//'
wrong "a comma told before a quote that is missing" misfit.rs 's/self.quote().or_else(comma)/comma().or_else(|| self.quote())/'
wrong "a comment taken for the last token" source.rs "s/^                b'#' => .*//"
wrong "comments lost in silence" fmt.rs 's/comments(&self.reader, src).filter(|_| !self.asked.drop)/None::<crate::comments::Comments>/'
wrong "comments that can't be dropped" fmt.rs 's/.filter(|_| !self.asked.drop)//'
wrong "a file with comments left, as if nothing were wrong" fmt.rs 's/ | Totals { left: 1.., .. }//'
wrong "a file that can't be written, as if nothing were wrong" fmt.rs 's/ | Totals { unwritten: 1.., .. }//'
wrong "--check that finds nothing wrong" fmt.rs 's/Totals { other: 1.., .. } if self.asked.check => REFUSED,//'
wrong "--diff with the status of --check" fmt.rs 's/ if self.asked.check => REFUSED/ if self.asked.check || self.asked.diff => REFUSED/'
wrong "a file in standard form written again" fmt.rs 's/Ok(text) if text == src =>/Ok(text) if text == src \&\& !self.asked.write =>/'
wrong "a script in standard form not printed" fmt.rs 's/self.out.write_bytes(src);//'
wrong "a script in standard form printed by --check" fmt.rs 's/if let Asked { write: false, check: false, diff: false, .. } = self.asked {/if !self.asked.write {/'
wrong "refusals among the texts" fmt.rs 's/say(&report::unwritten(\(.*\)));/self.out.write(\&report::unwritten(\1));/'
wrong "refusals with the colours of standard output" fmt.rs 's/e, &self.errors)/e, \&self.look)/'
wrong "messages of fmt before what stood before them" fmt.rs 's/^ *self.out.flush();$//'
wrong "totals of fmt where nothing could be printed" fmt.rs 's/ && !self.out.is_lost() {/ {/'
wrong "what was not written taken for what was not read" fmt.rs 's/refused + left + unwritten, /refused + left, /'
wrong "--write and --check" fmt.rs 's/_ if write && check => .*//'
wrong "--write and --diff" fmt.rs 's/_ if write && diff => .*//'
wrong "--drop-comments where nothing is written" fmt.rs 's/_ if drop && (check || diff) => .*//'
wrong "standard input for --write" fmt.rs 's/_ if write && wanted.names.is_empty() => .*//'
wrong "standard input among files for --write" fmt.rs 's/_ if write && input => .*//'
wrong "names of scripts as they are" fmt.rs 's/format!("{}.n", names::shown(name))/format!("{}\\n", name.to_string_lossy())/'
wrong "a # in a string taken for a comment" comments.rs 's/(end..start as usize)/(end..next as usize)/'
wrong "two Dedents of one line taken for a gap" comments.rs 's/src.get(end..start as usize).unwrap_or_default()/\&src[end..start as usize]/'
wrong "a comment behind the last token passed over" comments.rs 's/in reader.tokens() {/in reader.tokens().collect::<Vec<_>>().split_last().unwrap().1.iter().copied() {/'
wrong "the last comment for the first" comments.rs 's/found.get_or_insert(\(.*\)).count += count;/{ let was = found.take().map_or(0, |c: Comments| c.count); found.insert(\1).count += was + count; }/'
wrong "a link replaced by a file" replace.rs 's/fs::canonicalize(name).map_err(unwritten)?/PathBuf::from(name)/'
wrong "a new file's own mode" replace.rs 's/file.set_permissions(was.permissions())/Ok(())/'
wrong "a write-protected file replaced" replace.rs 's/^    File::options().write(true).open(&path).*//'
wrong "a file left beside the script" replace.rs 's/let _ = fs::remove_file(&beside);//'
wrong "a script cut where there is no room" replace.rs 's/let done = fill.*/let _ = fs::remove_file(\&beside); let done = fs::write(\&path, text);/'
wrong "a new file whose name is taken" replace.rs 's/ && tries < 100 => tries += 1/ \&\& tries > 100 => tries += 1/'
wrong "a new file's name that grows with the other's" replace.rs 's/format!(".pyh-fmt-{id}-{tries}.tmp")/format!("{}.{id}-{tries}.tmp", path.file_name().unwrap().to_string_lossy())/'
wrong "a pipe taken for a file" replace.rs 's/if !was.is_file() {/if false {/'
wrong "two lines around a change" diff.rs 's/AROUND: usize = 3/AROUND: usize = 2/'
wrong "changes far from one another in one part" diff.rs 's/<= 2 \* AROUND/<= 3 * AROUND/'
wrong "changes in two parts with nothing between" diff.rs 's/<= 2 \* AROUND/< 2 * AROUND/'
wrong "no line that stays" diff.rs 's/old.get(i) == new.get(j)/i > old.len() + j/'
wrong "statements in the order of their nodes" diff.rs 's/starts.sort_unstable();//'
wrong "an else that has no line" diff.rs 's/ | Kind::Else//'
wrong "no lines at the place behind them" diff.rs 's/0 => format!("{},0", lines.start)/0 => format!("{},0", lines.start + 1)/'
wrong "a missing line feed not told" diff.rs 's/ No newline at end of file.n//'
wrong "control characters of a diff as they are" diff.rs 's/plain(line)/String::from_utf8_lossy(line)/'
wrong "control characters of a patch replaced" diff.rs 's/match look.columns {/match Some(0) {/'
wrong "a name behind an option that takes none taken for its value" arguments.rs 's/if option.values.is_empty() { None } else { rest.next().cloned() }/rest.next().cloned()/'
wrong "a value that is passed over" arguments.rs 's/Err(no_value(OsStr::new(option.name)))/Ok("")/'
wrong "an empty block at the script's end" sentence.rs 's/line_number(src, header.start));$/line_number(src, src.len()));/'
wrong "an empty block at the script's start" report.rs 's/(Some(src.len()), sentence/(Some(error.place()), sentence/'
echo "$count passed, 0 failed"
