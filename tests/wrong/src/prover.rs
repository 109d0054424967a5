//! What a check says of each function of a crate.

use crate::source::{Files, function_on};

/// What `rt check` printed.
pub struct Log(pub String);

/// What an error of a function is about.
#[derive(Clone, Copy, Debug, PartialEq, Eq)]
pub enum About {
    /// A fact that fails: an answer that does not show its goal, or a goal that Rattle does not show.
    Fact,
    /// The program asks for a goal more than the right one, or for one fewer. This is no fact, and spoils none.
    Parts,
    /// The proof names something that is not there, so that a fact may stand at another place.
    Form,
}

pub struct Error<'a> {
    pub text: &'a str,
    pub about: About,
}

/// The function's files that errors name.
const PROOFS: [&str; 3] = ["Answers.antt:", "Invariants.antt:", "Proof.antt:"];

/// How a line tells that a goal is open, behind its place in the code; the goal's name stands at the end.
const OPEN: [&str; 2] = [": it is not proved that ", ": `search` found no proof "];

impl Log {
    pub fn proved(&self) -> bool {
        self.0.lines().any(|line| line.starts_with("logic=proved"))
    }

    /// Whether the code reached the prover, and was refused.
    pub fn refused(&self) -> bool {
        self.0.lines().any(|line| line == "logic=not-proved")
    }

    /// Whether the code reached the prover, and all that this function asks was tried: what Rattle seeks by itself, it seeks only where each
    /// function that is called is proved.
    pub fn judged(&self, name: &str) -> bool {
        let waits = |line: &str| {
            line.starts_with("note: `search` has not tried ")
                && line.contains(&format!("::{name}`"))
        };
        self.0.lines().any(|line| line.starts_with("logic="))
            && self
                .verdict(name)
                .is_some_and(|v| !v.starts_with("no proof: it calls"))
            && !self.0.lines().any(waits)
    }

    /// What is said of a function: `proved`, or why not. Of a method that several types have, what is said of one that is not proved.
    fn verdict(&self, name: &str) -> Option<&str> {
        let said = |line: &'_ str| -> Option<usize> {
            let path = line.strip_prefix("fn ")?.split(": ").next()?;
            (path.rsplit("::").next() == Some(name)).then_some("fn ".len() + path.len() + 2)
        };
        let of_name = || {
            self.0
                .lines()
                .filter_map(|line| said(line).map(|at| &line[at..]))
        };
        of_name()
            .find(|verdict| is_unproved(verdict))
            .or_else(|| of_name().find(|v| !v.starts_with("proved")))
            .or_else(|| of_name().next())
    }

    pub fn unproved(&self, name: &str) -> bool {
        self.verdict(name).is_some_and(is_unproved)
    }

    /// The errors of a function that is not proved by itself: messages that name its proof (with a `+` before the name of a recursive
    /// function) and do not only say that another part was not admitted, and goals of its code that are open. `is_new` tells a goal
    /// that the right program does not have.
    pub fn own_errors(
        &self,
        name: &str,
        files: &Files,
        is_new: &dyn Fn(&str) -> bool,
    ) -> Vec<Error<'_>> {
        if !self.unproved(name) {
            return Vec::new();
        }
        let own = |text: &'_ str| -> Option<(usize, About)> {
            let line = text.lines().next().unwrap_or("");
            if let Some(at) = of_proof(line, name) {
                return is_error(line).then(|| (at, about(text)));
            }
            let goal = open_goal(line, name, files)?;
            let shown = line.contains("allow values at which this goal is false");
            let is_fact = shown || !is_new(goal);
            Some((0, if is_fact { About::Fact } else { About::Parts }))
        };
        let all = self.messages().into_iter();
        let mut all: Vec<Error<'_>> = all
            .filter_map(|text| own(text).map(|(at, about)| (&text[at..], about)))
            .map(|(text, about)| Error { text, about })
            .collect();
        // a goal that no line tells to be open
        let verdict = self.verdict(name).unwrap_or("");
        let open = verdict.split_once("`search` did not prove ");
        for goal in open
            .map_or("", |(_, goals)| goals)
            .split('`')
            .skip(1)
            .step_by(2)
        {
            let named = format!("(`{goal}`)");
            if !all.iter().any(|error| error.text.contains(&named)) {
                let is_fact = !is_new(goal);
                let about = if is_fact { About::Fact } else { About::Parts };
                all.push(Error {
                    text: verdict,
                    about,
                });
            }
        }
        all
    }

    /// The first error of all.
    pub fn first_error(&self) -> Error<'_> {
        let first = |said: &&str| {
            let line = said.lines().next().unwrap_or("");
            is_open(line) || line.starts_with("error") || is_error(line)
        };
        match self.messages().into_iter().find(first) {
            Some(text) if is_open(text.lines().next().unwrap_or("")) => Error {
                text,
                about: About::Fact,
            },
            Some(text) => Error {
                text,
                about: about(text),
            },
            None => Error {
                text: "no error is named",
                about: About::Form,
            },
        }
    }

    /// The lines, each with those that go on from it: these begin with a space.
    fn messages(&self) -> Vec<&str> {
        let (mut all, mut from, mut at) = (Vec::new(), 0, 0);
        for line in self.0.split_inclusive('\n') {
            if !line.starts_with(' ') {
                all.push(self.0[from..at].trim_end());
                from = at;
            }
            at += line.len();
        }
        all.push(self.0[from..].trim_end());
        all
    }
}

/// Whether what is said of a function is that it is not proved.
fn is_unproved(verdict: &str) -> bool {
    verdict.starts_with("not proved") || verdict.starts_with("no proof")
}

/// Whether a line tells an error, and not only that what rests on another one was not checked.
fn is_error(line: &str) -> bool {
    let rests = ["was not admitted", "were not checked", "was not checked"];
    line.contains(": error") && !rests.iter().any(|words| line.contains(words))
}

/// Whether a line tells that a goal is open.
fn is_open(line: &str) -> bool {
    OPEN.iter().any(|words| line.contains(words))
}

/// Where a line names the proof of this function.
fn of_proof(line: &str, name: &str) -> Option<usize> {
    let of_it = |at: usize| line[..at].ends_with('/') || line[..at].ends_with("/+");
    PROOFS
        .iter()
        .filter_map(|file| line.find(&format!("{name}/{file}")))
        .find(|at| of_it(*at))
}

/// The goal that a line tells to be open, if it is one of this function's code: the file and the line are told before it, and the goal's
/// name behind it.
fn open_goal<'a>(line: &'a str, name: &str, files: &Files) -> Option<&'a str> {
    let (place, said) = OPEN.iter().find_map(|words| line.split_once(words))?;
    let mut place = place.trim_start_matches("note: ").split(':');
    let (file, number) = (place.next()?, place.next()?.parse().ok()?);
    let text = files.get(file.trim_start_matches("./"))?;
    if function_on(text, number)? != name {
        return None;
    }
    let (_, goal) = said.rsplit_once("(`")?;
    goal.split('`').next()
}

/// Where an error is: the function's file and the goal, or the goal alone.
pub fn site(error: &str) -> String {
    let line = error.lines().next().unwrap_or("");
    let goal = match line.split_once(": error: `") {
        Some((_, rest)) => rest.split('`').next(),
        None if line.contains("did not prove") => line.rsplit('`').nth(1),
        None => line
            .rsplit_once("(`")
            .and_then(|(_, rest)| rest.split('`').next()),
    };
    let file = line.split(".antt:").next().filter(|f| f.len() < line.len());
    format!("{} {}", file.unwrap_or(""), goal.unwrap_or(line))
}

/// What an error of a proof or of a definition is about, by its words.
fn about(error: &str) -> About {
    let said = in_one_line(error);
    let Some((_, rest)) = said.split_once(": error: ") else {
        // of the code itself, which then does not reach the prover
        return About::Form;
    };
    // an answer to a goal that is not asked
    let declared = rest.split('`').nth(1).unwrap_or("");
    let unasked = format!("Goals` has no `{declared}` that can be named");
    if !declared.is_empty() && said.contains(&unasked) {
        return About::Parts;
    }
    let form = [
        "has no field `",
        "that can be named",
        "is not in scope",
        "is no name",
        "operand is missing",
        "expected the end",
        "cannot continue",
    ];
    if !rest.starts_with('`') || form.iter().any(|words| said.contains(words)) {
        About::Form
    } else {
        About::Fact
    }
}

/// A long message is broken at any space.
fn in_one_line(error: &str) -> String {
    let words: Vec<&str> = error.split_whitespace().collect();
    words.join(" ")
}

#[cfg(test)]
mod tests {
    use super::*;

    fn log() -> Log {
        Log([
            "./proofs/m/low/Answers.antt:9:1: error: `returns`: the two types differ only where one has `3`",
            "./proofs/m/low/Answers.antt:12:1: error: `returns-2`: `other` was not admitted",
            "./proofs/m/low/Answers.antt:13:1: error: 1 declaration that depends on `x`, which was rejected, was not checked: a",
            "./proofs/m/+again/Answers.antt:9:1: error: `returns`: the two types differ only where one has `4`",
            "note: src/lib.rt:3:5: it is not proved that what the function ensures holds when it returns (`returns`)",
            "note: src/lib.rt:6:9: `search` found no proof (`bounds-a-2`); `search` gave up at one of its limits",
            "note: src/lib.rt:7:5: it is not proved that the sum fits its type (`overflow_add-a`); the facts known there allow values at which this goal is false",
            "fn x::m::low: not proved",
            "fn x::m::again: not proved",
            "fn x::m::top: no proof: it calls `x::m::low`, which is not proved",
            "note: `search` has not tried the goals of `x::m::over`, which wait for a callee's proof: some may be open after it",
            "fn x::m::over: not proved; it calls `x::m::low`, which is not proved",
            "fn x::m::plain: no proof: expected answers in ./proofs/plain/Answers.antt; `search` did not prove `returns`",
            "fn x::m::bare: no proof: expected answers in ./proofs/bare/Answers.antt; `search` did not prove `a`, `b`",
            "fn x::m::sum: not proved",
            "fn x::m::right: proved",
            "logic=not-proved",
        ]
        .join("\n"))
    }

    fn files() -> Files {
        let text = "fn plain() -> u8\n{\n    1\n}\n\nfn sum(a: u8) -> u8 {\n    a + 1\n}\n";
        Files::from([("src/lib.rt".to_string(), text.to_string())])
    }

    fn own(name: &str, is_new: bool) -> Vec<(String, About)> {
        let (log, files) = (log(), files());
        let errors = log.own_errors(name, &files, &|_| is_new);
        let all = errors.iter().map(|e| (e.text.to_string(), e.about));
        all.collect()
    }

    #[test]
    fn an_error_of_its_own_is_told_from_a_callees() {
        assert!(log().refused() && !log().proved());
        let low = own("low", false);
        assert_eq!(low.len(), 1);
        assert!(low[0].0.contains("`3`") && low[0].0.starts_with("low/Answers.antt:9"));
        assert!(own("again", false)[0].0.contains("`4`"));
        assert!(own("top", false).is_empty() && own("right", false).is_empty());
    }

    #[test]
    fn an_open_goal_is_a_fact_if_the_right_program_has_it_or_it_is_shown_false() {
        assert_eq!(own("plain", false)[0].1, About::Fact);
        assert_eq!(own("plain", true)[0].1, About::Parts);
        assert_eq!(
            (own("plain", false).len(), own("bare", false).len()),
            (1, 2)
        );
        let abouts = own("sum", true).into_iter().map(|(_, about)| about);
        assert_eq!(abouts.collect::<Vec<_>>(), [About::Parts, About::Fact]);
    }

    #[test]
    fn words_tell_what_an_error_is_about() {
        let said = |words: &str| about(&format!("./proofs/f/Answers.antt:9:1: error: {words}"));
        let unasked = "`add`: `goal.add`: module `Rattle.x.proofs.f.Goals`\n  has no `add` that can be named from here";
        assert_eq!(said(unasked), About::Parts);
        assert_eq!(said("`add`: record `A` has no\n  field `b`"), About::Form);
        assert_eq!(
            said(
                "`add`: `goal.sub`: module `Rattle.x.proofs.f.Goals` has no `sub` that can be named"
            ),
            About::Form
        );
        assert_eq!(said("`x` is not in scope"), About::Form);
        assert_eq!(said("expected a term"), About::Form);
        assert_eq!(
            said("`add`: `omega`: the goal does not follow"),
            About::Fact
        );
        assert_eq!(about("error[E1]: expected `;`"), About::Form);
    }

    #[test]
    fn errors_have_a_site() {
        let site_of = |name: &str| site(&own(name, false)[0].0);
        assert_eq!(site_of("low"), "low/Answers returns");
        assert_eq!(site_of("plain"), " returns");
        assert_eq!(site_of("sum"), " bounds-a-2");
    }

    #[test]
    fn a_function_is_judged_where_all_that_it_asks_was_tried() {
        assert!(log().judged("low") && log().judged("right") && log().judged("plain"));
        assert!(!log().judged("absent") && !log().judged("over") && !log().judged("top"));
        assert!(!Log("fn x::low: proved\nerror: expected `;`".to_string()).judged("low"));
    }

    #[test]
    fn a_function_is_unproved_also_by_what_it_calls() {
        assert!(log().unproved("low") && log().unproved("top") && log().unproved("plain"));
        assert!(!log().unproved("right") && !log().unproved("absent"));
    }
}
