//! The names that Rattle makes of a function's code, as `rt check --generated OUT --old-names` lists them, and a proof carried over to the names of a
//! wrong program.
//!
//! A goal is named for its place in the code: behind `if w > 7` stands `returns-then-w-gt7`. So a wrong number renames goals, and a proof by the old names
//! says nothing of the new ones. Where the wrong program has the same places in the same order, the tool writes the new names into the function's proof.
//! What is then refused is a fact, and not a name.

use std::collections::{BTreeMap, BTreeSet};

/// A value of JSON. Numbers are kept as they are written.
#[derive(Clone, Debug, PartialEq)]
enum Json {
    Word(String),
    Text(String),
    List(Vec<Json>),
    Map(Vec<(String, Json)>),
}

/// What a function's list has of its places, which is its form. The other parts name the contract's clauses, or repeat these.
const PLACES: [&str; 4] = ["places", "places_by_name", "loops", "arms"];

/// How many parts of a place say where it stands: its older name, the place before it, its two names, and what is called there.
const OF_PLACE: usize = 4;

/// The lists of a crate's functions, by the folder of a function's proof and its name.
pub struct Names(BTreeMap<(String, String), Function>);

struct Function {
    places: Vec<Json>,
    /// Those of them that have the older names too.
    of_form: Vec<Json>,
    /// Each goal, under the name that it has in older proofs, and its name.
    goals: Vec<(String, String)>,
    /// The goals that need no proof.
    settled: BTreeSet<String>,
}

/// Which name stands for which in a function's proof.
pub type Renamed = BTreeMap<String, String>;

impl Names {
    /// Reads names.json of a crate.
    pub fn read(krate: &str, text: &str) -> Option<Names> {
        let Json::Map(all) = Reader::new(text).value()? else {
            return None;
        };
        let begin = format!("Rattle-{krate}-proofs.");
        let mut found = BTreeMap::new();
        for (key, value) in all {
            let (Some(path), Json::Map(parts)) = (key.strip_prefix(&begin), value) else {
                continue;
            };
            let Some((folder, of)) = path.rsplit_once('.') else {
                continue;
            };
            let last = folder.rsplit('.').next().unwrap_or(folder);
            // of a cycle of calls each member has a list, beside one proof
            let name = of.strip_prefix("Lts-").unwrap_or(last).to_string();
            found.insert((folder.replace('.', "/"), name), Function::of(&parts));
        }
        Some(Names(found))
    }

    /// For each folder of a proof of which names are gone, what stands for them in the other program.
    pub fn carried(&self, other: &Names) -> BTreeMap<String, Renamed> {
        let mut all: BTreeMap<String, Renamed> = BTreeMap::new();
        for (key, function) in &self.0 {
            let renamed = other.0.get(key).map(|wrong| function.renamed(wrong));
            let renamed = renamed.unwrap_or_default();
            if !renamed.is_empty() {
                all.entry(key.0.clone()).or_default().extend(renamed);
            }
        }
        all
    }

    /// Whether the program of `self` has a goal of this function that `right` has not, under that name or the one that was carried over.
    pub fn is_new(&self, right: &Names, function: &str, goal: &str) -> bool {
        // a goal of several clauses is told clause by clause
        let is = |one: &String| goal == one || goal.starts_with(&format!("{one}-clause-"));
        let of_it = self.0.iter().filter(|((_, name), _)| name == function);
        of_it.into_iter().any(|(key, wrong)| {
            let there = |right: &Function| {
                let mut named = right.goals.iter().map(|(_, goal)| goal);
                named.any(is)
                    || right.settled.iter().any(is)
                    || right.renamed(wrong).values().any(is)
            };
            let mut own = wrong.goals.iter().map(|(_, goal)| goal);
            own.any(is) && !right.0.get(key).is_some_and(there)
        })
    }
}

impl Function {
    fn of(parts: &[(String, Json)]) -> Function {
        let part = |p: &str| parts.iter().find(|(key, _)| key == p).map(|(_, v)| v);
        let list = |p: &str| match part(p) {
            Some(Json::List(all)) => all.iter().map(without_fields).collect(),
            _ => Vec::new(),
        };
        let text = |value: &Json| match value {
            Json::Text(text) => Some(text.clone()),
            _ => None,
        };
        let pair = |value: &Json| match value {
            Json::List(two) => Some((text(two.first()?)?, text(two.last()?)?)),
            _ => None,
        };
        Function {
            places: PLACES.map(|p| Json::List(list(p))).to_vec(),
            of_form: ["places", "loops"].map(list).concat(),
            goals: list("needs").iter().filter_map(pair).collect(),
            settled: list("settled").iter().filter_map(text).collect(),
        }
    }

    /// What stands in the wrong program for the names that are gone, if the two have the same places.
    fn renamed(&self, wrong: &Function) -> Renamed {
        let mut pairs = Renamed::new();
        let mut both = self.places.iter().zip(&wrong.places);
        if self.places.len() != wrong.places.len() || !both.all(|(a, b)| beside(a, b, &mut pairs)) {
            return Renamed::new();
        }
        let is_same_form = self.form() == wrong.form();
        let sort = |goal: &str| goal.split('-').next().map(str::to_string);
        for (old, goal) in &self.goals {
            let same = |(other, new): &&(String, String)| other == old && sort(new) == sort(goal);
            if let Some((_, new)) = wrong.goals.iter().find(same) {
                pairs.insert(goal.clone(), new.clone());
            }
        }
        let (before, after) = (self.names(), wrong.names());
        // where other functions are called, a name that is still there may have moved with its call
        let gone = |old: &String, new: &String| !after.contains(old) && !before.contains(new);
        pairs.retain(|old, new| old != new && (is_same_form || gone(old, new)));
        pairs
    }

    /// The places without today's names: each stands in a pair, behind the one that it had in older proofs, which says what it is and how
    /// many of its sort came before.
    fn form(&self) -> Vec<Json> {
        fn older(value: &Json) -> Json {
            match value {
                Json::List(two) => match two.as_slice() {
                    [Json::Text(old), Json::Text(_)] => Json::Text(old.clone()),
                    _ => Json::List(two.iter().map(older).collect()),
                },
                other => other.clone(),
            }
        }
        self.of_form.iter().map(older).collect()
    }

    fn names(&self) -> BTreeSet<String> {
        let mut all = self.settled.clone();
        all.extend(self.goals.iter().map(|(_, goal)| goal.clone()));
        self.places.iter().for_each(|place| texts(place, &mut all));
        all
    }
}

/// A place, without what its own fields were called in older proofs: these go by how a test is written, and not by where it stands.
fn without_fields(place: &Json) -> Json {
    match place {
        Json::List(parts) => Json::List(parts.iter().take(OF_PLACE).cloned().collect()),
        other => other.clone(),
    }
}

/// Whether two values have one form, with the texts that stand in the place of each other.
fn beside(a: &Json, b: &Json, pairs: &mut Renamed) -> bool {
    match (a, b) {
        (Json::Text(old), Json::Text(new)) => {
            let other = pairs.insert(old.clone(), new.clone());
            other.is_none_or(|before| before == *new)
        }
        (Json::List(xs), Json::List(ys)) => {
            xs.len() == ys.len() && xs.iter().zip(ys).all(|(x, y)| beside(x, y, pairs))
        }
        (Json::Map(xs), Json::Map(ys)) => {
            let same = |(x, y): (&(String, Json), &(String, Json))| x.0 == y.0;
            xs.len() == ys.len()
                && xs.iter().zip(ys).all(same)
                && xs.iter().zip(ys).all(|(x, y)| beside(&x.1, &y.1, pairs))
        }
        _ => a == b,
    }
}

fn texts(value: &Json, found: &mut BTreeSet<String>) {
    match value {
        Json::Text(text) => drop(found.insert(text.clone())),
        Json::List(xs) => xs.iter().for_each(|x| texts(x, found)),
        Json::Map(xs) => xs.iter().for_each(|(_, x)| texts(x, found)),
        Json::Word(_) => {}
    }
}

/// A proof with the names of the other program.
pub fn carry(proof: &str, renamed: &Renamed) -> String {
    let is_in_name = |c: char| c.is_alphanumeric() || "_-'".contains(c);
    let (mut out, mut word) = (String::new(), String::new());
    let put = |out: &mut String, word: &mut String| {
        out.push_str(renamed.get(word.as_str()).unwrap_or(word));
        word.clear();
    };
    for c in proof.chars() {
        if is_in_name(c) {
            word.push(c);
        } else {
            put(&mut out, &mut word);
            out.push(c);
        }
    }
    put(&mut out, &mut word);
    out
}

/// Reads JSON, as Rattle writes it.
struct Reader<'a> {
    text: &'a [u8],
    at: usize,
}

impl Reader<'_> {
    fn new(text: &str) -> Reader<'_> {
        let text = text.as_bytes();
        Reader { text, at: 0 }
    }

    fn space(&mut self) {
        while self
            .text
            .get(self.at)
            .is_some_and(|c| c.is_ascii_whitespace())
        {
            self.at += 1;
        }
    }

    fn take(&mut self, c: u8) -> bool {
        self.space();
        let there = self.text.get(self.at) == Some(&c);
        self.at += usize::from(there);
        there
    }

    fn value(&mut self) -> Option<Json> {
        self.space();
        match self.text.get(self.at)? {
            b'"' => self.string().map(Json::Text),
            b'[' => {
                self.at += 1;
                let mut all = Vec::new();
                while !self.take(b']') {
                    if !all.is_empty() && !self.take(b',') {
                        return None;
                    }
                    all.push(self.value()?);
                }
                Some(Json::List(all))
            }
            b'{' => {
                self.at += 1;
                let mut all = Vec::new();
                while !self.take(b'}') {
                    if !all.is_empty() && !self.take(b',') {
                        return None;
                    }
                    self.space();
                    let key = self.string()?;
                    if !self.take(b':') {
                        return None;
                    }
                    all.push((key, self.value()?));
                }
                Some(Json::Map(all))
            }
            _ => {
                let from = self.at;
                let ends = |c: &u8| b",]}".contains(c) || c.is_ascii_whitespace();
                while self.text.get(self.at).is_some_and(|c| !ends(c)) {
                    self.at += 1;
                }
                let word = String::from_utf8_lossy(&self.text[from..self.at]).into_owned();
                (!word.is_empty()).then_some(Json::Word(word))
            }
        }
    }

    fn string(&mut self) -> Option<String> {
        if self.text.get(self.at) != Some(&b'"') {
            return None;
        }
        self.at += 1;
        let mut out = Vec::new();
        loop {
            match *self.text.get(self.at)? {
                b'"' => break,
                b'\\' => {
                    self.at += 1;
                    let c = match *self.text.get(self.at)? {
                        b'u' => {
                            let code = self.text.get(self.at + 1..self.at + 5)?;
                            let code = u32::from_str_radix(std::str::from_utf8(code).ok()?, 16);
                            self.at += 4;
                            char::from_u32(code.ok()?).unwrap_or('?')
                        }
                        b'n' => '\n',
                        b't' => '\t',
                        c => char::from(c),
                    };
                    out.extend_from_slice(c.encode_utf8(&mut [0; 4]).as_bytes());
                }
                c => out.push(c),
            }
            self.at += 1;
        }
        self.at += 1;
        String::from_utf8(out).ok()
    }
}

#[cfg(test)]
mod tests {
    use super::*;

    fn names(goals: &[[&str; 2]], place: &str) -> Names {
        at(goals, &[["if1", place]])
    }

    fn at(goals: &[[&str; 2]], places: &[[&str; 2]]) -> Names {
        let places: Vec<String> = places
            .iter()
            .map(|[old, new]| {
                format!(
                    "[\"Then1\", \"Start\", [\"{old}\", \"{new}\"], null, [[\"{new}\", \"fact\"]]]"
                )
            })
            .collect();
        let places = places.join(", ");
        let goals: Vec<String> = goals
            .iter()
            .map(|[old, new]| format!("[\"{old}\", \"{new}\"]"))
            .collect();
        let list = format!(
            "{{\"needs\": [{}], \"places\": [[\"Start\", null], {places}], \"settled\": [\"s\"]}}",
            goals.join(", ")
        );
        let text = format!(
            "{{\"Rattle-k-proofs.m.f.Lts\": {list}, \"Rattle-k-proofs.m.+g.Lts-g\": {list}, \"words:\": \"plain\"}}"
        );
        Names::read("k", &text).unwrap()
    }

    #[test]
    fn a_proof_is_carried_to_new_names() {
        let right = names(&[["returns", "returns-then-a-lt7"]], "if-a-lt7");
        let wrong = names(
            &[
                ["add", "overflow_add"],
                ["settled", "s"],
                ["returns", "returns-then-a-lt8"],
            ],
            "if-a-lt8",
        );
        let all = right.carried(&wrong);
        assert_eq!(all.keys().collect::<Vec<_>>(), ["m/+g", "m/f"]);
        let proof = "returns-then-a-lt7 : goal.returns-then-a-lt7\nreturns-then-a-lt7 c = c.if-a-lt7.true\n";
        assert_eq!(carry(proof, &all["m/f"]), proof.replace("lt7", "lt8"));
        assert!(!wrong.is_new(&right, "f", "returns-then-a-lt8"));
        assert!(!wrong.is_new(&right, "g", "returns-then-a-lt8-clause-one"));
        assert!(!wrong.is_new(&right, "f", "s"));
        assert!(wrong.is_new(&right, "f", "overflow_add"));
        assert!(!wrong.is_new(&right, "f", "absent"));
        assert!(right.carried(&right).is_empty());
    }

    #[test]
    fn another_form_is_not_carried() {
        let right = names(&[["returns", "returns-then-a-lt7"]], "if-a-lt7");
        let more = [["if1", "if-a-lt8"], ["if2", "if-b"]];
        let wrong = at(&[["returns", "returns-then-a-lt8"]], &more);
        assert!(right.carried(&wrong).is_empty());
        assert!(wrong.is_new(&right, "f", "returns-then-a-lt8"));
    }

    #[test]
    fn tests_that_change_places_are_followed_and_calls_are_not() {
        let one = at(&[], &[["if1", "if-a-b"], ["if2", "if-b-a"]]);
        let other = at(&[], &[["if1", "if-b-a"], ["if2", "if-b-a-2"]]);
        let renamed = &one.carried(&other)["m/f"];
        assert_eq!(carry("c.if-a-b c.if-b-a", renamed), "c.if-b-a c.if-b-a-2");
        let one = at(&[], &[["f", "f"], ["g", "g"]]);
        assert!(one.carried(&at(&[], &[["g", "g"], ["f", "f"]])).is_empty());
        let other = one.carried(&at(&[], &[["f", "f"], ["h", "h"]]));
        assert_eq!(carry("f g", &other["m/f"]), "f h");
    }

    #[test]
    fn json_is_read() {
        let text = "{\"a\": [1, null, \"x\\\"\\u00e9\"], \"b\": {}}";
        let read = Reader::new(text).value().unwrap();
        let word = |s: &str| Json::Word(s.to_string());
        let list = vec![word("1"), word("null"), Json::Text("x\"é".to_string())];
        let pairs = [
            ("a".to_string(), Json::List(list)),
            ("b".to_string(), Json::Map(Vec::new())),
        ];
        assert_eq!(read, Json::Map(pairs.to_vec()));
        assert_eq!(Reader::new("[1, ").value(), None);
    }
}
