//! Answers import, decide (code 4), relations, map and mappings lines as medialib does, with nothing proved:
//! the peer of bench/play.py.

use serde_json::{json, Value};
use std::collections::{BTreeMap, BTreeSet, HashMap};
use std::io::{self, BufRead, BufWriter, Write};

#[derive(Clone, Copy, PartialEq)]
enum State {
    Current,
    Pending,
    Deleted,
}

#[derive(Default)]
struct Library {
    tags: HashMap<String, u64>,
    texts: Vec<String>,
    /// By service, file and tag.
    mappings: BTreeMap<(u64, usize, u64), State>,
    /// By service, tag and file.
    mapped: BTreeSet<(u64, u64, usize)>,
    files: HashMap<String, u64>,
    kings: Vec<usize>,
    members: HashMap<usize, Vec<usize>>,
    decisions: u64,
}

impl Library {
    fn import(&mut self, request: &Value) -> Option<Value> {
        let sha = request["sha256"].as_str()?;
        request["size"].as_u64()?;
        request["width"].as_u64()?;
        request["height"].as_u64()?;
        if let Some(file) = self.files.get(sha) {
            return Some(json!({"file": file, "status": 2}));
        }
        let file = self.kings.len();
        self.files.insert(sha.to_owned(), file as u64);
        self.kings.push(file);
        self.members.insert(file, vec![file]);
        Some(json!({"file": file, "status": 1}))
    }

    fn file(&self, value: &Value) -> Option<usize> {
        let file = value.as_u64()? as usize;
        (file < self.kings.len()).then_some(file)
    }

    fn crown(&mut self, group: usize, king: usize) {
        let files = self.members.remove(&group).unwrap_or_default();
        for file in &files {
            self.kings[*file] = king;
        }
        self.members.entry(king).or_default().extend(files);
    }

    fn better(&mut self, request: &Value) -> Option<Value> {
        let a = self.file(&request["a"])?;
        let b = self.file(&request["b"])?;
        let (of_a, of_b) = (self.kings[a], self.kings[b]);
        if of_a == of_b {
            if of_b == b {
                self.crown(b, a);
            }
        } else {
            if of_b != b {
                self.members.get_mut(&of_b)?.retain(|file| *file != b);
                self.members.insert(b, vec![b]);
            }
            self.crown(b, of_a);
        }
        self.decisions += 1;
        Some(json!({"decision": self.decisions - 1}))
    }

    fn relations(&self, request: &Value) -> Option<Value> {
        let file = self.file(&request["file"])?;
        let king = self.kings[file];
        let mut members = self.members[&king].clone();
        members.sort_unstable();
        Some(json!({"king": king, "members": members, "alternates": [], "not_related": []}))
    }

    fn tag(&mut self, text: &str) -> u64 {
        let words: Vec<&str> = text.split_whitespace().collect();
        let text = words.join(" ").to_ascii_lowercase();
        if let Some(tag) = self.tags.get(&text) {
            return *tag;
        }
        let tag = self.texts.len() as u64;
        self.tags.insert(text.clone(), tag);
        self.texts.push(text);
        tag
    }

    fn map(&mut self, request: &Value) -> Option<Value> {
        let service = request["service"].as_u64()?;
        let text = request["tag"].as_str()?;
        let file = self.file(&request["file"])?;
        let state = match request["state"].as_str()? {
            "current" => State::Current,
            "pending" => State::Pending,
            "deleted" => State::Deleted,
            _ => return None,
        };
        let tag = self.tag(text);
        let before = self.mappings.insert((service, file, tag), state);
        self.mapped.insert((service, tag, file));
        Some(json!({"tag": tag, "changed": before != Some(state)}))
    }

    fn mapped_in(&self, service: u64, file: usize, state: State) -> Vec<&str> {
        let rows = self.mappings.range((service, file, 0)..=(service, file, u64::MAX));
        rows.filter(|row| *row.1 == state)
            .map(|row| self.texts[row.0 .2 as usize].as_str())
            .collect()
    }

    fn mappings(&self, request: &Value) -> Option<Value> {
        let service = request["service"].as_u64()?;
        let file = self.file(&request["file"])?;
        let told = |state| self.mapped_in(service, file, state);
        Some(json!({"current": told(State::Current), "pending": told(State::Pending), "deleted": told(State::Deleted)}))
    }

    fn answer(&mut self, line: &str) -> Value {
        let Ok(request) = serde_json::from_str::<Value>(line) else {
            return json!({"error": "not_json"});
        };
        let reply = match request["do"].as_str() {
            Some("import") => self.import(&request),
            Some("decide") => self.better(&request),
            Some("relations") => self.relations(&request),
            Some("map") => self.map(&request),
            Some("mappings") => self.mappings(&request),
            _ => None,
        };
        reply.unwrap_or_else(|| json!({"error": "not_a_request"}))
    }
}

fn main() -> io::Result<()> {
    let mut library = Library::default();
    let mut sink = BufWriter::new(io::stdout().lock());
    for line in io::stdin().lock().lines() {
        writeln!(sink, "{}", library.answer(&line?))?;
    }
    sink.flush()
}
