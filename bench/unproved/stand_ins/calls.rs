//! The words that the unproved program knows: COMMAND LAYOUT FILE [options], with the layouts `cab-matrix` and `ap` and the
//! instance options --collect, --trunk, --deliver, --fixed, --divide, --tail fixed, --hubs, --max-length and --candidates 1,2,..
//!
//! COMMAND is `solve` (with --rule 2 by rounds, with --cuts core by Pareto-optimal cuts), `optimize`, `resolve` with --from OLD, or `check` with
//! --from CERTIFICATE, which says how it ends on standard error; --workers W, --format 1|2|3, and --nodes and --gap of `optimize`
//! are as they are in the product. The text goes to standard output, and seconds to standard error.
//!
//! `scan FILE` scans a certificate, and tells how many items it gave, its fault, and the seconds.

use crate::branch_tree::{search, search_from};
use crate::cert_checker::{Stream, Tested, read_tested};
use crate::cert_scan::{Scan, Version};
use crate::ascent_search::{SearchTask, optimize_within};
use crate::core_cuts::core_cut;
use crate::cut_pool::Found;
use crate::dual_adviser::Adviser;
use crate::dual_lender::DualLender;
use crate::hub_io::{Failed, OpenGate, Sink};
use crate::hub_model::{HubNumber, Instance, Nodes, Tail, Terms};
use crate::node_rounds::search_rounds;
use crate::proof_text::{Finding, Workers, write_found};
use crate::rattle_std::Vec;
use crate::rattle_std::alloc::Global;
use crate::rattle_std::thread::Host;
use crate::search_steps::{Coring, Plain, Solo};
use crate::value_cuts::CandidateLegs;
use crate::warm_start::start_of;
use crate::{instance_ap::read_ap, instance_cab::read_matrix};
use std::io::{Stdout, Write, stdout};
use std::time::Instant;

struct Out(Stdout);

impl Sink for Out {
    fn put(&mut self, piece: &[u8]) -> Result<(), Failed> {
        self.0.write_all(piece).expect("standard output");
        Ok(())
    }
}

struct Words(std::vec::Vec<String>);

impl Words {
    fn option(&self, name: &str) -> Option<&str> {
        let at = self.0.iter().position(|word| word == name)?;
        Some(&self.0[at + 1])
    }

    fn number(&self, name: &str) -> Option<u32> {
        self.option(name).map(|word| word.parse().expect("a number"))
    }

    // A number of so many decimal places, as units of the last.
    fn decimal(&self, name: &str, places: i32) -> Option<i128> {
        let word = self.option(name)?;
        let value: f64 = word.parse().expect("a decimal");
        Some((value * 10f64.powi(places)).round() as i128)
    }

    fn terms(&self) -> Terms {
        let mut terms = Terms::plain();
        terms.collect = self.decimal("--collect", 3);
        terms.trunk = self.decimal("--trunk", 3);
        terms.deliver = self.decimal("--deliver", 3);
        terms.fixed = self.decimal("--fixed", 6);
        terms.divide = self.number("--divide").unwrap_or(1);
        terms.hubs = self.number("--hubs").map(HubNumber::Said);
        terms.longest = self.decimal("--max-length", 3);
        if self.option("--tail").is_some() {
            terms.tail = Tail::Fixed;
        }
        terms.candidates = self.option("--candidates").map(|list| {
            let nodes = list.split(',').map(|word| word.parse::<u32>().expect("a node") - 1);
            Nodes::from_vec(Vec(nodes.collect()))
        });
        terms
    }

    fn instance(&self) -> Instance {
        let terms = self.terms();
        let bytes = std::fs::read(&self.0[2]).expect("the instance");
        let parts = match self.0[1].as_str() {
            "ap" => read_ap(Global, &bytes, &terms),
            _ => read_matrix(Global, &bytes, &terms),
        };
        let Ok(parts) = parts else { panic!("no instance of this layout") };
        match Instance::build(Global, parts, &terms, None) {
            Ok(instance) => instance,
            Err(_) => panic!("no instance"),
        }
    }

    fn workers(&self) -> u32 {
        self.number("--workers").unwrap_or(1)
    }

    fn version(&self) -> Version {
        let second = self.0[0] != "solve" || self.option("--hubs").is_some();
        let core = self.option("--cuts").is_some();
        match self.number("--format").unwrap_or(if core { 3 } else { 1 + second as u32 }) {
            1 => Version::First,
            2 => Version::Second,
            _ => Version::Third,
        }
    }

    fn found(&self, instance: &Instance) -> Found {
        let mut solo = Solo::new(Global, instance).unwrap();
        let found = match self.0[0].as_str() {
            "optimize" => {
                let workers = self.workers();
                let adviser = Adviser::new(Global, instance, workers).unwrap();
                let (nodes, gap) = (self.number("--nodes"), self.decimal("--gap", 3).unwrap_or(0));
                let task = SearchTask { instance, nodes: nodes.map(u64::from), gap: gap as u32, workers, first: &[] };
                optimize_within(&Host, Global, &task, adviser)
            }
            "resolve" => {
                let bytes = std::fs::read(self.option("--from").expect("--from")).expect("OLD");
                let Ok(Ok(older)) = read_tested(&Host, Global, instance, Tested::Cuts, &bytes) else {
                    panic!("OLD does not serve")
                };
                search_from(Global, &Plain, instance, None, &mut solo, start_of(older))
            }
            _ if self.option("--cuts").is_some() => {
                let mut coring = Coring { others: solo };
                search(Global, &Plain, instance, None, &mut coring)
            }
            _ if self.number("--rule") == Some(2) => {
                search_rounds(&Host, Global, instance, None, &mut solo, self.workers(), &OpenGate)
            }
            _ => search(Global, &Plain, instance, None, &mut solo),
        };
        found.unwrap()
    }
}

// The certificate's text, read in pieces as the product reads it.
fn check(words: &Words, instance: &Instance) {
    let start = Instant::now();
    let mut file = std::fs::File::open(words.option("--from").expect("--from")).expect("the certificate");
    let mut stream = Stream::new(Global, instance).unwrap();
    let mut piece = vec![0u8; 65_536];
    loop {
        let count = std::io::Read::read(&mut file, &mut piece).expect("the certificate");
        if count == 0 {
            break;
        }
        stream = stream.feed(Global, &piece[..count]).unwrap();
    }
    eprintln!("{:?} {:.3} s", stream.finish(), start.elapsed().as_secs_f64());
}

fn scan(name: &str) {
    let bytes = std::fs::read(name).expect("the certificate");
    let start = Instant::now();
    let (mut scan, mut items) = (Scan::new(), 0u64);
    for piece in bytes.chunks(65_536) {
        let mut rest = piece;
        while !rest.is_empty() {
            let (count, item) = scan.run(rest);
            items += item.is_some() as u64;
            rest = &rest[count..];
        }
    }
    let seconds = start.elapsed().as_secs_f64();
    println!("{items} items, {:?}, {seconds:.4} s", scan.finish());
}

pub fn main() {
    let words = Words(std::env::args().skip(1).collect());
    if words.0[0] == "scan" {
        return scan(&words.0[1]);
    }
    let start = Instant::now();
    let instance = words.instance();
    let read = Instant::now();
    if words.0[0] == "check" {
        return check(&words, &instance);
    }
    let found = words.found(&instance);
    let searched = Instant::now();
    let tables = CandidateLegs::new(Global, &instance).unwrap();
    let mut lender = DualLender::new(Global, &tables).unwrap();
    let workers = Workers { rt: &Host, alloc: Global, count: words.workers() };
    let finding = Finding { instance: &instance, found: &found, version: words.version() };
    let mut out = Out(stdout());
    write_found(&workers, &finding, &mut lender, &mut out).unwrap();
    let seconds = [read - start, searched - read, searched.elapsed()].map(|time| time.as_secs_f64());
    eprintln!("read {:.2} s, search {:.2} s, text {:.2} s", seconds[0], seconds[1], seconds[2]);
}
