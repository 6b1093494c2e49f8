// Reads an instance and a certificate and checks it as a plain program would, in i128; `make` writes an instance of n
// nodes and a certificate of it with one cut, that of all candidates. What `hub check` needs is compared with it.
use std::{env, fmt::Write, fs, process};

struct Instance {
    n: usize,
    flow: Vec<i128>,
    distance: Vec<i128>,
}

impl Instance {
    fn route(&self, i: usize, j: usize, k: usize, m: usize) -> i128 {
        let n = self.n;
        let way = self.distance[i * n + k] + self.distance[k * n + m] + self.distance[m * n + j];
        self.flow[i * n + j] * 1000 * way
    }
}

fn fail(reason: &str) -> ! {
    println!("no {reason}");
    process::exit(2)
}

// A number cut to some places.
fn decimal(token: &str, places: usize) -> i128 {
    let (whole, fraction) = token.split_once('.').unwrap_or((token, ""));
    let kept = fraction.bytes().chain(std::iter::repeat(b'0')).take(places);
    whole.bytes().chain(kept).fold(0, |value, byte| {
        if !byte.is_ascii_digit() {
            fail("BadNumber")
        }
        value * 10 + i128::from(byte - b'0')
    })
}

fn read_instance(text: &str) -> Instance {
    let mut tokens = text.split_ascii_whitespace();
    let n = decimal(tokens.next().unwrap(), 0) as usize;
    let flow = tokens.by_ref().take(n * n).map(|t| decimal(t, 6)).collect();
    let mut distance: Vec<i128> = tokens.take(n * n).map(|t| decimal(t, 3)).collect();
    (0..n).for_each(|k| distance[k * n + k] = 0);
    Instance { n, flow, distance }
}

fn make(n: usize) {
    let number = |i: usize, j: usize, k: usize| ((i * 7919 + j * 104729 + k) % 9973 + 1) as f64 / 7.0;
    let mut text = format!("{n}\n");
    for (k, places) in [(1, 6), (2, 3)] {
        for i in 0..n {
            for j in 0..n {
                write!(text, "{:.places$} ", number(i, j, k)).unwrap();
            }
            text.push('\n');
        }
    }
    let instance = read_instance(&text);
    fs::write("instance", &text).unwrap();
    let mut routes = String::new();
    let mut duals = String::new();
    let mut cost = 0;
    for i in 0..n {
        for j in 0..n {
            let all = (0..n).flat_map(|k| (0..n).map(move |m| (k, m)));
            let (a, k, m) = all.map(|(k, m)| (instance.route(i, j, k, m), k, m)).min().unwrap();
            cost += a;
            writeln!(routes, "route {} {} {} {}", i + 1, j + 1, k + 1, m + 1).unwrap();
            writeln!(duals, "dual {} {} {a}", i + 1, j + 1).unwrap();
        }
    }
    let hubs: String = (1..=n).map(|k| format!(" {k}")).collect();
    let head = format!("HUBCERT 1\nsize {n} {n}\ncost {cost}\nbound {cost}\nhubs{hubs}\n{routes}");
    let tail = "nodes 1\nleaf 1 1 1\nend\n";
    fs::write("certificate", format!("{head}cuts 1\ncut 1\n{duals}{tail}")).unwrap();
}

fn numbers<'a>(lines: &mut impl Iterator<Item = &'a str>, word: &str) -> Vec<i128> {
    let line = lines.next().unwrap_or_else(|| fail("Ended"));
    let mut words = line.split(' ');
    if words.next() != Some(word) {
        fail("BadLine")
    }
    words.map(|w| decimal(w, 0)).collect()
}

fn covers(instance: &Instance, i: usize, j: usize, a: i128, u: &[i128]) -> bool {
    let n = instance.n;
    (0..n).all(|k| (0..n).all(|m| {
        let values = if k == m { u[k] } else { u[k] + u[m] };
        a <= instance.route(i, j, k, m) + values
    }))
}

fn check(instance: &Instance, text: &str) {
    let n = instance.n;
    let mut lines = text.lines().skip(1);
    numbers(&mut lines, "size");
    let cost = numbers(&mut lines, "cost")[0];
    let bound = numbers(&mut lines, "bound")[0];
    let mut open = vec![false; n];
    numbers(&mut lines, "hubs").iter().for_each(|k| open[*k as usize - 1] = true);
    let mut sum = 0;
    for _ in 0..n * n {
        let route: Vec<usize> = numbers(&mut lines, "route").iter().map(|x| *x as usize - 1).collect();
        if !open[route[2]] || !open[route[3]] {
            fail("Route")
        }
        sum += instance.route(route[0], route[1], route[2], route[3]);
    }
    if sum != cost || numbers(&mut lines, "cuts")[0] != 1 {
        fail("Cost")
    }
    numbers(&mut lines, "cut");
    let (mut total, mut load, mut u) = (0, vec![0; n], vec![0; n]);
    for commodity in 0..n * n {
        let dual = numbers(&mut lines, "dual");
        u.fill(0);
        dual[3..].chunks(2).for_each(|pair| u[pair[0] as usize - 1] = pair[1]);
        if !covers(instance, commodity / n, commodity % n, dual[2], &u) {
            fail("Dual")
        }
        total += dual[2];
        (0..n).for_each(|k| load[k] += u[k]);
    }
    numbers(&mut lines, "nodes");
    let leaf = numbers(&mut lines, "leaf");
    let gains: i128 = load.iter().map(|l| (-leaf[2] * l).min(0)).sum();
    if leaf[2] * total + gains <= leaf[0] * (bound - 1) {
        fail("Leaf")
    }
    println!("{} {cost}", if bound == cost { "optimal" } else { "bounds" });
}

fn main() {
    let words: Vec<String> = env::args().skip(1).collect();
    match words.as_slice() {
        [word, n] if word == "make" => make(n.parse().unwrap()),
        [file, certificate] => {
            let instance = read_instance(&fs::read_to_string(file).unwrap());
            check(&instance, &fs::read_to_string(certificate).unwrap());
        }
        _ => process::exit(3),
    }
}
