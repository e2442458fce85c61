// The two named rules in plain Rust, by the same recursions, for comparison: reads an order text from standard input and prints what the program
// `cutbest` prints. Nothing is proved of it, and every item counts as wanted.
use std::io::Read;
use std::io::Write;

#[derive(Clone, Copy)]
struct Number {
    kind: usize,
    turned: usize,
    along: usize,
    across: usize,
    value: u64,
}

#[derive(Clone, Copy)]
struct Candidate {
    size: usize,
    worth: u64,
}

struct Row {
    kind: usize,
    turned: usize,
    segment: usize,
    strip: usize,
    x: usize,
    y: usize,
}

fn fill(table: &mut [u64], candidates: &[Candidate], capacity: usize) -> u64 {
    for at in 0..=capacity {
        let mut best = 0;
        for c in candidates {
            if c.size <= at {
                let offer = c.worth + table[at - c.size];
                if best < offer {
                    best = offer;
                }
            }
        }
        table[at] = best;
    }
    table[capacity]
}

fn walk(table: &[u64], candidates: &[Candidate], capacity: usize) -> Vec<usize> {
    let mut order = Vec::new();
    let mut left = capacity;
    loop {
        let next = candidates
            .iter()
            .position(|c| c.size <= left && c.worth + table[left - c.size] == table[left]);
        match next {
            Some(k) => {
                order.push(k);
                left -= candidates[k].size;
            }
            None => return order,
        }
    }
}

fn along(numbers: &[Number]) -> Vec<Candidate> {
    numbers.iter().map(|o| Candidate { size: o.along, worth: o.value }).collect()
}

fn narrow(numbers: &[Number], across: usize) -> Vec<Number> {
    numbers.iter().copied().filter(|o| o.across <= across).collect()
}

fn two_staged(numbers: &[Number], length: usize, width: usize) -> (u64, Vec<Row>) {
    let mut table = vec![0; 3201];
    let strips: Vec<Candidate> = numbers
        .iter()
        .map(|q| Candidate { size: q.across, worth: fill(&mut table, &along(&narrow(numbers, q.across)), length) })
        .collect();
    let worth = fill(&mut table, &strips, width);
    let order = walk(&table, &strips, width);
    let mut rows = Vec::new();
    let mut y = 0;
    for (strip, &q) in order.iter().enumerate() {
        let pieces = narrow(numbers, numbers[q].across);
        fill(&mut table, &along(&pieces), length);
        let mut x = 0;
        for k in walk(&table, &along(&pieces), length) {
            rows.push(Row { kind: pieces[k].kind, turned: pieces[k].turned, segment: 0, strip, x, y });
            x += pieces[k].along;
        }
        y += numbers[q].across;
    }
    (worth, rows)
}

fn uniform(numbers: &[Number], length: usize) -> Vec<Number> {
    numbers.iter().copied().filter(|o| o.along <= length).collect()
}

fn uniform_strips(numbers: &[Number], length: usize, out: &mut [Candidate]) -> usize {
    let mut n = 0;
    for o in numbers {
        if o.along <= length {
            out[n] = Candidate { size: o.across, worth: (length / o.along) as u64 * o.value };
            n += 1;
        }
    }
    n
}

fn segment(numbers: &[Number], length: usize, width: usize, segment: usize, left: usize, table: &mut [u64], rows: &mut Vec<Row>) {
    let mut strips = [Candidate { size: 0, worth: 0 }; 64];
    let n = uniform_strips(numbers, length, &mut strips);
    let pieces = uniform(numbers, length);
    fill(table, &strips[..n], width);
    let mut y = 0;
    for (strip, q) in walk(table, &strips[..n], width).into_iter().enumerate() {
        for i in 0..length / pieces[q].along {
            rows.push(Row { kind: pieces[q].kind, turned: pieces[q].turned, segment, strip, x: left + i * pieces[q].along, y });
        }
        y += pieces[q].across;
    }
}

fn three_staged(numbers: &[Number], length: usize, width: usize) -> (u64, Vec<Row>) {
    let mut table = vec![0; 3201];
    let mut worths = vec![0; length + 1];
    let mut strips = [Candidate { size: 0, worth: 0 }; 64];
    for l in 0..=length {
        let n = uniform_strips(numbers, l, &mut strips);
        worths[l] = fill(&mut table, &strips[..n], width);
    }
    let mut place = 0;
    for c in 0..=length {
        if worths[c] + worths[length - c] > worths[place] + worths[length - place] {
            place = c;
        }
    }
    let mut rows = Vec::new();
    segment(numbers, place, width, 0, 0, &mut table, &mut rows);
    let right = if rows.is_empty() { 0 } else { 1 };
    segment(numbers, length - place, width, right, place, &mut table, &mut rows);
    (worths[place] + worths[length - place], rows)
}

fn print(out: &mut String, name: &str, (worth, rows): (u64, Vec<Row>)) {
    out.push_str(&format!("{name} worth {worth} rows {}\n", rows.len()));
    for r in rows {
        let turned = if r.turned == 0 { 'n' } else { 't' };
        out.push_str(&format!("{} {turned} {} {} k {} {}\n", r.kind, r.segment, r.strip, r.x, r.y));
    }
}

fn main() {
    let mut text = String::new();
    std::io::stdin().read_to_string(&mut text).unwrap();
    let lines: Vec<Vec<&str>> = text.lines().map(|l| l.split(' ').collect()).collect();
    let number = |s: &str| s.parse::<usize>().unwrap();
    let (length, width) = (number(lines[0][2]), number(lines[0][3]));
    let mut numbers = Vec::new();
    for (kind, item) in lines[1..].iter().enumerate() {
        let (l, w, value) = (number(item[1]), number(item[2]), number(item[4]) as u64);
        for turned in 0..if item[3] == "t" { 2 } else { 1 } {
            let (along, across) = if turned == 0 { (l, w) } else { (w, l) };
            if along <= length && across <= width {
                numbers.push(Number { kind, turned, along, across, value });
            }
        }
    }
    let mut out = String::new();
    print(&mut out, "two-staged", two_staged(&numbers, length, width));
    print(&mut out, "three-staged", three_staged(&numbers, length, width));
    std::io::stdout().write_all(out.as_bytes()).unwrap();
}
