//! bench HALF WORD.. -- FILE..: judges the drawings of eight files (as bench/drawings.py writes them: of 8 actions of edition 1 and of edition 2, the same of 32, of 64 and of 128) by turns and prints what a judgement takes;
//! then runs the program that the words before `--` are, which searches the candidates of the drawing HALF, and prints what one of them takes;
//! makes texts of drawings and files of these with it, and runs a trace, and prints what that takes beside judging them with it.
//! Built with `--cfg before` it has an earlier library beside this one, over the files that that one takes, and prints the ratio.

#[path = "../examples/rust/jitumwala.rs"]
mod jitumwala;

#[cfg(before)]
#[allow(dead_code)]
#[path = "../target/bench/before.rs"]
mod before;

/// Numbers of the answer that all the libraries have.
#[cfg(not(before))]
const SHARED: usize = jitumwala::ANSWER;

#[cfg(before)]
const SHARED: usize = if before::ANSWER < jitumwala::ANSWER { before::ANSWER } else { jitumwala::ANSWER };

type Judge = fn(&[u8], &mut [u64], &mut [u8]) -> [u32; SHARED];

/// A name, the call, and the numbers of its store.
type Library = (&'static str, Judge, usize);

#[cfg(not(before))]
const LIBRARIES: [Library; 1] = [("this library", this_library, jitumwala::STORE)];

#[cfg(before)]
const LIBRARIES: [Library; 2] = [("before", earlier_library, before::STORE), ("this library", this_library, jitumwala::STORE)];

fn this_library(file: &[u8], store: &mut [u64], order: &mut [u8]) -> [u32; SHARED] {
    shared(&jitumwala::judge(file, store, order))
}

#[cfg(before)]
fn earlier_library(file: &[u8], store: &mut [u64], order: &mut [u8]) -> [u32; SHARED] {
    shared(&before::judge(file, store, order))
}

fn shared(answer: &[u32]) -> [u32; SHARED] {
    answer[..SHARED].try_into().unwrap()
}

extern "C" {
    /// C's processor time of this program, in millionths of a second on Linux.
    fn clock() -> i64;
}

fn processor_time() -> f64 {
    unsafe { clock() as f64 }
}

struct Drawing {
    passed: bool,
    file: Vec<u8>,
}

fn drawings(path: &str) -> Vec<Drawing> {
    let all = std::fs::read(path).unwrap_or_else(|e| panic!("{}: {}", path, e));
    let mut rest = &all[..];
    let mut list = Vec::new();
    while !rest.is_empty() {
        let length = u32::from_le_bytes([rest[1], rest[2], rest[3], rest[4]]) as usize;
        list.push(Drawing {
            passed: rest[0] == 1,
            file: rest[5..5 + length].to_vec(),
        });
        rest = &rest[5 + length..];
    }
    list
}

/// The rows of the 18 relations in a store; up to 64 rows they had one number each.
fn rows(store: &[u64]) -> Vec<u128> {
    let area = store.len() / 18;
    let wide = if area == 64 { 1 } else { 2 };
    let row = |k: usize, a: usize| (0..wide).map(|i| store.get(area * k + wide * a + i).map_or(0, |x| u128::from(*x) << (64 * i))).sum();
    (0..18).flat_map(|k| (0..128).map(move |a| (k, a))).map(|(k, a)| if a < area / wide { row(k, a) } else { 0 }).collect()
}

/// The answer of a library, with the relations and the order that it leaves.
fn told((_, judge, numbers): &Library, d: &Drawing) -> ([u32; SHARED], Vec<u128>, [u8; jitumwala::ORDER]) {
    let mut store = vec![7; *numbers];
    let mut order = [7; jitumwala::ORDER];
    (judge(&d.file, &mut store, &mut order), rows(&store), order)
}

/// Whether these libraries give a drawing the same answer (the numbers that all have), store and order; the last gives the answer that it was made for.
fn agree(libraries: &[Library], d: &Drawing) -> bool {
    let all: Vec<_> = libraries.iter().map(|library| told(library, d)).collect();
    let this = all.last().unwrap();
    assert_eq!((this.0[0], this.0[3] == 0), (1, d.passed));
    all.iter().all(|t| t == this)
}

/// Drawings of one size and one edition, and the libraries that know it.
struct Set {
    list: Vec<Drawing>,
    left_out: usize,
    libraries: Vec<Library>,
}

fn read_set(path: &str) -> Set {
    let all = drawings(path);
    let libraries: Vec<Library> = LIBRARIES.into_iter().filter(|library| told(library, &all[0]).0[0] == 1).collect();
    let (list, others): (Vec<_>, Vec<_>) = all.into_iter().partition(|d| agree(&libraries, d));
    Set {
        list,
        left_out: others.len(),
        libraries,
    }
}

/// Microseconds of processor time for each drawing, judged once.
fn round(list: &[Drawing], judge: Judge) -> f64 {
    let mut store = [0; jitumwala::STORE];
    let mut order = [0; jitumwala::ORDER];
    let before = processor_time();
    for d in list {
        judge(&d.file, &mut store, &mut order);
    }
    (processor_time() - before) / list.len() as f64
}

/// A round of each set by each of its libraries.
fn turn(sets: &[Set]) -> Vec<Vec<f64>> {
    sets.iter().map(|set| set.libraries.iter().map(|(_, judge, _)| round(&set.list, *judge)).collect()).collect()
}

fn print_set(set: &Set) {
    let passed = set.list.iter().filter(|d| d.passed).count();
    let header = &set.list[0].file;
    println!("{} actions, edition {}, {} drawings, {} passed:", header[6], header[4], set.list.len(), passed);
    if set.left_out > 0 {
        println!("  left out, since the library of before answers otherwise: {}", set.left_out);
    }
}

/// Prints what a library took in these rounds; the middle one counts, so that other work on the machine counts little.
fn print_times(name: &str, mut times: Vec<f64>) -> f64 {
    times.sort_by(|x, y| x.partial_cmp(y).unwrap());
    let middle = times[times.len() / 2];
    println!(
        "  {}: {:.1} microseconds of processor time each ({:.0} drawings in a second), {:.1} to {:.1}",
        name,
        middle,
        1e6 / middle,
        times[0],
        times[times.len() - 1]
    );
    middle
}

/// What this library takes for each set, in rounds by turns after one that does not count.
fn measure(sets: &[Set], rounds: usize) -> Vec<f64> {
    turn(sets);
    let turns: Vec<_> = (0..rounds).map(|_| turn(sets)).collect();
    let mut this = Vec::new();
    for (i, set) in sets.iter().enumerate() {
        print_set(set);
        let times_of = |j: usize| turns.iter().map(|turn| turn[i][j]).collect();
        let middles: Vec<f64> = set.libraries.iter().enumerate().map(|(j, (name, _, _))| print_times(name, times_of(j))).collect();
        if let [before, now] = middles[..] {
            println!("  ratio {:.3}", now / before);
        }
        this.push(*middles.last().unwrap());
    }
    this
}

/// How many candidates are searched at a time.
const BUDGET: u32 = 100_000;

/// Microseconds for each candidate of a search that ends with its budget, the start of the program included.
fn search(words: &[String], half: &str) -> f64 {
    let before = std::time::Instant::now();
    let done = std::process::Command::new(&words[0])
        .args(&words[1..])
        .args(["find", &BUDGET.to_string()])
        .stdin(std::fs::File::open(half).unwrap())
        .output()
        .unwrap();
    assert_eq!(String::from_utf8_lossy(&done.stderr), format!("undecided {}\n", BUDGET));
    before.elapsed().as_secs_f64() * 1e6 / f64::from(BUDGET)
}

/// What the program makes of an input by a word, and the microseconds that it takes, its start included.
fn made(words: &[String], word: &str, input: &[u8]) -> (Vec<u8>, f64) {
    let before = std::time::Instant::now();
    let mut child = std::process::Command::new(&words[0])
        .args(&words[1..])
        .arg(word)
        .stdin(std::process::Stdio::piped())
        .stdout(std::process::Stdio::piped())
        .spawn()
        .unwrap();
    let mut stdin = child.stdin.take().unwrap();
    let bytes = input.to_vec();
    let writer = std::thread::spawn(move || std::io::Write::write_all(&mut stdin, &bytes).unwrap());
    let output = child.wait_with_output().unwrap().stdout;
    writer.join().unwrap();
    (output, before.elapsed().as_secs_f64() * 1e6)
}

/// Microseconds that the program takes for an input beyond those for another, by turns; the middle one of many differences counts.
fn beyond(words: &[String], word: &str, input: &[u8], other: &[u8]) -> f64 {
    let mut differences: Vec<f64> = (0..501).map(|_| made(words, word, input).1 - made(words, word, other).1).collect();
    differences.sort_by(|x, y| x.partial_cmp(y).unwrap());
    differences[250]
}

/// Prints what the program takes to judge a drawing, to make a text of it and a file of that, each less what it takes for a drawing with no actions.
fn measure_texts(words: &[String], file: &[u8]) {
    let no_text = b"drawing 1 0 0 0\nend\n";
    let no_file = made(words, "file", no_text).0;
    let text = made(words, "text", file).0;
    assert_eq!(made(words, "file", &text).0, file);
    let judged = beyond(words, "judge", file, &no_file);
    let to_text = beyond(words, "text", file, &no_file);
    let to_file = beyond(words, "file", &text, no_text);
    println!(
        "a drawing of {} actions, a text of {} bytes, by the program: judged in {:.0} microseconds, as text in {:.0}, {:.2} times that, and as file again in {:.0}, {:.2} times",
        file[6],
        text.len(),
        judged,
        to_text,
        to_text / judged,
        to_file,
        to_file / judged
    );
}

/// A trace of 64 actions: thread 0 sets up four places, three others store and load by turns, and each store is drained three actions later.
fn trace() -> String {
    let mut lines: Vec<String> = (0..4).map(|place| format!("astore 0 {} relaxed 0\ndrain 0", place)).collect();
    for i in 0..60 {
        let (thread, place) = (1 + i % 3, i % 4);
        if i / 3 % 2 == 0 {
            lines.push(format!("astore {} {} release {}", thread, place, i));
        } else {
            lines.push(format!("aload {} {} acquire\ndrain {}", thread, place, thread));
        }
    }
    format!("machine 4 4\n{}\n", lines.join("\n"))
}

/// Prints what the program takes to run a trace beside judging what came out, each less what it takes for nothing.
fn measure_trace(words: &[String], trace: &[u8]) {
    let no_trace = b"machine 0 0\n";
    let no_file = made(words, "trace", no_trace).0;
    let file = made(words, "trace", trace).0;
    let judged = beyond(words, "judge", &file, &no_file);
    let run = beyond(words, "trace", trace, no_trace);
    println!(
        "a trace of {} lines and {} actions, by the program: judged in {:.0} microseconds, run in {:.0}, {:.2} times that",
        trace.iter().filter(|byte| **byte == b'\n').count(),
        file[6],
        judged,
        run,
        run / judged
    );
}

fn main() {
    let arguments: Vec<String> = std::env::args().collect();
    let end = arguments.iter().position(|word| word == "--").unwrap();
    let sets: Vec<Set> = arguments[end + 1..].iter().map(|path| read_set(path)).collect();
    let rounds = 21;
    println!("{} rounds:", rounds);
    let times = measure(&sets, rounds);
    println!("from 32 to 64 actions: {:.2} times as long, from 64 to 128: {:.2}", times[4] / times[2], times[6] / times[4]);
    println!("from edition 1 to edition 2: {:.3} times as long for 32 actions, {:.3} for 64, {:.3} for 128", times[3] / times[2], times[5] / times[4], times[7] / times[6]);
    let mut searches: Vec<f64> = (0..5).map(|_| search(&arguments[2..end], &arguments[1])).collect();
    searches.sort_by(|x, y| x.partial_cmp(y).unwrap());
    println!("a candidate of 8 actions in a search: {:.1} microseconds, {:.1} to {:.1}; {:.2} times a judgement of 8 actions", searches[2], searches[0], searches[4], searches[2] / times[0]);
    for i in [4, 6] {
        measure_texts(&arguments[2..end], &sets[i].list[0].file);
    }
    measure_trace(&arguments[2..end], trace().as_bytes());
}
