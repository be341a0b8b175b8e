//! judge FILE..: for each drawing file its name, the twelve numbers of the answer, and the serial order if one was given.

mod jitumwala;

fn joined(word: &str, numbers: impl Iterator<Item = u32>) -> String {
    numbers.fold(word.to_string(), |line, x| format!("{} {}", line, x))
}

fn main() {
    let mut store = [0; jitumwala::STORE];
    let mut order = [0; jitumwala::ORDER];
    for path in std::env::args().skip(1) {
        let file = std::fs::read(&path).unwrap_or_else(|e| panic!("{}: {}", path, e));
        let answer = jitumwala::judge(&file, &mut store, &mut order);
        println!("{}\n{}", path, joined("answer", answer.iter().copied()));
        if answer[9] == 1 {
            // A judged file's N is its byte 6.
            let n = file[6] as usize;
            println!("{}", joined("order", order[..n].iter().map(|&a| a as u32)));
        } else {
            println!("no order");
        }
    }
}
