//! A whole run of the library from Rust: start, page tables, MMU, Dcache and write buffer on, accesses,
//! clean and drain, and the same list of calls on the plain machine. It prints each call with its
//! answer, and ends with status 0 if the two machines agree. examples/run.c and examples/run.py do the
//! same.

use sa110::*;

const MEMORY: usize = 0x40000;

/// A machine with what is lent to it, the calls made, and their answers.
struct Session {
    machine: Machine,
    memory: Vec<u8>,
    bad: Vec<u8>,
    store: Vec<u8>,
    list: Vec<u32>,
    answers: Vec<u64>,
}

impl Session {
    fn start() -> (Session, u32) {
        let (memory, store) = (vec![0; MEMORY], vec![0; STORE_BYTES]);
        let (machine, refusal) = Machine::start(&memory, &store);
        let session = Session {
            machine,
            memory,
            bad: no_bad_words(MEMORY),
            store,
            list: Vec::new(),
            answers: Vec::new(),
        };
        (session, refusal)
    }

    /// Makes a call, prints it with its answer, and keeps both.
    fn call(&mut self, kind: u32, privileged: u32, n: u32, a: u32, v: u32) {
        let numbers = [kind, privileged, n, a, v];
        let code = self
            .machine
            .call(&mut self.memory, &self.bad, &mut self.store, &numbers);
        let answer = match Answer::of(code) {
            Answer::Value(value) => format!("value {value:08x}"),
            Answer::Fault { status, domain } => {
                format!("fault, status {status:02} domain {domain:02} address {a:08x}")
            }
            Answer::Refused(number) => format!("refused by {number:02}"),
            Answer::NoCall => "no call".to_string(),
        };
        println!("{:<48} {answer}", text(&numbers));
        self.list.extend(numbers);
        self.answers.push(code);
    }

    fn load(&mut self, width: u32, address: u32) {
        self.call(LOAD, 1, width, address, 0);
    }

    fn put(&mut self, width: u32, address: u32, value: u32) {
        self.call(STORE, 1, width, address, value);
    }

    fn swap(&mut self, width: u32, address: u32, value: u32) {
        self.call(SWAP, 1, width, address, value);
    }

    fn read_register(&mut self, n: u32) {
        self.call(READ, 1, n, 0, 0);
    }

    fn write_register(&mut self, n: u32, value: u32) {
        self.call(WRITE, 1, n, 0, value);
    }

    fn cache(&mut self, pair: u32, address: u32) {
        self.call(WRITE, 1, CACHE, pair, address);
    }

    /// Looks at an address, and prints where its line lies and the word there.
    fn look(&self, address: u32) {
        let found = self
            .machine
            .look(&self.memory, &self.bad, &self.store, address);
        let place = match found {
            Look::OfStore(at) => format!("cache store {at:05x}"),
            Look::OfMemory(at) => format!("memory {at:05x}"),
            Look::Nowhere => "nowhere".to_string(),
        };
        let line = found.bytes(&self.memory, &self.store);
        let first = address as usize % LINE_BYTES;
        let word = match line.get(first..first + 4) {
            Some(bytes) => format!(
                ", word {:08x}",
                u32::from_le_bytes(bytes.try_into().expect("four bytes"))
            ),
            None => String::new(),
        };
        println!("{:<48} {place}{word}", format!("look at {address:08x}"));
    }

    fn set_up(&mut self) {
        println!("\nThe page tables, by flat stores: level 1 at 4000, level 2 at 8000");
        self.read_register(ID);
        self.put(4, 0x4004, 0x00008021); // 001xxxxx: second-level table at 8000, domain 1
        self.put(4, 0x8114, 0x0001004E); // 00145xxx: small page at 10000, AP1 privileged only, cacheable, bufferable
        self.put(4, 0x4008, 0x00000C0E); // 002xxxxx: section at 0, domain 0, all may use it, cacheable, bufferable
        self.put(4, 0x400C, 0x00000C02); // 003xxxxx: section at 0, neither cacheable nor bufferable
        self.put(4, 0x4010, 0x00000C06); // 004xxxxx: section at 0, bufferable
        self.put(4, 0x4018, 0x00F00C0E); // 006xxxxx: section at F00000, which lies outside memory
        self.cache(CACHE_CLEAN_LINE, 0x4000);
        self.cache(CACHE_CLEAN_LINE, 0x8100);
        self.cache(BUFFER_DRAIN, 0);
        println!("\nTable base and domains; then M, C and W, with alignment checked");
        self.write_register(BASE, 0x4000);
        self.write_register(DOMAINS, 0x5);
        self.call(WRITE, 1, TLB, TLB_FLUSH, 0);
        self.write_register(CONTROL, M | A | C | W);
        self.read_register(CONTROL);
    }

    fn accesses(&mut self) {
        println!("\nA buffered store, a miss that fills the line, hits");
        self.put(4, 0x210010, 0xCAFE1234);
        self.load(4, 0x210010);
        self.load(4, 0x210014);
        self.put(1, 0x210013, 0x80);
        self.call(SIGNED_LOAD, 1, 1, 0x210013, 0);
        self.load(4, 0x145678);
        self.put(2, 0x145678, 0xBEEF);
        println!("\nUncached loads, the second after a buffered store");
        self.load(4, 0x330000);
        self.put(4, 0x420000, 0x00C0FFEE);
        self.load(4, 0x420000);
        println!("\nSwaps of a word and a byte that the cache holds, and of an uncached word after a buffered store");
        self.swap(4, 0x210014, 0x1);
        self.swap(1, 0x210013, 0x7F);
        self.put(4, 0x420004, 0x2);
        self.swap(4, 0x420004, 0x3);
        println!("\nFaults; outside memory a load and a swap fault, and a store is dropped");
        self.call(LOAD, 0, 4, 0x145678, 0);
        self.read_register(FSR);
        self.read_register(FAR);
        self.load(4, 0x500000);
        self.load(4, 0x600000);
        self.put(4, 0x600000, 0x1);
        self.swap(4, 0x600000, 0x1);
        self.load(4, 0x330002);
        println!("\nRefused calls");
        self.load(3, 0x210010);
        self.put(1, 0x210010, 0x100);
        self.swap(2, 0x210010, 0x1);
        self.call(READ, 0, CONTROL, 0, 0);
        self.write_register(CONTROL, M | C);
    }

    fn looks(&self) {
        println!("\nLooks, which are no calls: two lines in the cache, one in memory, no mapping, outside memory");
        self.look(0x210010);
        self.look(0x145678);
        self.look(0x420000);
        self.look(0x500000);
        self.look(0x600000);
    }

    fn clean_and_drain(&mut self) {
        println!("\nA clean of each line stored to, and a drain");
        self.cache(CACHE_CLEAN_LINE, 0x210000);
        self.cache(CACHE_CLEAN_LINE, 0x145660);
        self.cache(CACHE_CLEAN_LINE, 0x420000);
        self.cache(BUFFER_DRAIN, 0);
    }

    fn print_counts(&self) {
        let c = self.machine.state.counts;
        println!(
            "\nCounts: calls {}, TLB misses {}, Dcache hits {}, line fills {}, halves sent out {}",
            c.calls, c.misses, c.hits, c.fills, c.halves
        );
    }

    /// Makes the calls so far on the plain machine and compares.
    fn plain(&self) -> bool {
        let mut memory = vec![0; MEMORY];
        let mut codes = vec![0; self.answers.len()];
        let ran = plain_run(&mut memory, &self.bad, &self.list, &mut codes);
        let same = codes
            .iter()
            .zip(&self.answers)
            .filter(|(p, l)| p == l)
            .count();
        let bytes = memory
            .iter()
            .zip(&self.memory)
            .filter(|(p, l)| p != l)
            .count();
        println!(
            "\nThe plain machine: {} calls made, {} counted, {same} answers the same; bytes of memory that differ: {bytes}",
            ran.made, ran.calls
        );
        let made = self.answers.len();
        ran.refusal == 0 && ran.made == made && same == made && bytes == 0
    }

    /// Makes the list once more, in one run from a start, and compares everything.
    fn in_one_run(&self) -> bool {
        let (mut other, refusal) = Session::start();
        let mut codes = vec![0; self.answers.len()];
        let (memory, store) = (&mut other.memory, &mut other.store);
        let machine = &mut other.machine;
        let made = machine.run(memory, &other.bad, store, &self.list, &mut codes);
        let same = refusal == 0
            && made == self.answers.len()
            && codes == self.answers
            && other.machine == self.machine
            && other.memory == self.memory
            && other.store == self.store;
        let word = if same { "the same" } else { "differ" };
        println!("The list in one run: {made} calls made; answers, state, record, memory and cache store {word}");
        same
    }
}

/// A call in words.
fn text(numbers: &Numbers) -> String {
    let [kind, privileged, n, a, v] = *numbers;
    let mode = if privileged == 1 {
        "privileged"
    } else {
        "user"
    };
    let name = ["load", "signed", "store", "read", "write", "swap"][kind as usize];
    let place = match kind {
        READ | WRITE => format!("register {n:02}"),
        _ => format!("{n:02} at {a:08x}"),
    };
    let value = match kind {
        STORE | WRITE | SWAP => format!(" = {v:08x}"),
        _ => String::new(),
    };
    let operation = match kind {
        WRITE if n >= CACHE => format!(" ({},{})", a / 16, a % 16),
        _ => String::new(),
    };
    format!("{mode:<10} {name:<6} {place}{value}{operation}")
}

fn main() {
    let mut arguments = std::env::args();
    let program = arguments.next().unwrap_or_default();
    if arguments.next().is_some() {
        eprintln!("usage: {program}\nMakes a list of calls on the SA-110 data side and on the plain machine, and compares. It takes no arguments.");
        std::process::exit(2);
    }
    let (mut session, refusal) = Session::start();
    println!(
        "Start: refusal {refusal}, memory {} bytes, cache store {} bytes",
        session.machine.state.size,
        session.store.len()
    );
    session.set_up();
    session.accesses();
    session.looks();
    session.print_counts();
    session.plain();
    session.clean_and_drain();
    session.print_counts();
    let agree = session.plain();
    let same = session.in_one_run();
    if !(agree && same) {
        println!("NOT ALL AGREE");
        std::process::exit(1);
    }
    println!("all agree");
}
