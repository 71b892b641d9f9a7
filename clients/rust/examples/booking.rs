//! The calls of examples/booking.calls; prints what the call program prints.

use reshqobi::{Capability, Monitor, Plan, Refusal, Slots, WHOLE_LOCK};

/// What a done call gives, as the call program prints it.
trait Value {
    fn text(&self) -> String;
}

impl Value for () {
    fn text(&self) -> String {
        "0".to_string()
    }
}

impl Value for u64 {
    fn text(&self) -> String {
        self.to_string()
    }
}

impl Value for Slots {
    fn text(&self) -> String {
        let fields = [self.pages.len() as u64, self.locked, self.whole.into()];
        let fields = fields.iter().chain(&self.pages).map(u64::to_string);
        fields.collect::<Vec<_>>().join(",")
    }
}

/// Prints the answers, each with the number of its line.
struct Answers(u64);

impl Answers {
    fn show<T: Value>(&mut self, answer: Result<T, Refusal>) {
        self.0 += 1;
        match answer {
            Ok(value) => println!("{},0,{}", self.0, value.text()),
            Err(refusal) => println!("{},{},0", self.0, refusal.number()),
        }
    }
}

/// The listing of document 01.
fn listing(monitor: &mut Monitor, answers: &mut Answers) {
    answers.show(monitor.boot(0, Plan::ample([11, 12, 13, 14])));
    answers.show(monitor.read(0, 0));
    answers.show(monitor.read(1, 2048));
    answers.show(monitor.read(0, 2048));
    answers.show(monitor.create(0, 1, 1, 21, 0));
    answers.show(monitor.read(0, 64));
    answers.show(monitor.write(0, 2, 256));
    answers.show(monitor.write(0, 3, 21));
    answers.show(monitor.lookup(0, 64, 3));
    answers.show(monitor.return_(0));
    answers.show(monitor.get(0));
}

/// Domain 1 registers a procedure, and domain 0 is told its password.
fn registration(monitor: &mut Monitor, answers: &mut Answers) {
    let list = Capability {
        page: 32,
        password: 12,
    };
    answers.show(monitor.create(1, 33, 1, 31, 0));
    answers.show(monitor.write(1, 2050, 8448));
    answers.show(monitor.write(1, 2051, 31));
    answers.show(monitor.create(1, 34, 1, 41, 0));
    answers.show(monitor.write(1, 2052, 8704));
    answers.show(monitor.write(1, 2053, 41));
    answers.show(monitor.register(1, 33, 32, list, &[2112]));
    answers.show(monitor.write(0, 2176, 7));
    answers.show(monitor.call(0, 2112, 0));
    answers.show(monitor.write(0, 4, 8448));
    answers.show(monitor.write(0, 5, 32));
    answers.show(monitor.lookup(0, 2112, 16));
    answers.show(monitor.read(0, 2112));
}

/// A merging call, a call nested in it, and the returns.
fn merging(monitor: &mut Monitor, answers: &mut Answers) {
    answers.show(monitor.call(0, 2113, 0));
    answers.show(monitor.get(0));
    answers.show(monitor.call(0, 2112, 0));
    answers.show(monitor.get(0));
    answers.show(monitor.write(0, 2176, 7));
    answers.show(monitor.call(0, 2113, 0));
    answers.show(monitor.get(0));
    answers.show(monitor.call(0, 2112, 0));
    answers.show(monitor.get(0));
    answers.show(monitor.lock(0, WHOLE_LOCK));
    answers.show(monitor.call(0, 2112, 0));
    answers.show(monitor.get(0));
    answers.show(monitor.return_(0));
    answers.show(monitor.get(0));
    answers.show(monitor.return_(0));
    answers.show(monitor.get(0));
    answers.show(monitor.write(0, 2176, 8));
    answers.show(monitor.read(1, 2176));
}

/// An emptying call, and the end of the registration.
fn emptying(monitor: &mut Monitor, answers: &mut Answers) {
    answers.show(monitor.call(0, 2112, 1));
    answers.show(monitor.get(0));
    answers.show(monitor.read(0, 0));
    answers.show(monitor.write(0, 2177, 9));
    answers.show(monitor.return_(0));
    answers.show(monitor.read(0, 0));
    answers.show(monitor.drop_password(1, 33, 32));
    answers.show(monitor.call(0, 2112, 0));
}

fn main() {
    let (mut monitor, mut answers) = (Monitor::new(), Answers(0));
    println!("line,answer,value");
    listing(&mut monitor, &mut answers);
    registration(&mut monitor, &mut answers);
    merging(&mut monitor, &mut answers);
    emptying(&mut monitor, &mut answers);
}
