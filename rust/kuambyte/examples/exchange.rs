//! exchange PRIVATE PUBLIC: looks profile 34 of tenant 7 up on two shelves, sends a block with it
//! and receives it again.

use std::{env, error::Error, fs, process::ExitCode};

use kuambyte::{Layers, Octets, Order, ProfileNumber, Shelf, Shelves, Tenant, Terms};

fn exchange(private: &str, public: &str) -> Result<(), Box<dyn Error>> {
    let (own, all) = (fs::read(private)?, fs::read(public)?);
    let shelves = Shelves {
        private: Shelf::private(&own),
        public: Shelf::public(&all),
    };
    let profile = shelves.profile(Tenant(7), ProfileNumber(34))?;

    let terms = Terms::new(Layers(1), Order(2));
    let least = profile.least_bits(Octets(5), terms)?;
    let mut bits = vec![0; least.g.0];
    let sent = profile.send(b"Hello", terms, least.g, &mut bits)?;

    let mut block = [0; 5];
    let block = profile.receive(Octets(5), terms, sent, &mut block)?;
    let text = String::from_utf8_lossy(block);
    println!("{text} went out as {} bits and came back", sent.len());
    Ok(())
}

fn main() -> ExitCode {
    let words: Vec<String> = env::args().skip(1).collect();
    let [private, public] = &words[..] else {
        eprintln!("usage: exchange PRIVATE PUBLIC");
        return ExitCode::from(64);
    };
    match exchange(private, public) {
        Ok(()) => ExitCode::SUCCESS,
        Err(error) => {
            eprintln!("{error}");
            ExitCode::FAILURE
        }
    }
}
