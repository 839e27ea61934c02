//! What a station hears on its line: increments to its group and other telegrams, many of them sent
//! again or with little changed, some damaged.

use crate::frames::{damage_tp1, tp1};
use crate::leaks::some_payload;
use crate::traffic::{send_again, Address, Next};
use crate::Generator;
use reference::Given;

pub struct Meters {
    /// The station's group.
    pub group: u16,
    sources: [u16; 2],
    addresses: [Address; 6],
    /// The numbers and payloads of the frame before, and of the one before that.
    sent: [(Given, Vec<u8>); 2],
}

impl Meters {
    pub fn new(generator: &mut Generator) -> Meters {
        let any = generator.field();
        let group = generator.one_of(&[0x0000, 0x0001, 0x6fff, 0xffff, any, any, any, any]);
        let (to_group, bit) = ((1, group), 1 << generator.below(16));
        let addresses = [
            to_group,
            to_group,
            to_group,
            (0, group),
            (1, group ^ bit),
            (generator.below(2) as u8, generator.field()),
        ];
        let sources = [generator.field(), generator.field()];
        let sent = [(); 2].map(|()| some_frame(generator, sources[0], to_group));
        Meters {
            group,
            sources,
            addresses,
            sent,
        }
    }

    /// The next octets on the line: a new frame; the one before, or the one before that, with nothing,
    /// or little, changed; in one case of eight damaged.
    pub fn next(&mut self, generator: &mut Generator) -> Vec<u8> {
        if generator.one_in(6) {
            self.sent.swap(0, 1);
            self.sent[0].0.first_sending = 0;
        } else if let Some(broken) = self.change(generator) {
            return broken;
        }
        let (given, payload) = &self.sent[0];
        let mut octets = tp1(given, payload);
        if generator.one_in(8) {
            damage_tp1(generator, &mut octets);
        }
        octets
    }

    /// Makes the frame before another one, or the same marked repeated; or octets that are no frame.
    fn change(&mut self, generator: &mut Generator) -> Option<Vec<u8>> {
        let before = self.sent[0].clone();
        let (given, payload) = &mut self.sent[0];
        match send_again(generator, given, payload) {
            Next::Again => None,
            Next::Broken(octets) => Some(octets),
            Next::New => {
                let source = generator.one_of(&self.sources);
                let address = generator.one_of(&self.addresses);
                self.sent = [some_frame(generator, source, address), before];
                None
            }
        }
    }
}

fn some_frame(
    generator: &mut Generator,
    source: u16,
    (group, destination): Address,
) -> (Given, Vec<u8>) {
    let payload = some_payload(generator);
    let given = Given {
        extended: u8::from(payload.len() > 16 || generator.one_in(3)),
        first_sending: u8::from(!generator.one_in(4)),
        priority: generator.below(4) as u8,
        source,
        group,
        destination,
        count: generator.below(8) as u8,
    };
    (given, payload)
}
