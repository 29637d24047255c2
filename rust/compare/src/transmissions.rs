//! Transmissions with losses (demand 3), as words alone and through each carrier.

use crate::tally::Call;
use crate::Trial;
use proved::{Assembler, DrmUnit, Fig, RdsRun};
use sender::blocks::{self, SentFig, MARKER};
use sender::{Message, FIG_WORDS, UNIT_WORDS};

/// The most words of 37 bits in two FIGs of a block.
const FIB_WORDS: usize = 5;

/// How words are carried.
#[derive(Clone, Copy, Debug, PartialEq, Eq)]
enum Carrier {
    Words,
    Rds,
    Fig,
    Fib,
    Drm,
}

/// A word as it is sent, with the number of the message that it is a group of.
#[derive(Clone, Copy, Debug)]
struct Sent {
    word: u64,
    message: Option<usize>,
}

/// What is received or lost as a whole: the words of a group, a FIG, a block or a data unit.
#[derive(Clone, Debug)]
struct Burst {
    words: Vec<Sent>,
    lost: bool,
}

/// Where the words of a transmission arrive.
#[derive(Default)]
struct Receiver {
    run: RdsRun,
    state: Assembler,
    reports: Vec<proved::Report>,
}

impl Trial {
    /// A transmission of well-formed messages with losses that demand 3 bears: the reports are
    /// those of the messages that arrive whole.
    pub fn transmission(&mut self) {
        let carrier = self.random.pick(&[
            Carrier::Words,
            Carrier::Rds,
            Carrier::Fig,
            Carrier::Fib,
            Carrier::Drm,
        ]);
        let messages = self.messages();
        let words = self.sent(carrier, &messages);
        let mut bursts = self.bursts(carrier, &words);
        self.lose(&mut bursts, messages.len());

        let whole = |i: usize| {
            let mut lost = bursts.iter().filter(|burst| burst.lost);
            !lost.any(|burst| burst.words.iter().any(|sent| sent.message == Some(i)))
        };
        let due: Vec<_> = (0..messages.len())
            .filter(|&i| whole(i))
            .map(|i| messages[i].report)
            .collect();
        let mut receiver = Receiver::default();
        for burst in &bursts {
            self.deliver(carrier, burst, &mut receiver);
        }
        let input = (carrier, &bursts);
        self.tally
            .expect(Call::Transmission, &input, &receiver.reports, &due);
        self.tally.count(Call::Transmission, 0);
        let lossy = due.len() < messages.len() && !due.is_empty();
        let inter_road = due.iter().any(sender::is_inter_road);
        for (of, lost, arrived) in [
            (
                Carrier::Words,
                "transmission: words lost",
                "transmission: an INTER-ROAD report of words, others lost",
            ),
            (
                Carrier::Rds,
                "transmission: RDS groups lost",
                "transmission: an INTER-ROAD report of RDS groups, others lost",
            ),
            (
                Carrier::Fig,
                "transmission: FIGs lost",
                "transmission: an INTER-ROAD report of FIGs, others lost",
            ),
            (
                Carrier::Fib,
                "transmission: blocks lost",
                "transmission: an INTER-ROAD report of blocks, others lost",
            ),
            (
                Carrier::Drm,
                "transmission: data units lost",
                "transmission: an INTER-ROAD report of data units, others lost",
            ),
        ] {
            self.tally.mark(lost, carrier == of && lossy);
            self.tally
                .mark(arrived, carrier == of && lossy && inter_road);
        }
    }

    /// Messages of which two multi-group ones of one index have at least five between them.
    fn messages(&mut self) -> Vec<Message> {
        let random = &mut self.random;
        let count = 1 + random.index(30);
        let singles = random.pick(&[2, 4, 10]);
        let few = random.once_in(2);
        let mut sent: Vec<Message> = Vec::new();
        for _ in 0..count {
            let near = &sent[sent.len().saturating_sub(5)..];
            let mut free: Vec<_> = (1..=6)
                .filter(|&ci| near.iter().all(|message| message.ci != ci))
                .collect();
            if few {
                free.truncate(1);
            }
            let message = if free.is_empty() || random.once_in(singles) {
                Message::single(random)
            } else {
                let ci = random.pick(&free);
                Message::random_multi(random, ci)
            };
            sent.push(message);
        }
        sent
    }

    /// The words of messages in the order sent, with others among them.
    fn sent(&mut self, carrier: Carrier, messages: &[Message]) -> Vec<Sent> {
        let random = &mut self.random;
        let others = random.pick(&[0, 3, 10]);
        let mut sent = Vec::new();
        for (i, message) in messages.iter().enumerate() {
            for &word in &message.words {
                while others > 0 && random.once_in(others) {
                    let word = match carrier {
                        Carrier::Words if random.once_in(4) => sender::no_word(random),
                        _ => sender::other_word(random),
                    };
                    sent.push(Sent {
                        word,
                        message: None,
                    });
                }
                let message = Some(i);
                sent.push(Sent { word, message });
            }
        }
        sent
    }

    /// The words as they are carried together.
    fn bursts(&mut self, carrier: Carrier, words: &[Sent]) -> Vec<Burst> {
        let most = match carrier {
            Carrier::Words | Carrier::Rds => 1,
            Carrier::Fig => FIG_WORDS,
            Carrier::Fib => FIB_WORDS,
            Carrier::Drm => self.random.pick(&[3, 8, UNIT_WORDS]),
        };
        let mut bursts = Vec::new();
        let mut rest = words;
        while !rest.is_empty() {
            let count = 1 + self.random.index(most.min(rest.len()));
            let (words, after) = rest.split_at(count);
            bursts.push(Burst {
                words: words.to_vec(),
                lost: false,
            });
            rest = after;
        }
        bursts
    }

    /// Loses bursts, single ones and stretches, so that no unbroken loss holds five messages.
    fn lose(&mut self, bursts: &mut [Burst], messages: usize) {
        let random = &mut self.random;
        let rate = random.pick(&[0, 20, 5, 2]);
        if rate > 0 {
            for burst in bursts.iter_mut() {
                burst.lost = random.once_in(rate);
            }
        }
        for _ in 0..random.index(6) {
            let from = random.index(bursts.len());
            let to = bursts.len().min(from + random.index(24));
            for burst in &mut bursts[from..to] {
                burst.lost = true;
            }
        }
        let mut from = 0;
        let mut longest = 0;
        while let Some(start) = (from..bursts.len()).find(|&i| bursts[i].lost) {
            // The stretch goes on over bursts without a user group.
            let arrives = |i: &usize| {
                let burst: &Burst = &bursts[*i];
                !burst.lost && burst.words.iter().any(|sent| sent.message.is_some())
            };
            let end = (start..bursts.len()).find(arrives).unwrap_or(bursts.len());
            let groups = |bursts: &[Burst], i: usize| {
                let words = bursts.iter().flat_map(|burst| &burst.words);
                words.filter(|sent| sent.message == Some(i)).count()
            };
            let holds = |&i: &usize| {
                let lost = groups(&bursts[start..end], i);
                lost > 0 && lost == groups(&bursts[..], i)
            };
            let count = (0..messages).filter(holds).count();
            if count >= 5 {
                // Let one burst of the stretch arrive, and look again.
                let lost: Vec<_> = (start..end).filter(|&i| bursts[i].lost).collect();
                bursts[random.pick(&lost)].lost = false;
                from = start;
            } else {
                longest = longest.max(count);
                from = end;
            }
        }
        let inside = (0..messages).any(|i| {
            let of_message = |burst: &&Burst| burst.words.iter().any(|s| s.message == Some(i));
            let mut lost = bursts.iter().filter(of_message).map(|burst| burst.lost);
            let first = lost.next();
            lost.any(|lost| Some(lost) != first)
        });
        self.tally
            .mark("transmission: a loss inside a message", inside);
        self.tally
            .mark("transmission: a loss that holds four", longest == 4);
    }

    fn deliver(&mut self, carrier: Carrier, burst: &Burst, receiver: &mut Receiver) {
        let words: Vec<_> = burst.words.iter().map(|sent| sent.word).collect();
        match carrier {
            Carrier::Rds => return self.deliver_groups(words[0], burst.lost, receiver),
            _ if burst.lost => return,
            Carrier::Words => {}
            Carrier::Fig => self.deliver_fig(&words),
            Carrier::Fib => self.deliver_fib(&words),
            Carrier::Drm => self.deliver_unit(&words),
        }
        for word in words {
            self.assemble(word, receiver);
        }
    }

    fn assemble(&mut self, word: u64, receiver: &mut Receiver) {
        let answer = self.step(receiver.state, word);
        receiver.state = answer.next;
        if answer.kind == 1 {
            receiver.reports.push(answer.report);
        }
    }

    /// A word twice running or more; one that is lost comes once or not at all. A word that the
    /// last group had too comes after a group of another word.
    fn deliver_groups(&mut self, word: u64, lost: bool, receiver: &mut Receiver) {
        let last = receiver.run;
        let copies = match lost {
            true => self.random.below(2),
            false => 2 + self.random.below(2),
        };
        if copies > 0 && last.count > 0 && last.word == word {
            self.deliver_group(word ^ 1, receiver);
        }
        for _ in 0..copies {
            self.deliver_group(word, receiver);
        }
    }

    fn deliver_group(&mut self, word: u64, receiver: &mut Receiver) {
        let group = sender::random_group(&mut self.random, word);
        let received = self.receive(receiver.run, &sender::group(group));
        receiver.run = received.run;
        if received.valid == 1 {
            self.assemble(received.word, receiver);
        }
    }

    /// The FIG reads as its words.
    fn deliver_fig(&mut self, words: &[u64]) {
        let tcid = self.random.byte(3);
        let fig = Fig { d1: 0, tcid };
        self.read_fig(&sender::fig(fig, words), FIG_WORDS, Some((fig, words)));
    }

    /// The block, with the words in one FIG or in two, reads as its words.
    fn deliver_fib(&mut self, words: &[u64]) {
        let at = self.random.index(words.len());
        let parts = [&words[..at], &words[at..]];
        let parts = parts.iter().filter(|part| !part.is_empty());
        let figs: Vec<_> = parts
            .map(|part| {
                let tcid = self.random.byte(3);
                SentFig::words(Fig { d1: 0, tcid }, part)
            })
            .collect();
        let rooms = (FIB_WORDS, FIB_WORDS);
        self.read_figs(&blocks::block(&figs, &[MARKER]), rooms, &figs);
    }

    /// The data unit reads as its words.
    fn deliver_unit(&mut self, words: &[u64]) {
        let mut unit = sender::random_unit(&mut self.random);
        let mut bytes = sender::unit(&unit, words, None, 0);
        if bytes.len() > 126 {
            // Without a header all have room.
            unit = DrmUnit {
                short_id: unit.short_id,
                ..DrmUnit::default()
            };
            bytes = sender::unit(&unit, words, None, 0);
        }
        let bytes = sender::checked(bytes);
        self.read_unit(&bytes, UNIT_WORDS, Some((unit, words)));
    }
}
