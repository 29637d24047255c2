//! 37-bit words and system words.

use crate::fields::Fields;
use crate::tally::Call;
use crate::Trial;
use proved::{SystemFields, SystemReading, SystemWritten, WordComposed, WordFields, WordParsed};
use sender::{Message, WORD_LIMIT};

impl Trial {
    /// A word of any kind, now and then one of 2^37 or more.
    pub fn any_word(&mut self) -> u64 {
        let random = &mut self.random;
        match random.below(8) {
            0 => random.odd(WORD_LIMIT, u64::BITS),
            1 => sender::other_word(random),
            2 | 3 => random.number() >> 27,
            4 => random.number(),
            _ => {
                let message = Message::random(random);
                random.pick(&message.words)
            }
        }
    }

    fn parse(&mut self, word: u64) -> WordParsed {
        let proved = proved::word_parse(word);
        let second = calls::word_parse(word);
        self.tally.agree(Call::WordParse, &word, proved, second);
        proved
    }

    fn compose(&mut self, fields: WordFields) -> WordComposed {
        let proved = proved::word_compose(fields);
        let second = calls::word_compose(fields);
        self.tally.agree(Call::WordCompose, &fields, proved, second);
        proved
    }

    /// Any number, and what was read of it written again.
    pub fn word_parse(&mut self) {
        let word = self.any_word();
        let parsed = self.parse(word);
        let meant = if word < WORD_LIMIT { 0 } else { 9 };
        self.tally
            .expect(Call::WordParse, &word, parsed.refusal, meant);
        if parsed.refusal == 0 {
            let again = self.compose(parsed.fields);
            let meant = WordComposed { word, refusal: 0 };
            self.tally.expect(Call::WordCompose, &parsed, again, meant);
        }
    }

    /// A word of known fields both ways, and its fields with one of them out of its range or one
    /// that the kind does not have.
    pub fn word_compose(&mut self) {
        let (fields, word) = sender::random_word(&mut self.random);
        let composed = self.compose(fields);
        let meant = WordComposed { word, refusal: 0 };
        self.tally
            .expect(Call::WordCompose, &fields, composed, meant);
        let parsed = self.parse(word);
        let meant = WordParsed { fields, refusal: 0 };
        self.tally.expect(Call::WordParse, &word, parsed, meant);

        let mut damaged = fields;
        self.random.damage(damaged.fields());
        self.compose(damaged);

        // A field of another kind.
        let mut foreign = fields;
        let other = sender::random_word(&mut self.random).0;
        match fields.kind {
            0 => (foreign.ci, foreign.word) = (other.ci, other.word),
            1 => (foreign.duration, foreign.gsi) = (other.duration, other.gsi),
            2 => (foreign.head, foreign.word) = (other.head, other.word),
            _ => (foreign.content, foreign.second) = (other.content, other.second),
        }
        let composed = self.compose(foreign);
        let meant = if foreign == fields { 0 } else { 9 };
        self.tally
            .expect(Call::WordCompose, &foreign, composed.refusal, meant);
        self.tally
            .mark("word compose: a field of another kind", meant == 9);
    }

    pub fn system_read(&mut self, word: u16) -> SystemReading {
        let proved = proved::system_read(word);
        let second = calls::system_read(word);
        self.tally.agree(Call::SystemRead, &word, proved, second);
        proved
    }

    /// A system word of known fields both ways, and its fields with one of them out of its range or
    /// one that the variant does not have.
    pub fn system_write(&mut self) {
        let (fields, word) = sender::random_system(&mut self.random);
        let written = self.write_system(fields);
        let meant = SystemWritten { word, refusal: 0 };
        self.tally
            .expect(Call::SystemWrite, &fields, written, meant);
        let read = self.system_read(word);
        let meant = SystemReading { fields, refusal: 0 };
        self.tally.expect(Call::SystemRead, &word, read, meant);

        let mut damaged = fields;
        self.random.damage(damaged.fields());
        self.write_system(damaged);

        // A field of the other variant.
        let mut foreign = fields;
        let other = sender::random_system(&mut self.random).0;
        match fields.variant {
            0 => (foreign.gap, foreign.sid) = (other.gap, other.sid),
            _ => (foreign.ltn, foreign.urban) = (other.ltn, other.urban),
        }
        let written = self.write_system(foreign);
        let meant = if foreign == fields { 0 } else { 9 };
        self.tally
            .expect(Call::SystemWrite, &foreign, written.refusal, meant);
        self.tally
            .mark("system write: a field of the other variant", meant == 9);
    }

    fn write_system(&mut self, fields: SystemFields) -> SystemWritten {
        let proved = proved::system_write(fields);
        let second = calls::system_write(fields);
        self.tally.agree(Call::SystemWrite, &fields, proved, second);
        proved
    }
}
