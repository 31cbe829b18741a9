//! The tables as text.

use crate::member::TOLD_WORDS;
use crate::simulation::{About, Row, Simulation};

/// A table's text, line by line.
struct Text<'a> {
    run: &'a Simulation,
    bytes: Vec<u8>,
}

pub fn trace(run: &Simulation) -> Vec<u8> {
    let mut text = Text::new(run, "time,member,cause,ref,result,lost,sent\n");
    for row in &run.rows {
        text.event(row);
        text.word(TOLD_WORDS[row.told as usize], b',');
        text.number(row.lost.len() as u64, b',');
        match row.sent {
            None => text.word("-", b'\n'),
            Some(place) => text.packet(place, b'\n'),
        }
    }
    text.bytes
}

pub fn timers(run: &Simulation) -> Vec<u8> {
    let head = "time,member,cause,ref,c1,c2,d1,d2,ave_dup_req,ave_req_delay,ave_dup_rep,ave_rep_delay\n";
    let mut text = Text::new(run, head);
    for it in &run.timer_rows {
        text.event(&run.rows[it.row]);
        for constant in it.constants {
            text.number(constant, b',');
        }
        for (place, average) in it.averages.into_iter().enumerate() {
            let end = if place < 3 { b',' } else { b'\n' };
            match average {
                None => text.word("-", end),
                Some(average) => text.number(average, end),
            }
        }
    }
    text.bytes
}

pub fn links(run: &Simulation) -> Vec<u8> {
    let mut text = Text::new(run, "link,data,requests,repairs,sessions,dropped\n");
    for (link, [data, requests, repairs, sessions, dropped]) in run.totals.iter().enumerate() {
        text.number(link as u64, b',');
        text.number(*data, b',');
        text.number(*requests, b',');
        text.number(*repairs, b',');
        text.number(*sessions, b',');
        text.number(*dropped, b'\n');
    }
    text.bytes
}

impl<'a> Text<'a> {
    fn new(run: &'a Simulation, head: &str) -> Text<'a> {
        Text { run, bytes: head.as_bytes().to_vec() }
    }

    /// The four columns with which the rows of an event begin.
    fn event(&mut self, row: &Row) {
        self.number(row.key.time, b',');
        self.number(u64::from(row.key.member), b',');
        self.word(row.cause, b',');
        match row.about {
            About::Nothing => self.word("-", b','),
            About::Packet(place) => self.packet(place, b','),
            About::Name(name) => {
                self.number(u64::from(name.source), b'/');
                self.number(u64::from(name.page), b'/');
                self.number(u64::from(name.number), b',');
            }
        }
    }

    fn packet(&mut self, place: usize, end: u8) {
        let id = self.run.packets[place].id;
        self.number(u64::from(id.sender), b':');
        self.number(id.count, end);
    }

    fn word(&mut self, word: &str, end: u8) {
        self.bytes.extend_from_slice(word.as_bytes());
        self.bytes.push(end);
    }

    /// The number in decimal digits, and what follows it.
    fn number(&mut self, mut value: u64, end: u8) {
        let mut digits = [0; 20];
        let mut first = digits.len();
        loop {
            first -= 1;
            digits[first] = b'0' + (value % 10) as u8;
            value /= 10;
            if value == 0 {
                break;
            }
        }
        self.bytes.extend_from_slice(&digits[first..]);
        self.bytes.push(end);
    }
}
