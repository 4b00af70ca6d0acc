//! Names, statuses, and lines that are no step.

use super::Generator;
use super::fields::FORKS;
use crate::parse::NAME_MAX;

impl Generator {
    pub(super) fn name(&mut self) -> Vec<u8> {
        let length = self.random.pick(&[0, 1, 1, 3, 5, 8, 12, 27, 28, 28]);
        let mut name = self.text(length);
        if self.random.chance(25) && !name.is_empty() {
            let at = self.random.below(name.len() as u64) as usize;
            name[at] = 0;
        }
        [b"name ".to_vec(), name].concat()
    }

    pub(super) fn exit(&mut self) -> Vec<u8> {
        let status = match self.random.below(10) {
            0 | 1 => return b"exit".to_vec(),
            2..4 => self.status_near_the_cut(),
            4 if self.random.chance(30) => vec![0x80; 200],
            _ => {
                let length = self.random.pick(&[0, 1, 1, 2, 4, 7, 20]);
                self.text(length)
            }
        };
        [b"exit ".to_vec(), status].concat()
    }

    /// A status whose message is about 127 bytes long, or well over.
    pub(super) fn status_near_the_cut(&mut self) -> Vec<u8> {
        let length = 110 + self.random.below(20) as usize;
        let mut status = self.text(length);
        let tail: &[u8] = self.random.pick(&[
            &[0xc3, 0xa9, 0xc3, 0xa9, 0xc3, 0xa9][..],
            &[0xe2, 0x82, 0xac, 0xe2, 0x82, 0xac, 0xe2, 0x82, 0xac],
            &[0xf0, 0x9f, 0x9a, 0xa2, 0xf0, 0x9f, 0x9a, 0xa2],
            &[0x80; 12],
            b"tons of it, verified",
            &[],
        ]);
        status.extend_from_slice(tail);
        if self.random.chance(30) {
            status.extend([0xbf; 60]);
        }
        status
    }

    /// `length` bytes: letters mostly, sometimes any but a newline.
    pub(super) fn text(&mut self, length: usize) -> Vec<u8> {
        let odd = self.random.chance(20);
        (0..length).map(|_| if odd { self.odd_byte() } else { self.letter() }).collect()
    }

    pub(super) fn letter(&mut self) -> u8 {
        b'a' + self.random.below(26) as u8
    }

    pub(super) fn odd_byte(&mut self) -> u8 {
        let any = self.random.bits() as u8;
        let byte = self.random.pick(&[b' ', b';', 0, 0x80, 0xc3, b'\r', b'\t', b'0', any]);
        if byte == b'\n' { b' ' } else { byte }
    }

    /// A line with a field out of range, or that is no step, or that looks
    /// like none and is one.
    pub(super) fn nonsense(&mut self) -> Vec<u8> {
        let text = match self.random.below(32) {
            kind @ 4..=20 => self.out_of_range(kind),
            kind => self.odd_form(kind),
        };
        text.into_bytes()
    }

    fn out_of_range(&mut self, kind: u64) -> String {
        let sizes = self.driver.sizes;
        let now = self.driver.last_now;
        match kind {
            4 => format!("sleep {} 0", sizes.rendez),
            5 => "sleep 0 256".into(),
            6 => format!("tsleep 0 0 0 1000000000 {now}"),
            7 => format!("tsleep 0 0 18446744073709551616 0 {now}"),
            8 => format!("wakeup {}", sizes.rendez),
            9 => format!("qlock {}", sizes.locks),
            10 => format!("canqlock {}", sizes.locks),
            11 => format!("qunlock {}", sizes.locks),
            12 => self.random.pick(&["cond 0 2", "cond 256 0", "cond 0", "cond 0 1 1"]).into(),
            13 => format!("tadd 0 0 0 1000000 0 {now}"),
            14 => format!("tadd {} 0 0 1000000 0 {now}", sizes.timers),
            15 => format!("tadd 1 2 0 1000000 0 {now}"),
            16 => format!("tadd 1 1 0 1000000 {} {now}", sizes.rendez),
            17 => format!("tdel {}", self.random.pick(&[0, sizes.timers])),
            18 => "intr 18446744073709551616".into(),
            19 => "clock +1".into(),
            _ => format!("name {}", "n".repeat(NAME_MAX + 1)),
        }
    }

    fn odd_form(&mut self, kind: u64) -> String {
        let random = &mut self.random;
        match kind {
            0 => String::new(),
            1 => random.pick(&[" ", "i", "i ", "i i due", " due", "due ", "Due", "due\t"]).into(),
            2 => random.pick(&["start", "start 3", "start 0 ", "start  0", "start -0"]).into(),
            3 => random.pick(&["rfork 16", "rfork 16 4", "rfork 4294967296 0"]).into(),
            21 => random.pick(&["sched 0", "yield 1", "wait ", "exits", "names", "qlock"]).into(),
            22 => random.pick(&["start 00", "start 000000000000000000000000"]).into(),
            23 => format!("wakeup 0{}", self.rendez_to_wake()),
            24 => format!("intr 00{}", self.driver.last_now),
            25 if random.chance(10) => format!("exit {}", "e".repeat(4092)),
            26 => random.pick(&["name", "name ", "i name", "i exit"]).into(),
            27 => format!("rfork {} 4", random.pick(&FORKS)),
            28 => "wakeup 18446744073709551616".into(),
            29 => format!("i qlock {}", self.lock_to_take()),
            30 => {
                random.pick(&["i wait", "i yield", "i sched", "i start 0", "i rfork 16 0"]).into()
            }
            _ => "stow 1".into(),
        }
    }
}
