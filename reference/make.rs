//! Making the stored script of labels.
//!
//! The script wanders through plans and, under each, through everything that can be asked of labels, so that every
//! answer, every refusal and every kind of line that cannot be read turns up many times. Labels are not drawn evenly
//! from all words, because almost no word that is drawn so is short, or stands near another: they are grown as a
//! tree would grow, or built level by level, or damaged from such a one.
//!
//! What is drawn may depend on what the reference answers (a tree grows by the labels that it is given), but the
//! script itself holds questions only.

use crate::labels::{Label, Scheme};
use crate::random::SplitMix;
use crate::session::{hexadecimal, Session};

/// Lines that cannot be read, one or more for each way of going wrong, and lines that look so but can be.
const ODD_LINES: [&str; 56] = [
    // First words that are no command.
    "asks 1000000000000000",
    "Ask 1000000000000000",
    "ASK",
    "1000000000000000",
    "none",
    "relate1000000000000000 1000000000000000",
    "ask\t1000000000000000",
    "\task 1000000000000000",
    "étiquette",
    "plan width 4",
    "plan Position 4",
    "plan LEVEL 2 4",
    "plan 4",
    "plan position,4",
    // Words that are missing. A word that is there but cannot be read comes first.
    "plan",
    "ask",
    "relate",
    "relate 1000000000000000",
    "between",
    "between 1000000000000000",
    "between 1000000000000000 none",
    "relate 100000000000000",
    "between 100000000000000g",
    "between 1000000000000000 nothing",
    // Words too many. Here too a word that cannot be read comes first.
    "ask 1000000000000000 1000000000000000",
    "ask 1000000000000000 none",
    "relate 1000000000000000 1080000000000000 none",
    "between 1000000000000000 none none none",
    "ask XYZ 12",
    "relate 1000000000000000 1.1 1.2",
    // Words that are no label word.
    "ask 1",
    "ask 100000000000000",
    "ask 10000000000000000",
    "ask 0x10000000000000",
    "ask +100000000000000",
    "ask 1000_0000_0000_0",
    "ask 100000000000000G",
    "ask 1000000000000000\t",
    "ask none",
    "ask 10000000#0000000",
    "relate none 1000000000000000",
    "relate 1000000000000000 none",
    "between none none none",
    "between 1000000000000000 None none",
    "between 1000000000000000 none NONE",
    "between 1000000000000000 - none",
    // Numbers that are none, and numbers that are no width.
    "plan position x",
    "plan position 4 -1",
    "plan level +4",
    "plan level 4.0",
    "plan level 9 4 0x4",
    "plan position 1 1 1 1 1 1 1 1 1 one",
    "plan position 18446744073709551616",
    "plan position 18446744073709551615",
    "plan level 99999999999999999999999999999999999999999",
    "plan level 0",
];

/// Makes a script of `count` lines. The last has no line feed, because a script need not have one.
pub fn labels_script(seed: u64, count: usize) -> String {
    let mut maker = Maker { random: SplitMix::new(seed), session: Session::new(), lines: Vec::new() };
    maker.push(format!("# Questions on labels, made by: reference --make-labels {seed} {count}"));
    maker.push("# Do not edit: make it anew.".to_string());
    maker.round();
    maker.odd_lines();
    while maker.lines.len() < count {
        maker.plan();
        maker.round();
    }
    maker.lines.truncate(count);
    maker.lines.join("\n")
}

/// A script in the making.
struct Maker {
    random: SplitMix,
    /// Carries out what was made so far: it knows the plan.
    session: Session,
    lines: Vec<String>,
}

impl Maker {
    /// A number of questions under the plan as it is.
    fn round(&mut self) {
        for _ in 0..self.random.within(12, 24) {
            match self.random.below(40) {
                0..=11 => self.ask(),
                12..=25 => self.relate(),
                26..=32 => self.open_anywhere(),
                33 => self.grow(),
                34 => self.squeeze(),
                35 => self.descend(),
                36 | 37 => self.open_nothing(),
                38 => {
                    let line = self.random.pick(&ODD_LINES).to_string();
                    self.push(line);
                }
                _ => self.idle(),
            }
        }
    }

    // Lines.

    /// Adds a line as it is.
    fn push(&mut self, line: String) {
        // A carriage return at the end will belong to the line feed that follows.
        self.session.answer_line(line.strip_suffix('\r').unwrap_or(&line).as_bytes());
        self.lines.push(line);
    }

    /// Adds a line of these words, now and then set in an odd but readable way.
    fn say(&mut self, words: &[String]) {
        let plain = words.join(" ");
        let line = match self.random.below(48) {
            0 => format!("  {plain}"),
            1 => format!("{plain}   "),
            2 => words.join("    "),
            3 => format!("{plain} # as it should be"),
            4 => format!("{plain}# ask 1000000000000000"),
            5 => format!("{plain}\r"),
            6 => format!(" {plain} \r"),
            _ => plain,
        };
        self.push(line);
    }

    /// A line that asks nothing.
    fn idle(&mut self) {
        let line = self.random.pick(&["", "   ", "# ask 1000000000000000", "   # plan level 3", "#", "\r", "##"]);
        self.push(line.to_string());
    }

    /// A plan, in most cases a lawful one.
    fn plan(&mut self) {
        const FAVOURITES: [&str; 15] = [
            "position 4",
            "position 1",
            "position 2",
            "position 3",
            "position 8",
            "level 2 4",
            "level 8 1",
            "level 4",
            "level 1",
            "position 1 4 5",
            "position 3 2 3",
            "position 1 8",
            "position 8 7 6 5 4 3 2 1",
            "level 1 2 3 4 5 6 7 8",
            "position 0000000000000000000000000000003",
        ];
        const UNLAWFUL: [&str; 10] = [
            "position",
            "level",
            "position 0",
            "position 9",
            "level 4 4 0",
            "level 9 4",
            "position 1 2 3 4 5 6 7 8 8",
            "level 4 4 4 4 4 4 4 4 4 4 4 4",
            "position 256",
            "level 4294967300 18446744073709551615",
        ];
        let words = match self.random.below(8) {
            0..=3 => self.random.pick(&FAVOURITES).to_string(),
            4..=6 => {
                let kind = *self.random.pick(&["position", "level"]);
                let widths: Vec<String> =
                    (0..self.random.within(1, 8)).map(|_| self.random.within(1, 8).to_string()).collect();
                format!("{kind} {}", widths.join(" "))
            }
            _ => self.random.pick(&UNLAWFUL).to_string(),
        };
        self.say(&["plan".to_string(), words]);
    }

    /// Every odd line once. The plan before them is not the built-in one, so that the question behind them shows
    /// that none of them has changed it.
    fn odd_lines(&mut self) {
        self.push("plan level 2 4".to_string());
        for line in ODD_LINES {
            self.push(line.to_string());
        }
        self.push("ask 5310000000000000".to_string());
    }

    // Questions.

    fn ask(&mut self) {
        let word = self.any_word();
        let word = self.written(word);
        self.say(&["ask".to_string(), word]);
    }

    fn relate(&mut self) {
        let first = self.label();
        let second = self.relative(&first);
        let mut words = [self.word(&first), self.word(&second)];
        if self.random.once_in(6) {
            words[self.random.below(2)] = self.any_word();
        }
        if self.random.once_in(30) {
            words = [self.damaged_word(), self.damaged_word()];
        }
        words.rotate_left(self.random.below(2));
        let [first, second] = words.map(|word| self.written(word));
        self.say(&["relate".to_string(), first, second]);
    }

    /// An opening under any parent with any bounds.
    fn open_anywhere(&mut self) {
        let parent = self.label();
        let lower = self.bound(&parent);
        let upper = self.bound(&parent);
        let parent = match self.random.below(6) {
            0 => self.damaged_word(),
            _ => self.word(&parent),
        };
        // In order for the most part, so that there often is a place.
        let (lower, upper) = match (lower, upper) {
            (Some(lower), Some(upper)) if lower > upper && !self.random.once_in(5) => (Some(upper), Some(lower)),
            both => both,
        };
        self.between(parent, lower, upper);
    }

    /// An opening where there is no place: between neighbours that touch, or under a label that fills its word.
    fn open_nothing(&mut self) {
        match self.random.below(4) {
            0 => {
                let label = self.label();
                let parent = self.word(&label.parent().unwrap_or(label.clone()));
                let word = self.word(&label);
                self.between(parent, Some(word), Some(word.saturating_add(1)));
                self.between(parent, Some(word), Some(word));
            }
            1 => {
                // Nothing but what stands below a label lies between it and its bits with a 1 behind them.
                let label = self.label();
                let mut bits = self.scheme().spell(&label).unwrap_or_default();
                bits.push(true);
                bits.truncate(64);
                let (word, end) = (self.word(&label), self.scheme().word_of(&bits));
                let parent = self.word(&label.parent().unwrap_or(label));
                self.between(parent, Some(word), Some(end));
                self.between(word, Some(word), Some(end));
            }
            2 => {
                let label = self.full_label();
                let word = self.word(&label);
                self.between(word, None, None);
            }
            _ => {
                let label = self.full_label();
                let word = self.word(&label);
                let parent = self.word(&label.parent().unwrap_or(label));
                self.between(parent, Some(word), None);
                self.between(parent, None, Some(word));
            }
        }
    }

    /// A tree that grows by openings among the places that it has.
    fn grow(&mut self) {
        let mut places = vec![Label::new(vec![vec![1]])];
        for _ in 0..self.random.within(6, 18) {
            let parent = match self.random.below(3) {
                0 => places[0].clone(),
                _ => self.random.pick(&places).clone(),
            };
            let mut children: Vec<Label> =
                places.iter().filter(|child| child.parent().as_ref() == Some(&parent)).cloned().collect();
            children.sort();
            let gap = self.random.below(children.len() + 1);
            let lower = gap.checked_sub(1).map(|before| self.word(&children[before]));
            let upper = children.get(gap).map(|child| self.word(child));
            places.extend(self.open(&parent, lower, upper));
        }
    }

    /// Openings between the same two siblings again and again, until there is no place or it grows long.
    fn squeeze(&mut self) {
        let parent = self.label();
        let Some(first) = self.open(&parent, None, None) else {
            return;
        };
        let mut lower = Some(self.word(&first));
        let mut upper = self.open(&parent, lower, None).map(|second| self.word(&second));
        if self.random.once_in(3) {
            lower = None;
        } else if self.random.once_in(3) {
            upper = None;
        }
        // Keep to the left, to the right, or change sides.
        let side = self.random.below(3);
        for turn in 0..self.random.within(4, 16) {
            let Some(found) = self.open(&parent, lower, upper) else {
                return;
            };
            let word = Some(self.word(&found));
            match side {
                0 => upper = word,
                1 => lower = word,
                _ if turn % 2 == 0 => upper = word,
                _ => lower = word,
            }
        }
    }

    /// First children of first children, from deep down or for a long way, until there is no place.
    fn descend(&mut self) {
        let mut parent = match self.random.below(8) {
            0 => Label::new(vec![vec![1]]),
            1 | 2 => self.label(),
            _ => {
                let full = self.full_label();
                full.parent().unwrap_or(full)
            }
        };
        for _ in 0..self.random.within(8, 33) {
            match self.open(&parent, None, None) {
                Some(child) => parent = child,
                None => return,
            }
        }
    }

    /// Asks for the label in an opening and tells it, where there is one.
    fn open(&mut self, parent: &Label, lower: Option<u64>, upper: Option<u64>) -> Option<Label> {
        let parent = self.word(parent);
        self.between(parent, lower, upper);
        self.scheme().label_between(parent, lower, upper).ok().map(|(_, label)| label)
    }

    fn between(&mut self, parent: u64, lower: Option<u64>, upper: Option<u64>) {
        let mut words = vec!["between".to_string(), self.written(parent)];
        for bound in [lower, upper] {
            words.push(match bound {
                Some(word) => self.written(word),
                None => "none".to_string(),
            });
        }
        self.say(&words);
    }

    // Labels and words.

    fn scheme(&self) -> &Scheme {
        self.session.scheme()
    }

    /// The word of a label; zero for one that is too long.
    fn word(&self, label: &Label) -> u64 {
        self.scheme().spell(label).map_or(0, |bits| self.scheme().word_of(&bits))
    }

    /// A word as it may be written.
    fn written(&mut self, word: u64) -> String {
        let capitals = hexadecimal(word);
        match self.random.below(24) {
            0 | 1 => capitals.to_lowercase(),
            2 => capitals.replace('A', "a").replace('F', "f"),
            _ => capitals,
        }
    }

    /// A lawful level at this depth: short for the most part, with many zeros and ones.
    fn level(&mut self, level: usize) -> Vec<u32> {
        let mut count = 1;
        while count < 12 && self.random.once_in(3) {
            count += 1;
        }
        let mut subvalues: Vec<u32> = (0..count)
            .map(|position| {
                let most = (1 << self.scheme().plan().width(level, position)) - 1;
                match self.random.below(5) {
                    0 => 0,
                    1 => 1,
                    2 => most as u32,
                    _ => self.random.within(0, most) as u32,
                }
            })
            .collect();
        let last = &mut subvalues[count - 1];
        *last = (*last).max(1);
        subvalues
    }

    /// A lawful label, deep now and then.
    fn label(&mut self) -> Label {
        let depth = match self.random.below(8) {
            0 => 1,
            1 => self.random.within(6, 32),
            _ => self.random.within(2, 5),
        };
        self.label_of(depth)
    }

    /// A lawful label as deep as a word allows.
    fn full_label(&mut self) -> Label {
        self.label_of(32)
    }

    /// A lawful label of `depth` levels, or of as many as fit.
    fn label_of(&mut self, depth: usize) -> Label {
        let mut label = Label::new(vec![vec![1]]);
        if self.random.once_in(2) {
            let head = Label::new(vec![self.level(1)]);
            if self.scheme().spell(&head).is_ok() {
                label = head;
            }
        }
        while label.level() < depth {
            let child = label.child(self.level(label.level() + 1));
            if self.scheme().spell(&child).is_err() {
                break;
            }
            label = child;
        }
        label
    }

    /// A lawful label that stands to this one in some way worth asking about.
    fn relative(&mut self, label: &Label) -> Label {
        let mut levels = label.levels().to_vec();
        let depth = levels.len();
        match self.random.below(7) {
            0 => {}
            1 => levels.truncate(self.random.within(1, depth)),
            2 => {
                // Further down.
                let child = self.level(depth + 1);
                levels.push(child);
            }
            3 => {
                // The same level continued: it begins with the label's bits, yet stands behind it.
                let position = levels[depth - 1].len();
                let most = (1 << self.scheme().plan().width(depth, position)) - 1;
                levels[depth - 1].push(self.random.within(1, most) as u32);
            }
            4 => levels[depth - 1] = self.level(depth),
            5 => {
                // Out of another branch.
                let turn = self.random.within(1, depth);
                levels[turn - 1] = self.level(turn);
            }
            _ => return self.label(),
        }
        let relative = Label::new(levels);
        match self.scheme().spell(&relative) {
            Ok(_) => relative,
            Err(_) => label.clone(),
        }
    }

    /// A word that may or may not be lawful.
    fn any_word(&mut self) -> u64 {
        match self.random.below(8) {
            0..=3 => {
                let label = self.label();
                self.word(&label)
            }
            4 | 5 => self.damaged_word(),
            _ => self.raw_word(),
        }
    }

    /// A word close to a lawful one, but in most cases not lawful itself.
    fn damaged_word(&mut self) -> u64 {
        let label = match self.random.below(2) {
            0 => self.label(),
            _ => self.full_label(),
        };
        match self.random.below(5) {
            0 => {
                // A level that ends in zero, at the end or on the way.
                let mut levels = label.levels().to_vec();
                let hit = self.random.below(levels.len());
                levels[hit].push(0);
                self.word(&Label::new(levels))
            }
            1 => self.word(&label) ^ 1 << self.random.below(64),
            // In the last bits there is seldom place for a whole subvalue.
            2 | 3 => self.word(&label) | self.random.within(1, 15) as u64,
            _ => self.word(&label).rotate_left(self.random.within(1, 63) as u32),
        }
    }

    /// A word that was made without a thought of labels.
    fn raw_word(&mut self) -> u64 {
        match self.random.below(6) {
            0 => 0,
            1 => u64::MAX,
            2 => (0..self.random.within(1, 3)).fold(0, |word, _| word | 1 << self.random.below(64)),
            3 => u64::MAX << self.random.below(64),
            4 => self.random.next() << self.random.below(64),
            _ => self.random.next(),
        }
    }

    /// A bound for an opening under this parent.
    fn bound(&mut self, parent: &Label) -> Option<u64> {
        match self.random.below(8) {
            0 => None,
            1 => Some(self.word(parent).wrapping_add(self.random.below(3) as u64).wrapping_sub(1)),
            2 => Some(self.raw_word()),
            3 => {
                let relative = self.relative(parent);
                Some(self.word(&relative))
            }
            _ => {
                let child = parent.child(self.level(parent.level() + 1));
                let word = self.word(&child);
                match self.random.below(4) {
                    0 => Some(word.wrapping_add(1)),
                    1 => Some(word.wrapping_sub(1)),
                    _ => Some(word),
                }
            }
        }
    }
}
