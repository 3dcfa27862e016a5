//! Blending rules, put into cases that have none.

use super::{Chance, HALF, MOST};

impl Chance {
    /// The case with a rule for its canvas, and for its image. What it draws stays the same.
    pub fn with_rules(&mut self, line: &str) -> String {
        match line.split_once(" draw ") {
            None => self.with_rule(line, 4, 100),
            Some((head, args)) => format!("{} draw {}", self.with_rule(head, 4, 400), self.with_image_rule(args)),
        }
    }

    /// What stands after `draw`, with a rule for the image.
    pub fn with_image_rule(&mut self, args: &str) -> String {
        self.with_rule(args, 7, 200)
    }

    /// Puts a rule behind the seed at a place, or behind its row. So many of a thousand are rule 2, 100 are rule 1 written out,
    /// and 15 are refused.
    fn with_rule(&mut self, line: &str, seed: usize, second: i64) -> String {
        let rule = match self.from(1, 1000) - second {
            ..=0 => 2,
            1..=100 => 1,
            101..=115 => self.pick(&[0, 0, 3, 3, 4, 255, 256, 257, 258, 65_537, 65_538, HALF + 1, HALF + 2, MOST]),
            _ => return line.into(),
        };
        let mut words: Vec<&str> = line.split(' ').collect();
        let at = seed + 1 + words.get(seed + 1).is_some_and(|word| word.starts_with("row=")) as usize;
        let rule = format!("rule={rule}");
        words.insert(at, &rule);
        words.join(" ")
    }
}
