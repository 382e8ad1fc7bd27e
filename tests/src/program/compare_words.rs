//! What `harptimber compare` has to say in words.

use std::collections::BTreeSet;

use crate::program::compares::{Expected, Fate, Run};
use crate::program::page::with_commas;

/// So many ranges of blocks, and things that changed, are told at most.
const MOST_SHOWN: usize = 10;

impl Expected<'_> {
    /// A line on the file, then with details one for each group of blocks.
    pub fn expect_words(&self, words: &str, details: bool) {
        let mut lines = words.lines();
        expect_parts(lines.next().expect("a line"), &self.headline());
        let told = if details { self.details() } else { Vec::new() };
        assert_eq!(lines.clone().count(), told.len(), "lines of {words}");
        for (line, (start, ground)) in lines.zip(told) {
            let rest = line.strip_prefix(&format!("  {start}"));
            let rest = rest.unwrap_or_else(|| panic!("no '{start}' in '{line}'"));
            ground.inspect(|&ground| self.expect_difference(rest, ground));
        }
    }

    /// Parts of the line in their order; why an answer was given may stand behind it.
    fn headline(&self) -> Vec<String> {
        let [before, now] = self.sizes.map(Option::unwrap_or_default);
        let block = self
            .index
            .map_or(": ".to_string(), |index| format!(", block {index}: "));
        let file = if self.whole() { "" } else { "the file is " };
        let one = |words: &str, size: u64, cards: [&str; 2], answer: u32| {
            let [there, other] = cards;
            vec![
                format!(
                    "{block}{file}{words}: {} on the {there} card; on the {other} card: ",
                    bytes(size)
                ),
                format!("(answer {answer})"),
            ]
        };
        match self.there {
            [2, 2] => vec![
                format!("{block}on neither card: "),
                "(answer 2)".to_string(),
            ],
            [3, 3] => [vec![block], self.on_both(before, now)].concat(),
            [3, 2] => one("gone", before, ["kept", "new"], 2),
            [3, answer] => one("no longer readable", before, ["kept", "new"], answer),
            [2, 3] => one("new", now, ["new", "kept"], 2),
            [answer, 3] => one("readable now", now, ["new", "kept"], answer),
            _ => [vec![block], self.at_end()].concat(),
        }
    }

    fn on_both(&self, before: u64, now: u64) -> Vec<String> {
        let mut parts = Vec::new();
        if before != now {
            let word = if now > before { "grown" } else { "shrunk" };
            let sizes = format!("{word} from {} to {}", grouped(before), bytes(now));
            parts.push(match (self.whole(), self.runs.is_empty()) {
                (true, _) => sizes,
                (false, true) => format!("the file has {sizes}; "),
                (false, false) => format!("the file has {sizes}; the block "),
            });
        } else if self.whole() && before == 0 {
            parts.push("an empty file on both cards".to_string());
        }
        parts.extend(self.counts());
        match &self.end {
            Some((3, _)) | None if self.whole() => (),
            Some((_, run)) if self.whole() => parts.push(format!("block {}: ", run.first)),
            _ => (),
        }
        if !self.is_all_there() {
            parts.extend(self.at_end());
            if self.whole() {
                parts.push("; blocks behind it aren't compared".to_string());
            }
        }
        parts
    }

    /// How many blocks, what is worse first.
    fn counts(&self) -> Vec<String> {
        let total: u64 = [Fate::Same, Fate::SameBytes, Fate::Different]
            .map(|fate| self.count(fate))
            .iter()
            .sum();
        let verbs = [
            (Fate::Different, ["differs", "differ"]),
            (
                Fate::SameBytes,
                [
                    "has the same bytes but rests on something",
                    "have the same bytes but rest on something",
                ],
            ),
            (Fate::Same, ["is the same", "are the same"]),
        ];
        let mut parts = Vec::new();
        for (fate, verbs) in verbs {
            let count = self.count(fate);
            if count == 0 {
                continue;
            }
            let verb = verbs[usize::from(count != 1)];
            let first = if self.is_all_there() {
                ""
            } else {
                "the first "
            };
            let [some, all] = [count, total].map(|count| with_commas(count as usize));
            parts.push(match (self.whole(), parts.is_empty()) {
                (false, _) => verb.to_string(),
                (_, false) => format!("; {some} {verb}"),
                _ if count < total => format!("{some} of {first}{all} blocks {verb}"),
                _ if total == 1 && first.is_empty() => format!("the only block {verb}"),
                _ if total == 1 => format!("the first block {verb}"),
                _ if total == 2 && first.is_empty() => format!("both blocks {verb}"),
                _ if first.is_empty() => format!("all {all} blocks {verb}"),
                _ => format!("{first}{all} blocks {verb}"),
            });
            if let (Fate::Different, Some((place, [before, now]))) = (fate, self.byte()) {
                let shown = |byte: Option<u8>| {
                    byte.map_or("the end of the file".to_string(), |byte| {
                        format!("0x{byte:02x}")
                    })
                };
                let [before, now] = [before, now].map(shown);
                let mut earlier = self.runs.iter().take_while(|run| run.byte.is_none());
                let among = match earlier.any(|run| run.fate == Fate::Different) {
                    true => "among those on both cards ",
                    false => "",
                };
                parts.push(format!(
                    ", {among}first at byte {place} of the file ({before} before, {now} now)"
                ));
            }
        }
        parts
    }

    /// Where the kept card has no block.
    fn at_end(&self) -> Vec<String> {
        let (kept, run) = self.end.as_ref().expect("an end");
        let cards = match run.compared.answer {
            15 => "on both cards: ",
            _ => "on the kept card: ",
        };
        let mut parts = vec![cards.to_string(), format!("(answer {kept})")];
        if run.compared.answer != 15 && run.new_answer == *kept {
            parts.push(format!(
                "; on the new card: answer {kept} too, but that rests on something"
            ));
        } else if run.compared.answer != 15 {
            parts.push("; on the new card: ".to_string());
            parts.push(format!("(answer {})", run.new_answer));
        }
        parts
    }

    /// How each line starts, and the difference that it tells.
    fn details(&self) -> Vec<(String, Option<[u32; 2]>)> {
        let mut lines = Vec::new();
        if self.there == [2, 2] {
            return lines;
        }
        let mut tell = |told: &dyn Fn(&Run) -> bool, words: &str, ground: Option<[u32; 2]>| {
            let blocks = self.blocks(told);
            lines.extend(blocks.map(|blocks| (format!("{blocks}{words}"), ground)));
        };
        tell(
            &|run| run.fate == Fate::Different && run.new_answer == 0,
            "other bytes",
            None,
        );
        for answer in (3..=14).filter(|_| self.there[1] == 3) {
            let told = |run: &Run| run.fate == Fate::Different && run.new_answer == answer;
            tell(&told, "on the new card: ", None);
        }
        for ground in self.grounds() {
            let own_data = ground == [3, 0];
            let told =
                |run: &Run| run.ground == ground && (!own_data || run.fate == Fate::SameBytes);
            tell(&told, "", Some(ground));
        }
        lines.extend(self.end_line());
        lines
    }

    /// What changed, in the order of the blocks.
    fn grounds(&self) -> Vec<[u32; 2]> {
        let ends = self.end.iter().map(|(_, run)| run);
        let changed = self
            .runs
            .iter()
            .chain(ends)
            .filter(|run| run.fate != Fate::Same);
        let mut seen = BTreeSet::new();
        let grounds: Vec<_> = changed
            .map(|run| run.ground)
            .filter(|&ground| seen.insert(ground))
            .collect();
        assert!(grounds.len() <= MOST_SHOWN, "more than is told");
        grounds
    }

    /// Where the kept card has no block and that has changed. The end of a whole file isn't told behind its blocks.
    fn end_line(&self) -> Option<(String, Option<[u32; 2]>)> {
        let (kept, run) = self.end.as_ref()?;
        if run.fate == Fate::Same || *kept == 3 && !self.runs.is_empty() {
            return None;
        }
        let start = if self.runs.is_empty() {
            String::new()
        } else {
            format!("block {}: ", run.first)
        };
        Some((start, Some(run.ground)))
    }

    /// 'blocks 3, 7 to 9: ' for the runs that a line is about; none if there are none.
    fn blocks(&self, told: &dyn Fn(&Run) -> bool) -> Option<String> {
        let mut ranges: Vec<[u32; 2]> = Vec::new();
        for run in self.runs.iter().filter(|run| told(run)) {
            match ranges.last_mut() {
                Some([_, last]) if *last + 1 == run.first => *last = run.last,
                _ => ranges.push([run.first, run.last]),
            }
        }
        let count = |ranges: &[[u32; 2]]| {
            ranges
                .iter()
                .map(|[first, last]| last - first + 1)
                .sum::<u32>()
        };
        let shown = &ranges[..ranges.len().min(MOST_SHOWN)];
        let each = shown.iter().map(|[first, last]| match first == last {
            true => first.to_string(),
            false => format!("{first} to {last}"),
        });
        let each = each.collect::<Vec<_>>().join(", ");
        let more = match count(&ranges) - count(shown) {
            0 => String::new(),
            more => format!(" and {more} more"),
        };
        let blocks = if count(&ranges) == 1 {
            "block"
        } else {
            "blocks"
        };
        (!ranges.is_empty()).then(|| format!("{blocks} {each}{more}: "))
    }
}

fn bytes(count: u64) -> String {
    format!(
        "{} byte{}",
        grouped(count),
        if count == 1 { "" } else { "s" }
    )
}

/// A quantity as people write it: 4,096.
pub fn grouped(number: u64) -> String {
    match number {
        0..1000 => number.to_string(),
        _ => format!("{},{:03}", grouped(number / 1000), number % 1000),
    }
}

/// Each part has to stand behind the one before.
pub fn expect_parts(line: &str, parts: &[String]) {
    let mut rest = line;
    for part in parts {
        let behind = rest.split_once(part.as_str()).map(|(_, behind)| behind);
        rest = behind.unwrap_or_else(|| panic!("no '{part}' in '{rest}' of '{line}'"));
    }
}
