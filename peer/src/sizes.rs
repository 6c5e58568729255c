//! Which sizes an item of a form can have at a depth, and which totals several items can make.

use crate::items::{length_bytes_are_allowed, length_is_allowed};
use crate::items::{Form, KINDS, LIST, MOST_DEPTH, MOST_LENGTH_BYTES, MOST_TEXT};
use std::sync::OnceLock;

type Run = (u64, u64);

/// Numbers of bytes, none above those of the largest text: runs from a first to a last one, in order and apart from one another.
#[derive(Clone, PartialEq, Eq, Debug)]
pub struct Totals(Vec<Run>);

impl Totals {
    fn of(mut runs: Vec<Run>) -> Totals {
        const MOST: u64 = MOST_TEXT as u64;
        runs.retain_mut(|(first, last)| {
            *last = MOST.min(*last);
            *first <= MOST
        });
        runs.sort_unstable();
        runs.dedup_by(|next, run| {
            let meet = next.0 <= run.1 + 1;
            run.1 = if meet { run.1.max(next.1) } else { run.1 };
            meet
        });
        Totals(runs)
    }

    pub fn only(total: u64) -> Totals {
        Totals::of(vec![(total, total)])
    }

    fn any_of(all: impl IntoIterator<Item = Totals>) -> Totals {
        Totals::of(all.into_iter().flat_map(|totals| totals.0).collect())
    }

    fn sums<'a>(&'a self, other: &'a Totals) -> impl Iterator<Item = Run> + 'a {
        self.0.iter().flat_map(|one| other.0.iter().map(|two| (one.0 + two.0, one.1 + two.1)))
    }

    /// What one of these and one of the others make together.
    pub fn plus(&self, other: &Totals) -> Totals {
        Totals::of(self.sums(other).collect())
    }

    /// What so many of these make together, each of them any.
    pub fn times(&self, count: u64) -> Totals {
        if count == 0 {
            return Totals::only(0);
        }
        let half = self.times(count / 2);
        let even = half.plus(&half);
        if count.is_multiple_of(2) {
            even
        } else {
            even.plus(self)
        }
    }

    /// Whether one of these and one of the others make this total.
    pub fn make(&self, other: &Totals, total: u64) -> bool {
        self.sums(other).any(|(first, last)| (first..=last).contains(&total))
    }
}

/// A format byte and the length bytes with which a form can say a length.
fn head_sizes(form: Form, length: u64) -> Totals {
    let allowed = |length_bytes: &usize| length_bytes_are_allowed(form, *length_bytes, length);
    Totals::any_of((1..=MOST_LENGTH_BYTES).filter(allowed).map(|length_bytes| Totals::only(1 + length_bytes as u64)))
}

/// Items that are no lists.
fn plain_sizes(form: Form) -> Totals {
    let has_kind = |length: &u64| KINDS.iter().any(|kind| kind.code != LIST && length_is_allowed(kind, *length));
    let lengths = (0..=MOST_TEXT as u64).filter(has_kind);
    Totals::any_of(lengths.map(|length| head_sizes(form, length).plus(&Totals::only(length))))
}

/// Lists of as many members as fit a text, where a member has one of these sizes.
fn list_sizes(form: Form, member: &Totals) -> Totals {
    let mut members = Totals::only(0);
    let mut sizes = Vec::new();
    for count in 0.. {
        if members.0.is_empty() {
            break;
        }
        sizes.push(head_sizes(form, count).plus(&members));
        members = members.plus(member);
    }
    Totals::any_of(sizes)
}

/// The last entry stands for the depth that no item has.
fn sizes_by_depth(form: Form) -> Vec<Totals> {
    let plain = plain_sizes(form);
    let mut sizes = vec![Totals::of(vec![]); MOST_DEPTH + 2];
    for depth in (1..=MOST_DEPTH).rev() {
        sizes[depth] = Totals::any_of([plain.clone(), list_sizes(form, &sizes[depth + 1])]);
    }
    sizes
}

/// The sizes of one item at a depth, none behind the last depth.
pub fn item_sizes(form: Form, depth: usize) -> &'static Totals {
    static GOOD: OnceLock<Vec<Totals>> = OnceLock::new();
    static LEAN: OnceLock<Vec<Totals>> = OnceLock::new();
    let sizes = match form {
        Form::Good => &GOOD,
        Form::Lean => &LEAN,
    };
    &sizes.get_or_init(|| sizes_by_depth(form))[depth]
}

#[cfg(test)]
mod tests {
    use super::*;
    use crate::items::{kind_of, Kind, B};
    use crate::reader::{Reader, Status};

    /// Sizes up to this one are tried, one by one.
    const MOST_TRIED: usize = 600;

    /// Whether a size can be had, for each size.
    type Had = Vec<bool>;

    fn had(can: impl Fn(usize) -> bool) -> Had {
        (0..=MOST_TRIED).map(can).collect()
    }

    fn together(one: &Had, other: &Had) -> Had {
        had(|total| (0..=total).any(|part| one[part] && other[total - part]))
    }

    /// Whether so many length bytes may say a length of those tried: one holds 255, and two hold all.
    fn may_say(form: Form, length_bytes: usize, length: usize) -> bool {
        let least = if length < 256 { 1 } else { 2 };
        length_bytes == least || form == Form::Good && length_bytes > least
    }

    /// Items of a kind with so many length bytes, where the next depth's items, by their count, can have these totals.
    fn had_by_kind(form: Form, kind: &Kind, length_bytes: usize, members: &[Had]) -> Had {
        let mut sizes = had(|_| false);
        let says = |length: &usize| may_say(form, length_bytes, *length) && length_is_allowed(kind, *length as u64);
        for length in (0..=MOST_TRIED).filter(says) {
            let content = had(|size| size == length);
            let none = had(|_| false);
            let inside = if kind.code == LIST { members.get(length).unwrap_or(&none) } else { &content };
            for size in 1 + length_bytes..=MOST_TRIED {
                sizes[size] |= inside[size - 1 - length_bytes];
            }
        }
        sizes
    }

    /// The totals that items at a depth can have, by their count.
    fn had_by_count(form: Form, depth: usize) -> Vec<Had> {
        let mut by_count = vec![had(|size| size == 0)];
        if depth > MOST_DEPTH {
            return by_count;
        }
        let members = had_by_count(form, depth + 1);
        let heads = KINDS.iter().flat_map(|kind| (1..=3).map(move |length_bytes| (kind, length_bytes)));
        let kinds: Vec<Had> = heads.map(|(kind, length_bytes)| had_by_kind(form, kind, length_bytes, &members)).collect();
        let one = had(|size| kinds.iter().any(|sizes| sizes[size]));
        for count in 0..MOST_TRIED / 2 {
            by_count.push(together(&by_count[count], &one));
        }
        by_count
    }

    #[test]
    fn only_lean_items_at_the_last_depth_miss_a_size() {
        let all = Totals(vec![(2, 32_000)]);
        for depth in 1..=MOST_DEPTH {
            assert_eq!(*item_sizes(Form::Good, depth), all);
        }
        for depth in 1..MOST_DEPTH {
            assert_eq!(*item_sizes(Form::Lean, depth), all);
        }
        assert_eq!(*item_sizes(Form::Lean, MOST_DEPTH), Totals(vec![(2, 257), (259, 32_000)]));
        assert_eq!(item_sizes(Form::Lean, MOST_DEPTH).times(2), Totals(vec![(4, 32_000)]));
    }

    #[test]
    fn totals_agree_with_all_items_tried() {
        let nothing = Totals::only(0);
        for form in Form::BOTH {
            for depth in MOST_DEPTH - 2..=MOST_DEPTH {
                for (count, totals) in had_by_count(form, depth).iter().enumerate() {
                    let sizes = item_sizes(form, depth).times(count as u64);
                    assert_eq!(had(|total| sizes.make(&nothing, total as u64)), *totals, "{form:?}, {count} at {depth}");
                }
            }
        }
    }

    /// Lists of one member, then one of so many, whose members have this depth.
    fn lists_above(depth: usize, members: usize) -> Vec<u8> {
        [[1, 1].repeat(depth - 2), vec![1, members as u8]].concat()
    }

    /// The answer to such lists and a byte behind them, where so many bytes are left behind the lists, and where by what was
    /// tried the lists and the byte can come there or not.
    fn expected(lists: &[u8], lists_can: bool, byte_can: bool) -> (Status, usize) {
        match (lists_can, byte_can) {
            (false, _) => (Status::Refused(5), lists.len()),
            (true, false) => (Status::Refused(5), lists.len() + 1),
            (true, true) => (Status::More, lists.len() + 1),
        }
    }

    #[test]
    fn format_bytes_around_the_missing_size_agree_with_all_items_tried() {
        for (form, depth) in Form::BOTH.into_iter().flat_map(|form| (MOST_DEPTH - 2..=MOST_DEPTH).map(move |depth| (form, depth)))
        {
            let (here, members) = (had_by_count(form, depth), had_by_count(form, depth + 1));
            for format in (0..=255u8).filter(|format| format % 4 > 0) {
                let Some(kind) = kind_of(u32::from(format >> 2)) else { continue };
                let begun = had_by_kind(form, kind, usize::from(format % 4), &members);
                for count in 1..=3 {
                    let lists = lists_above(depth, count);
                    let fills = together(&begun, &here[count - 1]);
                    for size in 2..=MOST_TRIED {
                        let answer = Reader::fresh(form, lists.len() + size).feed(&[&lists[..], &[format]].concat());
                        let context = format!("{form:?} {format:02X}, one of {count} at {depth}, {size} left");
                        assert_eq!(answer, expected(&lists, here[count][size], fills[size]), "{context}");
                    }
                }
            }
        }
    }

    #[test]
    fn length_bytes_around_the_missing_size_agree_with_all_items_tried() {
        for form in Form::BOTH {
            let here = had_by_count(form, MOST_DEPTH);
            let head = [&lists_above(MOST_DEPTH, 2)[..], &[(B * 4) as u8 + 1]].concat();
            for (size, length) in (250..=270).flat_map(|size| (0..=255).map(move |length| (size, length))) {
                let fits = size >= 2 + length && here[1][size - 2 - length];
                let answer = Reader::fresh(form, head.len() - 1 + size).feed(&[&head[..], &[length as u8]].concat());
                assert_eq!(answer, expected(&head, true, fits), "{form:?} {length} of {size}");
            }
        }
    }
}
