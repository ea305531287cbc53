//! The grammar once more as rules, and a stack of what is due: at each word all ways to go on are tried
//! together, so that the first word with no way left is found without a reader of forms.

use second::words::words;
use std::collections::BTreeSet;
use std::sync::LazyLock;

/// A rule a line: what is due, and what it is written as. A star marks what begins a node.
const RULES: &str = "
    TEXT = EDITION SIGNAL
    SIGNAL* = ( input CHANNEL )
    SIGNAL* = ( time )
    SIGNAL* = ( ext EXPRESSION )
    SIGNAL* = ( delay VALUE SIGNAL )
    SIGNAL* = ( let VARIABLE TYPE SIGNAL SIGNAL )
    SIGNAL* = ( switch VARIABLE PLAIN SIGNAL SIGNAL SIGNAL )
    SIGNAL* = ( group SIGNAL BRANCH BRANCHES )
    SIGNAL* = ( until SIGNAL CASE CASES )
    BRANCHES =
    BRANCHES = BRANCH BRANCHES
    CASES =
    CASES = CASE CASES
    BRANCH* = ( branch LABEL VARIABLE PLAIN SIGNAL )
    CASE* = ( case SIGNAL TARGET )
    EXPRESSION* = USE
    EXPRESSION* = VALUE
    EXPRESSION* = ( add EXPRESSION EXPRESSION )
    EXPRESSION* = ( subtract EXPRESSION EXPRESSION )
    EXPRESSION* = ( multiply EXPRESSION EXPRESSION )
    EXPRESSION* = ( divide EXPRESSION EXPRESSION )
    EXPRESSION* = ( less EXPRESSION EXPRESSION )
    EXPRESSION* = ( equal EXPRESSION EXPRESSION )
    EXPRESSION* = ( not EXPRESSION )
    EXPRESSION* = ( and EXPRESSION EXPRESSION )
    EXPRESSION* = ( or EXPRESSION EXPRESSION )
    EXPRESSION* = ( if EXPRESSION EXPRESSION EXPRESSION )
    EXPRESSION* = ( just EXPRESSION )
    EXPRESSION* = ( take VARIABLE PLAIN EXPRESSION EXPRESSION EXPRESSION )
    VALUE = BARE
    VALUE = ( some BARE )
    VALUE = ( none PLAIN )
    BARE = NUMBER
    BARE = true
    BARE = false
    BARE = unit
    TYPE = PLAIN
    TYPE = maybe-unit
    TYPE = maybe-bool
    TYPE = maybe-int
    PLAIN = unit
    PLAIN = bool
    PLAIN = int
    EDITION = edition-one
    EDITION = edition-two
";

/// What is due, whether it begins a node, and what it is written as.
type Rule = (&'static str, bool, Vec<&'static str>);

static ALL: LazyLock<Vec<Rule>> = LazyLock::new(|| {
    let rule = |line: &'static str| -> Rule {
        let (due, written) = line.split_once('=').expect("a rule");
        let due = due.trim();
        (due.trim_end_matches('*'), due.ends_with('*'), written.split_whitespace().collect())
    };
    RULES.lines().map(str::trim).filter(|line| !line.is_empty()).map(rule).collect()
});

/// What is due, the next last, and how many nodes have begun.
type Way = (Vec<&'static str>, usize);

/// All ways to have a word of the text next, from one way: the due that a word stands for is on top.
fn opened(way: Way, to: &mut BTreeSet<Way>) {
    let (mut due, nodes) = way;
    let Some(top) = due.pop() else {
        to.insert((due, nodes));
        return;
    };
    let mut rules = ALL.iter().filter(|rule| rule.0 == top).peekable();
    if rules.peek().is_none() {
        due.push(top);
        to.insert((due, nodes));
        return;
    }
    for (_, begins, written) in rules {
        let more = due.iter().chain(written.iter().rev()).copied().collect();
        opened((more, nodes + usize::from(*begins)), to);
    }
}

/// Digits, with a minus in front or without.
fn is_number(word: &str) -> bool {
    let digits = word.strip_prefix('-').unwrap_or(word);
    !digits.is_empty() && digits.bytes().all(|byte| byte.is_ascii_digit())
}

/// The words of the form, all that the rules are written with.
fn is_kept(word: &str) -> bool {
    word.starts_with(char::is_lowercase) && ALL.iter().any(|rule| rule.2.contains(&word))
}

fn is_name(word: &str) -> bool {
    let mut letters = word.chars();
    letters.next().is_some_and(|first| first.is_ascii_alphabetic())
        && letters.all(|letter| letter.is_ascii_alphanumeric() || letter == '-')
        && word.len() < 32
        && !is_kept(word)
}

/// Whether a word may stand where something is due, but for its name or its range.
fn fits(due: &str, word: &str) -> bool {
    match due {
        "CHANNEL" | "NUMBER" => is_number(word),
        "VARIABLE" | "LABEL" | "TARGET" | "USE" => is_name(word),
        _ => due == word,
    }
}

/// The number of a word without the zeros in front, if it is short enough to have one.
fn number(word: &str) -> Option<i64> {
    let minus = word.starts_with('-');
    let digits = word.trim_start_matches('-').trim_start_matches('0');
    let size: i64 =
        if digits.is_empty() { 0 } else { digits.get(..20.min(digits.len()))?.parse().ok()? };
    Some(if minus { -size } else { size })
}

/// Code and place of the first word that does not fit, if there is one.
pub fn first_fault(text: &[u8]) -> Option<(u32, usize)> {
    let all: Vec<(usize, String)> = words(text)
        .iter()
        .map(|word| (word.at, String::from_utf8_lossy(word.bytes).into_owned()))
        .collect();
    let known = |name: &str| {
        let behind = |three: &[(usize, String)]| {
            three[0].1 == "(" && three[1].1 == "branch" && three[2].1 == name
        };
        all.windows(3).any(behind)
    };
    let (mut variables, mut bound) = (BTreeSet::new(), BTreeSet::new());
    let mut ways: BTreeSet<Way> = BTreeSet::from([(vec!["TEXT"], 0)]);
    for (at, word) in &all {
        let mut open = BTreeSet::new();
        ways.into_iter().for_each(|way| opened(way, &mut open));
        open.retain(|(due, nodes)| *nodes <= 1008 && due.last().is_some_and(|due| fits(due, word)));
        let Some(due) = open.iter().next().and_then(|way| way.0.last().copied()) else {
            return Some((21, *at));
        };
        let good = match due {
            "VARIABLE" | "LABEL" => bound.insert(word.clone()),
            "USE" => variables.contains(word),
            "TARGET" => known(word),
            _ => true,
        };
        if !good {
            return Some((22, *at));
        }
        let range = match due {
            "CHANNEL" => 0..=7,
            "NUMBER" => -2_147_483_648..=2_147_483_647,
            _ => 0..=0,
        };
        if matches!(due, "CHANNEL" | "NUMBER")
            && !number(word).is_some_and(|it| range.contains(&it))
        {
            return Some((23, *at));
        }
        if due == "VARIABLE" {
            variables.insert(word.clone());
        }
        let behind = |(due, nodes): Way| (due[..due.len() - 1].to_vec(), nodes);
        ways = open.into_iter().map(behind).collect();
    }
    let mut open = BTreeSet::new();
    ways.into_iter().for_each(|way| opened(way, &mut open));
    let ended = open.iter().any(|way| way.0.is_empty());
    (!ended).then_some((21, text.len()))
}
