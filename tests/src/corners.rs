//! Recorded runs made by hand, with what is printed for them by the words of the
//! paper.

use crate::reader::{Entry, BASE, BLOCK_BYTES, NODES, PAGE_BYTES};
use crate::trace::{bytes_of, Call, MOST_BYTES};
use crate::writer::{lay_gathered, lay_page};

/// A trace, what is printed for it, and what it is about.
pub struct Corner {
    pub about: String,
    pub bytes: Vec<u8>,
    pub text: String,
}

/// All of them.
pub fn corners() -> Vec<Corner> {
    let all = [
        runs(),
        refused_calls(),
        buffered(),
        full(),
        cut_programs(),
        cut_erases(),
        cut_formatting(),
        not_due(),
        ended(),
        broken_starts(),
        broken_order(),
        broken_numbers(),
        broken_lengths(),
        longest(),
    ];
    all.into_iter().flatten().chain([example()]).collect()
}

fn played(about: &str, calls: &[&[Call]], text: &str) -> Corner {
    corner(about, bytes_of(&calls.concat()), text)
}

/// A trace of these calls breaks the form.
fn broken(about: &str, calls: &[&[Call]]) -> Corner {
    played(about, calls, "refused 26\n")
}

fn corner(about: &str, bytes: Vec<u8>, text: &str) -> Corner {
    Corner { about: about.to_string(), bytes, text: text.to_string() }
}

// ---------------------------------------------------------------------------
// Calls

const STEP: &[Call] = &[Call::Step];
const COMMIT: &[Call] = &[Call::Commit];
const FLUSH: &[Call] = &[Call::Flush];
const RECOVER: &[Call] = &[Call::Recover];

fn format(blocks: u64) -> Vec<Call> {
    vec![Call::Format { blocks }]
}

fn steps(count: u64) -> Vec<Call> {
    (0..count).map(|_| Call::Step).collect()
}

/// Formatting, and its steps.
fn formatted(blocks: u64) -> Vec<Call> {
    [format(blocks), steps(blocks + 1)].concat()
}

fn append(entries: &[(u16, u64)]) -> Vec<Call> {
    let (keys, words) = entries.iter().copied().unzip();
    vec![Call::Append { keys, words }]
}

/// An append, and its steps where no erase is due.
fn appended(entries: &[(u16, u64)]) -> Vec<Call> {
    [append(entries), steps(entries.len().div_ceil(24) as u64)].concat()
}

fn buffer(entries: &[(u16, u64)]) -> Vec<Call> {
    let (keys, words) = entries.iter().copied().unzip();
    vec![Call::Buffer { keys, words }]
}

fn collect(block: u64) -> Vec<Call> {
    vec![Call::Collect { block }]
}

/// Entries that set the valves from `first` on, the word being the valve.
fn valves(first: u16, count: u16) -> Vec<(u16, u64)> {
    (first..first + count).map(|valve| (valve, u64::from(valve))).collect()
}

/// A cut with this pattern, without its recovery.
fn cut(place: u64, pattern: &[u8]) -> Vec<Call> {
    vec![Call::Cut { place, pattern: pattern.to_vec() }]
}

const ZEROS: [u8; PAGE_BYTES] = [0; PAGE_BYTES];
const ONES: [u8; PAGE_BYTES] = [0xFF; PAGE_BYTES];
const BLOCK_ZEROS: [u8; BLOCK_BYTES] = [0; BLOCK_BYTES];
const BLOCK_ONES: [u8; BLOCK_BYTES] = [0xFF; BLOCK_BYTES];

/// One bit alone.
fn one_bit(byte: usize, bit: usize) -> [u8; PAGE_BYTES] {
    let mut pattern = ZEROS;
    pattern[byte] = 1 << bit;
    pattern
}

// ---------------------------------------------------------------------------
// Runs

fn runs() -> Vec<Corner> {
    let (five, seven) = ((5, 1000), (7, 20));
    let morning = [appended(&[five, seven]), appended(&[(32773, 0)])].concat();
    let far = [(32767, u64::MAX), (1, 0), (10, 1 << 63)];
    vec![
        played("nothing is printed for accepted calls", &[&format(4)], ""),
        played("nor for steps", &[&formatted(4), &appended(&[five])], ""),
        played("an empty journal", &[&formatted(4), RECOVER], "log 0\nset 0\n"),
        played("the most blocks", &[&formatted(16), RECOVER], "log 0\nset 0\n"),
        played("the morning of 01", &[&formatted(4), &morning, RECOVER], "log 3\nset 1\n7 20\n"),
        played(
            "numbers at their ends, valves ascending",
            &[&formatted(5), &appended(&far), RECOVER],
            "log 3\nset 3\n1 0\n10 9223372036854775808\n32767 18446744073709551615\n",
        ),
        played(
            "each recovery is printed, also twice in a row",
            &[&formatted(4), RECOVER, &appended(&[five]), RECOVER, RECOVER],
            // The head is closed after a recovery and the new one is erased first: one step is not
            // enough, and the append begun is dropped.
            "log 0\nset 0\nlog 0\nset 0\nlog 0\nset 0\n",
        ),
        played(
            "after a recovery an erase comes first",
            &[&formatted(4), RECOVER, &append(&[five]), &steps(2), RECOVER],
            "log 0\nset 0\nlog 1\nset 1\n5 1000\n",
        ),
        played(
            "a removal of an unset valve, also of 0, is in the log",
            &[&formatted(4), &appended(&[(32777, 0), (32768, 0)]), RECOVER],
            "log 2\nset 0\n",
        ),
        played(
            "a valve twice in a group: the later stands",
            &[&formatted(4), &appended(&[(5, 1), (5, 2)]), RECOVER],
            "log 2\nset 1\n5 2\n",
        ),
        played(
            "a commit empties the log",
            &[&formatted(4), &appended(&[five]), COMMIT, STEP, RECOVER],
            "log 0\nset 1\n5 1000\n",
        ),
        played(
            "a commit that was only begun does not",
            &[&formatted(4), &appended(&[five]), COMMIT, RECOVER],
            "log 1\nset 1\n5 1000\n",
        ),
        played(
            "a group whose second page was not written is dropped",
            &[&formatted(4), &append(&valves(1, 30)), STEP, RECOVER],
            "log 0\nset 0\n",
        ),
        played(
            "groups and patterns stand in call order",
            &[
                &formatted(4),
                &append(&[five, seven]),
                &cut(1, &ZEROS),
                RECOVER,
                &buffer(&[(9, 9)]),
                FLUSH,
                &steps(2),
                RECOVER,
            ],
            "log 2\nset 2\n5 1000\n7 20\nlog 3\nset 3\n5 1000\n7 20\n9 9\n",
        ),
    ]
}

/// Each prints its number, and the trace goes on.
fn refused_calls() -> Vec<Corner> {
    let on = [formatted(4), appended(&[(5, 1000)])].concat();
    let end = "log 1\nset 1\n5 1000\n";
    let many = valves(1, 97);
    let one = |about: &str, calls: &[&[Call]], numbers: &[u8]| {
        let lines: String = numbers.iter().map(|number| format!("refused {number}\n")).collect();
        let calls = calls.concat();
        played(about, &[&on, &calls, RECOVER], &format!("{lines}{end}"))
    };
    vec![
        one("a step with none pending", &[STEP, STEP], &[9, 9]),
        one("no entry", &[&append(&[]), &buffer(&[])], &[10, 10]),
        one("97 entries", &[&append(&many), &buffer(&many)], &[10, 10]),
        one("3000 entries", &[&append(&valves(0, 3000)), &buffer(&valves(0, 3000))], &[10, 10]),
        one("a removal with a word", &[&append(&[(32773, 1)]), &buffer(&[(32773, 1)])], &[11, 11]),
        one("valve 0", &[&append(&[(0, 1)]), &buffer(&[(0, 1)])], &[11, 11]),
        one("block 0 has the head, 4 is none", &[&collect(0), &collect(4)], &[15, 15]),
        one("no such block", &[&collect(u64::MAX), &collect(1 << 32), &collect(256)], &[15; 3]),
        one("an empty buffer", &[FLUSH], &[10]),
        one(
            "begun while one is pending",
            &[COMMIT, COMMIT, &append(&[(5, 1)]), &collect(1), &buffer(&[(5, 1)]), FLUSH],
            &[8; 5],
        ),
        played(
            "what was pending goes on",
            &[&on, COMMIT, COMMIT, STEP, STEP, RECOVER],
            "refused 8\nrefused 9\nlog 0\nset 1\n5 1000\n",
        ),
        played(
            "while formatting is under way all but its steps are refused",
            &[
                &format(4),
                &append(&[(5, 1)]),
                COMMIT,
                &collect(0),
                &buffer(&[(5, 1)]),
                FLUSH,
                &steps(6),
            ],
            &("refused 8\n".repeat(5) + "refused 9\n"),
        ),
        played(
            "a 193rd valve",
            &[
                &formatted(4),
                &appended(&valves(1, 96)),
                &appended(&valves(97, 96)),
                &append(&[(193, 1)]),
            ],
            "refused 12\n",
        ),
    ]
}

fn buffered() -> Vec<Corner> {
    let (five, six) = ((5, 1000), (6, 1));
    let held = [formatted(4), buffer(&[five]), buffer(&[six, (32773, 0)])].concat();
    let page = lay_gathered(2, &[&[entry(five)], &[entry(six), entry((32773, 0))]]);
    vec![
        played("a flush", &[&held, FLUSH, STEP, RECOVER], "log 3\nset 1\n6 1\n"),
        played(
            "buffered alone they are lost",
            &[&held, RECOVER, FLUSH],
            "log 0\nset 0\nrefused 10\n",
        ),
        played("a flush begun is not enough", &[&held, FLUSH, RECOVER], "log 0\nset 0\n"),
        played(
            "while the buffer holds a group",
            &[&held, &append(&[five]), COMMIT, &collect(0), &append(&[]), FLUSH, STEP, RECOVER],
            "refused 24\nrefused 24\nrefused 24\nrefused 24\nlog 3\nset 1\n6 1\n",
        ),
        played(
            "no places left",
            &[
                &held,
                &buffer(&valves(1, 14)),
                &buffer(&valves(1, 13)),
                &buffer(&[five]),
                FLUSH,
                STEP,
                RECOVER,
            ],
            &("refused 23\nrefused 23\nlog 16\nset 13\n".to_string() + &lines(&valves(1, 13))),
        ),
        played("17 entries", &[&formatted(4), &buffer(&valves(1, 17))], "refused 23\n"),
        played(
            "a cut flush, complete: all its groups count",
            &[&held, FLUSH, &cut(1, &page), RECOVER, FLUSH],
            "log 3\nset 1\n6 1\nrefused 10\n",
        ),
        played(
            "a cut flush, one bit of it missing: all vanish",
            &[&held, FLUSH, &cut(1, &one_bit(2, 0)), RECOVER, FLUSH],
            "log 0\nset 0\nrefused 10\n",
        ),
        played(
            "a second flush is of what was buffered since",
            &[&held, FLUSH, STEP, FLUSH, &buffer(&[(8, 8)]), FLUSH, STEP, RECOVER],
            "refused 10\nlog 4\nset 2\n6 1\n8 8\n",
        ),
    ]
}

fn entry((key, word): (u16, u64)) -> Entry {
    Entry { key, word }
}

fn lines(entries: &[(u16, u64)]) -> String {
    entries.iter().map(|(valve, word)| format!("{valve} {word}\n")).collect()
}

/// "47 one-page groups pass, the 48th gives 13", as does one for the buffer.
fn full() -> Vec<Corner> {
    let groups = |count: u64| (0..count).flat_map(|n| appended(&[(5, n)])).collect::<Vec<_>>();
    let after = "log 47\nset 1\n5 46\n";
    vec![
        played("47 groups", &[&formatted(4), &groups(47), RECOVER], after),
        played(
            "the 48th",
            &[&formatted(4), &groups(48), &buffer(&[(5, 1)]), RECOVER],
            &("refused 13\nrefused 9\nrefused 13\n".to_string() + after),
        ),
        played(
            "a commit and a collection make room",
            &[&formatted(4), &groups(47), COMMIT, STEP, &collect(1), STEP, &groups(1), RECOVER],
            "log 1\nset 1\n5 0\n",
        ),
    ]
}

// ---------------------------------------------------------------------------
// Cuts

fn cut_programs() -> Vec<Corner> {
    let begun = [formatted(4), append(&[(5, 1000)])].concat();
    let page = lay_page(NODES, 3, 2, &[entry((5, 1000))]);
    let (counted, gone) = ("log 1\nset 1\n5 1000\n", "log 0\nset 0\n");
    // Of the word's lowest byte, E8h, bit 3 is 1 and bit 0 is 0.
    let patterns: [(&str, [u8; PAGE_BYTES], &str); 8] = [
        ("no bit is kept: the page is complete", ZEROS, counted),
        ("all are kept: nothing was programmed", ONES, gone),
        ("the bits that are 1 at the end: complete", page, counted),
        ("the bits that are 0 at the end", page.map(|byte| !byte), gone),
        ("one bit that is 1 at the end", one_bit(64, 3), counted),
        ("one bit that is 0 at the end", one_bit(64, 0), gone),
        ("one bit of the check", one_bit(1, 7), gone),
        ("a place not used", one_bit(255, 7), counted),
    ];
    let mut corners: Vec<Corner> = Vec::new();
    for (about, pattern, text) in patterns {
        corners.push(played(about, &[&begun, &cut(1, &pattern), RECOVER], text));
    }
    let thirty = valves(1, 30);
    let torn = [formatted(4), append(&thirty), steps(1), cut(2, &ONES)].concat();
    corners.push(played(
        "after a cut the next append erases block 1 and starts there",
        &[&torn, RECOVER, &append(&[(5, 1)]), STEP, &cut(16, &ZEROS), RECOVER],
        &(gone.to_string() + "log 1\nset 1\n5 1\n"),
    ));
    corners.push(played(
        "a cut inside that erase leaves the block clean, whatever the pattern",
        &[
            &torn,
            RECOVER,
            &append(&[(5, 1)]),
            &cut(257, &BLOCK_ZEROS),
            RECOVER,
            &append(&[(5, 1)]),
            &cut(257, &BLOCK_ONES),
            RECOVER,
        ],
        &gone.repeat(3),
    ));
    corners.push(played(
        "a commit cut at its page, complete, counts",
        &[&formatted(4), &appended(&[(5, 1)]), COMMIT, &cut(2, &ZEROS), RECOVER],
        "log 0\nset 1\n5 1\n",
    ));
    corners.push(played(
        "a commit cut at its page, torn, does not",
        &[&formatted(4), &appended(&[(5, 1)]), COMMIT, &cut(2, &one_bit(2, 0)), RECOVER],
        "log 1\nset 1\n5 1\n",
    ));
    corners
}

/// Valve 5 in block 0; the head closed by a recovery; a commit in block 1; a
/// collection of block 0 whose node is moved: its erase is due.
fn cut_erases() -> Vec<Corner> {
    let moved = [
        formatted(4),
        appended(&[(5, 1)]),
        RECOVER.to_vec(),
        COMMIT.to_vec(),
        steps(2),
        collect(0),
        steps(1),
    ]
    .concat();
    let before = "log 1\nset 1\n5 1\n";
    let after = "log 0\nset 1\n5 1\n";
    // The commit's old base and the node of block 0, both gone or both left.
    let mut pages_0_and_1 = BLOCK_ZEROS;
    pages_0_and_1[..512].fill(0xFF);
    // Another moves the node; then the old block is erased without a page.
    let again = [collect(0), STEP.to_vec()].concat();
    let erase = |about: &str, pattern: &[u8], text: &str| {
        let calls: &[&[Call]] = &[&moved, &cut(256, pattern), RECOVER, &again, RECOVER];
        played(about, calls, &format!("{before}{after}{text}{after}"))
    };
    vec![
        // A wholly clean block is not collectible, and nothing is pending then.
        erase("a 1 bit is set: the block is clean", &BLOCK_ONES, "refused 15\nrefused 9\n"),
        erase("so it is if these bits alone were left", &pages_0_and_1, "refused 15\nrefused 9\n"),
        erase("a 0 bit stays as it was", &BLOCK_ZEROS, ""),
        erase("one page set to 1, the other as it was", &half(&pages_0_and_1), ""),
        played(
            "the erase made",
            &[&moved, STEP, RECOVER, &collect(0)],
            &format!("{before}{after}refused 15\n"),
        ),
    ]
}

/// The first page alone.
fn half(pattern: &[u8; BLOCK_BYTES]) -> [u8; BLOCK_BYTES] {
    let mut pattern = *pattern;
    pattern[PAGE_BYTES..].fill(0);
    pattern
}

/// "A cut inside formatting promises nothing": recovery answers what the bytes
/// are.
fn cut_formatting() -> Vec<Corner> {
    let erased = [format(4), steps(4)].concat();
    let base = lay_page(BASE, 3, 1, &[]);
    let empty = "log 0\nset 0\n";
    vec![
        played(
            "a cut at its first erase",
            &[&format(4), &cut(256, &BLOCK_ONES), RECOVER, STEP],
            "refused 4\n",
        ),
        played(
            "a cut at its last erase",
            &[&format(5), &steps(4), &cut(260, &BLOCK_ZEROS), RECOVER],
            "refused 4\n",
        ),
        played("its page not begun", &[&erased, &cut(0, &ONES), RECOVER, STEP], "refused 4\n"),
        played("its page torn", &[&erased, &cut(0, &one_bit(8, 1)), RECOVER, STEP], "refused 4\n"),
        played(
            "its page complete",
            &[&erased, &cut(0, &base), RECOVER, STEP],
            &(empty.to_string() + "refused 9\n"),
        ),
        played(
            "the trace goes on with the recovered state",
            &[
                &erased,
                &cut(0, &ZEROS),
                RECOVER,
                &append(&[(5, 1)]),
                &steps(2),
                COMMIT,
                STEP,
                RECOVER,
            ],
            &(empty.to_string() + "log 0\nset 1\n5 1\n"),
        ),
        played("recovery before formatting has finished", &[&erased, RECOVER, STEP], "refused 4\n"),
        played("recovery at once", &[&format(16), RECOVER, RECOVER, STEP], "refused 4\n"),
    ]
}

/// 27, which ends the trace: what comes behind it would print.
fn not_due() -> Vec<Corner> {
    let begun = [formatted(4), append(&[(5, 1000)])].concat();
    let behind: &[Call] = &[Call::Recover, Call::Step, Call::Recover];
    let one = |about: &str, calls: &[Call], place: u64| {
        let pattern = if place < 256 { &ZEROS[..] } else { &BLOCK_ZEROS[..] };
        played(about, &[calls, &cut(place, pattern), behind], "refused 27\n")
    };
    vec![
        one("no step is due", &formatted(4), 1),
        one(
            "none is due behind an append's last",
            &[formatted(4), appended(&[(5, 1)])].concat(),
            2,
        ),
        one("the page before", &begun, 0),
        one("the page behind", &begun, 2),
        one("the page sixteen on", &begun, 17),
        one("the block of the page", &begun, 256),
        one("the page past the medium", &begun, 255),
        one("the block past the medium", &begun, 271),
        one("page 64 of 4 blocks", &begun, 64),
        one("a page, where formatting erases", &format(4), 0),
        one("another block", &format(4), 257),
        one("the first block again", &[format(4), steps(1)].concat(), 256),
        one("block 0, where formatting writes its page", &[format(4), steps(4)].concat(), 256),
        one("no such block", &[format(4), steps(4)].concat(), 260),
        one("no step is due, and so no erase", &formatted(4), 257),
        played(
            "the erase before a first page is due, not the page",
            &[&formatted(4), RECOVER, &append(&[(5, 1)]), &cut(16, &ZEROS), RECOVER],
            "log 0\nset 0\nrefused 27\n",
        ),
        played(
            "a refused append leaves no step due",
            &[&formatted(4), &append(&[]), &cut(1, &ZEROS), RECOVER],
            "refused 10\nrefused 27\n",
        ),
        played(
            "no step is due after a recovery",
            &[&begun, &cut(1, &ONES), RECOVER, &cut(1, &ZEROS), RECOVER],
            "log 0\nset 0\nrefused 27\n",
        ),
    ]
}

/// A refused recovery ends the trace; a refused call does not.
fn ended() -> Vec<Corner> {
    vec![
        played("at once", &[&format(4), RECOVER, RECOVER, STEP, &append(&[])], "refused 4\n"),
        played(
            "not before it",
            &[&format(4), &append(&[]), RECOVER, STEP],
            "refused 8\nrefused 4\n",
        ),
    ]
}

// ---------------------------------------------------------------------------
// The form

/// Numbers as bytes.
fn numbers(numbers: &[u64]) -> Vec<u8> {
    numbers.iter().flat_map(|number| number.to_le_bytes()).collect()
}

/// A trace of these numbers breaks the form.
fn broken_bytes(about: &str, bytes: Vec<u8>) -> Corner {
    corner(about, bytes, "refused 26\n")
}

/// Codes and numbers with nothing behind them.
fn plain(calls: &[(u64, u64)]) -> Vec<u8> {
    let (codes, firsts): (Vec<u64>, Vec<u64>) = calls.iter().copied().unzip();
    numbers(&[&[calls.len() as u64][..], &codes, &firsts].concat())
}

fn broken_starts() -> Vec<Corner> {
    let count = |count: u64| numbers(&[count, 1, 4]);
    let mut corners = vec![
        corner("the shortest trace", count(1), ""),
        broken_bytes("no byte", vec![]),
        broken_bytes("seven bytes", vec![1, 0, 0, 0, 0, 0, 0]),
        broken_bytes("no call", numbers(&[0])),
        broken_bytes("no call, and more", count(0)),
        broken_bytes("a count alone", numbers(&[1])),
        broken_bytes("a code alone", numbers(&[1, 1])),
        broken_bytes("all but a byte", count(1)[..23].to_vec()),
        broken_bytes("a call too many in the count", count(2)),
        broken_bytes("a number too many", numbers(&[1, 1, 4, 0])),
        broken_bytes("a byte too many", [count(1), vec![0]].concat()),
        broken_bytes("text", b"format 4\nstep\n".to_vec()),
    ];
    for shift in [56, 59, 60, 61, 62, 63] {
        let about = format!("a count of 2^{shift} + 1");
        corners.push(broken_bytes(&about, count((1 << shift) + 1)));
        corners.push(broken_bytes(&about, numbers(&[1 << shift])));
    }
    corners.push(broken_bytes("the greatest count", count(u64::MAX)));
    corners
}

fn broken_order() -> Vec<Corner> {
    let on = formatted(4);
    let mut corners = vec![
        broken("formatting twice", &[&format(4), &format(4)]),
        broken("formatting again", &[&on, &format(4)]),
        broken("a recovery first", &[RECOVER, &on]),
        broken("a cut at the end", &[&format(4), &cut(256, &BLOCK_ONES)]),
        broken("a cut, then a step", &[&format(4), &cut(256, &BLOCK_ONES), STEP, RECOVER]),
        broken(
            "a cut, then a cut",
            &[&format(4), &cut(256, &BLOCK_ONES), &cut(256, &BLOCK_ONES), RECOVER],
        ),
        broken(
            "a cut, then formatting",
            &[&format(4), &cut(256, &BLOCK_ONES), &format(4), RECOVER],
        ),
        broken("a cut that names another place, at the end", &[&on, &cut(9, &ZEROS)]),
        broken("nothing is printed before 26", &[&on, STEP, RECOVER, &append(&[]), &format(4)]),
        broken(
            "nor where the run would have ended before",
            &[&format(4), RECOVER, &cut(3, &ZEROS)],
        ),
        corner("a recovery without a cut", plain(&[(1, 4), (7, 0)]), "refused 4\n"),
    ];
    for code in 2..=9 {
        corners.push(broken_bytes("another code first", plain(&[(code, 0)])));
    }
    for code in [0, 10, 11, 255, 256, 261, 1 << 32, (1 << 32) + 5, 1 << 63, u64::MAX] {
        corners.push(broken_bytes("no such code", plain(&[(1, 4), (code, 0)])));
        corners.push(broken_bytes("no such code first", plain(&[(code, 4)])));
    }
    corners
}

fn broken_numbers() -> Vec<Corner> {
    let mut corners = Vec::new();
    for blocks in [0, 1, 3, 17, 255, 256, (1 << 32) + 4, 1 << 63, u64::MAX] {
        corners.push(broken_bytes("so many blocks", plain(&[(1, blocks)])));
    }
    for blocks in 4..=16 {
        corners.push(corner("4 to 16 blocks", plain(&[(1, blocks), (5, 0)]), ""));
    }
    for code in [3, 5, 7, 9] {
        for number in [1, 4, 256, 1 << 32, u64::MAX] {
            corners.push(broken_bytes("a number that is not 0", plain(&[(1, 4), (code, number)])));
        }
    }
    for block in [0, 1, 16, 1 << 40, u64::MAX] {
        corners.push(corner("any block", plain(&[(1, 4), (4, block)]), "refused 8\n"));
    }
    // 2, 8 and 10 times these are small numbers in 64 bits, or in fewer.
    for entries in [1, 2, 97, 1 << 31, 1 << 32, 1 << 60, 1 << 61, 1 << 62, 1 << 63, u64::MAX] {
        for code in [2, 8] {
            corners.push(broken_bytes("no entries there", plain(&[(1, 4), (code, entries)])));
        }
    }
    for place in [272, 273, 511, 512, 1 << 32, u64::MAX] {
        let calls = [&format(4)[..], &cut(place, &BLOCK_ZEROS), RECOVER];
        corners.push(broken("a cut past 271", &calls));
    }
    corners
}

/// Lists and patterns of other lengths than their numbers say.
fn broken_lengths() -> Vec<Corner> {
    let on = formatted(4);
    let short = vec![Call::Append { keys: vec![5, 6], words: vec![1] }];
    let long = vec![Call::Append { keys: vec![5], words: vec![1, 2] }];
    let fives = vec![
        Call::Buffer { keys: vec![5; 4], words: vec![5; 3] },
        Call::Buffer { keys: vec![], words: vec![5] },
    ];
    let mut corners = vec![
        broken("a word is missing", &[&on, &short]),
        broken("a word is too many", &[&on, &long]),
        played("what a call lacks and the next has over", &[&on, &fives], "refused 10\n"),
    ];
    let cuts = [
        (0, 255),
        (0, 257),
        (0, 0),
        (1, 4096),
        (255, 4096),
        (256, 256),
        (256, 4095),
        (271, 256),
        (271, 4097),
    ];
    for (place, length) in cuts {
        let calls = [&format(4)[..], &cut(place, &vec![0; length]), RECOVER];
        corners.push(broken("a pattern of another length", &calls));
    }
    for (place, length) in [(0, 256), (255, 256), (257, 4096), (271, 4096)] {
        let calls = [&format(4)[..], &cut(place, &vec![0; length]), RECOVER];
        corners.push(played("a pattern of its length", &calls, "refused 27\n"));
    }
    let two = bytes_of(&[on, append(&[(5, 1), (6, 2)]), cut(1, &ZEROS), RECOVER.to_vec()].concat());
    for less in [1, 2, 8, 16, 20, 256, 276] {
        corners.push(broken_bytes("cut off", two[..two.len() - less].to_vec()));
    }
    for more in [1, 2, 8, 256] {
        corners.push(broken_bytes("and nothing more", [two.clone(), vec![0; more]].concat()));
    }
    corners
}

/// 65536 bytes are a trace, and two more are none.
fn longest() -> Vec<Corner> {
    let filled = |entries: u16, steps: usize| {
        let mut calls = [formatted(4), append(&valves(1, entries))].concat();
        calls.resize(calls.len() + steps, Call::Step);
        bytes_of(&calls)
    };
    let (most, over) = (filled(4, 4086), filled(1, 4088));
    assert_eq!((most.len(), over.len()), (MOST_BYTES, MOST_BYTES + 2));
    vec![
        corner("65536 bytes", most.clone(), &"refused 9\n".repeat(4085)),
        broken_bytes("65538 bytes", over),
        broken_bytes("65537 bytes", [most.clone(), vec![0]].concat()),
        broken_bytes("twice as many", [most.clone(), most].concat()),
        broken_bytes("a megabyte", vec![0; 1 << 20]),
    ]
}

// ---------------------------------------------------------------------------
// The example of the documents

/// A file of the project.
pub fn file(path: &str) -> String {
    let path = format!("{}/../{path}", env!("CARGO_MANIFEST_DIR"));
    std::fs::read_to_string(path).expect("a file of the project")
}

/// The trace that docs/FORMAT.md lists, lines of zeros left out, and what it
/// says is printed.
pub fn example() -> Corner {
    let text = file("docs/FORMAT.md");
    let section = text.split("\n## A recorded run\n").nth(1).expect("its section");
    let section = section.split("\n## ").next().expect("its section");
    let (mut bytes, mut printed) = (vec![0; 470], String::new());
    for line in section.lines().filter_map(|line| line.strip_prefix("    ")) {
        let Some((offset, listed)) = line.split_once("  ") else {
            printed += &format!("{line}\n");
            continue;
        };
        let offset = usize::from_str_radix(offset, 16).expect("an offset");
        for (byte, digits) in bytes[offset..].iter_mut().zip(listed.split(' ')) {
            *byte = u8::from_str_radix(digits, 16).expect("a byte");
        }
    }
    corner("the example of the documents", bytes, &printed)
}
