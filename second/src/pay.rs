//! Paying in real chips, request No. 13, from REQUESTS.md alone: a tray of rows, the sittings that a settled block lists, a proposal of chips.
//! Everything here is done on whole texts and vectors, by splitting and searching, and not byte by byte.

/// A row of the tray.
#[derive(Clone, Debug, PartialEq)]
pub struct Row {
    pub worth: u64,
    pub count: u64,
}

/// A number of 1 to 9 digits with no leading zero, save `0`.
fn number(text: &str) -> Option<u64> {
    let good = !text.is_empty()
        && text.len() <= 9
        && text.bytes().all(|b| b.is_ascii_digit())
        && (text == "0" || !text.starts_with('0'));
    if good {
        text.parse().ok()
    } else {
        None
    }
}

/// The value of a `key=value` line, if the line begins with that key.
fn value<'a>(line: &'a str, key: &str) -> Option<&'a str> {
    line.strip_prefix(key)?.strip_prefix('=')
}

/// Whether every row, the number of rows and of sittings and the proposal's length are within the request's bounds.
pub fn in_bounds(rows: &[Row], sittings: usize, long: usize) -> bool {
    rows.len() <= 16
        && sittings <= 10
        && long == rows.len() * sittings
        && rows.iter().all(|r| (1..=100_000).contains(&r.worth) && r.count <= 10_000)
}

/// The checker's code, and the tray afterwards.
pub fn check(rows: &[Row], paid: &[u64], proposal: &[u64]) -> (u32, Vec<Row>) {
    if !in_bounds(rows, paid.len(), proposal.len()) {
        return (2, rows.to_vec());
    }
    let mut left: Vec<i128> = rows.iter().map(|r| r.count as i128).collect();
    let mut due: Vec<i128> = paid.iter().map(|p| *p as i128).collect();
    for (place, chips) in proposal.iter().enumerate() {
        let (sitting, row) = (place / rows.len(), place % rows.len());
        left[row] -= *chips as i128;
        due[sitting] -= *chips as i128 * rows[row].worth as i128;
    }
    if left.iter().any(|l| *l < 0) || due.iter().any(|d| *d != 0) {
        return (16, rows.to_vec());
    }
    (0, rows.iter().zip(left).map(|(r, l)| Row { worth: r.worth, count: l as u64 }).collect())
}

/// The simple proposer, chip by chip: each sitting takes one chip of the greatest worth that fits and is left, again and again.
pub fn propose(rows: &[Row], paid: &[u64]) -> Option<Vec<u64>> {
    let mut left: Vec<u64> = rows.iter().map(|r| r.count).collect();
    let mut proposal = vec![0; rows.len() * paid.len()];
    for (sitting, amount) in paid.iter().enumerate() {
        let mut due = *amount;
        while due > 0 {
            let best = (0..rows.len())
                .filter(|i| left[*i] > 0 && rows[*i].worth <= due)
                .min_by_key(|i| (std::cmp::Reverse(rows[*i].worth), *i))?;
            left[best] -= 1;
            due -= rows[best].worth;
            proposal[sitting * rows.len() + best] += 1;
        }
    }
    Some(proposal)
}

/// What a run of `pay` writes on this input.
pub fn run(input: &[u8], checking: bool) -> String {
    let text: String = input.iter().map(|b| *b as char).collect();
    let whole = text.rfind('\n').map_or("", |end| &text[..=end]);
    let lines: Vec<&str> = whole.lines_of();
    let Some((mut rows, rest)) = tray(&lines) else {
        return "code=2\n".to_string();
    };
    let mut written = String::new();
    let mut listed: Vec<&str> = Vec::new();
    let mut at = 0;
    while at < rest.len() {
        let line = rest[at];
        at += 1;
        if value(line, "sitting").is_some() || value(line, "paid").is_some() {
            listed.push(line);
        }
        let Some(unclaimed) = value(line, "unclaimed") else {
            continue;
        };
        let sittings = if number(unclaimed).is_some() { pairs(&listed) } else { None };
        listed.clear();
        if checking {
            let gives: Vec<&str> = rest[at..].iter().map_while(|l| value(l, "give")).collect();
            at += gives.len();
            let proposal: Option<Vec<u64>> = gives.iter().map(|g| number(g)).collect();
            let code = match (sittings, proposal) {
                (Some(sittings), Some(proposal)) => {
                    let paid: Vec<u64> = sittings.iter().map(|s| s.1).collect();
                    let (code, after) = check(&rows, &paid, &proposal);
                    rows = after;
                    code
                }
                _ => 2,
            };
            written += &format!("code={code}\n");
        } else {
            written += &payment(&mut rows, sittings);
        }
    }
    written + &tray_text(&rows)
}

/// One answer of the proposer.
fn payment(rows: &mut Vec<Row>, sittings: Option<Vec<(u64, u64)>>) -> String {
    let Some(sittings) = sittings else {
        return "code=2\n".to_string();
    };
    let paid: Vec<u64> = sittings.iter().map(|s| s.1).collect();
    let Some(proposal) = propose(rows, &paid) else {
        return "code=17\n".to_string();
    };
    let (code, after) = check(rows, &paid, &proposal);
    assert_eq!(code, 0, "what is proposed is accepted");
    let mut text = "code=0\n".to_string();
    for (place, (sitting, _)) in sittings.iter().enumerate() {
        text += &format!("sitting={sitting}\n");
        for chips in &proposal[place * rows.len()..(place + 1) * rows.len()] {
            text += &format!("give={chips}\n");
        }
    }
    *rows = after;
    text
}

/// The listed sittings with what each is paid, where the lines alternate, their numbers are good and there are at most ten.
fn pairs(listed: &[&str]) -> Option<Vec<(u64, u64)>> {
    if listed.len() % 2 != 0 || listed.len() > 20 {
        return None;
    }
    listed
        .chunks(2)
        .map(|two| Some((number(value(two[0], "sitting")?)?, number(value(two[1], "paid")?)?)))
        .collect()
}

/// The tray at the front of the lines, and the lines behind it.
fn tray<'a>(lines: &'a [&'a str]) -> Option<(Vec<Row>, &'a [&'a str])> {
    let rows = number(value(lines.first()?, "rows")?)? as usize;
    if rows > 16 {
        return None;
    }
    let mut tray = Vec::new();
    for row in 0..rows {
        let worth = number(value(lines.get(1 + 2 * row)?, "worth")?)?;
        let count = number(value(lines.get(2 + 2 * row)?, "count")?)?;
        tray.push(Row { worth, count });
    }
    if !in_bounds(&tray, 0, 0) {
        return None;
    }
    Some((tray, &lines[1 + 2 * rows..]))
}

fn tray_text(rows: &[Row]) -> String {
    let mut text = format!("rows={}\n", rows.len());
    for row in rows {
        text += &format!("worth={}\ncount={}\n", row.worth, row.count);
    }
    text
}

/// Lines by LF alone (a CR is a byte of its line).
trait LinesOf {
    fn lines_of(&self) -> Vec<&str>;
}

impl LinesOf for str {
    fn lines_of(&self) -> Vec<&str> {
        self.strip_suffix('\n').map_or(Vec::new(), |body| body.split('\n').collect())
    }
}
