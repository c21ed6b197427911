//! What the single form asks of a text by itself, whatever plan it gives. With that
//! plan it leaves one text: a line's words and numbers are the plan's, and nothing
//! else about the line is free.

/// A law that was broken.
type Broken = &'static str;

/// Judges an accepted text.
pub fn judge(text: &[u8]) -> Result<(), Broken> {
    judge_spaces(text)?;
    judge_numbers(text)?;
    let mut last = (0, 0);
    for line in text.split(|byte| *byte == b'\n') {
        let place = place_of(line)?;
        if place < last {
            return Err("a line stands out of its order");
        }
        last = place;
        judge_recipients(line)?;
    }
    Ok(())
}

fn is_in_a_run(byte: Option<&u8>) -> bool {
    byte.is_some_and(u8::is_ascii_alphanumeric)
}

/// A space stands between two words or numbers, and alone.
fn judge_spaces(text: &[u8]) -> Result<(), Broken> {
    let spaces = (0..text.len()).filter(|at| text[*at] == b' ');
    for at in spaces {
        let before = at.checked_sub(1).and_then(|at| text.get(at));
        if !is_in_a_run(before) || !is_in_a_run(text.get(at + 1)) {
            return Err("a space is not between two words or numbers");
        }
    }
    Ok(())
}

fn judge_numbers(text: &[u8]) -> Result<(), Broken> {
    let mut runs = text.split(|byte| !byte.is_ascii_digit());
    match runs.any(|digits| digits.len() > 1 && digits[0] == b'0') {
        true => Err("a number has a leading zero"),
        false => Ok(()),
    }
}

/// Where a line belongs: which form it has, and of an op whose it is. Windows keep
/// the order in which they run, and each domain's ops theirs.
fn place_of(line: &[u8]) -> Result<(usize, u8), Broken> {
    let forms = [&b"(pad "[..], b"(domain ", b"(window ", b"(run ", b"(op "];
    let form = forms.iter().position(|form| line.starts_with(form));
    let form = form.ok_or("a line has no form, or is empty")?;
    Ok(match (forms[form], line.get(forms[form].len())) {
        (b"(op ", Some(domain)) => (form, *domain),
        _ => (form, 0),
    })
}

fn judge_recipients(line: &[u8]) -> Result<(), Broken> {
    let Some(list) = line
        .strip_suffix(b"))")
        .filter(|line| line.starts_with(b"(domain"))
    else {
        return Ok(());
    };
    let word = list.iter().rposition(|byte| *byte == b'(');
    let list = word.map_or(&[][..], |at| &list[at..]);
    let recipients: Vec<&[u8]> = list.split(|byte| *byte == b' ').skip(1).collect();
    match recipients.is_sorted() {
        true => Ok(()),
        false => Err("recipients do not rise"),
    }
}

#[cfg(test)]
mod tests {
    use super::judge;

    const GOOD: &str = "(pad 376)\n(domain 0(share 90)(may 1 2))\n(domain 1(share 90)(may 0))\n\
                        (domain 2(share 100)(may))\n(window 1(length 10))\n(window 0(length 9))\n\
                        (run 10)\n(op 0(read 0))\n(op 0(send 1 0))\n(op 2(receive 0))";

    fn assert_broken(old: &str, new: &str) {
        let text = GOOD.replacen(old, new, 1);
        assert_ne!(text, GOOD);
        assert!(judge(text.as_bytes()).is_err(), "{text}");
    }

    #[test]
    fn texts_of_another_form() {
        assert!(judge(b"").is_err());
        assert!(judge(format!("{GOOD}\n").as_bytes()).is_err());
        assert!(judge(format!("{GOOD} ").as_bytes()).is_err());
        assert!(judge(format!("\n{GOOD}").as_bytes()).is_err());
        assert!(judge(format!(" {GOOD}").as_bytes()).is_err());
        assert_broken("0(share", "0 (share");
        assert_broken("90)(", "90) (");
        assert_broken("(share", "( share");
        assert_broken("(may)", "(may )");
        assert_broken("1 2)", "1 2 )");
        assert_broken("1 2)", "1  2)");
        assert_broken("1 2)", "2 1)");
        assert_broken("376)\n", "376) \n");
        assert_broken("376)\n", "376)\n\n");
        assert_broken("376", "0376");
        assert_broken("read 0", "read 00");
        assert_broken("send 1 0", "send 01 0");
        assert_broken(
            "(pad 376)\n(domain 0(share 90)(may 1 2))\n",
            "(domain 0(share 90)(may 1 2))\n(pad 376)\n",
        );
        assert_broken(
            "(window 0(length 9))\n(run 10)",
            "(run 10)\n(window 0(length 9))",
        );
        assert_broken("(run 10)\n(op 0(read 0))", "(op 0(read 0))\n(run 10)");
        assert_broken(
            "(op 0(send 1 0))\n(op 2(receive 0))",
            "(op 2(receive 0))\n(op 0(send 1 0))",
        );
    }

    /// Windows and the ops of one domain stand in any order.
    #[test]
    fn texts_of_the_form() {
        assert_eq!(judge(GOOD.as_bytes()), Ok(()));
        let swapped = GOOD
            .replace("window 1", "window 2")
            .replace("op 0(read 0)", "op 0(send 7 7)");
        assert_eq!(judge(swapped.as_bytes()), Ok(()));
    }
}
