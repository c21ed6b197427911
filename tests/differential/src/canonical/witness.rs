//! A text put together from the numbers of a plan and a store, whatever they are.
//!
//! No number is judged here. A reader does that: if any accepted text gives those
//! numbers then this one does, since it has the same lines with as few bytes as can
//! be; and if the reader refuses it or makes something else of it, none does. Lines
//! and recipients stand in another order than that of the single form, which changes
//! nothing about the length.

use crate::engine::PLAN;

/// The text of these numbers. What no line can say is left out.
pub fn witness(plan: &[u32; PLAN], scripts: &[u32]) -> Vec<u8> {
    let domains = plan[2].min(8) as usize;
    let windows = plan[3].min(32) as usize;
    let mut lines: Vec<String> = (0..domains)
        .map(|domain| domain_line(domain, plan[4 + domain], plan[12 + domain]))
        .collect();
    lines.push(format!("(run {})", plan[1]));
    lines.extend((0..windows).map(|at| window_line(plan[20 + at], plan[52 + at])));
    lines.extend(op_lines(scripts));
    lines.push(format!("(pad {})", plan[0]));
    lines.join("\n").into_bytes()
}

fn domain_line(domain: usize, share: u32, may: u32) -> String {
    let falling = (0..32).rev().filter(|other| may >> other & 1 == 1);
    let may: String = falling.map(|other| format!(" {other}")).collect();
    format!("(domain {domain}(share {share})(may{may}))")
}

fn window_line(domain: u32, length: u32) -> String {
    format!("(window {domain}(length {length}))")
}

/// The first op of each script, then the second of each, and so on.
fn op_lines(scripts: &[u32]) -> impl Iterator<Item = String> + '_ {
    let places = (0..256).flat_map(|place| (0..8).map(move |domain| (domain, place)));
    places.filter_map(|(domain, place)| op_line(domain, scripts[256 * domain + place]))
}

fn op_line(domain: usize, number: u32) -> Option<String> {
    let (other, value) = (number >> 16 & 15, number & 0xffff);
    let op = match number >> 20 {
        1 => format!("read {value}"),
        2 => format!("write {value}"),
        3 => format!("send {other} {value}"),
        4 => format!("receive {other}"),
        5 => format!("compute {value}"),
        _ => return None,
    };
    Some(format!("(op {domain}({op}))"))
}

#[cfg(test)]
mod tests {
    use super::witness;

    /// Numbers that a text gives, and then numbers that none gives.
    #[test]
    fn lines_of_any_numbers() {
        let mut plan = [0; 92];
        plan[..6].copy_from_slice(&[376, 1, 2, 1, 400, 300]);
        (plan[12], plan[20], plan[52]) = (0b10, 1, 9);
        let mut store = [0; 2_048];
        store[..2].copy_from_slice(&[0x10_0003, 0x31_004d]);
        store[256..258].copy_from_slice(&[0x40_0000, 0x50_00c8]);
        let text = "(domain 0(share 400)(may 1))\n(domain 1(share 300)(may))\n(run 1)\n\
                    (window 1(length 9))\n(op 0(read 3))\n(op 1(receive 0))\n\
                    (op 0(send 1 77))\n(op 1(compute 200))\n(pad 376)";
        assert_eq!(String::from_utf8(witness(&plan, &store)).unwrap(), text);

        (plan[2], plan[3], plan[4], plan[12]) = (1, u32::MAX, u32::MAX, 1 << 31 | 1);
        store = [0; 2_048];
        (store[255], store[2_047], store[9]) = (0x4f_0001, 0x12_0003, 7);
        let windows = "(window 0(length 0))\n".repeat(31);
        let text = format!(
            "(domain 0(share 4294967295)(may 31 0))\n(run 1)\n(window 1(length 9))\n\
             {windows}(op 0(receive 15))\n(op 7(read 3))\n(pad 376)"
        );
        assert_eq!(String::from_utf8(witness(&plan, &store)).unwrap(), text);
    }
}
