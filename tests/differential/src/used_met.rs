//! What a call on used marks met beside the number of its answer.

use crate::calls::Answer;
use crate::chain_calls::ChainCall;
use crate::met::Met;

/// By status.
const SET: [&str; 4] = [
    "status 0 set, a call-back dropped",
    "status 1 set, a call-back dropped",
    "status 2 set, a call-back kept",
    "status 3 set, a call-back dropped",
];
const STATUS_4: &str = "status 4 refused";
const STATUS_CUT: &str = "a status refused that is good only if it is cut";
const BAD_HANDLE_STATUS: &str = "a bad handle with a bad status";
const GOT_CALL_BACK: &str = "a call-back got with status 2";
const GOT_STATUS: &str = "a status above 3 got";
const GOT_OTHER: &str = "a call-back got with another status than 2";

const MARKS: [&str; 6] =
    [STATUS_4, STATUS_CUT, BAD_HANDLE_STATUS, GOT_CALL_BACK, GOT_STATUS, GOT_OTHER];

/// All that a set of runs must have met of these calls.
pub fn all() -> impl Iterator<Item = &'static str> {
    SET.into_iter().chain(MARKS)
}

pub fn met(call: ChainCall, answer: &Answer) -> Met {
    match call {
        ChainCall::SetUsed { status, call_back, .. } => {
            let cut = status as u8 <= 3 || status as u16 <= 3;
            let mut met = vec![
                (STATUS_4, answer.number == -8 && status == 4),
                (STATUS_CUT, answer.number == -8 && cut),
                (BAD_HANDLE_STATUS, answer.number == -9 && status > 3),
            ];
            if answer.number == 0 {
                met.push((SET[status as usize], call_back != 0));
            }
            met
        }
        ChainCall::GetUsed { .. } => {
            let [status, call_back, ..] = answer.values;
            vec![
                (GOT_CALL_BACK, status == 2 && call_back != 0),
                (GOT_STATUS, status > 3),
                (GOT_OTHER, status != 2 && call_back != 0),
            ]
        }
        _ => Met::new(),
    }
}

#[cfg(test)]
mod tests {
    use super::*;
    use crate::calls::Call;
    use crate::model::Second;
    use second::board_b1::b1_image;

    fn met_by(second: &mut Second, call: ChainCall) -> Vec<&'static str> {
        let answer = second.perform(&Call::Chain(call));
        let met = met(call, &answer);
        met.into_iter().filter(|(_, met)| *met).map(|(what, _)| what).collect()
    }

    #[test]
    fn marks() {
        let mut b1 = Second::new(vec![0; 4096]);
        assert_eq!(b1.perform(&Call::Load { image: b1_image(), lent: 4096 }).number, 0);
        let set = |handle, status, call_back| ChainCall::SetUsed { handle, status, call_back };
        for status in 0..4 {
            assert_eq!(met_by(&mut b1, set(1, status, 9)), [SET[status as usize]]);
            assert!(met_by(&mut b1, set(1, status, 0)).is_empty());
        }
        assert_eq!(met_by(&mut b1, set(1, 4, 9)), [STATUS_4]);
        assert_eq!(met_by(&mut b1, set(1, 0x102, 9)), [STATUS_CUT]);
        assert_eq!(met_by(&mut b1, set(3, 4, 9)), [BAD_HANDLE_STATUS]);
        let get = ChainCall::GetUsed { handle: 1 };
        met_by(&mut b1, set(1, 2, 9));
        assert_eq!(met_by(&mut b1, get), [GOT_CALL_BACK]);
        b1.parts.used[0] = 4;
        assert_eq!(met_by(&mut b1, get), [GOT_STATUS, GOT_OTHER]);
    }
}
