//! A call of the second implementation as a call of a C function.

use refmonitor::monitor::Call;
use reshqobi::sys::*;

/// A pointer and a length.
pub type Slice = (*mut u8, usize);

/// Calls the function of that call: image, store, values.
///
/// # Safety
/// Each pointer may be read and written for as many bytes as its length says,
/// and the three do not overlap.
pub unsafe fn raw([i, s, v]: [Slice; 3], domain: u64, call: &Call) -> u64 {
    macro_rules! c {
        ($function:ident $(, $argument:expr)*) => {
            $function(i.0, i.1, s.0, s.1, v.0, v.1, domain $(, $argument)*)
        };
    }
    #[rustfmt::skip]
    let answer = match *call {
        Call::Bt { homes: h, limits: l, accounts: a, sets: t } => {
            c!(reshqobi_bt, h[0], h[1], h[2], h[3], l[0], l[1], l[2], l[3], a[0], t[0], a[1], t[1], a[2], t[2], a[3], t[3])
        }
        Call::Rd { address } => c!(reshqobi_rd, address),
        Call::Wr { address, value } => c!(reshqobi_wr, address, value),
        Call::Ex { address } => c!(reshqobi_ex, address),
        Call::Lk { address, rights } => c!(reshqobi_lk, address, rights),
        Call::Cr { page, count, password, account } => c!(reshqobi_cr, page, count, password, account),
        Call::Dl { base } => c!(reshqobi_dl, base),
        Call::Ap { base, password, mode } => c!(reshqobi_ap, base, password, mode),
        Call::Dp { base, password } => c!(reshqobi_dp, base, password),
        Call::Rg { base, password, list, entries: ref e } => {
            // Places past the number of entries hold what is no entry.
            let at = |k: usize| e.get(k).copied().unwrap_or(u64::MAX);
            let count = e.len() as u64;
            c!(reshqobi_rg, base, password, list.page, list.password, count, at(0), at(1), at(2), at(3))
        }
        Call::In { slot, list } => c!(reshqobi_in, slot, list.page, list.password),
        Call::Rm { slot } => c!(reshqobi_rm, slot),
        Call::Gt => c!(reshqobi_gt),
        Call::Lo { slot } => c!(reshqobi_lo, slot),
        Call::Ca { address, choice } => c!(reshqobi_ca, address, choice),
        Call::Rt => c!(reshqobi_rt),
    };
    answer
}
