//! What an input is made of: lists that parts are left out of, and numbers that get plainer.
use super::Tries;
use std::iter::successors;
use std::ops::Range;

/// A copy with this change.
pub fn with<T: Clone>(job: &T, change: impl FnOnce(&mut T)) -> T {
    let mut copy = job.clone();
    change(&mut copy);
    copy
}

/// Lists of more entries are cut before what stands in them is.
pub const LONG: usize = 4096;

/// All of these tries, one after the other.
pub fn all<'a, T: 'a>(tries: impl IntoIterator<Item = Tries<'a, T>>) -> Tries<'a, T> {
    let tries: Vec<Tries<'a, T>> = tries.into_iter().collect();
    Box::new(tries.into_iter().flatten())
}

/// Parts of a list of this length: all of it, its halves, and so on down to each entry.
fn parts(length: usize) -> impl Iterator<Item = Range<usize>> {
    let sizes = successors(Some(length), |size| (*size > 1).then(|| size.div_ceil(2))).filter(|size| *size > 0);
    sizes.flat_map(move |size| (0..length).step_by(size).map(move |start| start..(start + size).min(length)))
}

/// A copy without each of these parts; the change leaves one out.
pub fn cut<'a, T: Clone>(job: &'a T, length: usize, change: impl Fn(&mut T, &Range<usize>) + 'a) -> Tries<'a, T> {
    Box::new(parts(length).map(move |part| with(job, |copy| change(copy, &part))))
}

/// Leaves out as much of this part as there is.
pub fn leave_out<E>(list: &mut Vec<E>, part: &Range<usize>) {
    list.drain(part.start.min(list.len())..part.end.min(list.len()));
}

/// A start and a count, once this part of the list is left out.
pub fn moved([start, count]: [u32; 2], part: &Range<usize>) -> [u32; 2] {
    let left_out = |from: usize, to: usize| part.end.min(to).saturating_sub(part.start.max(from)) as u32;
    let (first, end) = (start as usize, start as usize + count as usize);
    [start - left_out(0, first), count - left_out(first, end)]
}

/// A number with plainer ones.
pub trait Plain: Copy + 'static {
    fn plainer(self) -> Tries<'static, Self>;
}

impl Plain for f64 {
    fn plainer(self) -> Tries<'static, f64> {
        let bits = self.to_bits();
        let rounded = [bits >> 52 << 52, bits >> 26 << 26, bits & bits.wrapping_sub(1)];
        // The exponent half way to that of 1, and one step nearer to it.
        let exponent = bits >> 52 & 0x7ff;
        let nearer = if exponent < 1023 { exponent + 1 } else { exponent - 1 };
        let scaled = [(exponent + 1023) / 2, nearer].map(|exponent| bits & !(0x7ff << 52) | exponent << 52);
        let plain = [0.0, 1.0, self.abs(), self.trunc()].into_iter().chain(rounded.into_iter().chain(scaled).map(f64::from_bits));
        Box::new(plain.filter(move |x| digits(*x) < digits(self)))
    }
}

/// How long a float is: its sign, how far its exponent is from that of 1, and the binary digits behind its point.
fn digits(x: f64) -> u64 {
    let bits = x.to_bits();
    match x {
        _ if bits == 0 => 0,
        _ if x == 1.0 => 1,
        _ => 2 + (bits >> 63) + (bits >> 52 & 0x7ff).abs_diff(1023) + (52 - bits.trailing_zeros().min(52) as u64),
    }
}

impl Plain for u64 {
    fn plainer(self) -> Tries<'static, u64> {
        let steps = successors(Some(self), |step| Some(step / 2)).take_while(|step| *step > 0);
        Box::new(steps.map(move |step| self - step))
    }
}

macro_rules! plain_as_u64 {
    ($($number:ty),*) => {
        $(impl Plain for $number {
            fn plainer(self) -> Tries<'static, $number> {
                Box::new((self as u64).plainer().map(|plain| plain as $number))
            }
        })*
    };
}

plain_as_u64!(usize, u32, u8);

impl Plain for i16 {
    fn plainer(self) -> Tries<'static, i16> {
        Box::new((self.unsigned_abs() as u64).plainer().map(|plain| plain as i16))
    }
}

/// A copy with a plainer number; the change puts it in its place.
pub fn plainer<'a, T: Clone, N: Plain>(job: &'a T, number: N, put: impl Fn(&mut T, N) + 'a) -> Tries<'a, T> {
    Box::new(number.plainer().map(move |plain| with(job, |copy| put(copy, plain))))
}

/// A copy with a plainer entry in its list; the change puts it in its place.
pub fn entries<'a, T: Clone, N: Plain>(job: &'a T, list: &'a [N], put: impl Fn(&mut T, usize, N) + Copy + 'a) -> Tries<'a, T> {
    Box::new(list.iter().enumerate().flat_map(move |(place, entry)| plainer(job, *entry, move |copy, plain| put(copy, place, plain))))
}

/// The lengths of a mesh's lists: fewer nodes or fewer elements, or one list that is shorter where they are not parallel.
pub fn lengths<'a, T: Clone>(job: &'a T, now: [usize; 6], put: impl Fn(&mut T, [usize; 6]) + Copy + 'a) -> Tries<'a, T> {
    let [xs, ys, zs, kinds, places, regions] = now;
    if xs != ys || xs != zs || places != kinds.wrapping_mul(8) || regions != kinds {
        return all((0..6).map(|list| {
            plainer(job, now[list], move |copy, plain| put(copy, std::array::from_fn(|i| if i == list { plain } else { now[i] })))
        }));
    }
    all([
        plainer(job, xs, move |copy, n| put(copy, [n, n, n, kinds, places, regions])),
        plainer(job, kinds, move |copy, n| put(copy, [xs, xs, xs, n, 8 * n, n])),
    ])
}
