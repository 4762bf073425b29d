use std::hint::black_box;
use std::time::Instant;
extern "C" { fn maq_read(t: *const u8, n: usize, e: *mut u16, m: usize) -> u64; }
struct R<'a> { t: &'a [u8], ends: &'a mut [u16] }
impl<'a> R<'a> {
  #[inline] fn b(&self, i: usize) -> u16 { if i < self.t.len() { self.t[i] as u16 } else { 256 } }
  fn ws(&self, mut i: usize) -> usize { while matches!(self.b(i), 32 | 9 | 10 | 13) { i += 1 } i }
  fn string(&self, mut i: usize) -> Result<usize, usize> {
    if self.b(i) != 34 { return Err(i) } i += 1;
    loop { let c = self.b(i); match c {
      34 => return Ok(i + 1),
      92 => { match self.b(i + 1) { 34 | 92 | 47 | 98 | 102 | 110 | 114 | 116 => i += 2,
        117 => { let u = self.hex(i + 2)?; if u == 0 { return Err(i) } if (0xd800..0xdc00).contains(&u) { if self.b(i + 6) != 92 || self.b(i + 7) != 117 { return Err(i + 6) } let v = self.hex(i + 8)?; if !(0xdc00..0xe000).contains(&v) { return Err(i + 8) } i += 12 } else if (0xdc00..0xe000).contains(&u) { return Err(i) } else { i += 6 } }
        _ => return Err(i + 1) } }
      0..=31 => return Err(i), 32..=127 => i += 1,
      _ => { let (n, lo, hi) = match c { 0xc2..=0xdf => (1, 0x80, 0xbf), 0xe0 => (2, 0xa0, 0xbf), 0xed => (2, 0x80, 0x9f), 0xe1..=0xef => (2, 0x80, 0xbf), 0xf0 => (3, 0x90, 0xbf), 0xf4 => (3, 0x80, 0x8f), 0xf1..=0xf3 => (3, 0x80, 0xbf), _ => return Err(i) };
        let d = self.b(i + 1); if d < lo || d > hi { return Err(i + 1) } for k in 2..=n { let d = self.b(i + k); if d < 0x80 || d > 0xbf { return Err(i + k) } } i += n + 1 } } } }
  fn hex(&self, i: usize) -> Result<u32, usize> { let mut v = 0; for k in 0..4 { let c = self.b(i + k); let d = match c { 48..=57 => c - 48, 65..=70 => c - 55, 97..=102 => c - 87, _ => return Err(i + k) }; v = v * 16 + d as u32 } Ok(v) }
  fn digits(&self, mut i: usize) -> usize { while matches!(self.b(i), 48..=57) { i += 1 } i }
  fn num(&self, mut i: usize) -> Result<usize, usize> { if self.b(i) == 45 { i += 1 } if self.b(i) == 48 { i += 1 } else { let e = self.digits(i); if e == i { return Err(i) } i = e }
    if self.b(i) == 46 { let e = self.digits(i + 1); if e == i + 1 { return Err(e) } i = e } if matches!(self.b(i), 101 | 69) { i += 1; if matches!(self.b(i), 43 | 45) { i += 1 } let e = self.digits(i); if e == i { return Err(e) } i = e } Ok(i) }
  fn word(&self, i: usize, w: &[u8]) -> Result<usize, usize> { for (k, x) in w.iter().enumerate() { if self.b(i + k) != *x as u16 { return Err(i + k) } } Ok(i + w.len()) }
  fn value(&mut self, at: usize, l: usize) -> Result<usize, usize> { let i = self.ws(at);
    let r = match self.b(i) { 91 => self.seq(i, l, 93), 123 => self.seq(i, l, 125), 34 => self.string(i), 110 => self.word(i, b"null"), 116 => self.word(i, b"true"), 102 => self.word(i, b"false"), _ => self.num(i) };
    if let Ok(e) = r { if at < self.ends.len() && e < 65536 { self.ends[at] = e as u16 } } r }
  fn seq(&mut self, i: usize, l: usize, close: u16) -> Result<usize, usize> { if l == 0 { return Err(i) } let mut j = self.ws(i + 1); if self.b(j) == close { return Ok(j + 1) }
    loop { if close == 125 { let k = self.ws(j); let e = self.string(k)?; let c = self.ws(e); if self.b(c) != 58 { return Err(c) } j = c + 1 }
      let e = self.value(j, l - 1)?; let c = self.ws(e); if self.b(c) == 44 { j = c + 1 } else if self.b(c) == close { return Ok(c + 1) } else { return Err(c) } } }
}
fn plain(t: &[u8], ends: &mut [u16]) -> u64 { ends.fill(0); let mut r = R { t, ends }; match r.value(0, 12) { Ok(e) => { let e = r.ws(e); if e == t.len() { e as u64 } else { 1 } } Err(_) => 1 } }
fn best(mut f: impl FnMut()) -> f64 { let mut b = f64::MAX; for _ in 0..400 { let t = Instant::now(); for _ in 0..20 { f() } b = b.min(t.elapsed().as_nanos() as f64 / 20.0) } b }
fn flat(n: usize) -> Vec<u8> { let mut s = String::from("["); while s.len() + 40 < n { s += "{\"op\":\"comment\",\"comment\":\"pH-1\"},12345,"; } s += "0"; while s.len() + 1 < n { s.push(' ') } s.push(']'); s.into_bytes() }
fn nested(n: usize) -> Vec<u8> { let mut s = String::from("["); while s.len() + 60 < n { s += "[[{\"a\":[[[[{\"b\":[1,true,\"x\"]}]]]]}],[[[null]]]],"; } s += "0"; while s.len() + 1 < n { s.push(' ') } s.push(']'); s.into_bytes() }
fn main() { let mut ends = vec![0u16; 8192];
  for (name, make) in [("flat", flat as fn(usize) -> Vec<u8>), ("nested", nested)] { for n in [200, 2000, 8192] { let t = make(n);
    let a = plain(&t, &mut ends); let b = unsafe { maq_read(t.as_ptr(), t.len(), ends.as_mut_ptr(), ends.len()) }; assert_eq!(a, b); assert_eq!(a, n as u64);
    let p = best(|| { black_box(plain(black_box(&t), &mut ends)); }); let q = best(|| { unsafe { black_box(maq_read(black_box(t.as_ptr()), t.len(), ends.as_mut_ptr(), ends.len())); } });
    println!("| {} | {} | {:.0} ns | {:.0} MB/s | {:.0} ns | {:.2} |", name, n, q, n as f64 * 1000.0 / q, p, q / p); } } }
