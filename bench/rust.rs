// The same calls on Rust's own containers, each behind a call that cannot be inlined: this crate is compiled apart from the one that calls it.
use std::collections::vec_deque::Iter;
use std::collections::VecDeque;

#[inline(never)]
pub fn deque_push_back(d: &mut VecDeque<u32>, x: u32) {
    d.push_back(x)
}

#[inline(never)]
pub fn deque_push_front(d: &mut VecDeque<u32>, x: u32) {
    d.push_front(x)
}

#[inline(never)]
pub fn deque_pop_back(d: &mut VecDeque<u32>) -> Option<u32> {
    d.pop_back()
}

#[inline(never)]
pub fn deque_pop_front(d: &mut VecDeque<u32>) -> Option<u32> {
    d.pop_front()
}

#[inline(never)]
pub fn deque_read(d: &VecDeque<u32>, i: usize) -> Option<u32> {
    d.get(i).copied()
}

#[inline(never)]
pub fn deque_insert(d: &mut VecDeque<u32>, i: usize, x: u32) {
    d.insert(i, x)
}

#[inline(never)]
pub fn deque_remove(d: &mut VecDeque<u32>, i: usize) -> Option<u32> {
    d.remove(i)
}

#[inline(never)]
pub fn deque_clear(d: &mut VecDeque<u32>) {
    d.clear()
}

#[inline(never)]
pub fn deque_resize(d: &mut VecDeque<u32>, k: usize, x: u32) {
    d.resize(k, x)
}

#[inline(never)]
pub fn deque_append(d: &mut VecDeque<u32>, t: &mut VecDeque<u32>) {
    d.append(t)
}

#[inline(never)]
pub fn deque_clone_to(d: &VecDeque<u32>, t: &mut VecDeque<u32>) {
    t.clone_from(d)
}

#[inline(never)]
pub fn deque_same(d: &VecDeque<u32>, t: &VecDeque<u32>) -> bool {
    d == t
}

#[inline(never)]
pub fn deque_same_as_vec(d: &VecDeque<u32>, t: &Vec<u32>) -> bool {
    d == t
}

#[inline(never)]
pub fn vec_equal(v: &Vec<u32>, t: &Vec<u32>) -> bool {
    v == t
}

#[inline(never)]
pub fn deque_step(it: &mut Iter<'_, u32>) -> Option<u32> {
    it.next().copied()
}

#[inline(never)]
pub fn deque_total(d: &VecDeque<u32>) -> u64 {
    d.iter().map(|&x| x as u64).sum()
}

#[inline(never)]
pub fn vec_push(v: &mut Vec<u32>, x: u32) {
    v.push(x)
}

#[inline(never)]
pub fn vec_pop(v: &mut Vec<u32>) -> Option<u32> {
    v.pop()
}

#[inline(never)]
pub fn vec_read(v: &Vec<u32>, i: usize) -> Option<u32> {
    v.get(i).copied()
}

#[inline(never)]
pub fn vec_insert(v: &mut Vec<u32>, i: usize, x: u32) {
    v.insert(i, x)
}

#[inline(never)]
pub fn vec_remove(v: &mut Vec<u32>, i: usize) -> u32 {
    v.remove(i)
}

#[inline(never)]
pub fn vec_swap_remove(v: &mut Vec<u32>, i: usize) -> u32 {
    v.swap_remove(i)
}

#[inline(never)]
pub fn vec_truncate(v: &mut Vec<u32>, k: usize) {
    v.truncate(k)
}

#[inline(never)]
pub fn vec_extend(v: &mut Vec<u32>, s: &[u32]) {
    v.extend_from_slice(s)
}

#[inline(never)]
pub fn vec_total(v: &Vec<u32>) -> u64 {
    v.iter().map(|&x| x as u64).sum()
}

// A number where it stands: a total of ours, for which there is no call.
#[inline(never)]
pub fn number(at: &u64) -> u64 {
    *at
}

// What the rules demand of some calls and Rust's containers don't do: a run that goes in or out is added up, and freed slots are set to 0.
#[inline(never)]
pub fn add_up(run: &[u32]) -> u64 {
    run.iter().map(|&x| x as u64).sum()
}

#[inline(never)]
pub fn add_up_and_zero(run: &mut [u32]) -> u64 {
    let sum = run.iter().map(|&x| x as u64).sum();
    run.fill(0);
    sum
}
