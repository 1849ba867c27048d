//! Each of questions 2 to 10 refuses some of the sheets at the edges.

use reference::edges::edges;
use reference::sheet::ask_before_working;

#[test]
fn every_question_refuses_at_an_edge() {
    let refused: Vec<u64> = edges()
        .into_iter()
        .filter_map(|numbers| ask_before_working(numbers).err())
        .map(|refusal| refusal.number)
        .collect();
    for question in 2..=10 {
        assert!(refused.contains(&question), "question {question}");
    }
}
