use outside::answers::{MemAnswer, ALIGN};
use outside::models::memory::{self, Trace};
use outside::random::{agree, same, Compared, Random};
use outside::{linked, traces};

type Checker = fn(&Trace) -> MemAnswer;

pub fn compare(random: &Random, call: Checker, model: Checker) -> Compared {
    let trace = traces::memory(random);
    let before = trace.clone();
    let (answer, model) = (call(&trace), model(&before));
    same("answer", &(answer, &trace), &(model, &before))?;
    let open = if model.open { " open" } else { "" };
    Ok(format!(
        "{} {} {}{open}",
        model.refusal, model.verdict, model.rule
    ))
}

#[test]
fn check_mem() {
    let align = format!("0 2 {ALIGN}");
    let kinds = ["0 1 0", "0 1 0 open", "0 2 2", &align, "1 0 0", "3 0 0"];
    agree(100_000, &kinds, |random| {
        compare(random, linked::check_mem, memory::check_mem)
    });
}

#[test]
fn check_mem_decoupled() {
    let align = format!("0 2 {ALIGN}");
    let kinds = ["0 1 0", "0 2 4", &align, "1 0 0", "3 0 0"];
    agree(100_000, &kinds, |random| {
        let (call, model) = (linked::check_mem_decoupled, memory::check_mem_decoupled);
        compare(random, call, model)
    });
}
